"""The log of a live run: a file with the head of its input and each accepted line, synced before it is answered."""
import fcntl
import os
import re
import stat

from .tables import Fault


class Log:
    """A log file that is open, and that no other process has. Without a path there is none, and nothing is kept."""

    def __init__(self, path, head):
        self.file, self.lines = None, []
        if path is None:
            return
        try:
            self.file = os.open(path, os.O_RDWR | os.O_APPEND | os.O_CREAT, 0o666)
            if not stat.S_ISREG(os.fstat(self.file).st_mode):
                raise OSError("no plain file")
            fcntl.flock(self.file, fcntl.LOCK_EX | fcntl.LOCK_NB)
            with open(self.file, "rb", closefd=False) as file:
                self.begin(path, head, file.read())
        except OSError as error:
            self.close()
            raise Fault("prepaid: log: Device", 2) from error
        except Fault:
            self.close()
            raise

    def begin(self, path, head, text):
        """Takes the whole lines behind the head, and cuts off what is behind them; or begins anew."""
        if text.startswith(head):
            whole = text[len(head) : max(len(head), text.rfind(b"\n") + 1)]
            self.lines = re.findall(rb"[^\n]*\n", whole)
            os.ftruncate(self.file, len(head) + len(whole))
        elif head.startswith(text):
            os.ftruncate(self.file, 0)
            self.write(head)
            folder = os.open(os.path.dirname(path) or ".", os.O_RDONLY)
            os.fsync(folder)
            os.close(folder)
        else:
            raise Fault("prepaid: log: Other", 2)
        os.fsync(self.file)

    def write(self, text):
        while text:
            text = text[os.write(self.file, text) :]

    def append(self, text):
        if self.file is None or not text:
            return
        try:
            self.write(text)
            os.fdatasync(self.file)
        except OSError as error:
            raise Fault("prepaid: log: Device", 2) from error

    def close(self):
        if self.file is not None:
            os.close(self.file)
            self.file = None
