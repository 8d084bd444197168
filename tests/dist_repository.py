"""A repository for tests of the Makefile and of packages, with stand-ins for the toolchain and the tests."""
import glob
import os
import shutil
import subprocess
import sys

ROOT = os.path.dirname(os.path.dirname(os.path.abspath(__file__)))
SYSTEM = "/usr/local/bin:/usr/bin:/bin"
# The moment of the commits, in seconds.
COMMITTED = 1_000_000_000
COPIED = [".ci", "Makefile", "README.md", ".gitignore", "completions", "dist", "docs", "examples", "man"]
# Each tells that it is called, and fails where FAILING names it with its first word.
TOOLCHAIN = """#!/bin/sh
echo "rt $*" >> "${TOLD:-/dev/null}"
case $1 in version) echo 'a toolchain' ;; ci) echo '3 passed, 0 failed' ;; esac
case " $FAILING " in *" rt$1 "*) exit 1 ;; esac
"""
TEST = """#!/bin/sh
echo "$0 $*" >> "${TOLD:-/dev/null}"
[ "$0" != "$COMMITTING" ] || git commit --quiet --allow-empty --message 'another commit'
case " $FAILING " in *" $0$1 "*) exit 1 ;; esac
"""


def hold(holds, what):
    """Ends with a failure where something doesn't hold."""
    if not holds:
        sys.exit(f"dist: FAILED: {what}")


def read(path):
    with open(path, "rb") as it:
        return it.read()


def write(path, text, mode=0o644):
    os.makedirs(os.path.dirname(path), exist_ok=True)
    with open(path, "wb") as it:
        it.write(text if isinstance(text, bytes) else text.encode())
    os.chmod(path, mode)


def printed(*words, **more):
    return subprocess.run(words, check=True, capture_output=True, **more).stdout


class Repository:
    """A repository with what is packed, and with stand-ins for the toolchain and the tests."""

    def __init__(self, folder):
        self.top = f"{folder}/repository"
        identity = {"NAME": "somebody", "EMAIL": "somebody@one.example", "DATE": f"{COMMITTED} +0000"}
        self.environment = {"PATH": f"{folder}/stand-ins:{SYSTEM}", "HOME": folder, "DPKG_DEB_COMPRESSOR_LEVEL": "0"}
        self.environment |= {f"GIT_{who}_{it}": identity[it] for who in ("AUTHOR", "COMMITTER") for it in identity}
        os.makedirs(self.top)
        for name in COPIED:
            if os.path.isdir(f"{ROOT}/{name}"):
                shutil.copytree(f"{ROOT}/{name}", f"{self.top}/{name}", ignore=shutil.ignore_patterns("__pycache__"))
            else:
                shutil.copy(f"{ROOT}/{name}", self.top)
        for path in glob.glob(f"{ROOT}/tests/*.*"):
            write(f"{self.top}/tests/{os.path.basename(path)}", TEST, 0o755)
        write(f"{folder}/stand-ins/rt", TOOLCHAIN, 0o755)
        write(f"{self.top}/crates.txt", "table_commands:\nprepaid: table_commands\n")
        for path in ("table_commands/src/lib.rt", "prepaid/src/main.rt", "prepaid/specs/Files.antt"):
            write(f"{self.top}/crates/{path}", "")
        self.run("git", "init", "--quiet")
        self.run("git", "add", "--all")
        self.run("git", "commit", "--quiet", "--message", "a commit")

    def run(self, *words, **more):
        return subprocess.run(words, cwd=self.top, env=self.environment | more, capture_output=True, text=True)

    def make(self, *words, **more):
        ran = self.run("make", *words, **more)
        hold(ran.returncode == 0, f"make {' '.join(words)}: {ran.stdout}{ran.stderr}")

    def build(self, program):
        """Makes bin/prepaid of a program, as `make` does."""
        write(f"{self.top}/crates/prepaid/out/prepaid", program, 0o755)
        shutil.rmtree(f"{self.top}/bin", ignore_errors=True)
        self.make()

    def refuses(self, fault):
        ran = self.run("make", "dist")
        hold(ran.returncode and ran.stderr.startswith(f"make dist: {fault}"), f"not refused by '{fault}': {ran.stderr}")
        hold(not os.path.exists(f"{self.top}/out/dist"), f"what is refused by '{fault}' leaves packages")
