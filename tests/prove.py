#!/usr/bin/env python3
"""Proves the libraries that a crate uses, several at once, and builds the crate if it is a program: tests/prove.py [CRATE]

The crate is prepaid where none is named, and its program comes into crates/prepaid/out.

`rt` proves the libraries below a crate one after another, and keeps their proofs, which each crate above loads again.
This proves as many at once as there are processors, and those first that most is behind. It keeps of a library what
crates above can name, its statements, as the gate does. A library is proved from nothing where its files or those of a
library below have changed. `rt` finds each where it keeps its own. JOBS says how many processors there are.
"""
import copy
import os
import shutil
import sys
import tempfile
import threading
from concurrent.futures import FIRST_COMPLETED, ThreadPoolExecutor, wait

ROOT = os.path.dirname(os.path.dirname(os.path.abspath(__file__)))
# More jobs on one crate than these take more time of the processors and end hardly sooner.
MOST_JOBS = 4
# A file system in memory, and the room that it has to have: of four processes each writes up to 250 MB there.
IN_MEMORY, ROOM = "/dev/shm", 4 << 30
sys.path.insert(0, os.path.dirname(os.path.realpath(shutil.which("rt") or sys.exit("rt isn't there"))))
import rtlib

# The toolchain's own stamp of a library, which reads one below it once for each way that leads there.
read_stamp = rtlib.Crate.stamp
# The stamps of the libraries below the one whose stamp is asked for.
of_this = threading.local()


def stamp(library):
    """The same, with each library read once."""
    is_asked = not hasattr(of_this, "known")
    if is_asked:
        of_this.known = {}
    try:
        if library.folder not in of_this.known:
            of_this.known[library.folder] = read_stamp(library)
        return of_this.known[library.folder]
    finally:
        if is_asked:
            del of_this.known


rtlib.Crate.stamp = stamp


def size_of(library):
    """How much there is to prove of a library, more or less: the bytes of its code, beside which lemmas cost little."""
    return sum(os.path.getsize(it) for it in rtlib.files_of(library.folder) if it.endswith(".rt"))


def size_behind(libraries):
    """How much there is to prove of each library and of the longest chain of libraries above it."""
    behind = {}
    # Each library is behind those that it uses.
    for it in reversed(libraries):
        behind[it] = size_of(it) + max((behind[other] for other in libraries if it in other.deps), default=0)
    return behind


def stamp_of(library):
    """The file that says of which files a library was proved."""
    return f"{library.folder}/out/rlib/stamp"


def is_proved(library):
    """Whether a library is proved as it is, over those below as they are."""
    if not library.is_built():
        return False
    proved = os.stat(stamp_of(library)).st_mtime_ns
    return all(os.path.exists(stamp_of(it)) and os.stat(stamp_of(it)).st_mtime_ns <= proved for it in library.below())


def prove_alone(library, jobs):
    """Proves a library over those below. The status of the toolchain, 0 where it is proved."""
    stamp = library.stamp()
    folder = os.path.dirname(stamp_of(library))
    shutil.rmtree(folder, ignore_errors=True)
    os.makedirs(folder)
    words = library.words(["--jobs", str(jobs)], keeps=False)
    status = library.call(rtlib.RATTLE, "build", *words, "--statements", "-o", library.rlib)
    # What was changed meanwhile is proved the next time.
    if status == 0 and stamp == library.stamp():
        with open(stamp_of(library), "w", encoding="utf-8") as it:
            it.write(stamp)
    return status


def build(library, jobs):
    """Proves a library, and prints what the toolchain says, all or its last line. Whether it is proved."""
    library = copy.copy(library)
    with tempfile.TemporaryFile("w+", errors="replace") as library.out:
        status = prove_alone(library, jobs)
        library.out.seek(0)
        said = library.out.read().splitlines()
    for line in said if status else said[-1:]:
        print(f"{library.name}: {line}", flush=True)
    return not status


def proved_of(libraries):
    """Those of the libraries that are proved, over others that are."""
    proved = set()
    # Each library is behind those that it uses.
    for it in libraries:
        if proved.issuperset(it.below()) and is_proved(it):
            proved.add(it)
    return proved


def processors():
    return int(os.environ.get("JOBS") or os.cpu_count())


def jobs_of_each(count):
    """How many jobs at most a crate gets where so many libraries are to be proved: one if these are more than processors.

    A second job takes a quarter more time of the processors.
    """
    return 1 if count > processors() else min(MOST_JOBS, processors())


def jobs_at_once(most):
    """How many jobs run at once: one for each processor, but three for four of these where each library gets one.

    Four libraries at once take up to 6 % more time of four processors than three at once, as they share caches and
    memory, and they end hardly sooner, since most of the time fewer are ready.
    """
    return processors() - processors() // 4 if most == 1 else processors()


def prove(libraries, proved, most):
    """Proves the others of the libraries, each once those that it uses are proved. Whether all are."""
    proved, left, running = {*proved}, [it for it in libraries if it not in proved], {}
    behind = size_behind(libraries)
    with ThreadPoolExecutor(processors()) as pool:
        while left or running:
            ready = sorted((it for it in left if proved.issuperset(it.below())), key=behind.get, reverse=True)
            for place, it in enumerate(ready):
                idle = jobs_at_once(most) - sum(jobs for _, jobs in running.values())
                if not idle:
                    break
                jobs = min(most, -(-idle // (len(ready) - place)))
                running[pool.submit(build, it, jobs)] = it, jobs
                left.remove(it)
            for ended in wait(running, return_when=FIRST_COMPLETED).done:
                library, _ = running.pop(ended)
                if not ended.result():
                    # What is running goes on to its end, and nothing more is begun.
                    left.clear()
                else:
                    proved.add(library)
    return len(proved) == len(libraries)


def prove_all(libraries):
    """Proves the libraries while no other command works in them. How many jobs each got at most; 0 where not all are proved."""
    # The first call sets what ends the toolchain's processes, which only the main thread may.
    rtlib.guarded()
    held = rtlib.lock(libraries)
    proved = proved_of(libraries)
    most = jobs_of_each(len(libraries) - len(proved))
    is_whole = prove(libraries, proved, most)
    for it in held:
        os.close(it)
    return most if is_whole else 0


def build_program(crate, jobs):
    """Proves a program over its libraries and builds it, as `rt run` does. The status of the toolchain."""
    crate, program, stamp = copy.copy(crate), f"out/{crate.name}", crate.stamp()
    with tempfile.TemporaryFile("w+", errors="replace") as crate.out:
        status = crate.compile(["--jobs", str(jobs)], f"{program}.o")
        if not status:
            words = ["--target", "x86_64-unknown-linux-gnu", "--toolchain", f"{rtlib.KIT}/toolchain", "-o", program, f"{program}.o"]
            archives = [f"{rtlib.KIT}/c/{it}" for it in ("libos_c.a", "liblibc_c.a")]
            status = crate.call(f"{rtlib.KIT}/bin/rattle-link", *words, *archives)
        crate.out.seek(0)
        said = crate.out.read().splitlines()
    # What was changed meanwhile is built the next time.
    if not status and stamp == crate.stamp():
        with open(f"{crate.folder}/{program}.stamp", "w", encoding="utf-8") as it:
            it.write(stamp + rtlib.sum_of(f"{crate.folder}/{program}"))
    for line in said if status else [it for it in said if it.startswith("logic=")]:
        print(f"{crate.name}: {line}", flush=True)
    return status


def roomy():
    """Where the toolchain writes what it removes at its end: in memory, where there is room, and no other place is asked for.

    It writes thousands of files for each library, and ext4 looks at each number of a file that was removed lately before
    it gives one to a new file. Without that a library takes some 2 to 4 % less of the processors.
    """
    has_room = os.access(IN_MEMORY, os.W_OK) and shutil.disk_usage(IN_MEMORY).free >= ROOM
    return IN_MEMORY if has_room and not os.environ.get("TMPDIR") else tempfile.gettempdir()


def main():
    name = sys.argv[1] if sys.argv[1:] else "prepaid"
    crate = rtlib.Crate(f"{ROOT}/crates/{name}", ROOT, {})
    # What a toolchain leaves that was ended is removed too.
    with tempfile.TemporaryDirectory(prefix="prove-", dir=roomy(), ignore_cleanup_errors=True) as folder:
        os.environ["TMPDIR"] = folder
        jobs = prove_all(crate.below())
        if not jobs:
            return 1
        return build_program(crate, jobs) if crate.is_program else 0


if __name__ == "__main__":
    sys.exit(main())
