#!/usr/bin/env python3
"""Tries the Makefile, and packages of a program where the repository is out of reach: tests/dist_test.py [--program FILE]

`make`, `make test` and `make dist` run in a repository made for this, which has what is packed, and stand-ins for the
toolchain and the tests. It shows what the gate calls, and that it fails where any of that fails; what `make run` and its
like do; what `make dist` refuses, what a package says of its program, and that a commit gives the same bytes again. Then
that repository is taken away. The tarball and the Debian package must hold what they should, byte for byte. Each is
unpacked, and the commands of its pages run in an empty folder and an empty environment. A byte of each file is changed,
which the checksums must find.
"""
import argparse
import glob
import io
import os
import re
import shutil
import subprocess
import tarfile
import tempfile

from dist_repository import COMMITTED, ROOT, SYSTEM, Repository, hold, printed, read, write
from docs_test import blocks, lacks

PAGES = ["FORMATS.md", "RECIPES.md", "SCALING.md", "SPEED.md"]
PROVED, SUMS = (f"share/doc/prepaid/{it}" for it in ("PROVED", "SHA256SUMS"))
# What the gate calls without the program.
ALONE = {"rt ci", "tests/definitions.py", "tests/proofs_test.py", "tests/gate_edits.py", "tests/prove_test.py"}
# The packages that have the libraries which a program needs, and the family of the versions of each one's symbols.
LIBRARIES = {"libc6": "GLIBC", "libgcc-s1": "GCC"}
NO_GATE = "none has passed on this commit"
# What is called where a program is built.
TARGETS = {
    "recipes": "tests/docs_test.py --all docs/RECIPES.md",
    "edits": "tests/edits.py",
    "edits CRATE=price_core": "tests/edits.py price_core",
    "bin/prepaid-unproved": "tests/quick.py bin/prepaid-unproved",
}


def says(repository, state, gate):
    """Makes the packages, and tries what they say of their program; returns the day of its version."""
    repository.make("dist")
    day = printed(f"{repository.top}/bin/prepaid", "--version").decode().split()[1]
    commit = repository.run("git", "rev-parse", "HEAD").stdout.strip()
    words = ("tar", "xzOf", f"out/dist/prepaid-{day}.tar.gz", f"prepaid-{day}/{PROVED}")
    said = repository.run(*words).stdout
    wanted = f"version: {day}\ncommit: {commit}\ntree: {state}\ntoolchain: a toolchain\ngate: {gate}\n"
    hold(said == wanted, f"a package says\n{said}in place of\n{wanted}")
    return day


def try_refusals(repository, program):
    """No package is made but of a proved program, which is that of the sources."""
    repository.refuses("bin/prepaid isn't there")
    repository.build("#!/bin/sh\necho 'prepaid 2026-11-26 (unproved)'\n")
    repository.refuses("bin/prepaid isn't proved: its version is prepaid 2026-11-26 (unproved)")
    repository.build(program)
    os.remove(f"{repository.top}/out/proved/prepaid")
    repository.refuses("nothing says which toolchain proved bin/prepaid")
    repository.build(program)
    names = ("crates.txt", "crates/prepaid/src/main.rt", "crates/prepaid/specs/Files.antt")
    for name in ("bin/prepaid", "crates/table_commands/src/lib.rt", *names):
        os.utime(f"{repository.top}/{name}", (COMMITTED, COMMITTED))
    for name in names:
        os.utime(f"{repository.top}/{name}", (COMMITTED + 1, COMMITTED + 1))
        repository.refuses("bin/prepaid isn't there, or is older than its sources")
        os.utime(f"{repository.top}/{name}", (COMMITTED, COMMITTED))
    repository.build(program)


def try_gates(repository):
    """A package names a gate that has passed as a whole, which began on its commit, with no change beside it."""
    stray, passed = (f"{repository.top}/{it}" for it in ("stray", "out/passed.txt"))
    repository.make("test", COMMITTING="tests/random.sh")
    says(repository, "clean", NO_GATE)
    write(stray, "")
    repository.make("test")
    says(repository, "changed", NO_GATE)
    os.remove(stray)
    hold(repository.run(".ci/run", FAILING="tests/random.sh--program").returncode, "the gate passes where a test fails")
    hold(not os.path.exists(passed), "a gate whose last test fails has passed")
    ran = repository.run(".ci/run")
    hold(ran.returncode == 0, ran.stderr)
    return says(repository, "clean", "3 passed, 0 failed")


def calls_of_the_gate():
    """What the gate calls by the list in CONTRIBUTING.md, in its order, each with its words."""
    gate = read(f"{ROOT}/CONTRIBUTING.md").decode().partition("\n## The gate\n")[2].partition("\n## ")[0]
    listed = re.findall(r"^\d+\. `([^`]+)`", gate, re.M)
    program = " --program crates/prepaid/out/prepaid"
    called = [it if it in ALONE or "edits_test" in it else it + program for it in listed]
    tests = {os.path.relpath(it, ROOT) for it in glob.glob(f"{ROOT}/tests/*_test.py")}
    hold(not tests - set(listed), f"the gate lacks {tests - set(listed)}")
    return called


def try_calls(repository, folder):
    """The gate calls all that its page has, begins with what is first there, and fails where one of these fails. Libraries
    without a stamp are gone before the edits are tried, and others stay."""
    called, told = calls_of_the_gate(), f"{folder}/told"
    stamped, bare = (f"{repository.top}/crates/{it}" for it in ("table_commands/out/rlib/stamp", "prepaid/out/rlib/bare"))
    write(stamped, "")
    write(bare, "")
    repository.make("test", TOLD=told)
    hold((os.path.exists(stamped), os.path.exists(bare)) == (True, False), "which libraries are kept before a gate")
    found = read(told).decode().replace(" \n", "\n").splitlines()
    hold((found[:4], sorted(found)) == (called[:4], sorted(called)), f"the gate calls {found}, and not {called}")
    for it in called[:4]:
        write(told, "")
        ran = repository.run("make", "test", FAILING=it.replace(" ", ""), TOLD=told)
        hold(ran.returncode, f"the gate passes where {it} fails")
        hold(read(told).decode().replace(" \n", "\n").splitlines()[-1] == it, f"the gate goes on where {it} fails")
    failing = [it.replace(" crates/prepaid/out/prepaid", "").replace(" ", "") for it in called[4:]]
    ran = repository.run("make", "--keep-going", "test", FAILING=" ".join(failing))
    failed = set(re.findall(r": (test-\w+)\] Error 1", ran.stderr))
    hold(ran.returncode and len(failed) == len(failing), f"of {failing} only {sorted(failed)} make the gate fail")
    hold(not os.path.exists(f"{repository.top}/out/passed.txt"), "a gate whose tests fail has passed")


def try_targets(repository, folder, program):
    """Without a proof there is no program. One that is there plays the evening and reports it, and is installed where the
    README says."""
    built = f"{repository.top}/bin/prepaid"
    write(f"{repository.top}/crates/prepaid/out/prepaid", program, 0o755)
    ran = repository.run("make", FAILING="tests/prove.pyprepaid")
    hold(ran.returncode and not os.path.exists(built), "make builds a program that isn't proved")
    repository.build(program)
    ran = repository.run("make", "--silent", "run")
    hold("\naccount 106 opening 1000 available 730 entries 15\n" in ran.stdout, f"make run: {ran.stdout}{ran.stderr}")
    repository.make("picture")
    hold(b"<title>Calls and balances: evening</title>" in read(f"{repository.top}/out/report.html"), "make report")
    changed = repository.run("git", "status", "--porcelain").stdout
    hold(not changed, f"make picture changes {changed}")
    for words, called in TARGETS.items():
        write(f"{folder}/told", "")
        repository.make(*words.split(), TOLD=f"{folder}/told")
        found = read(f"{folder}/told").decode().replace(" \n", "\n")
        hold(found == f"{called}\n", f"make {words} calls {found}, and not {called}")
    repository.make("install", f"DESTDIR={folder}/installed")
    hold(read(f"{folder}/installed/usr/local/bin/prepaid") == program, "make install puts the program elsewhere")
    os.remove(built)


def try_bench():
    """The scripts of `make bench` can be read, and what they time programs by refuses one that fails, or that prints
    something else than the others."""
    for path in glob.glob(f"{ROOT}/bench/*.sh"):
        hold(subprocess.run(["bash", "-n", path]).returncode == 0, path)
    for words in ("echo a -- echo a", "echo a -- echo b", "false -- true", "true -- false"):
        ran = subprocess.run([f"{ROOT}/bench/beside.py", "2", "/dev/null", *words.split()], capture_output=True)
        hold((ran.returncode == 0) == (words == "echo a -- echo a"), f"bench/beside.py {words}: {ran}")


def try_bytes(repository):
    """The same commit gives the same bytes at another time, in another time zone, and with another umask."""
    first = {path: read(path) for path in glob.glob(f"{repository.top}/out/dist/*")}
    for path in glob.glob(f"{repository.top}/[!b]*/**", recursive=True):
        os.utime(path, (COMMITTED, COMMITTED))
    others = {"TZ": "Asia/Tokyo", "LC_ALL": "de_DE.UTF-8", "PREFIX": "/elsewhere", "DESTDIR": "/elsewhere"}
    others["ZSH_FUNCTIONS"] = "/elsewhere"
    ran = repository.run("sh", "-c", "umask 077 && make dist", **others)
    hold(ran.returncode == 0, ran.stderr)
    again = {path: read(path) for path in glob.glob(f"{repository.top}/out/dist/*")}
    hold(len(first) == 3 and first == again, f"of {len(first)} files not all have the same bytes again")


def wanted(program, zsh):
    """What is packed, but for what describes the program and for the checksums: of each file its mode and its bytes."""
    files = {"bin/prepaid": (0o755, program), "share/man/man1/prepaid.1": (0o644, read(f"{ROOT}/man/prepaid.1"))}
    files["share/bash-completion/completions/prepaid"] = 0o644, read(f"{ROOT}/completions/prepaid.bash")
    files[f"share/zsh/{zsh}/_prepaid"] = 0o644, read(f"{ROOT}/completions/_prepaid")
    files["share/doc/prepaid/balance.svg"] = 0o644, read(f"{ROOT}/docs/balance.svg")
    for name in PAGES:
        files[f"share/doc/prepaid/{name}"] = 0o644, read(f"{ROOT}/docs/{name}").replace(b"bin/prepaid", b"prepaid")
    for name in os.listdir(f"{ROOT}/examples"):
        mode = 0o755 if name.endswith(".py") else 0o644
        if name != "__pycache__":
            files[f"share/doc/prepaid/examples/{name}"] = mode, read(f"{ROOT}/examples/{name}")
    return files


def try_files(name, data, top, files):
    """A tar holds these files below a folder, what describes the program, and checksums."""
    found = {}
    with tarfile.open(fileobj=io.BytesIO(data)) as tar:
        for it in tar:
            hold((it.uid, it.gid, it.mtime) == (0, 0, COMMITTED), f"{name}: owner or moment of {it.name}")
            if it.isfile():
                found[os.path.relpath(it.name, top)] = it.mode, tar.extractfile(it).read()
            else:
                hold(it.isdir() and it.mode == 0o755, f"{name}: {it.name}")
    for path in (PROVED, SUMS):
        hold(found.pop(path, (0,))[0] == 0o644, f"{name}: {path}")
    wrong = sorted(it for it in {*found, *files} if found.get(it) != files.get(it))
    hold(not wrong, f"{name}: {', '.join(wrong)}")


def needed(program):
    """The packages that a program needs by its symbols, each with the newest version of a symbol."""
    symbols, newest = printed("objdump", "-T", program, text=True), {}
    for name, family in LIBRARIES.items():
        versions = [[int(part) for part in it.split(".")] for it in re.findall(rf"\b{family}_([\d.]+)", symbols)]
        if versions:
            newest[name] = ".".join(str(part) for part in max(versions))
    return newest


def try_control(package, program, day):
    """The package's version, machine, needs and description are those of the program and the pages."""
    told = printed("dpkg-deb", "--field", package, text=True)
    fields = dict(it.split(": ", 1) for it in re.split(r"\n(?! )", told.strip()))
    hold(fields["Package"] == "prepaid" and fields["Version"] == day.replace("-", "."), told)
    hold(fields["Architecture"] == printed("dpkg", "--print-architecture", text=True).strip(), told)
    needs = dict(re.findall(r"([^ ,]+) \(>= ([^)]+)\)", fields.get("Depends", "")))
    hold(needs.keys() == needed(program).keys(), told)
    for name, least in needed(program).items():
        right = subprocess.run(["dpkg", "--compare-versions", needs[name], "ge", least])
        hold(right.returncode == 0, f"{told}where the program needs {name} {least}")
    short, *long = fields["Description"].split("\n ")
    hold(f"\nprepaid \\- {short}\n" in read(f"{ROOT}/man/prepaid.1").decode(), told)
    hold(f"\n{' '.join(long)}\n" in read(f"{ROOT}/README.md").decode(), told)


def try_sums(folder, sums):
    """A folder has a right checksum of each file beside that of the checksums, which finds a byte that is changed."""
    names = [it.split("  ")[1] for it in read(f"{folder}/{sums}").decode().splitlines()]
    paths = (os.path.join(at, name) for at, _, files in os.walk(folder) for name in files)
    there = {os.path.relpath(path, folder) for path in paths}
    hold({*names, sums} == there, f"{sums}: {', '.join(sorted({*names, sums} ^ there))}")
    words = ["sha256sum", "--check", "--strict", "--quiet", sums]
    ran = subprocess.run(words, cwd=folder, capture_output=True, text=True)
    hold(ran.returncode == 0, f"{sums}: {ran.stdout}{ran.stderr}")
    for name in names:
        data = read(path := f"{folder}/{name}")
        at, mode = len(data) // 2, os.stat(path).st_mode
        write(path, data[:at] + bytes([data[at] ^ 1]) + data[at + 1 :], mode)
        ran = subprocess.run(words, cwd=folder, capture_output=True, text=True)
        hold(ran.returncode and ran.stdout == f"{name}: FAILED\n", f"{sums} doesn't find a change of {name}")
        write(path, data, mode)


def away(log):
    """The words that run a command where the repository is out of reach; where nothing can hide it, those that put down
    the files that are opened; where that can't be done either, none."""
    hidden = ["unshare", "--map-root-user", "--mount", "sh", "-c", 'mount -t tmpfs none "$0" && exec "$@"', ROOT]
    traced = ["strace", "-f", "-A", "-e", "trace=%file", "-o", log]
    if shutil.which("unshare"):
        if subprocess.run([*hidden, "test", "!", "-e", f"{ROOT}/Makefile"], capture_output=True).returncode == 0:
            return hidden
    if shutil.which("strace") and subprocess.run([*traced, "true"], capture_output=True).returncode == 0:
        return traced
    print("dist: neither unshare nor strace runs here: that a package needs no file of the repository wasn't tried")
    return []


def try_use(prefix, folder, before, program):
    """Runs what was unpacked in an empty folder, beside a copy of its examples; returns how many commands ran."""
    docs = f"{prefix}/share/doc/prepaid"
    shutil.copytree(f"{docs}/examples", f"{folder}/examples")

    def said(words):
        run = [*before, "env", "-i", f"PATH={prefix}/bin:{SYSTEM}", "bash", "-c", words]
        return subprocess.run(run, cwd=folder, text=True, stdout=subprocess.PIPE, stderr=subprocess.STDOUT).stdout

    for words in ("--version", "--help", "run --workers 1 < examples/evening.txt"):
        own = printed("bash", "-c", f"{program} {words}", cwd=ROOT, text=True)
        hold(said(f"prepaid {words}") == own, f"prepaid {words}: {said(f'prepaid {words}')}")
    commands = [(page, *it) for page in PAGES for it in blocks(f"{docs}/{page}") if not lacks(it[1])]
    for page, number, words, told in commands:
        says = said(words)
        hold(says == told, f"{page}:{number}: {words}\nprints\n{says}where the page has\n{told}")
    bash = f"{prefix}/share/bash-completion/completions/prepaid"
    hold(said(f"bash -n {bash} && source {bash} && complete -p prepaid") == "complete -o default -o filenames -F _prepaid prepaid\n", bash)
    if shutil.which("man"):
        page = said(f"MANWIDTH=80 man --warnings -l {prefix}/share/man/man1/prepaid.1")
        hold(page.startswith("PREPAID(1) ") and "warning" not in page, f"the man page reads {page}")
    return len(commands)


def try_packages(folder, packages, day, program):
    """Tries the packages that were made, and returns how many commands of their pages ran."""
    tarball, (package,) = f"{packages}/prepaid-{day}.tar.gz", glob.glob(f"{packages}/prepaid_{day}_*.deb")
    data = read(program)
    try_files("tarball", read(tarball), f"prepaid-{day}", wanted(data, "site-functions"))
    files = printed("dpkg-deb", "--fsys-tarfile", package)
    try_files("package", files, "usr", wanted(data, "vendor-completions"))
    try_control(package, program, day)
    try_sums(packages, "SHA256SUMS")
    for name in ("from_tarball", "from_package", "in_tarball", "in_package"):
        os.mkdir(f"{folder}/{name}")
    printed("tar", "xzf", tarball, "-C", f"{folder}/from_tarball", "--strip-components=1")
    printed("dpkg", "-x", package, f"{folder}/from_package")
    before, count = away(f"{folder}/opened"), 0
    for prefix, empty in (("from_tarball", "in_tarball"), ("from_package/usr", "in_package")):
        count += try_use(f"{folder}/{prefix}", f"{folder}/{empty}", before, program)
        try_sums(f"{folder}/{prefix}", SUMS)
    if os.path.exists(f"{folder}/opened"):
        hold(f'"{ROOT}/'.encode() not in read(f"{folder}/opened"), "a package needs files of the repository")
    return count


def main():
    asked = argparse.ArgumentParser(description=__doc__, formatter_class=argparse.RawDescriptionHelpFormatter)
    asked.add_argument("--program", default="bin/prepaid")
    words = asked.parse_args()
    os.chdir(ROOT)
    program = os.path.abspath(words.program)
    with tempfile.TemporaryDirectory() as folder:
        repository = Repository(folder)
        try_calls(repository, folder)
        try_targets(repository, folder, read(program))
        try_bench()
        if not all(shutil.which(it) for it in ("dpkg-deb", "dpkg-shlibdeps")):
            print("dist: no package was made: dpkg-deb or dpkg-shlibdeps isn't here: apt-get install dpkg-dev")
            return
        try_refusals(repository, read(program))
        day = try_gates(repository)
        try_bytes(repository)
        packages = shutil.move(f"{repository.top}/out/dist", f"{folder}/packages")
        shutil.rmtree(repository.top)
        count = try_packages(folder, packages, day, program)
    print(f"dist: a tarball and a package, the same again, and used by {count} commands of their pages: ok")


if __name__ == "__main__":
    main()
