#!/usr/bin/env python3
"""Builds a native, optimised program without any proof: tests/quick.py [FILE], bin/prepaid-unproved where no FILE is named.

The toolchain builds a program only once all of it is proved, which takes far longer than to compile it. `rt try` compiles
one without proofs, but slowly running, with checks of its own, and keeps none. So this runs `rt try` on a copy of the
sources over a folder that stands for the toolchain, in which the compiler is told to optimise and to leave those checks
out, and the linker to keep what it links without them. The copy says in `--version` that it is unproved, and nowhere else.
"""
import os
import re
import shutil
import subprocess
import sys
import tempfile

ROOT = os.path.dirname(os.path.dirname(os.path.abspath(__file__)))
# What stands for the compiler: the program's own module is the one that is compiled with checks of addresses.
COMPILER = """#!/bin/sh
case " $* " in *" -fsanitize=address "*) ;; *) exec {real} "$@" ;; esac
for word do
    shift
    case $word in -fsanitize=address) continue ;; -O0) word=-O2 ;; esac
    set -- "$@" "$word"
done
exec {real} "$@"
"""
# What is called in place of the linker: it links as asked, and then once more what is kept,
# without the checks of addresses, whose allocator is slow and takes ten times the memory.
LINKER = """#!/bin/sh
{real} "$@" || exit
checks=
for word do
    shift
    case $word in --whole-archive) checks=1 ;; esac
    if [ -z "$checks" ]; then
        if [ "$last" = -o ]; then word={kept}; fi
        set -- "$@" "$word"
    fi
    case $word in --no-whole-archive) checks= ;; esac
    last=$word
done
exec {real} "$@"
"""


def link_all(folder, to, but):
    """Makes a folder whose entries are links to those of another one, but for some."""
    os.makedirs(to)
    for name in set(os.listdir(folder)) - set(but):
        os.symlink(f"{folder}/{name}", f"{to}/{name}")


def write_script(path, text):
    with open(path, "w", encoding="utf-8") as it:
        it.write(text)
    os.chmod(path, 0o755)


def stand_in(kit, folder, kept):
    """Makes the folder that stands for the toolchain, and returns its `rt`."""
    link_all(kit, folder, ["bin", "toolchain"])
    link_all(f"{kit}/bin", f"{folder}/bin", ["rt", "rtlib.py"])
    for name in ("rt", "rtlib.py"):
        shutil.copy(f"{kit}/bin/{name}", f"{folder}/bin/{name}")
    tools = f"{kit}/toolchain"
    link_all(tools, f"{folder}/toolchain", ["bin"])
    link_all(f"{tools}/bin", f"{folder}/toolchain/bin", ["clang", "ld.lld"])
    write_script(f"{folder}/toolchain/bin/clang", COMPILER.format(real=f"{tools}/bin/clang"))
    write_script(f"{folder}/toolchain/bin/ld.lld", LINKER.format(real=f"{tools}/bin/ld.lld", kept=kept))
    return f"{folder}/bin/rt"


def copy_sources(folder):
    """Copies the sources, and returns the version that the copy prints."""
    shutil.copytree(f"{ROOT}/crates", f"{folder}/crates", ignore=shutil.ignore_patterns("out"))
    for name in ("crates.txt", "HANDLES"):
        shutil.copy(f"{ROOT}/{name}", folder)
    path = f"{folder}/crates/table_commands/src/help.rt"
    with open(path, encoding="utf-8") as it:
        text, count = re.subn(r'(VERSION: &str = ")([^"]*)"', r'\1\2 (unproved)"', it.read())
    assert count == 1, f"{path} names {count} versions"
    with open(path, "w", encoding="utf-8") as it:
        it.write(text)
    return re.search(r'VERSION: &str = "([^"]*)"', text)[1]


def main():
    file = os.path.abspath(sys.argv[1] if sys.argv[1:] else f"{ROOT}/bin/prepaid-unproved")
    kit = os.path.dirname(subprocess.run(["rt", "doc"], capture_output=True, text=True, check=True).stdout.strip())
    with tempfile.TemporaryDirectory() as folder:
        kept = f"{folder}/program"
        rt = stand_in(kit, f"{folder}/kit", kept)
        version = copy_sources(f"{folder}/tree")
        ran = subprocess.run([rt, "try", "--", "--version"], cwd=f"{folder}/tree/crates/prepaid", capture_output=True, text=True)
        if not os.path.isfile(kept) or ran.stdout != f"prepaid {version}\n":
            sys.exit(f"{ran.stdout}{ran.stderr}tests/quick.py: no program was made")
        os.makedirs(os.path.dirname(file), exist_ok=True)
        shutil.copy(kept, f"{file}.new")
        os.chmod(f"{file}.new", 0o755)
        os.replace(f"{file}.new", file)


if __name__ == "__main__":
    main()
