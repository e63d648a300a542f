#!/usr/bin/env python3
"""Builds the program without a proof, to measure a change before it is proved.

usage: bench/unproved.py PROGRAM     writes the program; it takes some two minutes
       bench/unproved.py PROGRAM FOLDER WORD ..     the same of another crate's program, in this
                                     folder, which is tried with these words

`rt try` lowers the crates to a module for LLVM, in which it checks what a proof would show, and
compiles that for speed of building. This script keeps the module, takes the checks out, puts in the
hints on inlining, which `rt try` leaves out, and has it compiled as a proved program is. It says
nothing of whether the crates are proved, and its times are near those of the program that `rt`
builds, not the same. It stands on names in that module, which another kit may change.
"""
import os
import re
import subprocess
import sys
import tempfile
from pathlib import Path

TOP = Path(__file__).resolve().parent.parent
KIT = Path(subprocess.run(["rt", "doc"], capture_output=True, text=True).stdout.strip()).parent
# It is compiled twice, and the module that has `main` with the option -fsanitize=address.
KEEPS = """#!/bin/sh
case "$*" in
  *-fsanitize=address*) cp module.bc {work}/module.bc; echo "$@" >{work}/flags; exit 1;;
  *) exec {clang} "$@";;
esac
"""
# A function that is called where a check fails, and a function of the checks.
CHECK = re.compile(r'^define internal void @"rattle-(?:llvm-checks|try)::(\w+)')
NAME = re.compile(r'^define [^@]*@"?([^"(]*)')
ELEMENT = re.compile(r"getelementptr (i8, ptr %\w+, i64 %)")
POISON = re.compile(r"^  call void @llvm\.memset\.p0\.i64\(ptr %\w+, i8 -86, ")
HINTS = {"always": "alwaysinline", "never": "noinline", "cold": "cold", "": "inlinehint"}
HINT = re.compile(r"\s*#\[(?:inline(?:\((always|never)\))?|(cold))\]")
FUNCTION = re.compile(r"\s*(?:pub(?:\([a-z]+\))?\s+)?(?:const\s+)?(?:unsafe\s+)?fn (\w+)")


def link_all(source, target, but):
    """Links what is in a folder into another one, but for what is named."""
    target.mkdir(parents=True)
    for it in source.iterdir():
        if it.name not in but:
            (target / it.name).symlink_to(it)


def module_of(work, crate, tried_with):
    """Has `rt try` make the module, by a kit whose clang keeps it, and gives clang's flags."""
    kit = work / "kit"
    link_all(KIT, kit, {"bin", "toolchain"})
    link_all(KIT / "bin", kit / "bin", {"rt", "rtlib.py"})
    for name in "rt", "rtlib.py":
        (kit / "bin" / name).write_bytes((KIT / "bin" / name).read_bytes())
    link_all(KIT / "toolchain", kit / "toolchain", {"bin"})
    link_all(KIT / "toolchain/bin", kit / "toolchain/bin", {"clang"})
    clang = kit / "toolchain/bin/clang"
    clang.write_text(KEEPS.format(work=work, clang=KIT / "toolchain/bin/clang"))
    clang.chmod(0o755)
    words = [sys.executable, kit / "bin/rt", "try", "--", *tried_with]
    how = {"stdin": subprocess.DEVNULL, "capture_output": True, "text": True}
    tried = subprocess.run(words, cwd=crate, **how)
    if not (work / "flags").exists():
        sys.exit("no module was made:\n" + tried.stdout + tried.stderr)
    left_out = {"-O0", "-Werror", "-fsanitize=address"}
    left_out |= {"-c", "-o", "module.o", "-x", "ir", "module.bc"}
    flags = (work / "flags").read_text().split()
    return [it for it in flags if it not in left_out and not it.startswith("--sysroot=")]


def hints():
    """The hints on inlining of all sources: of a crate's function the files that have one."""
    found = {}
    for folder in [*(TOP / "crates").iterdir(), *(KIT / "rattle").iterdir()]:
        for path in (folder / "src").glob("**/*.rt"):
            hint = None
            for line in path.read_text(errors="ignore").splitlines():
                if m := HINT.match(line):
                    hint = HINTS[m.group(2) or m.group(1) or ""]
                elif m := FUNCTION.match(line):
                    if hint:
                        found.setdefault((folder.name, m.group(1)), []).append((path.stem, hint))
                    hint = None
    return found


def hint_of(line, found):
    """The hint on the function that a line of the module defines, or nothing."""
    parts = re.sub("::<.*", "", NAME.match(line).group(1)).split("::")
    for stem, hint in found.get((parts[0], parts[-1]), []):
        if stem in ("lib", "main", "mod") or stem in parts[1:-1]:
            return hint
    return ""


def without_checks(lines, found):
    """The module with no checks, and with the hints."""
    skips = False
    for line in lines:
        if skips:
            skips = not line.startswith("}")
        elif m := CHECK.match(line):
            skips = True
            ends = "unreachable" if m.group(1) == "Unreachable" else "ret void"
            yield re.sub(r"#\d+ \{", "alwaysinline {", line) + f"start:\n  {ends}\n}}\n"
        elif line.startswith("define"):
            hint = hint_of(line, found)
            yield re.sub(r"(#\d+) \{$", rf"{hint} \1 {{", line) if hint else line
        elif line.startswith("attributes #"):
            line = line.replace("sanitize_address", "").replace('"frame-pointer"="all"', "")
            yield re.sub(r"\{\s*\}", "{ nounwind }", line.replace('"x86-64"', '"x86-64-v2"'))
        elif not POISON.match(line) and line.strip() != "call void @llvm.trap()":
            line = line.replace("load volatile i8, ptr @static.0, align 1", "add i8 0, 0")
            yield ELEMENT.sub(r"getelementptr inbounds nuw \1", line)


def main():
    if len(sys.argv) < 2:
        sys.exit(__doc__)
    crate, *tried_with = sys.argv[2:] or [TOP / "crates/drawpile", "replay"]
    clang = KIT / "toolchain/bin/clang"
    with tempfile.TemporaryDirectory() as folder:
        work = Path(folder)
        flags = module_of(work, crate, tried_with)
        text, whole = work / "module.ll", work / "whole.ll"
        reads = [clang, "-x", "ir", work / "module.bc", "-S", "-emit-llvm", "-Xclang"]
        reads += ["-disable-llvm-passes", "-Wno-everything", "-o", text]
        subprocess.run(reads, check=True)
        with open(text) as lines, open(whole, "w") as out:
            out.writelines(without_checks(lines, hints()))
        flags += ["-O3", "-Xclang", "-fmerge-functions", "-mllvm", "-mergefunc-use-aliases"]
        made = work / "whole.o"
        subprocess.run([clang, *flags, "-c", "-x", "ir", whole, "-o", made], check=True)
        links = [KIT / "bin/rattle-link", "--target", "x86_64-unknown-linux-gnu", "--toolchain"]
        links += [KIT / "toolchain", "-o", os.path.abspath(sys.argv[1]), made]
        links += [KIT / "c/libos_c.a", KIT / "c/liblibc_c.a"]
        subprocess.run(links, check=True)


main()
