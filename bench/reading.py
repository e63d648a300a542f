#!/usr/bin/env python3
"""bench/reading.py            writes docs/reading.md: the definitions that the main theorem needs
bench/reading.py --check    says whether the page is the one that it would write

A definition is needed if a clause of the theorem names it, or another one that is needed. Files
come in an order in which each stands after those that it uses."""
import glob
import os
import re
import sys

ROOT = os.path.dirname(os.path.dirname(os.path.abspath(__file__)))
PAGE = f"{ROOT}/docs/reading.md"
HEAD = re.compile(r"^(?:(?:abbrev|unfoldable|irreducible)(?: pub)?|pub record|record|pub data|data) ([^\s:(]+)")
USE = re.compile(r"(?:ghost )?use Rattle\.(dp_\w+)\.specs\.([\w.]+?)(?:\.\{([^}]*)\}| as (\w+))?;?\s*$")
WORD = re.compile(r"[^\s(){}\[\],;:λ∷→×]+")
# The calls whose clauses are the theorem: the crate, the file and the name.
HEADLINE = ("dp_sim", "src/laws.rt", "headline")
PROGRAM = ("dp_app", "src/program.rt", "drawpile")


def lines_of(path):
    return open(path, encoding="utf-8").read().split("\n")


def imports_of(lines):
    """What each name of a file stands for: (crate, module, name), where name is None for a module."""
    found, at = {}, 0
    while at < len(lines):
        line = lines[at]
        if re.match(r"(ghost )?use ", line):
            while not re.search(r"[};\w]\s*$", line) or line.count("{") > line.count("}"):
                at += 1
                line += " " + lines[at].strip()
            told = USE.match(line)
            if told:
                crate, module, names, alias = told.groups()
                if alias:
                    found[alias] = (crate, module, None)
                for name in (names or "").split(","):
                    own, _, other = name.strip().partition(" as ")
                    if own:
                        found[other.strip() or own] = (crate, module, own)
        at += 1
    return found


class File:
    """A file of specs: its definitions by name, each with its line, its comment and its text."""

    def __init__(self, crate, module):
        self.crate, self.module = crate, module
        self.path = f"crates/{crate}/specs/{module.replace('.', '/')}.antt"
        lines = lines_of(f"{ROOT}/{self.path}")
        self.imports, self.defined = imports_of(lines), {}
        heads = [at for at, line in enumerate(lines) if HEAD.match(line)]
        for at in heads:
            end = at + 1
            while end < len(lines) and not HEAD.match(lines[end]) and not lines[end].startswith(("--", "use ")):
                end += 1
            body = [it for it in lines[at:end] if it.strip()]
            top = at
            while top and lines[top - 1].startswith("--"):
                top -= 1
            said = " ".join(it.lstrip("- ") for it in lines[top:at] if not it.startswith("-- ----"))
            self.defined[HEAD.match(lines[at])[1]] = (at + 1, said, "\n".join(body), len(body))


FILES = {}


def file_of(crate, module):
    if (crate, module) not in FILES:
        there = os.path.isfile(f"{ROOT}/crates/{crate}/specs/{module.replace('.', '/')}.antt")
        FILES[crate, module] = File(crate, module) if there else None
    return FILES[crate, module]


def named_in(text, imports, own=None):
    """The definitions that a text names, as (crate, module, name); Rust's types are left out."""
    for word in WORD.findall(re.sub(r"--.*", "", text)):
        first, _, rest = word.partition(".")
        if own and first in own.defined:
            yield own.crate, own.module, first
        elif first in imports:
            crate, module, name = imports[first]
            name = name or rest.split(".")[0]
            if name and not module.startswith("declared"):
                yield crate, module, name


def clauses_of(crate, path, name):
    """The clauses of a call, and what its file imports."""
    lines = lines_of(f"{ROOT}/crates/{crate}/{path}")
    at = next(it for it, line in enumerate(lines) if re.match(rf"pub fn {name}\b", line))
    end = next(it for it in range(at, len(lines)) if lines[it] == "{")
    return "\n".join(lines[at:end]), imports_of(lines)


def needed(root, beyond):
    """All definitions that the clauses of a call need, but for those of `beyond`."""
    text, imports = clauses_of(*root)
    waits, found = list(named_in(text, imports)), set()
    while waits:
        crate, module, name = waits.pop()
        file = file_of(crate, module)
        if file is None or name not in file.defined or (crate, module, name) in found | beyond:
            continue
        found.add((crate, module, name))
        waits += named_in(file.defined[name][2], file.imports, file)
    return found


def in_order(files):
    """The files, each after those that it uses."""
    order, begun = [], set()

    def visit(key):
        if key in begun:
            return
        begun.add(key)
        for crate, module, _ in sorted(FILES[key].imports.values(), key=str):
            if FILES.get((crate, module)):
                visit((crate, module))
        order.append(key)

    for key in sorted(files):
        visit(key)
    return [it for it in order if it in files]


def section(title, intro, found):
    files = {(crate, module) for crate, module, _ in found}
    lines = sum(file_of(crate, module).defined[name][3] for crate, module, name in found)
    crates = {crate for crate, _ in files}
    text = f"## {title}\n\n{intro}\n\n{len(found)} definitions of {lines} lines, in {len(files)} files of {len(crates)} crates.\n"
    for key in in_order(files):
        file = FILES[key]
        text += f"\n### {file.path}\n\n"
        rows = sorted((file.defined[name][0], name, file.defined[name][1]) for crate, module, name in found if (crate, module) == key)
        for line, name, said in rows:
            text += f"- line {line}, `{name}`" + (f": {said}\n" if said else "\n")
    return text


def page():
    first = needed(HEADLINE, set())
    more = needed(PROGRAM, first)
    return f"""# What to read to judge the theorem

Whoever believes the prover need not read a proof, nor a body of code. What has to be right are the
clauses of the theorem and the definitions that these name, one through another. This page lists
them all, with the comment that stands above each. `bench/reading.py` writes it.

The list isn't short, but it ends. What isn't in it can't make the theorem say something else.
Besides, the words of the kit's standard library count (lists, options, numbers), and the types of
Rust's values, which are declared in the sources.

""" + section("The headline", "Needed for the clause of `headline` (`crates/dp_sim/src/laws.rt`): what every client shows, after every\nlist of actions.", first) + "\n" + section("The other clauses of `drawpile`", "Needed besides for the clauses of `drawpile` (`crates/dp_app/src/program.rt`): what is printed,\nand what `join` and `serve` do over links.", more)


def main(words):
    if words not in ([], ["--check"]):
        sys.exit(__doc__)
    text = page()
    if words:
        is_same = os.path.isfile(PAGE) and open(PAGE, encoding="utf-8").read() == text
        print("docs/reading.md is as it should be" if is_same else "docs/reading.md is stale: run bench/reading.py")
        return 0 if is_same else 1
    with open(PAGE, "w", encoding="utf-8") as out:
        out.write(text)
    return 0


if __name__ == "__main__":
    sys.exit(main(sys.argv[1:]))
