#!/usr/bin/env python3
"""bench/crates.py           writes docs/crates.md: each crate with what it has and what it uses
bench/crates.py --check   only says whether docs/crates.md is due

The groups are the heads in crates.txt, and what a crate has is the first paragraph of its lib.rt or
main.rt."""
import os
import re
import sys

ROOT = os.path.dirname(os.path.dirname(os.path.abspath(__file__)))
PAGE = f"{ROOT}/docs/crates.md"
HEAD = """# The crates

Group by group, each with the crates that it uses. What the kit brings stands in italics.
`bench/crates.py` writes this page from crates.txt and from the first lines of each crate's source.
"""


def groups():
    """The groups of crates.txt: the head, and of each crate its name and what it uses."""
    found = []
    for line in open(f"{ROOT}/crates.txt", encoding="utf-8"):
        line = line.strip()
        if line.startswith("#") and "NAME:" not in line:
            found.append((line[1:].strip(), []))
        elif ":" in line and not line.startswith("#"):
            head, used = line.split(":", 1)
            found[-1][1].append((head.split()[0], used.split()))
    return found


def first_words(name):
    """The first paragraph of the crate's page, in one line."""
    at = f"{ROOT}/crates/{name}/src"
    file = f"{at}/lib.rt" if os.path.isfile(f"{at}/lib.rt") else f"{at}/main.rt"
    words = []
    for line in open(file, encoding="utf-8"):
        if not line.startswith("//!") or not line[3:].strip():
            break
        words.append(line[3:].strip())
    text = re.sub(rf"^`{name}`: ", "", " ".join(words))
    return text[:1].upper() + text[1:]


def page():
    """The text of the page."""
    ours = {name for _, crates in groups() for name, _ in crates}
    lines = [HEAD]
    for head, crates in groups():
        lines += [f"## {head[0].upper()}{head[1:]}", "", "| crate | what it has | uses |", "|---|---|---|"]
        for name, used in crates:
            told = [it if it in ours else f"*{it}*" for it in used]
            lines.append(f"| {name} | {first_words(name)} | {', '.join(told)} |")
        lines.append("")
    return "\n".join(lines)


def main():
    text = page()
    if "--check" in sys.argv[1:]:
        due = not os.path.isfile(PAGE) or open(PAGE, encoding="utf-8").read() != text
        print("docs/crates.md is due: run bench/crates.py" if due else "docs/crates.md is up to date")
        sys.exit(1 if due else 0)
    with open(PAGE, "w", encoding="utf-8") as out:
        out.write(text)


main()
