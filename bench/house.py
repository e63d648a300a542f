#!/usr/bin/env python3
"""bench/house.py            looks over the repository, and prints what isn't in order, a line each
bench/house.py --names    writes today's doubled names into bench/doubled_names.txt
bench/house.py --lines    counts the lines of code, contracts, definitions and proofs
bench/house.py --comments   prints the comments of sources that have a sentence of over 25 words or such
                            words as "so many" for a number

It looks at text alone and proves nothing, in a few seconds. It finds
- a definition's name that stands in two crates which bench/doubled_names.txt doesn't list, and what
  stands in that list but isn't so any more;
- a lemma that no other line cites, or only a wrong body;
- a sentence with over 25 words in a document that is written by hand, in a cell of a table too;
- a file, crate or backquoted name in a document that isn't there, or not in the crate that it names;
- a line of over 100 columns that the formatter could break;
- a function of over 40 lines, or of over 7 parameters, that isn't a test's. Those of `MANY_PARAMETERS`
  may have more.
The status is 1 if it finds anything."""
import glob
import os
import re
import sys
from collections import defaultdict
from functools import cache

ROOT = os.path.dirname(os.path.dirname(os.path.abspath(__file__)))
LISTED = f"{ROOT}/bench/doubled_names.txt"
DEFINED = re.compile(r"^(?:abbrev pub|unfoldable pub|pub record|record pub|record) (\S+)", re.M)
LEMMA = re.compile(r"^((?:  ){0,3})(?:abbrev |unfoldable )?(?:pub )?([^\s:({]+) :", re.M)
FN = re.compile(r"^( *)(?:pub(?:\([^)]*\))? )?(?:const )?fn (\w+)")
# What a name in a proof file may be written with, beside letters, digits and `_`.
WORD = r"[^\s(){}\[\],;:.λ]+"
# Functions that may have more than 7 parameters, by crate and name, each with its reason.
MANY_PARAMETERS = {
    # The top call. Each thing that the program may touch is a parameter of its own, so that its
    # clauses name it: the words, three streams, the wires, the store, the gate and two counters.
    ("dp_app", "drawpile"),
}
# The documents that are written by hand.
SENTENCES = (
    "README.md", "CONTRIBUTING.md", "CHANGELOG.md", "docs/promises.md", "docs/protocol.md",
    "docs/architecture.md", "docs/DECISIONS.md", "bench/RESULTS.md",
)
# A sentence ends with its mark, also if that stands in brackets or in bold.
SENTENCE_END = r"(?:(?<=[.:?!])|(?<=[.:?!][)*\"])|(?<=[.:?!]\*\*))\s+"
# Names that documents use for what isn't this repository's: of the toolchain, of Rust, of the shell.
DOCUMENTS = ("README.md", "CONTRIBUTING.md", "docs/architecture.md", "docs/promises.md", "docs/DECISIONS.md")


def text_of(path):
    return open(path, encoding="utf-8").read()


def files(pattern):
    return sorted(glob.glob(f"{ROOT}/{pattern}", recursive=True))


def short(path):
    return os.path.relpath(path, ROOT)


def crate_of(path):
    return short(path).split("/")[1]


def doubled():
    """The names of definitions that stand in two crates or more."""
    homes = defaultdict(set)
    for path in files("crates/*/specs/**/*.antt"):
        for name in DEFINED.findall(text_of(path)):
            homes[name].add(crate_of(path))
    return {name: sorted(crates) for name, crates in homes.items() if len(crates) > 1}


def look_at_names():
    listed = {it.split()[0]: it.split()[1:] for it in text_of(LISTED).split("\n") if it and not it.startswith("#")}
    today = doubled()
    for name, crates in sorted(today.items()):
        added = [it for it in crates if it not in listed.get(name, [])]
        if added:
            yield f"{name} is defined in {', '.join(crates)}; {short(LISTED)} doesn't list {', '.join(added)}"
    for name, crates in sorted(listed.items()):
        for crate in [it for it in crates if it not in today.get(name, [])]:
            yield f"{short(LISTED)}: {name} is no doubled name of {crate} any more"


def blocks_of(text):
    """Each lemma of a proof file with the words of its own lines. A record's fields and answers aren't lemmas."""
    in_record = {it for block in re.findall(r"^(?:pub )?record .*?where\n((?:  .*\n|\n)*)", text, re.M) for _, it in LEMMA.findall(block)}
    lines = text.split("\n")
    for at, line in enumerate(lines):
        found = LEMMA.match(line)
        if not found or found[2] in in_record:
            continue
        indent, name = found.groups()
        own = re.compile(rf"{indent}(?:abbrev )?(?:pub )?{re.escape(name)}(?=[\s:])")
        end = at + 1
        goes_on = lambda line: not line.strip() or line.startswith((f"{indent} ", f"{indent}unfolding ")) or own.match(line)
        while end < len(lines) and goes_on(lines[end]):
            end += 1
        yield name, re.findall(WORD, "\n".join(lines[at:end]))


def look_at_lemmas():
    """A lemma is cited if its name stands in other lines than its own, in which it may call itself."""
    cited, homes = defaultdict(int), {}
    for path in files("crates/**/*.antt") + files("crates/**/*.rt"):
        for word in re.findall(WORD, text_of(path)):
            cited[word] += 1
    wrong = set(re.findall(WORD, "\n".join(text_of(it) for it in files("crates/*/wrong-bodies/*.edit") + files("crates/*/must-fail/*.edit"))))
    for path in files("crates/*/proofs/**/*.antt"):
        if os.path.basename(path) in ("Answers.antt", "Invariants.antt", "Lib.antt", "Proof.antt"):
            continue
        for name, words in blocks_of(text_of(path)):
            homes.setdefault(name, [path, 0])[1] += words.count(name)
    for name, (path, own) in sorted(homes.items()):
        if cited[name] <= own:
            yield f"{short(path)}: {'only wrong bodies cite' if name in wrong else 'nothing cites'} {name}"


def look_at_sentences():
    for name in SENTENCES:
        text = re.sub(r"(?s:```.*?```)|^    .*$|^#.*$|^!\[.*$", "\n\n", text_of(f"{ROOT}/{name}"), flags=re.M)
        text = re.sub(r"^\|.*$", lambda row: "\n\n" + row[0].strip("|").replace(" | ", "\n\n"), text, flags=re.M)
        for part in re.split(r"\n\s*\n|\n(?=\s*(?:-|\d+\.) )", text):
            for sentence in re.split(SENTENCE_END, " ".join(part.split())):
                words = [it for it in sentence.split() if re.search(r"\w", it)]
                if len(words) > 25:
                    yield f"{name}: {len(words)} words: {' '.join(words[:8])} .."


# Words that say less than a name would: a number, an end, a thing.
VAGUE = re.compile(r"\b[Ss]o many\b|\bend(?:s|ed) so\b|(?:^|[.:?!] )The same\b(?= (?:of|for|with|as|over|if)\b|,|\.)")


def comments_of(path):
    """Each paragraph of the comments of a source, with the line on which it begins."""
    mark = "//[/!]?" if path.endswith(".rt") else "--"
    begun, words = 0, []
    for at, line in enumerate([*text_of(path).split("\n"), ""], 1):
        told = re.match(rf"\s*{mark} ?(.*)$", line)
        if words and (not told or not told[1] or told[1].startswith("- ")):
            yield begun, " ".join(words)
            words = []
        if told and told[1]:
            begun = begun if words else at
            words += told[1].split()


def look_at_comments():
    count = lambda sentence: sum(bool(re.search(r"\w", it)) for it in sentence.split())
    for path in files("crates/**/*.rt") + files("crates/**/*.antt"):
        for at, text in comments_of(path):
            long = next((it for it in re.split(SENTENCE_END, text) if count(it) > 25), None)
            vague = VAGUE.search(text)
            if long:
                yield f"{short(path)}:{at}: {count(long)} words: {long[:60]} .."
            elif vague:
                yield f"{short(path)}:{at}: {vague[0].strip(': .')}: {text[:60]} .."


@cache
def known_in(crate):
    """The words that stand in a crate's sources, definitions and proofs."""
    every = [it for kind in ("rt", "antt") for it in files(f"crates/{crate}/**/*.{kind}")]
    return set(re.findall(r"[A-Za-z_][\w-]*", "\n".join(text_of(it) for it in every)))


def look_at_documents():
    every = "\n".join(text_of(it) for it in files("crates/**/*.rt") + files("crates/**/*.antt") + [f"{ROOT}/docs/protocol.md", f"{ROOT}/crates.txt"])
    known = set(re.findall(r"[A-Za-z_][\w-]*", every))
    for name in DOCUMENTS:
        text = re.sub(r"^    .*$", "", text_of(f"{ROOT}/{name}"), flags=re.M)
        for crate in sorted(set(re.findall(r"\bdp_\w+", text))):
            if not os.path.isdir(f"{ROOT}/crates/{crate}") and not re.search(rf"\b{crate}\b", every):
                yield f"{name}: there is no crate {crate}"
        for quoted, crate in sorted(set(re.findall(r"`([A-Za-z_][\w:]*)(?:\([^`]*\))?` (?:of |\()(dp_\w+)\b", text))):
            if quoted.split("::")[-1] not in known_in(crate):
                yield f"{name}: {crate} has no {quoted}"
        for path in sorted(set(re.findall(r"(?:bin|bench|docs|examples|crates)/[\w./-]*\w", text))):
            if not os.path.exists(f"{ROOT}/{path}") and not re.search(r"NAME|WHAT", path):
                yield f"{name}: there is no {path}"
        for quoted in sorted(set(re.findall(r"`([A-Za-z_]\w+)(?:\(.*?\))?`", text))):
            if quoted not in known and "_" in quoted:
                yield f"{name}: nothing is named {quoted}"


def look_at_tables():
    """The tables of promises (crate, calls, promise) and of definitions (definitions, files)."""
    crates = []
    for line in text_of(f"{ROOT}/docs/promises.md").split("\n"):
        row = re.match(r"\| ((?:dp_\w+(?:, )?)*) ?\| (.*?) \| ", line)
        if row:
            crates = row[1].split(", ") if row[1] else crates
            for call in re.findall(r"`([A-Za-z_][\w:]*)`", row[2]):
                for part in call.split("::"):
                    if not any(part in known_in(it) for it in crates):
                        yield f"docs/promises.md: {', '.join(crates)} has no {call}"
    for line in text_of(f"{ROOT}/docs/architecture.md").split("\n"):
        row, crate, known = re.match(r"\| (.*) \| (`dp_\w+/specs/.*) \|$", line), "", set()
        for path in re.findall(r"`([^`]*)`", row[2]) if row else []:
            crate = path.split("/")[0] if "/" in path else crate
            at = f"{ROOT}/crates/{path}" if "/" in path else f"{ROOT}/crates/{crate}/specs/{path}"
            if os.path.isfile(at):
                known |= set(re.findall(r"[A-Za-z_]\w*", text_of(at)))
            else:
                yield f"docs/architecture.md: there is no {short(at)}"
        for name in re.findall(r"`([A-Za-z_]\w*)`", row[1]) if row else []:
            if name not in known:
                yield f"docs/architecture.md: {name} isn't in {row[2]}"


def look_at_lines():
    for path in files("crates/**/*.rt") + files("crates/**/*.antt"):
        for at, line in enumerate(text_of(path).split("\n"), 1):
            # The formatter breaks no `use` of one name and no attribute.
            if len(line) > 100 and not line.startswith(("use ", "#[")):
                yield f"{short(path)}:{at}: {len(line)} columns"


def functions(text):
    """Each function of a source: its name, its line, how many parameters it has, and the lines of its body."""
    lines = text.split("\n")
    for at, line in enumerate(lines):
        found = FN.match(line)
        if not found:
            continue
        indent, end = found[1], at
        while end + 1 < len(lines) and lines[end] != f"{indent}}}" and not lines[end].endswith(";"):
            end += 1
        head = " ".join(lines[at : end + 1])
        inner, depth, parameters = head[head.index("(") + 1 :], 0, [""]
        for char in inner:
            depth += {"(": 1, "[": 1, "<": 1, ")": -1, "]": -1, ">": -1}.get(char, 0)
            if depth < 0:
                break
            if char == "," and depth == 0:
                parameters.append("")
            else:
                parameters[-1] += char
        first = next((it for it in range(at, end + 1) if lines[it] in (f"{indent}{{",) or lines[it].endswith(" {")), end)
        yield found[2], at + 1, sum(bool(it.strip()) for it in parameters), end - first - 1


def look_at_functions():
    unused = set(MANY_PARAMETERS)
    for path in files("crates/*/src/**/*.rt"):
        if crate_of(path).endswith("_tests"):
            continue
        for name, line, count, length in functions(text_of(path)):
            if length > 40:
                yield f"{short(path)}:{line}: {name} has {length} lines"
            if count > 7 and (crate_of(path), name) in MANY_PARAMETERS:
                unused.discard((crate_of(path), name))
            elif count > 7:
                yield f"{short(path)}:{line}: {name} has {count} parameters"
    for crate, name in sorted(unused):
        yield f"bench/house.py: {name} of {crate} has no more than 7 parameters"


def kinds_of(text):
    """The kind of each line of a source that isn't blank: a comment, an import, a contract or code."""
    kind, depth = "code", 0
    for line in text.split("\n"):
        said = line.strip()
        if not said:
            continue
        if depth == 0:
            kind = "code"
            if said.startswith("//"):
                kind = "comment"
            elif re.match(r"(ghost |pub )?use ", said):
                kind = "import"
            elif re.match(r"(requires|ensures|ghost)\b", said):
                kind = "contract"
            elif said.startswith("#"):
                kind = "attribute"
        yield kind
        if kind in ("import", "contract"):
            depth += sum(said.count(it) for it in "{([") - sum(said.count(it) for it in "})]")


def count_lines():
    """How many lines there are of each kind, without blank ones, comments and imports."""
    counts = defaultdict(int)
    for path in files("crates/*/src/**/*.rt"):
        is_test = crate_of(path).endswith("_tests") or crate_of(path) in ("dp_rows", "dp_row_texts", "dp_row_trials", "dp_row_wires", "dp_row_runs")
        for kind in kinds_of(text_of(path)):
            counts["tests" if is_test else kind] += 1
    for part in ("specs", "proofs"):
        for path in files(f"crates/*/{part}/**/*.antt"):
            counts[part] += sum(bool(it.strip()) and not it.startswith(("--", "use ")) for it in text_of(path).split("\n"))
    return counts


def main(words):
    if words == ["--lines"]:
        for kind, count in sorted(count_lines().items()):
            print(f"{kind:10} {count:7,}")
        return 0
    if words == ["--names"]:
        with open(LISTED, "w", encoding="utf-8") as out:
            out.write("# Names of definitions that stand in two crates today, with their crates. A new one is not to join.\n")
            for name, crates in sorted(doubled().items()):
                out.write(f"{name}  {' '.join(crates)}\n")
        return 0
    if words and words != ["--comments"]:
        sys.exit(__doc__)
    found = 0
    looks = (look_at_names, look_at_lemmas, look_at_sentences, look_at_documents, look_at_tables, look_at_lines, look_at_functions)
    for look in (look_at_comments,) if words else looks:
        for said in look():
            print(said)
            found += 1
    print(f"{found} found")
    return 1 if found else 0


if __name__ == "__main__":
    sys.exit(main(sys.argv[1:]))
