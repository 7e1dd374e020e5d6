#!/usr/bin/env python3
"""Checks the documents and comments against the tree: python3 tests/claims.py

A citation in a document is a code span: `calendar/specs/Calendar.antt#leap` is the definition, theorem or function `leap` of that file
under crates/, `calendar/must-fail/leap_every_four_years` an edit, `tests/every_day.py` or any other path with a slash a file or folder of
the repository. Anywhere, RULES and a number is a section of docs/RULES.md, and no paper is named. The architecture's table of crates says
what crates.txt says. No line is longer than 140 characters, tables and must-fail edits aside.
"""
import os
import re
import subprocess
import sys

ROOT = os.path.dirname(os.path.dirname(os.path.abspath(__file__)))
DOCUMENTS = ["README.md", "CHANGELOG.md", "CONTRIBUTING.md", "bindings/rust/README.md"] + [
    "docs/" + name for name in ["ARCHITECTURE.md", "BENCH.md", "CLAIMS.md", "DECISIONS.md", "RULES.md"]
]
WORDS = r"unfoldable|abbrev|pub|pub\(crate\)|const|static|fn|ruleset|struct|enum|record|data|extern|\"C\""


def declared(path, name):
    """Whether a file declares a name: a signature, a record or a record's field, a function, a type, a constant, a variant."""
    with open(path, encoding="utf-8") as file:
        return re.search(rf"(?m)^\s*(?:(?:{WORDS})\s+)*«?{re.escape(name)}»?\s*(?=[:({{\s<])", file.read()) is not None


def is_there(span):
    path, _, name = span.partition("#")
    places = [os.path.join(ROOT, "crates", path), os.path.join(ROOT, path), os.path.join(ROOT, "crates", path + ".edit")]
    place = next((p for p in places if os.path.exists(p)), None)
    return place is not None and (not name or declared(place, name))


def content(path):
    with open(os.path.join(ROOT, path), encoding="utf-8", errors="replace") as file:
        return file.read()


def names():
    """How many names the documents cite, and which of them are not there."""
    count, missing = 0, []
    for document in DOCUMENTS:
        text = content(document)
        cited = sorted({span for span in re.findall(r"`([^`\n]+)`", text) if re.fullmatch(r"(?!target/)[\w.+-]+(/[\w.+-]+)+(#\S+)?", span)})
        count += len(cited)
        missing += [f"{document} cites what is not there: {span}" for span in cited if not is_there(span)]
        missing += [f"{document} has a gap: {gap}" for gap in re.findall(r"@[A-Z]+@", text)]
    return count, missing


def texts():
    """The files that people write and read, with what they hold."""
    listing = subprocess.run(["git", "-C", ROOT, "ls-files"], capture_output=True, text=True, check=False)
    if listing.returncode:
        sys.exit("tests/claims.py: the files are listed by git, and this is no checkout: " + listing.stderr.strip())
    files = listing.stdout.split("\n")
    read = re.compile(r"\.(rt|antt|rs|py|c|h|md|toml|[13])$|(^|/)(run|check|library|Makefile)$")
    return {path: content(path) for path in files if read.search(path)}


def sections():
    """How many sections of the rules are cited, and which of them are not there; and who names a paper."""
    there = set(re.findall(r"(?m)^#+ (\d+(?:\.\d+)*)\b", content("docs/RULES.md")))
    count, missing = 0, []
    for path, text in texts().items():
        if path == "tests/claims.py":
            continue
        cited = re.findall(r"\bRULES (\d+(?:\.\d+)*)", text)
        count += len(cited)
        missing += [f"{path} cites a section that is not there: RULES {section}" for section in sorted(set(cited) - there)]
        papers = [line.strip() for line in text.split("\n") if re.search(r"\b[Pp]aper(?:'s)? 0?\d", line)]
        missing += [f"{path} names a paper: {line[:100]}" for line in papers]
    return count, missing


def crates():
    """Where crates.txt and the architecture's table differ."""
    listed = {name: set(rest.split()) for name, rest in re.findall(r"(?m)^(\w+)(?: staticlib)?:(.*)$", content("crates.txt"))}
    rows = re.findall(r"(?m)^\| `(\w+)` \| [^|]* \|([^|]*)\|$", content("docs/ARCHITECTURE.md"))
    table = {name: set(re.findall(r"`(\w+)`", rest)) for name, rest in rows}
    names_of_both = sorted(listed.keys() | table.keys())
    return [f"docs/ARCHITECTURE.md and crates.txt differ on {name}" for name in names_of_both if listed.get(name) != table.get(name)]


def long_lines():
    return [
        f"{path}:{number} has {len(line)} characters"
        for path, text in texts().items()
        for number, line in enumerate(text.split("\n"), 1)
        if len(line) > 140 and not line.startswith("|")
    ]


def main():
    (cited, lost), (rules, wrong), others = names(), sections(), crates() + long_lines()
    for line in lost + wrong + others:
        print(line)
    print(f"{cited} names cited in the documents, {len(lost)} missing; {rules} citations of the rules, {len(wrong)} wrong")
    return 1 if lost or wrong or others or not cited or not rules else 0


if __name__ == "__main__":
    if len(sys.argv) != 1:
        sys.exit("usage: python3 tests/claims.py")
    sys.exit(main())
