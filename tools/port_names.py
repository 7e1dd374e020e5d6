#!/usr/bin/env python3
"""Brings the repository's own definitions and lemmas to today's spelling: python3 tools/port_names.py, once, after port.py

`dayNumber` and `day-number` become `day_number`, wherever definitions, proofs, clauses, documents or must-fail edits name them. What the
kit declares keeps its name. `--look` changes nothing, and prints where two names of a file would fall together.
"""
import collections
import glob
import re
import sys

TOKEN = re.compile(r"[^\s(){}\[\]«».;,:\"`|#/]+")
WORDS = r"((?:(?:unfoldable|abbrev|pub|record|data)[ \t]+)*)"
DECLARED = re.compile(r"^([ \t]*)" + WORDS + r"«?([^\s:(){}«».;,λ=]+)»?((?:[ \t]+[({].*?)?)[ \t]+:[ \t]", re.M)
OLD = re.compile(r"[a-z][A-Za-z0-9]*[A-Z][A-Za-z0-9]*|[a-zA-Z0-9'_]*[a-z0-9]-[A-Za-z0-9'_-]+")

# names that port.py spelled so already, and that a definition takes now
SPELLED = {
    "flag_run": "flag_run_lem",
    "none_said": "none_said_lem",
    "no_words": "no_words_lem",
    "too_long": "too_long_lem",
    "entry_place": "entry_place_lem",
    "all_read": "reads_all",
    "in_rows": "fits_rows",
}


def read(path):
    with open(path, encoding="utf-8") as file:
        return file.read()


def snake(name):
    if re.match("[a-z]", name) and "-" not in name:
        name = re.sub(r"(?<=[a-z0-9])([A-Z])", lambda m: "_" + m.group(1).lower(), name)
    return name.replace("-", "_")


def antt():
    return sorted(glob.glob("crates/*/specs/*.antt") + glob.glob("crates/*/proofs/**/*.antt", recursive=True))


def renamings():
    own, kit, crates = collections.defaultdict(set), set(), {path.split("/")[1] for path in glob.glob("crates/*/src")}
    for path in antt():
        text = read(path)
        for module, names in re.findall(r"(?m)^use ([^{\n]+)\.\{([^}]*)\}", text):
            parts = module.split(".")
            if parts[0] != "Rattle" or parts[1] not in crates:
                kit |= {word for name in names.split(",") for word in name.split() if word != "as"}
        if "/proofs/" in path and path.count("/") > 3:
            continue
        for margin, words, name, _ in DECLARED.findall(text):
            if (not margin or "pub" in words) and OLD.fullmatch(name):
                own[name].add(path)
    names = {name: snake(name) for name in own if name not in kit}
    # a lemma that would have a definition's name has _lem after it
    definitions = {name for name in declared_anywhere() if "-" not in name}
    taken = {names.get(name, name) for name in definitions}
    spelled = {name: new for name, new in SPELLED.items() if name in declared_anywhere()}
    return {name: new + "_lem" if "-" in name and new in taken else new for name, new in names.items()} | spelled, own


def declared_anywhere():
    return {name for path in antt() for margin, words, name, _ in DECLARED.findall(read(path)) if not margin or "pub" in words}


def swap(text, names):
    # behind a dot the function's name is meant, not the lemma's
    kept = {"entry_place"}


    def new(m):
        behind_a_dot = text[m.start() - 1 : m.start()] == "."
        return m.group(0) if behind_a_dot and m.group(0) in kept else names.get(m.group(0), m.group(0))

    return TOKEN.sub(new, text)


def of_antt(text, names):
    lines = []
    camel = {old: new for old, new in names.items() if re.search("[a-z][A-Z]", old)}
    for line in text.split("\n"):
        body, dashes, comment = line.partition("--") if line.lstrip().startswith("--") else (line, "", "")
        lines.append(swap(body, names) + dashes + swap(comment, camel))
    return "\n".join(lines)


def of_rattle(text, names):
    """Clauses and ghost lines; of comments and code, names with a capital inside."""
    camel = {old: new for old, new in names.items() if re.search("[a-z][A-Z]", old)}
    out, clause, depth = [], False, 0
    for line in text.split("\n"):
        starts = re.match(r"\s*(pub )?(ghost|requires|ensures)\b", line)
        if starts and not clause:
            clause, depth = True, 0
        out.append(swap(line, names if clause else camel))
        if clause:
            depth += line.count("{") - line.count("}")
            clause = depth > 0
    return "\n".join(out)


def of_edit(text, names):
    parts, specs = [], False
    for line in text.split("\n"):
        if line.startswith("file:"):
            specs = line.endswith(".antt")
            parts.append(line)
        else:
            clause = specs or "ensures" in line or "requires" in line or "ghost" in line
            parts.append(swap(line, names if clause else {old: new for old, new in names.items() if re.search("[a-z][A-Z]", old)}))
    return "\n".join(parts)


def of_document(text, names):
    return re.sub(r"`([^`\n]*)`", lambda m: "`" + swap(m.group(1), names) + "`", text)


def collisions(names, own):
    found = []
    for path in antt() + sorted(glob.glob("crates/*/src/*.rt")):
        tokens = set(TOKEN.findall(read(path)))
        meets = collections.defaultdict(set)
        for token in tokens:
            meets[names.get(token, token)].add(token)
        found += [f"{path}: {' and '.join(sorted(olds))}" for new, olds in meets.items() if len(olds) > 1]
    return found


def main():
    names, own = renamings()
    if "--look" in sys.argv:
        for line in collisions(names, own):
            print(line)
        print(len(names), "names")
        return
    jobs = [(path, of_antt) for path in antt()]
    jobs += [(path, of_rattle) for path in sorted(glob.glob("crates/*/src/*.rt"))]
    jobs += [(path, of_edit) for path in sorted(glob.glob("crates/*/must-fail/*.edit"))]
    documents = glob.glob("*.md") + glob.glob("docs/**/*.md", recursive=True) + glob.glob("bindings/rust/*.md")
    jobs += [(path, of_document) for path in sorted(documents)]
    changed = 0
    for path, how in jobs:
        old = read(path)
        new = how(old, names)
        if new != old:
            changed += 1
            with open(path, "w", encoding="utf-8") as file:
                file.write(new)
    print(f"{len(names)} names, {changed} files")


if __name__ == "__main__":
    main()
