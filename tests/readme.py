#!/usr/bin/env python3
"""Runs the examples of README: python3 tests/readme.py FOLDER PREFIX

A block ```text FILE or ```c FILE is examples/FILE. A block ```rust is one of bindings/rust/README.md, whose examples are run by cargo. A
block ```sh that a block ```text follows is run by bash in a copy of examples/, with the programs in FOLDER and the library that is
installed under PREFIX, and must write what that block says. A row of a text, a format and a date is read so. The recipe for a long list is
run on one made here, and its report looked at line by line.
"""
import datetime
import os
import re
import shutil
import subprocess
import sys
import tempfile

ROOT = os.path.dirname(os.path.dirname(os.path.abspath(__file__)))
EXAMPLES = os.path.join(ROOT, "examples")


def blocks(readme):
    """The fenced blocks: the words after the fence, and the text; and the rows of a text, a format and a date as such blocks."""
    fenced = re.findall(r"(?ms)^```([^\n]*)\n(.*?)^```$", readme)
    for text, form, date in re.findall(r"(?m)^\| `([^`]*)` \| `([^`]*)` \| (\d{4}-\d\d-\d\d) \|", readme):
        fenced += [("sh", f"printf '%s\\n' '{form}' '{text}' | date_lines | cut -d ' ' -f 3\n"), ("text", f"date\n{date}\n")]
    return fenced


def long_list(folder):
    """A list of more than 32,768 bytes, and what its report says of each text, by Python's datetime."""
    days = [datetime.date(1901, 1, 1) + datetime.timedelta(days=9 * i) for i in range(5000)]
    texts = [day.strftime("%d %b %Y") for day in days]
    with open(os.path.join(folder, "long_list.txt"), "w", encoding="ascii") as file:
        file.write("\n".join(["%d %b %Y", *texts, ""]))
    return "".join("0 11 %s --:--:--\n" % day for day in days)


def main(programs, prefix):
    failed = count = 0
    library = os.path.join(os.path.abspath(prefix), "lib")
    with open(os.path.join(ROOT, "README.md"), encoding="utf-8") as file:
        found = blocks(file.read())
    with tempfile.TemporaryDirectory() as folder:
        shutil.copytree(EXAMPLES, folder, dirs_exist_ok=True)
        expected_report = long_list(folder)
        env = dict(os.environ, PATH=os.path.abspath(programs) + ":" + os.environ["PATH"], LC_ALL="C")
        env.update(PKG_CONFIG_PATH=os.path.join(library, "pkgconfig"), LD_LIBRARY_PATH=library)
        for (kind, text), (next_kind, expected) in zip(found, found[1:] + [("", "")]):
            words = kind.split()
            if len(words) == 2 and words[0] in ("text", "c"):
                with open(os.path.join(EXAMPLES, words[1]), encoding="utf-8") as file:
                    right, written = text == file.read(), "another file"
            elif kind == "rust":
                with open(os.path.join(ROOT, "bindings", "rust", "README.md"), encoding="utf-8") as file:
                    right, written = (kind, text) in blocks(file.read()), "no block of bindings/rust/README.md"
            elif kind == "sh" and next_kind == "text":
                shell = ["bash", "-euo", "pipefail", "-c", text]
                run = subprocess.run(shell, cwd=folder, env=env, capture_output=True, text=True, check=False)
                written = run.stdout + run.stderr
                right = written == expected and run.returncode == 0
            elif kind == "text":
                continue
            else:
                right, written = False, "nothing: no block of this kind is run"
            count += 1
            failed += not right
            if not right:
                print(f"README's block\n{text}gives\n{written}")
        with open(os.path.join(folder, "report.txt"), encoding="ascii") as file:
            if file.read() != expected_report:
                failed += 1
                print("the report on the long list is not what it should be")
    print(f"{count} examples of README tried, {failed} not as they should be")
    return 1 if failed or not count else 0


if __name__ == "__main__":
    if len(sys.argv) != 3:
        sys.exit("usage: python3 tests/readme.py FOLDER PREFIX")
    sys.exit(main(*sys.argv[1:]))
