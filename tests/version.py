#!/usr/bin/env python3
"""Checks that the version is the same everywhere: python3 tests/version.py FOLDER

crates/version/src/lib.rt says it; the Rust manifests, the newest entry of CHANGELOG.md and the programs in the folder must agree. (The
library's own word for it is compared with the manifest by the Rust crate's tests; pkg-config file and manual pages take it from there.)
"""
import os
import re
import subprocess
import sys

ROOT = os.path.dirname(os.path.dirname(os.path.abspath(__file__)))
PROGRAMS = ["date_lines", "quarrels", "week_counts"]


def found(path, pattern):
    with open(os.path.join(ROOT, path), encoding="utf-8") as file:
        match = re.search(pattern, file.read(), re.MULTILINE)
    return match.group(1) if match else f"no version in {path}"


def said_by(program):
    said = subprocess.run([program, "--version"], capture_output=True, text=True, check=True).stdout
    return said.removeprefix(os.path.basename(program) + " ").strip()


def main(folder):
    source = "crates/version/src/lib.rt"
    version = ".".join(found(source, rf"^pub const {part}: u32 = (\d+);$") for part in ["MAJOR", "MINOR", "PATCH"])
    others = {
        **{path: found(path, r'^version = "(.*)"$') for path in ["bindings/rust/Cargo.toml", "compare/Cargo.toml"]},
        "CHANGELOG.md": found("CHANGELOG.md", r"^## (\S+)"),
        **{f"{name} --version": said_by(os.path.join(folder, name)) for name in PROGRAMS},
    }
    wrong = {place: said for place, said in others.items() if said != version}
    for place, said in wrong.items():
        print(f"{place}: {said}, where {source} says {version}")
    print(f"version {version}, {len(wrong)} places say another")
    return 1 if wrong else 0


if __name__ == "__main__":
    if len(sys.argv) != 2:
        sys.exit("usage: python3 tests/version.py FOLDER")
    sys.exit(main(sys.argv[1]))
