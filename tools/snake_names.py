#!/usr/bin/env python3
"""Brings the names of definitions and lemmas to snake case, after port.py has run: `aWord-bWord` becomes `a_word-b_word`.

usage: python3 tools/snake_names.py      at the top of the repository

It goes over every .rt and .antt file of crates/. A name that would fall together with another one gets its new name first (APART): a lemma with a
function's or a definition's name ends in `_lem`, and rules' lines held by a tracker are `lines_held_by`, beside line's word `held_by`.
No Rust name changes, since none is in camel case.
"""

import os
import re

TOKEN = re.compile(r"[A-Za-z_][\w'\-]*")

# (name, new name, crates, also behind a dot)
APART = [
    ("held_by", "lines_held_by", None, False),
    ("rows_fit", "rows_fit_lem", ("rules", "turn", "cache", "demands", "flat", "session"), True),
    ("rows_fit", "rows_fit_lem", ("placing", "leaf", "step", "own"), False),
    ("by_tags", "by_tags_lem", ("flat",), False),
    ("flat_step", "flat_step_lem", ("flat",), False),
    ("goes_to", "goes_to_lem", ("flat",), False),
    ("below_top", "below_top_lem", ("flat",), False),
    ("new_line", "new_line_lem", ("script",), False),
    ("step_line", "step_line_lem", ("script",), False),
    ("version_of", "version_of_lem", ("archive",), False),
    ("limits_of", "limits_of_lem", ("own",), False),
    ("is_true", "is_true_lem", ("demands", "memory"), False),
    ("in_two", "in_two_lem", ("model",), False),
]


def snake(name):
    def part(p):
        if not re.match(r"[a-z_]", p):
            return p
        return re.sub(r"(?<=[a-z0-9'])([A-Z]+)", lambda m: "_" + m.group(1).lower(), p)

    return "-".join(part(p) for p in name.split("-"))


def turn(path, crate):
    with open(path, encoding="utf-8") as f:
        text = f.read()
    old = text
    if path.endswith(".antt"):
        for name, new, crates, dotted in APART:
            if crates is None or crate in crates:
                before = r"(?<![\w'`-])" if dotted else r"(?<![.\w'`-])"
                text = re.sub(before + re.escape(name) + r"(?![\w'-])(?!\.\{)", new, text)
    text = TOKEN.sub(lambda m: snake(m.group(0)), text)
    if text != old:
        with open(path, "w", encoding="utf-8") as f:
            f.write(text)


def main():
    for folder, dirs, files in os.walk("crates"):
        dirs[:] = sorted(d for d in dirs if d != "out")
        for name in sorted(files):
            if name.endswith((".rt", ".antt")):
                path = os.path.join(folder, name)
                turn(path, path.split(os.sep)[1])


main()
