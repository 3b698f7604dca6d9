#!/usr/bin/env python3
"""Brings the names of this repository's own definitions and lemmas to today's spelling: snake case.

usage: python3 tools/names.py [--list] [TOP]

A name that an .antt file of crates/ declares in camel case from a small letter (statusAs) or with dashes (near-half) becomes
status_as and near_half, and a prime (′) an apostrophe, wherever it stands as a word: in .antt files, in the ghost parts of .rt
files and in must-fail edits. Types and modules, which begin with a capital, stay. So does a name that some file imports from the
library, the name of a goal, and a name that stands beside one of its new spelling already (these are listed). Functions of src/,
exported names and strings have no such names. A second run finds nothing.
"""
import glob
import os
import re
import sys

# what a token of antt is made of
WORD = re.compile(r"[\w'′-]+")
DECLARED = re.compile(r"^\s*(?:(?:pub|abbrev|unfoldable|opaque)\s+)*([a-z][\w'′-]*)((?:\s+[a-z][\w'′-]*)*)\s*:(?!=)\s*(.*)$")
IMPORT = re.compile(r"^(?:ghost )?use ([\w.'+-]+)\.\{(.*?)\}", re.M | re.S)

# names that fall together with another of the new spelling, or with a word of the library: what each becomes instead
APART = {
    "events-given": "events_given_lem", "events-of": "events_of_lem", "events-said": "events_said_lem",
    "m-of": "m_of_lem", "packed-word": "packed_word_lem", "plan-status": "plan_status_lem",
    "sampled-under": "sampled_under_lem", "sheets-given": "sheets_given_lem", "sheets-held": "sheets_held_lem",
    "sheets-of": "sheets_of_lem", "sheets-said": "sheets_said_lem", "signal-at": "signal_at_lem",
    "signal-read": "signal_read_lem", "span-in": "span_in_lem", "stop-in": "stop_in_lem",
    "stored-under": "stored_under_lem", "tally-area": "tally_area_lem", "tally-in": "tally_in_lem",
    "tally-within": "tally_within_lem", "day-before": "day_before_lem", "in-term": "in_term_lem",
    "last-day": "last_day_lem", "leap-day": "leap_day_lem", "loaded-within": "loaded_within_lem",
    "next-day": "next_day_lem", "serving-days": "serving_days_lem", "sheets-fit": "sheets_fit_lem",
    "flat-map": "flat_map_lem", "in-float": "in_float_lem", "by-kind": "by_kind_lem",
}


def spelled(name):
    if name in APART:
        return APART[name]
    name = name.replace("′", "'")
    name = re.sub(r"(?<=[a-z0-9])([A-Z])", lambda m: "_" + m.group(1).lower(), name)
    name = name.replace("-", "_")
    return name


def declared(text):
    for line in text.split("\n"):
        m = DECLARED.match(line)
        if m and not m.group(3).startswith(("tie.", "goal.")):
            yield m.group(1)
            for more in m.group(2).split():
                yield more


def files(top, *patterns):
    for pattern in patterns:
        for path in sorted(glob.glob(os.path.join(top, "crates", "*", pattern), recursive=True)):
            yield path


def main(argv):
    listing = "--list" in argv
    rest = [a for a in argv if not a.startswith("--")]
    top = rest[0] if rest else "."
    texts = {}
    for path in files(top, "specs/**/*.antt", "proofs/**/*.antt"):
        texts[path] = open(path, encoding="utf-8").read()
    own, library, goals, words = set(), set(), set(), set()
    for path, text in texts.items():
        code = "\n".join(line for line in text.split("\n") if not line.lstrip().startswith("--"))
        own.update(declared(code))
        words.update(WORD.findall(code))
        for line in code.split("\n"):
            m = DECLARED.match(line)
            if m and m.group(3).startswith(("tie.", "goal.")):
                goals.add(m.group(1))
        for module, names in IMPORT.findall(code):
            if not module.startswith("Rattle.") or re.match(r"Rattle\.(std|core|io|os|libc|bytes)\b", module):
                for n in names.split(","):
                    library.add(n.split(" as ")[0].strip())
    turn = {}
    for name in sorted(own):
        new = spelled(name)
        if new == name:
            continue
        if name in library:
            print(f"stays: {name}: a name of the library")
        elif name in goals:
            print(f"stays: {name}: the name of a goal")
        else:
            turn[name] = new
    seen = {}
    for name, new in sorted(turn.items()):
        if new in words or new in seen:
            print(f"together: {name} and {new}{' of ' + seen[new] if new in seen else ''}")
        seen[new] = name
    if listing:
        for name, new in sorted(turn.items()):
            print(f"{name}\t{new}")
        return 0

    def respell(text):
        # a step of a function's proof has its function's name
        def one(m):
            word = m.group(0)
            if word in APART and text[max(m.start() - 2, 0):m.start()].strip()[-1:] == ".":
                return word.replace("-", "_")
            return turn.get(word, word)

        return WORD.sub(one, text)

    changed = 0
    for path in list(texts) + list(files(top, "src/**/*.rt", "must-fail/*.edit")):
        text = open(path, encoding="utf-8").read()
        if path.endswith(".rt"):
            new = "\n".join(line if line.lstrip().startswith("//") else respell(line) for line in text.split("\n"))
        else:
            new = respell(text)
        if new != text:
            changed += 1
            with open(path, "w", encoding="utf-8") as f:
                f.write(new)
    print(f"names: {len(turn)} names in {changed} files")
    return 0


if __name__ == "__main__":
    raise SystemExit(main(sys.argv[1:]))
