#!/usr/bin/env python3
"""Counts the places in crates/*/src that docs/DESIGN-PASS.md speaks of, point by point, in a commit or in the files as they stand.

    tools/places.py [COMMIT] [--list POINT]

Each point has named rules; a rule is a pattern over lines, or a comparison of functions. What a rule finds is a place to look at, and not
yet a fault: the page says of each what became of it.
"""
import re
import subprocess
import sys

# A rule over lines: a point, what it looks for, and the pattern.
LINES = [
    (1, "a variant for nothing or for a refusal", r"^    (Nothing|Refused|Empty|Untold|Unset|Malformed|BelowZero|Value|Found)\b.*,$"),
    (1, "a number for a refusal or a status", r"\bRefused\(u8\)|\bstatus: u8|-> u8\b|\bnumber: u8"),
    (1, "a number for a kind", r"\bkind: u8|\bmatch kind\b|event_with\(\d|accepted\(a, \d"),
    (1, "0 for none", r"return 0;|== 0 \{$"),
    (3, "a counted loop", r"^\s*while |^\s*for \w+ in 0\.\."),
    (4, "a cast", r" as (u8|u16|u32|u64|usize|i8|i16|i32|i64|f64)\b"),
    (4, "a comparison or an operation by a call", r"\b(below_zero|below|above|at_least|sum|difference|product|negative|positive|magnitude|wide|size|non_negative)\("),
    (4, "printing by a function", r"\bfn print_\w+"),
    (6, "an array with a length beside it", r"\[\w+; \d+\], \w+: usize|\[\w+; \d+\],$"),
    (6, "a buffer with a position beside it", r"out: &mut \[u8\],( at: usize|$)"),
    (7, "a match on what is to be done", r"\bmatch (form|output|part|sought|self\.form|chart)\b"),
]


def files(commit):
    """The .rt files of crates/*/src, as pairs of path and text."""
    if commit:
        names = subprocess.run(["git", "ls-tree", "-r", "--name-only", commit, "crates"], capture_output=True, text=True, check=True).stdout.split()
        names = [n for n in names if re.match(r"crates/\w+/src/.*\.rt$", n)]
        return [(n, subprocess.run(["git", "show", f"{commit}:{n}"], capture_output=True, text=True, check=True).stdout) for n in names]
    names = subprocess.run(["git", "ls-files", "-co", "--exclude-standard", "crates"], capture_output=True, text=True, check=True).stdout.split()
    return [(n, open(n).read()) for n in sorted(names) if re.match(r"crates/\w+/src/.*\.rt$", n)]


def functions(path, text):
    """The functions of a file: name, place, parameters, requires clauses and body."""
    for m in re.finditer(r"^( *)(?:pub(?:\(crate\))? )?(?:extern \"C\" )?(?:const )?fn (\w+)", text, re.M):
        end = text.find("\n" + m.group(1) + "}\n", m.start())
        whole = text[m.start():end if end > 0 else len(text)]
        head, _, body = whole.partition("\n" + m.group(1) + "{\n")
        if not body:
            head, _, body = whole.partition("{\n")
        line = text[:m.start()].count("\n") + 1
        yield m.group(2), f"{path}:{line}", head, body


def twins(all_functions):
    """Groups of functions whose bodies are the same but for names, types and numbers."""
    groups = {}
    for name, place, head, body in all_functions:
        code = re.sub(r"//.*", "", body)
        tokens = re.findall(r"\w+|[^\s\w]", code)
        shape = []
        for t in tokens:
            if re.fullmatch(r"\d\w*", t):
                shape.append("0")
            elif t in ("if", "else", "match", "let", "return", "while", "for", "in", "mut", "as", "true", "false"):
                shape.append(t)
            elif re.fullmatch(r"[A-Z]\w*", t):
                shape.append("T")
            elif re.fullmatch(r"\w+", t):
                shape.append("x")
            else:
                shape.append(t)
        if len(shape) >= 16:
            groups.setdefault(" ".join(shape), []).append((name, place))
    return [g for g in groups.values() if len(g) > 1]


def facts(all_functions):
    """Facts that three or more functions ask, by their shape."""
    count = {}
    for name, place, head, body in all_functions:
        for clause in re.findall(r"requires(?: \w+)? \{(.*)\}", head):
            for fact in clause.split("×"):
                fact = re.sub(r"^[\s(]+|[\s)]+$", "", fact)
                shape = re.sub(r"\b[a-z]\w*\.(now|old)\b", r"_.\1", fact)
                shape = re.sub(r"\b\d+\b", "0", shape)
                count.setdefault(shape, set()).add((name, place))
    return [(shape, sorted(who)) for shape, who in count.items() if len(who) >= 3]


def together(all_functions):
    """Three or more parameters, with their types, that three or more functions have."""
    sets = {}
    for name, place, head, body in all_functions:
        m = re.search(r"fn \w+(?:<[^>]*>)?\((.*?)\)\s*(?:->|\n|$|requires|ensures)", head, re.S)
        ps = re.findall(r"(\w+): (&?(?:mut )?[\w\[\]; <>&']+)", m.group(1)) if m else []
        for i in range(len(ps)):
            for j in range(i + 3, len(ps) + 1):
                sets.setdefault(tuple(ps[i:j]), set()).add((name, place))
    found = {k: v for k, v in sets.items() if len(v) >= 3}
    return [(k, sorted(v)) for k, v in found.items() if not any(set(k) < set(o) and v <= found[o] for o in found)]


def places(commit):
    sources = files(commit)
    found = {}
    for path, text in sources:
        for n, line in enumerate(text.split("\n"), 1):
            if line.strip().startswith("//") or line.startswith("ghost use"):
                continue
            for point, what, pattern in LINES:
                if re.search(pattern, line):
                    found.setdefault((point, what), []).append(f"{path}:{n}: {line.strip()}")
    every = [f for path, text in sources for f in functions(path, text)]
    found[(2, "functions alike but for names, types and numbers")] = [" = ".join(f"{n} ({p})" for n, p in g) for g in twins(every)]
    found[(5, "a fact that three functions ask")] = [f"{shape}: {len(who)}" for shape, who in facts(every)]
    found[(5, "parameters of three functions")] = [", ".join(f"{n}: {t}" for n, t in k) + f": {len(who)}" for k, who in together(every)]
    for point, what, _ in LINES:
        found.setdefault((point, what), [])
    return found


def main():
    args = sys.argv[1:]
    wanted = None
    if "--list" in args:
        i = args.index("--list")
        wanted = int(args[i + 1])
        del args[i:i + 2]
    for (point, what), where in sorted(places(args[0] if args else None).items()):
        print(f"{point} {what}: {len(where)}")
        if wanted == point:
            for w in where:
                print(f"    {w}")


if __name__ == "__main__":
    main()
