"""Groups of functions in crates/*/src that are alike but for names, types, numbers and letters: candidates for one generic function.

usage: python3 tools/twins.py [LEAST]   LEAST: how many words a body has at least (default 4)
"""
import glob
import re
import sys

WORD = re.compile(r"[A-Za-z_][A-Za-z0-9_]*!?|b'(?:\\.|[^'])'|b?\"(?:\\.|[^\"])*\"|[0-9][0-9_]*|::|[^\sA-Za-z0-9_]")
KEPT = {"if", "else", "match", "return", "let", "mut", "while", "loop", "for", "in", "as", "self", "Self", "true", "false", "not"}


def functions(text):
    """Each function of a file: its name and its body, found by its braces."""
    for found in re.finditer(r"(?m)^\s*(?:#\[[^\n]*\n\s*)*(?:pub(?:\(crate\))? )?(?:extern \"C\" )?fn (\w+)", text):
        start = re.compile(r"(?m)^\s*\{$|\) \{$|[^}] \{\s*$|^\{").search(text, found.end())
        if not start:
            continue
        at = text.index("{", start.start())
        depth, end = 0, at
        for end in range(at, len(text)):
            depth += {"{": 1, "}": -1}.get(text[end], 0)
            if depth == 0:
                break
        yield found.group(1), re.sub(r"//[^\n]*", "", text[at:end + 1])


def shape(body):
    """The body with each name, number and letter replaced by one sign."""
    words = WORD.findall(body)
    return tuple(w if w in KEPT or not re.match(r"[A-Za-z_0-9b\"]", w) else "x" for w in words)


def main():
    least = int(sys.argv[1]) if len(sys.argv) > 1 else 4
    groups = {}
    for path in sorted(glob.glob("crates/*/src/**/*.rt", recursive=True)):
        for name, body in functions(open(path, encoding="utf-8").read()):
            key = shape(body)
            if sum(w == "x" for w in key) >= least:
                groups.setdefault(key, []).append(path.removeprefix("crates/") + ": " + name)
    twins = [g for g in groups.values() if len(g) > 1]
    for group in twins:
        print("; ".join(group))
    print(len(twins), "groups,", sum(map(len, twins)), "functions")


main()
