#!/usr/bin/env python3
"""Spells the names of this repository's definitions and lemmas as today's Rattle spells its own: words in snake case.

usage: python3 tools/respell.py [--dry]      at the top, once, after /opt/rattle/port/port.py

It takes each name that a file of specs/ or proofs/ declares and that has a dash or a capital inside: soilHeat becomes soil_heat, nonneg-add
nonneg_add, fromℤ from_ℤ. Types, modules and operators keep their names, a dash before an operator's sign stays (+ℤ-*ℤ), and so does what Rust
declares. Names that Rattle makes of the code (Need-returns, c.if-x.taken) are not the repository's. A name that a file imports from a library is
left alone there. In .rt files, in must-fail edits and in the pages the same names are turned; in comments and pages only between backticks or in
blocks. It prints names that fall together, and clauses in which a name of the code would hide a definition.
"""

import glob
import os
import re
import sys

DRY = "--dry" in sys.argv
NAME = r'[^\s(){}.;,@"«»`|]+'
DECLARED = re.compile(r"^ *(?:(?:pattern|unfoldable|abbrev|pub|axiom) )*(" + NAME + r"(?: " + NAME + r")*)(?: \{[^{}\n]*\})* :(?= |$)", re.M)
CHOSEN = {
    "denominator-1": "denominator_minus_1",
    "product-1": "product_minus_1",
    # Lemmas that would have their function's name.
    "after_last": "after_last_lem",
    "arc-sums": "arc_sums_lem",
    "block-in-turn": "block_in_turn_lem",
    "days-before": "days_before_lem",
    "figure-as": "figure_as_lem",
    "first-year": "first_year_lem",
    "found-by": "found_by_lem",
    "good-date": "good_date_lem",
    "good-day": "good_day_lem",
    "if-present": "if_present_lem",
    "in-range": "in_range_lem",
    "is-month": "is_month_lem",
    "last-year": "last_year_lem",
    "limited-station": "limited_station_lem",
    "line-room": "line_room_lem",
    "lines-in-turn": "lines_in_turn_lem",
    "lines-most": "lines_most_lem",
    "no-day": "no_day_lem",
    "outcome-of": "outcome_of_lem",
    "read-without": "read_without_lem",
    "read_back": "read_back_lem",
    "sea-level": "sea_level_lem",
    "share-figure": "share_figure_lem",
    "two-codes": "two_codes_lem",
    "two_blocks": "two_blocks_lem",
    "verdict-said": "verdict_said_lem",
    "with-mean": "with_mean_lem",
}
SIGN = re.compile(r"[^\w\s]")


def spelled(name):
    if name in CHOSEN:
        return CHOSEN[name]
    if "◌" in name or name[:1].isupper() and "-" not in name:
        return name
    head, dash, _ = name.partition("-")
    parts = name.split("-")
    out = ""
    for i, part in enumerate(parts):
        words = re.sub(r"(?<=[a-z0-9])[A-Z]", lambda m: "_" + m[0].lower(), part)
        words = re.sub(r"(?<=[a-z])(?=[ℕℤℚ])", "_", words)
        if i:
            out += "-" if not part or SIGN.match(part) or not parts[i - 1] else "_"
        out += words
    return out


def texts(*patterns):
    found = []
    for pattern in patterns:
        found += [f for f in glob.glob(pattern, recursive=True) if "/out/" not in f and os.path.isfile(f)]
    return sorted(set(found))


def read(path):
    with open(path, encoding="utf-8") as f:
        return f.read()


def is_of_function(path):
    """Whether the file is the proof of one function, in a folder of its own."""
    return bool(re.search(r"/proofs/.+/[^/]+\.antt$", path))


ANTT = texts("crates/*/specs/**/*.antt", "crates/*/proofs/**/*.antt")
OWN = {os.path.basename(os.path.dirname(c)) for c in glob.glob("crates/*/")}


def declared(path):
    names = set()
    for m in DECLARED.finditer(re.sub(r"--.*", "", read(path))):
        names.update(m[1].split(" "))
    return names


USE = re.compile(r"^ *(?:ghost |pub )?use ([^\s;{]+?)(?:\.\{([^}]*)\})?(?: as (\S+))?;?$", re.M)


def from_libraries(text):
    """What a file imports from a library."""
    names = set()
    for m in USE.finditer(text):
        steps = m[1].split(".")
        if steps[0] == "Rattle" and steps[1] in OWN:
            continue
        if m[2]:
            names.update(it.strip().split(" as ")[-1] for it in m[2].split(","))
    return names


def imported(text):
    names = set()
    for m in USE.finditer(text):
        if m[2]:
            names.update(it.strip().split(" as ")[-1] for it in m[2].split(","))
    return names


everywhere, local = {}, {}
for path in ANTT:
    text = read(path)
    for name in declared(path):
        new = spelled(name)
        if new == name:
            continue
        if name in CHOSEN and is_of_function(path):
            continue
        if is_of_function(path):
            # A name that Rattle makes, and its answer.
            if re.search(r"(?:tie|goal)\.(?:Need-)?" + re.escape(name) + r"(?![\w'-])", text) or name.endswith("-spec") or name.startswith(("μ-", "returns-", "invariant-", "decreases-")):
                continue
            local.setdefault(path, {})[name] = new
        else:
            everywhere[name] = new

all_declared = set()
for path in ANTT:
    if not is_of_function(path):
        all_declared |= declared(path)

# ---- names that fall together

said = []
by_new = {}
for name, new in everywhere.items():
    by_new.setdefault(new, set()).add(name)
for new, names in sorted(by_new.items()):
    if new in all_declared - set(everywhere):
        names = names | {new}
    if len(names) > 1:
        said.append(f"together: {new}: {', '.join(sorted(names))}")


def mapping(path, text):
    lib = from_libraries(text)
    own = {name: new for name, new in everywhere.items() if name not in lib}
    own.update(local.get(path, {}))
    return own


# Names of a library are plain text there: a token that follows one of these is Rattle's own.
MADE = re.compile(r"(?:\b(?:tie|goal)\.)$")
TOKEN = re.compile(NAME)


def turned(text, names):
    def one(m):
        if m[0] in names and not MADE.search(text, max(0, m.start() - 6), m.start()):
            return names[m[0]]
        return m[0]

    return TOKEN.sub(one, text)


def in_ticks(text, names):
    return re.sub(r"`[^`\n]*`", lambda m: turned(m[0], names), text)


def turned_lines(text, names, comment):
    out = []
    for line in text.split("\n"):
        m = re.search(r"(?:^|\s)" + comment + r"(?:\s|$)", line)
        at = m.start() if m else len(line)
        out.append(turned(line[:at], names) + in_ticks(line[at:], names))
    return "\n".join(out)


def write(path, old, new):
    if new != old and not DRY:
        with open(path, "w", encoding="utf-8") as f:
            f.write(new)
    return new != old


count = 0
for path in ANTT:
    text = read(path)
    names = mapping(path, text)
    clash = {new for name, new in names.items() if re.search(r"(?<![\w'-])" + re.escape(name) + r"(?![\w'-])", text)} & from_libraries(text)
    said += [f"library: {path}: {it}" for it in sorted(clash)]
    count += write(path, text, turned_lines(text, names, "--"))

RUST = re.compile(r"(?:\b(?:let|mut|const|static|struct|enum|type) (\w+))|(?<![:.\w])(\w+):(?!:)")
for path in texts("crates/*/src/**/*.rt"):
    text = read(path)
    names = mapping(path, text)
    new = turned_lines(text, names, "//")
    have = {a or b for a, b in RUST.findall(re.sub(r"//.*", "", text))}
    hidden = {names.get(it, it) for it in imported(text)} & have
    said += [f"hidden: {path}: {it}" for it in sorted(hidden)]
    count += write(path, text, new)

for path in texts("crates/*/must-fail/*.edit"):
    text = read(path)
    out = []
    for line in text.split("\n"):
        out.append(turned(line, everywhere) if line.startswith(("old: ", "new: ")) else in_ticks(line, everywhere))
    count += write(path, text, "\n".join(out))

for path in texts("*.md", "docs/**/*.md"):
    text = read(path)
    out, block = [], False
    for line in text.split("\n"):
        if line.lstrip().startswith("```"):
            block = not block
        is_block = block or line.startswith("    ")
        out.append(turned(line, everywhere) if is_block else in_ticks(line, everywhere))
    count += write(path, text, "\n".join(out))

print("\n".join(said))
print(f"respell: {len(everywhere)} names, {sum(len(v) for v in local.values())} of single proofs, {count} files, {len(said)} to look at")
