#!/usr/bin/env python3
"""Counts the places of src/ that docs/DESIGN-PASS.md speaks of, by its points 1 to 7. Words in it are patterns of text and not a verdict.

usage: python3 tools/places.py [FOLDER] [--list]

FOLDER is the top of a checkout (else the one that this file is in). --list prints each place too.
"""

import os
import re
import sys

arguments = [a for a in sys.argv[1:] if a != "--list"]
TOP = arguments[0] if arguments else os.path.join(os.path.dirname(os.path.realpath(__file__)), "..")
CRATES = os.path.join(TOP, "crates")

HEADINGS = {
    "1a": "enums with a variant for none or for a refusal",
    "1b": "lines with the number of a refusal or of a status, or with a name for it as a number",
    "1c": "constants that number a kind, a text or a command",
    "1d": "structs of a value with a flag beside it, or with the place to go on from",
    "2a": "functions with one and the same body",
    "2b": "functions that copy elements one by one",
    "3": "lines that step a counter of a loop by one",
    "3w": "loops with while or loop, whatever they count",
    "4a": "functions that give a bool by arms or returns of true and false",
    "4b": "locals that copy a field under its own name",
    "4c": "lines of a struct that take a field from another struct under its own name",
    "4d": "functions that compare, convert or print one value by hand",
    "5a": "functions of six or more parameters",
    "5b": "facts that three or more functions require",
    "6": "structs of an array and a count",
    "7": "enums and numbers that say which step to run",
}

NONE = re.compile(r"^    (Refused|Refuses|Refusal|Nothing|None|Other|NoFit|Never|Unknown\w*|NotDecodable|Malformed)\b", re.M)
REFUSAL = re.compile(r"\bnumber: (u16\b(?=.*(place|\}))|\d+)|\bRefuse[ds]\((u16|\d+)\)|\brefused(_at)?\(\S*?\d+|\bfn (put_refusal|refused\w*)\(.*number: u16")
NUMBERED = re.compile(r"fn \w*(fault|status)\w*\([^{]*?\) -> u(16|64)\n.*?^\}", re.M | re.S)
KIND = re.compile(r"^(?:pub |pub\(crate\) )?const ([A-Z0-9_]+): (?:u16|u64|usize) = (?:0x[0-9A-F_]+|\d+);", re.M)
SIZES = re.compile(r"WORD|DIGIT|CAPACITY|BYTES|LEVELS|WIDTH|FRAMES|REGISTER|RECORDS|ROUNDS|NAME|REFUSED$|NUMBERS|CAP$|BUFFER|POWERS|HEADER|ENTRIES|ONES|NAN|LINE_FEED")
FACTS = [
    (r"\bAccepted\b", "the catalog is accepted"),
    (r"\bIsTable\b", "the table has 65,536 registers"),
    (r"\bParsesAt\b", "a model's frames begin here"),
    (r"\bPatternOf\b", "the raw value is a pattern of the row's type"),
    (r"length [\w.]*path\.instances ≡ 3|instances\) ≡ 3|instances ≡ 3", "the path has three numbers"),
    (r"opening map\.now ≡ none", "the map opens"),
    (r"\w < length catalog\.now / 8", "the catalog has the frame"),
]
FUNCTION = re.compile(r"^( *)(?:pub |pub\(crate\) )?fn (\w+)(?:<[^>]*>)?\(([^{]*?)\)( -> [^\n{]*?)?\s*((?:\n +(?:requires|ensures|[^\n]*\}$)[^\n]*)*)\s*\{\n(.*?)^\1\}", re.M | re.S)

places = {heading: [] for heading in HEADINGS}
bodies, required = {}, {}


def place(heading, file, text, at, what):
    places[heading].append(f"{file}:{text.count(chr(10), 0, at) + 1}: {' '.join(what.split())[:100]}")


def read(file, text):
    for m in re.finditer(r"^(?:pub |pub\(crate\) )?(enum|struct) (\w+)[^;{]*\{\n(.*?)^\}", text, re.M | re.S):
        kind, name, body = m.groups()
        if kind == "enum" and NONE.search(body) and " = 1," not in body:
            place("1a", file, text, m.start(), f"{name}: {', '.join(NONE.findall(body))}")
        fields = dict(re.findall(r"^    (?:pub(?:\(crate\))? )?(\w+): (.*),$", body, re.M))
        if kind == "struct" and (fields.get("next") == "usize" and file.startswith("probe") or "is_whole" in fields):
            place("1d", file, text, m.start(), name)
        if "count" in fields and any(t.startswith("[") for t in fields.values()):
            place("6", file, text, m.start(), name)
        if kind == "enum" and re.fullmatch(r"(    \w+,\n){2}", body) and re.search(rf"\bmatch {name.lower()} \{{", text):
            place("7", file, text, m.start(), name)
    for m in FUNCTION.finditer(text):
        _, name, parameters, result, contract, body = m.groups()
        flat = " ".join(body.split())
        count = len([p for p in re.split(r",(?![^<(\[]*[>)\]])", parameters) if p.strip() and not p.strip().endswith("self")])
        if count >= 6:
            place("5a", file, text, m.start(), f"{name}, {count}")
        for pattern, fact in FACTS:
            if re.search(r"requires[^\n]*(" + pattern + ")", contract):
                required.setdefault(fact, []).append(f"{file}: {name}")
        if re.search(r"\w+\[[^\]]+\] = \(?\w+\[[^\]]+\]", flat) and "while" in flat:
            place("2b", file, text, m.start(), name)
        if result and result.strip() == "-> bool" and re.search(r"(=>|return) (true|false)\b|\n    (true|false)\n", body):
            place("4a", file, text, m.start(), name)
        if re.fullmatch(r"presence_of|hex4|hex8|hex_glyph|signed|wide|equal_if|is_accumulator|is_value_class|decimal_digit|hex_digit", name):
            place("4d", file, text, m.start(), name)
        if name in ("say", "say_part", "word_of") and ("number: usize" in parameters or "bars" in parameters or "word << 8" in flat):
            place("7", file, text, m.start(), name)
        if len(flat) > 12:
            bodies.setdefault(flat, []).append(f"{file}: {name}")
    for m in NUMBERED.finditer(text):
        for line in re.finditer(r"return \d+;|^    \d+$|=> \d+,", m.group(0), re.M):
            place("1b", file, text, m.start() + line.start(), line.group(0))
    for m in KIND.finditer(text):
        if not SIZES.search(m.group(1)):
            place("1c", file, text, m.start(), m.group(0))
    at = 0
    for line in text.split("\n"):
        code = line.split("//")[0]
        if REFUSAL.search(code) and not file.startswith("refusals"):
            place("1b", file, text, at, code)
        if re.match(r" +[\w.]+ (\+|-)= 1;", code):
            place("3", file, text, at, code)
        if re.match(r" +(while|loop)\b", code):
            place("3w", file, text, at, code)
        if re.match(r" +let (\w+) = \w+\.\1;", code):
            place("4b", file, text, at, code)
        if re.match(r" +(\w+): \w+\.\1,$", code):
            place("4c", file, text, at, code)
        at += len(line) + 1


for folder, _, names in sorted(os.walk(CRATES)):
    for name in sorted(names):
        path = os.path.relpath(os.path.join(folder, name), CRATES)
        if name.endswith(".rt") and path.split(os.sep)[1] == "src":
            with open(os.path.join(folder, name), encoding="utf-8") as f:
                read(path, f.read())
for where in bodies.values():
    if len(where) > 1:
        places["2a"].append("; ".join(where))
for fact, where in required.items():
    if len(where) >= 3:
        places["5b"].append(f"{fact}: {len(where)} functions")

for heading, what in HEADINGS.items():
    print(f"{heading:3} {len(places[heading]):3} {what}")
    if "--list" in sys.argv:
        for row in places[heading]:
            print(f"          {row}")
