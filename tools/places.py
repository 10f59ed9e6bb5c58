#!/usr/bin/env python3
"""Counts the places that docs/DESIGN-PASS.md speaks of, in the sources of the library and its programs.

    tools/places.py [-v] [COMMIT]     of the files as they stand, or of a commit; -v prints each place

What a pattern finds is a place to look at. The page says which were changed, and each that is kept has its reason beside it.
"""
import collections
import re
import subprocess
import sys

VERBOSE = "-v" in sys.argv
COMMIT = next((a for a in sys.argv[1:] if a != "-v"), None)


def git(*words):
    return subprocess.run(["git", *words], capture_output=True, text=True, check=True).stdout


def sources():
    if COMMIT:
        names = git("ls-tree", "-r", "--name-only", COMMIT, "crates").split()
        return {n: git("show", f"{COMMIT}:{n}") for n in names if re.fullmatch(r"crates/\w+/src/.*\.rt", n)}
    names = git("ls-files", "-co", "--exclude-standard", "crates").split()
    return {n: open(n, encoding="utf-8").read() for n in names if re.fullmatch(r"crates/\w+/src/.*\.rt", n)}


FILES = sources()
FUNCTION = re.compile(
    r"^( *)(?:pub(?:\(crate\))? )?(?:extern \"C\" )?fn (\w+)(?:<[^(]*>)?\(([^{}]*?)\)(?: -> ([^\n{]*?))?\s*\n((?: +(?:requires|ensures|decreases)[^\n]*\n)*)\1\{\n(.*?)^\1\}$",
    re.M | re.S,
)
FOUND = collections.defaultdict(list)


def note(point, name, text, at):
    FOUND[point].append(f"{name}:{text.count(chr(10), 0, at) + 1}")


def lines(point, pattern):
    for name, text in FILES.items():
        for m in re.finditer(pattern, text, re.M):
            note(point, name, text, m.start())


FUNCTIONS = [(name, text, m) for name, text in FILES.items() for m in FUNCTION.finditer(text)]

# 1. Own enums of the shape of Option or Result: two or three variants, one of which has nothing or a fault.
for name, text in FILES.items():
    for m in re.finditer(r"enum (\w+) \{\n(.*?)^ *\}", text, re.M | re.S):
        variants = re.findall(r"^ *(\w+)(\(.*?\))?,$", m[2], re.M)
        bare = [v for v, held in variants if not held]
        if any(held for _, held in variants) and (bare or any(v in ("Fault", "Wrong", "Bad", "Refused") for v, _ in variants)):
            note("1a own enum like Option or Result", name, text, m.start())
lines("1b struct of a value and its fault", r"^ +pub fault: \w")
lines("1c arm that only hands an error or nothing on", r"^ *(?:_|\w+::(?:Bad|Deep|End|Stop|Missing|None|Wrong|Done\(_\)|Fault\(\w+\))|None|Err\(\w+\)) => (?:return )?(?:\w+::(?:Bad|Deep|End|Stop|Missing|None|Wrong|Fault\(\w+\))|None|Err\(\w+\)),$")
for name, text, m in FUNCTIONS:
    if m[4] in ("u32", "usize") and re.search(r"result ≡ [^\n]*(?:fault|refusal|refused|answer|number_of|first_number)", m[5]):
        note("1d number for a fault, a refusal or a kind as the answer", name, text, m.start())
lines("1e parameter that is a number for a fault, 0 being none", r"^ *(?:pub(?:\(crate\))? )?fn .*\bnumber: u32")

# 2. Functions whose text is the same but for names, types and numbers.
def shape(body):
    body = re.sub(r"//[^\n]*", "", body)
    body = re.sub(r"b\"[^\"]*\"", "S", body)
    body = re.sub(r"0x[0-9A-Fa-f]+|\d+", "0", body)
    kept = r"if|else|match|while|for|in|return|let|mut|true|false|as|loop|continue|break"
    body = re.sub(r"\b(?!(?:" + kept + r")\b)[A-Za-z_]\w*(?:::[A-Za-z_]\w*)*", "x", body)
    return re.sub(r"\s+", " ", body)


GROUPS = collections.defaultdict(list)
for name, text, m in FUNCTIONS:
    if m[6].count("\n") >= 4 and name.split("/")[1] != "smocurant_c":
        GROUPS[(name.split("/")[1], shape(m[6]))].append((name, text, m))
for group in GROUPS.values():
    if len(group) > 1:
        for name, text, m in group:
            note("2 function with a twin in its crate (same text but for names, types, numbers)", name, text, m.start())

# 3. Loops that count by hand.
lines("3a while", r"^ *while ")
lines("3b loop", r"^ *loop \{")

# 4. Equality, order, choice and truth by hand.
lines("4a branch that returns true or false", r"^ *return (?:true|false);$")
for name, text, m in FUNCTIONS:
    body = re.sub(r"//[^\n]*", "", m[6])
    b = re.sub(r"\s+", " ", body).strip()
    if re.fullmatch(r"if (\S+) <=? (\S+) \{ return (?:\1|\2); \} (?:\1|\2)", b):
        note("4b larger or smaller of two by hand", name, text, m.start())

# 5. Facts in the contracts of three functions or more; parameters that travel together in three or more.
CLAUSES = collections.defaultdict(list)
TOGETHER = collections.defaultdict(list)
for name, text, m in FUNCTIONS:
    for clause in re.findall(r"requires \w* ?\{ (.*) \}$", m[5], re.M):
        for part in clause.split(" × "):
            CLAUSES[part.strip("() ")].append((name, text, m))
    parameters = re.findall(r"(\w+): ", m[3])
    for k in range(2, len(parameters) + 1):
        TOGETHER[tuple(parameters[:k])].append((name, text, m)) if k in (2, 3, 4) else None
for clause, places in CLAUSES.items():
    if len(places) >= 3 and not re.search(r"\d", clause):
        for name, text, m in places:
            note("5a function with a fact that three or more functions ask for", name, text, m.start())
for names, places in TOGETHER.items():
    if len(places) >= 10 and len(names) == 2:
        for name, text, m in places:
            note("5b function with two first parameters that ten or more functions have", name, text, m.start())

# 6. Buffers with a length beside them, parallel arrays.
lines("6a array with a count beside it, or a parallel array, in a struct", r"^ +pub \w+: \[\w+; \d+\],")
for name, text, m in FUNCTIONS:
    if len(re.findall(r": &(?:mut )?\[", m[3])) >= 3:
        note("6b function with three or more lent slices", name, text, m.start())

# 7. A switch on a kind inside a function that goes on differently.
lines("7 switch on the frequency or on which field is meant", r"^ *match (?:\w+\.)*(?:frequency|what|which|part|field)\b")

for point in sorted(FOUND):
    places = sorted(set(FOUND[point]))
    print(f"{len(places):5}  {point}")
    if VERBOSE:
        for p in places:
            print("          " + p)
