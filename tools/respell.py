#!/usr/bin/env python3
"""Brings the repository's own names to the spelling of today's Rattle. Run once, at the top, after the Rattle kit's port.py.

    isLeap          ->  is_leap          a definition is spelled in snake case
    marks-are       ->  marks_are        so is a field of a record
    Fault·first     ->  fault_first      no middle dot in a name
    crates/json     ->  crates/json_strict   the kit has a library named json

A lemma keeps its dash, which joins the parts of its name. Where a definition's new name is a lemma's, the lemma gets `_lem`.
Strings keep their text, and so does a comment but for names in backticks that no paper uses. Functions of src/ keep their names.
"""
import os
import re

TOKEN = re.compile(r"--[^\n]*|\"(?:[^\"\\]|\\.)*\"|[^\s(){}.;,@\"«»\[\]\\]+")
RUST = re.compile(r"//[^\n]*|b?\"(?:[^\"\\]|\\.)*\"|b?'(?:[^'\\\n]|\\.)'|[^\s(){}.;,@\"«»\[\]\\/!&|*]+|[/!&|*]")
CAMEL = re.compile(r"[a-z][\w'₀-₉]*?[a-z0-9ℤℕ₀-₉][A-Z][\w'₀-₉]*$")
PROPERTIES = {"byDay", "byMonth", "byMonthDay", "bySetPosition", "firstDayOfWeek", "nthOfPeriod"}  # words of the papers
LEMMAS = {"of_word", "given_by", "no_place", "one_class", "end_by"}  # lemmas whose names a definition takes
JSON = "json_strict"


def snake(name):
    return re.sub(r"(?<=[a-z0-9ℤℕ₀-₉])(?=[A-Z])", "_", name).lower()


def files(*endings):
    for folder, below, names in os.walk("crates"):
        below[:] = sorted(each for each in below if each != "out")
        for name in sorted(names):
            if name.endswith(endings):
                yield os.path.join(folder, name)


def read(path):
    with open(path, encoding="utf-8") as file:
        return file.read()


def write(path, text):
    with open(path, "w", encoding="utf-8") as file:
        file.write(text)


def fields():
    """The fields of records that have a dash."""
    found = set()
    for path in files(".antt"):
        for body in re.findall(r"^(?:pub )?record [^\n]* where\n((?: [^\n]*\n|\n)*)", read(path), re.M):
            found |= set(re.findall(r"^  (?:pub )?([a-z]\w*(?:-\w+)+) :", body, re.M))
    return found


def turned(tokens, text, camel, dashed, lemmas, in_comment):
    def one(match):
        token = match[0]
        if token[0] == '"' or token[:2] in ('b"', "b'") or token[0] == "'":
            return token
        if token.startswith(("--", "//")):
            return re.sub(r"`([^`]*)`", lambda m: "`" + comment(m[1]) + "`", token) if in_comment else token
        if token in camel:
            return snake(token)
        if token in dashed:
            return token.replace("-", "_")
        if "·" in token and re.fullmatch(r"[A-Z]\w*·\w+", token):
            return snake(token[0].lower() + token[1:].replace("·", "_"))
        before = text[match.start() - 1] if match.start() else ""
        after = text[match.end()] if match.end() < len(text) else ""
        if token in lemmas and before != "." and after != ".":
            return token + "_lem"
        return token

    def comment(words):
        return re.sub(r"[\w'₀-₉-]+", lambda m: snake(m[0]) if m[0] in camel and m[0] not in PROPERTIES else m[0], words)

    return tokens.sub(one, text)


def main():
    camel = set()
    for path in files(".antt"):
        camel |= {t for t in TOKEN.findall(read(path)) if CAMEL.match(t)}
    dashed = fields()
    taken = {t for path in files(".antt") for t in TOKEN.findall(read(path))}
    for path in files(".antt", ".rt", ".edit"):
        text = read(path)
        words = set(TOKEN.findall(text))
        lemmas = LEMMAS if path.endswith(".antt") and "/proofs/" in path and not path.endswith("Proof.antt") else set()
        if path.endswith(".edit"):
            new = "\n".join(
                turned(RUST, line, camel, dashed, set(), True) if line.startswith(("old:", "new:", "refused:")) else line
                for line in text.split("\n")
            )
        elif path.endswith(".rt"):
            new = turned(RUST, text, camel, dashed, set(), True)
        else:
            new = turned(TOKEN, text, camel, dashed, lemmas, True)
        new = re.sub(r"\bRattle\.json\.", f"Rattle.{JSON}.", new)
        if path.endswith((".rt", ".edit")):
            new = re.sub(r"\bjson::", f"{JSON}::", new)
        if new != text:
            write(path, new)
    if os.path.isdir("crates/json"):
        os.rename("crates/json", f"crates/{JSON}")
    listed = read("crates.txt")
    write("crates.txt", re.sub(r"(?m)(^|(?<= ))json(?=[ :]|$)", JSON, listed))


main()
