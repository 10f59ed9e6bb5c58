#!/usr/bin/env python3
"""What a reader has to believe: finds it, and writes docs/TRUSTED.md, the page that lists it. With --check it only compares.

It begins with the contracts of the exported functions and of inner ones that a statement speaks of, and with the statements of the demands, and
follows what their files name. A definition that is reached stands in specs/ of its crate, one that only inner contracts and proofs cite in
specs/Inner/: so the folder says it. The script fails where it does not, where what must be believed names an inner definition or a proof, where
any contract names a proof, and where an export's contract is not that of the library's function.
"""
import pathlib
import re
import sys

ROOT = pathlib.Path(__file__).resolve().parent.parent
CRATES = ROOT / "crates"
PAGE = ROOT / "docs" / "TRUSTED.md"
EXPORTED = ["smocurant_c/src/*.rt", "smocurant/src/*.rt", "texts/src/calls.rt"]  # their public functions are the calls
SPOKEN_OF = ["zone/src/search.rt"]  # a statement speaks of these inner functions: request 5
STATED = ["demands", "smocurant"]  # their specs/ state the demands
KIT = r"Rattle\.std|Prim|lib"  # the kit's library begins its paths so
NAMED = re.compile(r"\bRattle\.(?!std\.)(\w+)\.(\w+)((?:\.[\w-]+)*)")
HEAD = """# What must be believed

The contracts of the exported functions, those of the search for an offset (request 5) and the statements of the demands are written with the
definitions on this page, and with no others of this repository. A reader who believes that these say what the papers say, and who believes the
checker, believes the promises: that the code keeps them is proved, and no proof has to be read. The definitions in `specs/Inner/` stand only in
contracts of inner functions and in proofs.

{count}

The files are in reading order: each names only what stands before it. `tests/trusted.py` finds them by their imports and writes this page, and
the gate fails where the page is not what it finds.
"""
LIBRARY = """
## The kit's library

These modules belong to the Rattle kit, and are not followed: numbers, lists, truth values, equality.

{modules}
"""


def code(path):
    """A file's text without its comments."""
    mark = "//" if path.suffix == ".rt" else "--"
    return re.sub(rf"(?:^|(?<=\s)){mark}.*", "", path.read_text(encoding="utf-8"), flags=re.M)


def shown(path):
    return path.relative_to(ROOT).as_posix()


def crate_of(path):
    return path.relative_to(CRATES).parts[0]


def is_inner(path):
    """Is it a proof, or a definition below specs/Inner/?"""
    folder, first = path.relative_to(CRATES).parts[1:3]
    return folder == "proofs" or folder == "specs" and first in ("Inner", "Inner.antt")


def is_node(path):
    """Does a file only say which modules there are?"""
    return path.suffix == ".antt" and not re.sub(r"^(?:pub )?mod \w+$", "", code(path), flags=re.M).strip()


def type_match(path, name):
    """A struct or an enum of a source file, with the comment before it."""
    pattern = rf"(?:^//[^\n]*\n)*(?:^#\[[^\n]*\]\n)*^(?:pub(?:\(\w+\))? )?(?:struct|enum) {name}\b[^{{;]*(?:;|\{{.*?^\}})"
    return re.search(pattern, path.read_text(encoding="utf-8"), re.M | re.S)


def found(crate, folder, names):
    """What a path names: (file, "") or, of a type of the code, (file, name). None where there is nothing of that name."""
    if folder == "specs" and names[0] == "declared":
        files = sorted((CRATES / crate / "src").rglob("*.rt"))
        name = next(name for name in names[1:] if name[0].isupper())  # after the modules that it is in
        return next(((file, name) for file in files if type_match(file, name)), None)
    for count in range(len(names), 0, -1):
        file = (CRATES / crate / folder).joinpath(*names[:count]).with_suffix(".antt")
        if file.is_file():
            return file, ""
    return None


def held_types(place):
    """The types of the fields of a type."""
    file, name = place
    fields = re.findall(r":([^,}]*)|\(([^)]*)\)", re.sub(r"^#\[.*", "", type_match(file, name)[0], flags=re.M))
    for held in re.findall(r"\b[A-Z]\w*", " ".join(a + b for a, b in fields)):
        used = re.search(rf"^use (\w+)::.*\b{held}\b", code(file), re.M)
        yield found(used[1] if used and used[1] != "crate" else crate_of(file), "specs", ["declared", held])


def named_in(text, here, faults):
    """The files and types of this repository that a text names."""
    for name in re.findall(r"^(?:ghost |pub )?use ([^\s;{]+)", text, re.M):
        if not re.match(rf"(?:{KIT})\.", name) and not NAMED.match(name):
            faults.append(f"{here}: the import from {name} cannot be followed")
    places = set()
    for match in NAMED.finditer(text):
        names = match[3].split(".")[1:]
        place = found(match[1], match[2], names) if names else None
        if place:
            places.add(place)
        else:
            faults.append(f"{here}: {match[0]} names no file")
    return places


def heads_of(path, public):
    """The signature and the contract of each public function of a source file, by its name; `public` is the word for it."""
    heads, lines = {}, iter(code(path).splitlines())
    for line in lines:
        match = re.match(rf'{re.escape(public)} (?:extern "C" )?fn (\w+)', line)
        if match:
            head = [line]
            while not re.fullmatch(r"\{|(?!\s*(?:requires|ensures)\b).*\{", head[-1]):
                head.append(next(lines))
            heads[match[1]] = "\n".join(head)
    return heads


def used_imports(path, text):
    """The imports of a source file of which a text uses a name."""
    words = set(re.split(r"[\s(){}\[\],;.]+", text))
    for line in re.findall(r"^ghost use [^;]*;", code(path), re.M):
        module, names, alias = re.fullmatch(r"ghost use ([^\s;{]+?)(?:\.\{([^}]*)\})?(?: as (\S+))?;", line).groups()
        brought = [name.split()[-1] for name in names.split(",")] if names else [alias or module.split(".")[-1]]
        if any(all(part in words for part in name.split("◌") if part) for name in brought):
            yield line


def definitions(crate):
    return [file for file in sorted(CRATES.glob(f"{crate}/specs/**/*.antt")) if not is_node(file)]


def roots(faults):
    """What the promises name: {a text that says where: its places}, the contracts by file and function, and the text of all."""
    named, contracts, text = {}, [], ""
    exported = sorted((file, "pub") for pattern in EXPORTED for file in CRATES.glob(pattern))
    for path, public in [*exported, *((CRATES / name, "pub(crate)") for name in SPOKEN_OF)]:
        heads = heads_of(path, public)
        contracts += [(path, name) for name in heads]
        needed = "\n".join([*used_imports(path, "\n".join(heads.values())), *heads.values()])
        named[shown(path)] = named_in(needed, shown(path), faults)
        text += needed
    for crate in STATED:
        named[f"crates/{crate}/specs"] = {(file, "") for file in definitions(crate) if not is_inner(file)}
    return named, contracts, text


def closure(faults, follow_inner=False):
    """All that the promises reach, {place: what it names}; the contracts; the kit's modules."""
    named, contracts, text = roots(faults)
    reached, todo = {}, [(here, place) for here in named for place in sorted(named[here])]
    while todo:
        here, place = todo.pop()
        file, name = place
        if not name and is_inner(file) and not follow_inner:
            faults.append(f"{here} cites {shown(file)}, which is not among what must be believed")
        elif place not in reached:
            own = "" if name else code(file)
            text += "\n" + own
            reached[place] = set(held_types(place)) - {None} if name else named_in(own, shown(file), faults)
            todo += [(shown(file), other) for other in sorted(reached[place])]
    modules = set(re.findall(rf"(?<![\w.])(?:{KIT})(?:\.[a-z]+)*(?:\.[A-Z]\w*)+", text))
    return reached, contracts, sorted(modules)


def strays(reached):
    """Definitions that nothing of it names, and that stand among those that must be believed."""
    for file in definitions("*"):
        if not is_inner(file) and (file, "") not in reached:
            yield file


def cited_proofs():
    """Contracts that name a proof."""
    for file in sorted(CRATES.glob("*/src/**/*.rt")):
        for match in NAMED.finditer(code(file)):
            if match[2] == "proofs":
                yield f"{shown(file)}: a contract names {match[0]}: what a contract cites stands in specs/"


def heads_in(crate):
    """The heads of a crate's public functions by name, each as one line and without what only an export has."""
    files = sorted((CRATES / crate / "src").glob("*.rt"))
    heads = {name: head for file in files for name, head in heads_of(file, "pub").items()}
    return {name: " ".join(head.replace('extern "C" ', "").split()).replace("( ", "(").replace(", )", ")") for name, head in heads.items()}


def other_exports():
    """Exports that promise something else than the library's function of their name, or have none, and functions that are not exported."""
    exported, called = heads_in("smocurant_c"), heads_in("smocurant")
    for name in sorted({*exported, *called}):
        if exported.get(name) != called.get(name):
            yield f"{name}: smocurant_c does not state what smocurant does, word for word"


def in_order(nodes, needs):
    """The nodes, each after what it needs, else in the given order."""
    done = []

    def visit(node):
        if node not in done:
            for other in nodes:
                if other in needs(node) and other != node:
                    visit(other)
            done.append(node)

    for node in nodes:
        visit(node)
    return done


def purpose(comment):
    """The first sentence of a comment."""
    text = " ".join(line.lstrip("-/ ") for line in comment.strip().splitlines())
    for end in re.finditer(r"\.\"?(?=\s|$)", text):
        if text[: end.end()].count('"') % 2 == 0:
            return text[: end.end()].replace("|", r"\|")
    return text.replace("|", r"\|")


def row(place):
    """A line of the page, and how many lines the reader reads there."""
    file, name = place
    text = file.read_text(encoding="utf-8")
    label = f"[{'/'.join(file.relative_to(CRATES).parts[1:])}](../{shown(file)})"
    if name:
        match = type_match(file, name)
        first = text.count("\n", 0, match.start()) + 1
        text = match[0] + "\n"
        label = f"`{name}`, {label} from line {first}"
    lines = text.count("\n")
    comment = re.match(r"(?:(?:--|//).*\n)*", text)[0]
    return f"| {label} | {lines} | {purpose(comment) or 'A type of the code.'} |", lines


def crate_names():
    return re.findall(r"^(\w+)[^:\n]*:", (ROOT / "crates.txt").read_text(encoding="utf-8"), re.M)


def listed_files(crate, reached):
    """The places of a crate that are reached: types first, files in the order of specs/Lib.antt, each after what it names."""
    lib = CRATES / crate / "specs" / "Lib.antt"
    declared = re.findall(r"^pub mod (\w+)", lib.read_text(encoding="utf-8"), re.M) if lib.is_file() else []
    own = [place for place in reached if crate_of(place[0]) == crate]
    own.sort(key=lambda place: (not place[1], place[1], declared.index(place[0].stem) if place[0].stem in declared else len(declared)))
    return in_order(own, lambda place: reached[place])


def page(reached, contracts, modules):
    named = {}
    for place, others in reached.items():
        named.setdefault(crate_of(place[0]), set()).update(crate_of(other[0]) for other in others)
    body, files, types = "", [], []
    for crate in in_order([name for name in crate_names() if name in named], lambda name: named[name]):
        rows = [(place, *row(place)) for place in listed_files(crate, reached)]
        body += f"\n## `{crate}`\n\n| File | Lines | What it says |\n|---|---|---|\n" + "".join(line + "\n" for _, line, _ in rows)
        files += [lines for place, _, lines in rows if not place[1]]
        types += [lines for place, _, lines in rows if place[1]]
    inner = [file.read_text(encoding="utf-8").count("\n") for file in definitions("*") if is_inner(file)]
    count = (
        f"They are {len(files)} files of {sum(files):,} lines, comments counted, and {len(types)} types of the code, of {sum(types)} lines.\n"
        f"Not among them are the {len(inner)} files of {sum(inner):,} lines in `specs/Inner/`."
    )
    body += "\n## The contracts\n\n| Function | File |\n|---|---|\n"
    body += "".join(f"| `{name}` | [{shown(path)}](../{shown(path)}) |\n" for path, name in contracts)
    return HEAD.format(count=count) + body + LIBRARY.format(modules=", ".join(f"`{name}`" for name in modules) + ".")


def main():
    faults = []
    reached, contracts, modules = closure(faults)
    faults += [f"{shown(file)} is not among what must be believed, and stands outside specs/Inner/" for file in strays(reached)]
    faults += cited_proofs()
    faults += other_exports()
    for fault in sorted(set(faults)):
        print(f"trusted.py: {fault}")
    if faults:
        sys.exit(1)
    text = page(reached, contracts, modules)
    if sys.argv[1:] != ["--check"]:
        PAGE.write_text(text, encoding="utf-8")
    elif not PAGE.is_file() or PAGE.read_text(encoding="utf-8") != text:
        print("trusted.py: docs/TRUSTED.md is not what the definitions give: run python3 tests/trusted.py")
        sys.exit(1)
    print(f"trusted.py: {len(reached)} files and types must be believed")


if __name__ == "__main__":
    main()
