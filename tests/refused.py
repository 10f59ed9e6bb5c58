#!/usr/bin/env python3
"""Looks into what the prover says of each must-fail edit, after `rt ci` has found that it refuses each.

An edit plants wrong programs. Each is a block of its own, from a line `# name` on, with a line that says what has to be refused:

    refused: module::function         a fact of the function fails
    refused: module::function fact    that fact of the function fails: `returns-then-a-b`, what it promises where `a < b` holds, say
    refused: proofs/File law          that law of the file fails, where the edit changes a definition; with no name, some law of it

Wrong programs of one function stand in one edit where each breaks a fact of its own. A fact is what the function promises, what a callee asks,
or a law. These do not count: a proof that no longer has the shape of the code, a name that is not there, a declaration that only waits for a
refused one, and what keeps a program safe (a sum that fits, an index in range, a divisor that is not 0).

`rt` keeps nothing of what the prover said, so each edit is tried here once more, over what a check of the crate as it stands proves. Two kinds
of wrong programs are then tried again, since nothing is known of them yet:
- The prover does not search for the facts of a function that calls a refused one. It is tried without the wrong programs that it waits for.
- A condition has its name from its text, and so has a loop: `x < 3` is `if-x-lt3`, and `x < 2` in its place is `if-x-lt2`. Where the function's
  own proof still has the old name, it is tried with the new one there, which changes nothing that is said. A fact is named as in the wrong program.

What was said is in target/must-fail/CRATE/EDIT/.log, and of the further tries in 1.log and so on beside it.

    tests/refused.py [CRATE ..]

It begins with what `rt check` kept of the crates, as `rt must-fail` does, and else proves them first.
"""
import difflib
import importlib.machinery
import importlib.util
import os
import pathlib
import re
import shutil
import subprocess
import sys
import threading

ROOT = pathlib.Path(__file__).resolve().parent.parent
WAITS = re.compile(r"was not admitted|\d+ declarations? that depends? on ")
LOST = re.compile(r"has no field|has no `|expected type `tie\.|is not in scope|is no name")
STATED = re.compile(r"(.*-)?(invariant|decreases)-")
# The names of the prover's own goals: first those of a promise, then those of safety. In a cycle of calls the function's name stands before them.
PROMISED = re.compile(r"(.*-)?returns(-.*)?$|.*-requires(-.*)?$|(.*-)?loop-.*-(init|preserved|smaller)(-.*)?$")
SAFETY = re.compile(
    r"(.*-)?(overflow_\w+|nonzero_\w+|bounds|offset_bounds|slice_bounds|shape_of|invariant_of|element_\w+|enum_told|enum_known|slice_copy_out|slice_set_of)-"
)


def is_fact(name):
    return bool(PROMISED.match(name)) or not SAFETY.match(name)


class Program:
    """A wrong program of an edit."""

    def __init__(self, text):
        self.text = text
        self.target, self.fact = re.findall(r"^refused: (\S+)(?: (\S+))?$", text, re.M)[0]
        # The names of its proof that are other names in the wrong program.
        self.names = {}
        self.renamed = 0

    def takes(self, names):
        """Whether there are new names for its proof, which are then taken: three times at most."""
        self.renamed += 1
        self.names.update(names if self.renamed <= 3 else {})
        return bool(names) and self.renamed <= 3


def programs_of(edit):
    """The wrong programs of an edit, and what is wrong with the way it says them."""
    blocks = [it for it in re.split(r"^(?=# )", edit.read_text(encoding="utf-8"), flags=re.M) if it.strip()]
    told = [re.findall(r"^refused: (\S+)(?: (\S+))?$", it, re.M) for it in blocks]
    lines = [line for some in told for line in some]
    faults = []
    if any(len(some) != 1 for some in told):
        faults.append("a wrong program without one line that says what is refused")
    if len(set(lines)) < len(lines) or any((target, "") in lines for target, fact in lines if fact):
        faults.append("two wrong programs of one function name no fact of their own")
    return [Program(it) for it, some in zip(blocks, told) if len(some) == 1], faults


def cycle_of(crate, function):
    """The name of the cycle of calls that a function is in, as its attribute says it, or None."""
    *modules, name = function.split("::")
    for file in ["/".join(modules) + ".rt"] if modules else ["lib.rt", "main.rt"]:
        if (crate / "src" / file).is_file():
            found = re.search(rf"#\[cycle\((\w+)\)\]\s+(?:pub(?:\([^)]*\))? )?fn {name}\b", (crate / "src" / file).read_text(encoding="utf-8"))
            return found and found[1]
    return None


def proof_of(crate, function):
    """The folder of a function's proof below proofs/: its own, or that of the cycle of calls that it is in."""
    cycle = cycle_of(crate, function)
    *modules, name = function.split("::")
    return pathlib.Path(*modules, f"+{cycle}" if cycle else name)


def errors_in(path, log):
    """The declarations of a file that the prover refuses by themselves, each with the first words of the error."""
    found = re.findall(rf"^\S*/{re.escape(path)}:\d+:\d+: error: (?:`([^`]*)`: )?(.*)", log, re.M)
    return [(name, text) for name, text in found if not WAITS.search(text)]


def files_of(crate, function):
    """The files of a function's proof."""
    return [f"proofs/{proof_of(crate, function)}/{name}.antt" for name in ("Invariants", "Answers", "Proof")]


def own_errors(crate, function, log):
    """The errors of a function's own proof: of the goals under its name, where it shares the files with the cycle of calls that it is in."""
    own = function.rpartition("::")[2] + "-" if cycle_of(crate, function) else ""
    return [it for path in files_of(crate, function) for it in errors_in(path, log) if it[0].startswith(own)]


def renamed(text, names):
    """A proof with other names for conditions and goals."""
    for old, new in names.items():
        if old.startswith("if-not-") and not new.startswith("if-not-"):
            # What is known of `x` where `!x` is tested is there by another name than where `x` is.
            text = re.sub(rf"(?<![\w'-]){re.escape(old)}\.(true|false)-raw(?![\w'-])", rf"{new}.\1", text)
        text = re.sub(rf"(?<![\w'-]){re.escape(old)}(?![\w'-])", new, text)
        # A condition names places, and a loop its goals.
        if old.startswith("if-"):
            text = re.sub(rf"(?<=[Tt]hen-|[Ee]lse-){re.escape(old[3:])}(?![\w'-])", new[3:], text)
        elif old.startswith("loop-"):
            text = re.sub(rf"(?<![\w']){re.escape(old)}(?![\w']|-\d)", new, text)
    return text


def new_names(crate, program, log):
    """The names that the wrong program's own proof lost, each with the new name that stands for it."""
    found = {}
    for path in files_of(crate, program.target):
        lost = [text for _, text in errors_in(path, log) if LOST.search(text)]
        if not lost:
            continue
        proof = renamed((crate / path).read_text(encoding="utf-8"), program.names)
        cited = set(re.findall(r"[\w'-]+", proof))
        for text in lost:
            field = re.search(r"has no field `(if-[^`]*)` \(nearest: ([^)]*)\)", text)
            goal = re.search(r"`goal\.([^`]*)`: module `[^`]*` has no `", text)
            loop = re.search(r"`goal\.invariant-(loop-[^`]*)`: module `[^`]*` has no `", text)
            if field:
                old, near = field[1], [it for it in re.findall(r"\.([\w'-]+)", field[2]) if it.startswith("if-")]
            elif loop:
                here = re.search(rf"^help: `Given` has no `invariant-{re.escape(loop[1])}`: the names here are ([^;]*);", log, re.M)
                old, near = loop[1], re.findall(r"`invariant-(loop-[^`]*)`", here[1]) if here else []
            elif goal:
                asked = re.search(rf"^help: `\w+` has no `{re.escape(goal[1])}`; rattle asks for ([^;]*);", log, re.M)
                names = re.findall(r"`([^`]*)`", asked[1]) if asked else []
                alike = [it for it in names if it.partition("-")[0] == goal[1].partition("-")[0]]
                old, near = goal[1], difflib.get_close_matches(goal[1], [it for it in alike if it not in cited], 1, 0)
            else:
                continue
            new = next((it for it in near if it not in cited), None)
            # A number at its end says that another condition has the same text, and which is which is not known.
            if new and old not in found and (re.search(r"-\d$", old) or not re.search(r"-\d$", new)):
                found[old] = new
    return found


def searched(crate, function, log):
    """The facts of a function that stand in no file, and that the prover did not find by itself. Its line lists them, or notes right above it do."""
    line = re.search(rf"^((?:(?:note|help): .*\n)*)fn {re.escape(f'{crate.name}::{function}')}: (.*)", log, re.M)
    if not line:
        return []
    listed = line[2].partition("`search` did not prove ")[2].partition("; it calls")[0]
    noted = re.findall(r"^note: src/\S+: it is not proved that .*?\(`([^`]*)`\)", line[1], re.M)
    return [(name, "") for name in [*re.findall(r"`([^`]*)`", listed), *noted]]


def is_untried(crate, function, log):
    """Whether the prover did not come to all of the function's facts, since it calls a refused one."""
    name = re.escape(f"{crate.name}::{function}")
    return bool(re.search(rf"`search` has not tried the goals of `{name}`|^fn {name}: no proof: (it calls |.* is not made yet: a call of )", log, re.M))


def verdict(crate, program, log):
    """None where the program is refused by a fact of its own, else what is wrong."""
    target, fact = program.target, program.fact
    if target.startswith("proofs/"):
        errors = errors_in(f"{target}.antt", log)
    else:
        errors = own_errors(crate, target, log) + searched(crate, target, log)
    # What has no name was not even read, and an invariant or a measure only states.
    if any(not name or STATED.match(name) or LOST.search(text) for name, text in errors):
        return "refused by its shape"
    names = [name for name, _ in errors]
    if fact and fact not in names:
        return f"{fact} is not refused"
    # A law is a fact whatever its name.
    if not any(target.startswith("proofs/") or is_fact(name) for name in ([fact] if fact else names)):
        return f"refused by safety alone: {', '.join(names)}" if names else "not refused by a fact of its own"
    return None


def load_rt():
    """The command `rt` of the kit as a module: how it applies an edit, and the words that it gives the prover."""
    page = subprocess.run(["rt", "doc"], capture_output=True, text=True, check=True).stdout.strip()
    loader = importlib.machinery.SourceFileLoader("rt", f"{os.path.dirname(page)}/bin/rt")
    made = importlib.util.module_from_spec(importlib.util.spec_from_loader("rt", loader))
    loader.exec_module(made)
    made.rtlib.guarded()
    made.share_work(False)
    return made


class Tries:
    """The tries of one crate's edits, over what a check of the crate as it stands proves."""

    def __init__(self, rt, crate, edits):
        self.rt, self.crate, self.edits = rt, crate, edits
        self.folder, self.seed, self.left, self.counting = pathlib.Path(crate.folder), None, len(edits), threading.Lock()
        self.kept, self.faults = {}, []

    def begin(self, jobs):
        self.seed = self.rt.seeded(self.crate, ["--jobs", str(jobs)], self.rt.work_for(self.crate))
        if self.seed:
            self.kept = self.rt.listing(f"{self.seed}/seed")
        else:
            self.faults.append(f"{self.crate.name}: the crate as it stands is not proved")

    def end(self):
        with self.counting:
            self.left -= 1
            if not self.left and self.seed:
                if self.rt.listing(f"{self.seed}/seed") != self.kept:
                    self.faults.append(f"{self.crate.name}: a try changed what the others began with")
                shutil.rmtree(self.seed, ignore_errors=True)

    def said(self, programs, name):
        """What the prover says where these programs are planted, or None where they cannot be."""
        texts, why = self.rt.edited("\n".join(it.text for it in programs), self.crate.folder)
        if why:
            return None
        for program in programs:
            for path in files_of(self.folder, program.target) if program.names else ():
                if path in texts or (self.folder / path).is_file():
                    text = texts.get(path) or (self.folder / path).read_text(encoding="utf-8")
                    texts[path] = renamed(text, program.names)
        over = f"{self.seed}/{name}"
        self.rt.linked(f"{self.seed}/seed", over)
        for _ in range(2):
            ran = self.rt.checked(self.crate, texts, ["--jobs", "1"], over)
            # It was killed where memory fell short.
            if ran.returncode >= 0:
                break
        shutil.rmtree(over, ignore_errors=True)
        return ran.stdout if ran.returncode == 1 else f"status {ran.returncode}\n{ran.stdout}"

    def judge(self, edit):
        """What is wrong with the wrong programs of an edit, and their number."""
        try:
            programs, faults = programs_of(edit)
            if not self.seed:
                return faults, len(programs)
            room = ROOT / "target" / "must-fail" / self.crate.name / edit.stem
            shutil.rmtree(room, ignore_errors=True)
            room.mkdir(parents=True)
            groups, number = [programs], 0
            while groups:
                group = groups.pop()
                log = self.said(group, f"{edit.stem}-{number}")
                if log is None:
                    faults.append(f"cannot be applied{' without the rest: ' + ', '.join(it.target for it in group) if number else ''}")
                    continue
                (room / f"{number or ''}.log").write_text(log, encoding="utf-8")
                if not number and re.search(r"^\S*/(specs|src)/\S*: error: ", log, re.M):
                    faults.append("a definition or a contract that says nothing")
                wrong = [(it, fault) for it in group if (fault := verdict(self.folder, it, log))]
                again = [it for it, _ in wrong if it.takes(new_names(self.folder, it, log))]
                waits = [it for it, _ in wrong if it not in again and is_untried(self.folder, it.target, log)]
                if again or len(waits) < len(group):
                    groups += [[*again, *waits]] * bool(again or waits)
                elif len(group) > 1:
                    # Each waits for another.
                    groups += [[it] for it in waits]
                else:
                    waits = []
                faults += [f"{it.target}: {fault}" for it, fault in wrong if it not in [*again, *waits]]
                number += 1
            return [f"{self.crate.name}/{edit.stem}: {fault}" for fault in faults], len(programs)
        finally:
            self.end()


def main(words):
    rt, names = load_rt(), set(words)
    crates = [it for it in rt.rtlib.crates_below(str(ROOT)) if not names or it.name in names]
    edits = {it.name: sorted(pathlib.Path(it.folder).glob("must-fail/*.edit")) for it in crates}
    crates = [it for it in crates if edits[it.name]]
    if any(dep.build_rlib([], anew=False) for it in crates for dep in it.below()):
        sys.exit("refused.py: FAILED: a library is not proved")
    tasks, results, every = {}, {}, []
    for crate in crates:
        tries, lines, need = Tries(rt, crate, edits[crate.name]), crate.count(rb"\n"), rt.need(crate)
        every.append(tries)
        tasks[crate.name, "seed"] = ([], 0, need, lambda given, jobs, it=tries: it.begin(jobs))
        for edit in edits[crate.name]:
            key = (crate.name, "edits", edit.name)
            tasks[key] = ([(crate.name, "seed")], lines, rt.OVER * need, lambda given, jobs, it=tries, edit=edit: it.judge(edit))
            results[key] = None
    given = rt.in_lanes(tasks)
    found = [given[key] for key in results]
    faults = [fault for it in every for fault in it.faults] + [fault for some, _ in found for fault in some]
    for fault in faults:
        print(f"refused.py: {fault}")
    print(f"refused.py: {sum(n for _, n in found)} wrong programs in {len(found)} edits, {len(faults)} faults")
    sys.exit(1 if faults else 0)


if __name__ == "__main__":
    main(sys.argv[1:])
