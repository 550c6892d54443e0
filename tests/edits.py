"""Holds every must-fail edit to its purpose.

An edit, crates/CRATE/must-fail/LABEL.edit, holds one wrong answer or several, each under a line `wrong: NAME of FUNCTION, ..` (or of a law, where no
function is refused for want of it). A method of a trait for a type is `IMPL::METHOD`, with the name that the toolchain gives the `impl` (`StateFromMonitor::from`). A function is proved
against the contracts of those that it calls, not against their bodies, so that what is wrong in one body shows in that function's proof alone; what
is wrong in a definition shows in every function that it names. `rt ci` says of an edit only that it is refused, and one line why. So each is tried here again by `rt check`,
on copies of the crates outside the repository; what that says is left in target/must-fail/CRATE/LABEL.log. Of it is asked:

- each function that is named is refused, and first because a fact no longer holds, not because a proof file no longer fits the code; where the cause
  stands in a file of laws, it is that of the functions whose proofs are refused for want of the law;
- no two wrong answers of one edit name the same function, and no function is refused for a cause of its own that is not named;
- one law is the cause of the functions of one wrong answer alone.

Where the check did not come to a function's goals, since another wrong answer of the edit is in one that it calls, its own is tried alone (LABEL.NAME.log).
It also counts: two wrong answers at least for each public contract, its own or of a private function that only it and the like reach.

    tests/edits.py [CRATE[/LABEL] ..]     these alone, and nothing is counted
"""
import collections
import concurrent.futures
import os
import pathlib
import queue
import re
import shutil
import subprocess
import sys
import tempfile

ROOT = pathlib.Path(__file__).resolve().parent.parent
LOGS = ROOT / "target/must-fail"
AT_ONCE = max(1, min(2, len(os.sched_getaffinity(0))))

# what is said where a proposition was tried and not proved
FACT = re.compile(r"it is not proved that"
                  r"|expected type `|` *\n? *≟ `"
                  r"|(?:as printed|computed as far as they go), the two types"
                  r"|computed as far as they go, the two values"  # both ends of an equation computed, and they are not the same
                  r"|this λ's body is `.*`, but the extension \(path\) type requires"  # so are the ends of a path that is written out
                  r"|`(?:omega|search|rw|simp|cc|grind)`(?::| met)"
                  r"|list the missing equation with its arguments|give a proof of that as the last argument")
# what is said where a proof file does not fit the code's shape: it says nothing about the contract
UNFIT = re.compile(r"that can be named (?:from )?here|has no field `|is not in scope|projects from a `×` type or a record, but")
SAID = re.compile(r"^(?:note: )?(?:\./)?(\S+?):(\d+):\d+: (?:error: )?(.*)$")
DECLARED = re.compile(r"^`([^`]+)`: ")
FOLLOWS = re.compile(r"declarations? that depends? on `([^`]+)`, which was (?:rejected|not admitted), (?:was|were) not checked: (.*)$")  # the one has its own line
HEAD = re.compile(r'^\s*(?:#\[[^\]]*\]\s*)*(pub\s+)?(?:extern "C" )?fn (\w+)', re.M)  # with the attributes before it, where a refusal stands
TRAIT = re.compile(r"^impl\s+(?:\w+::)*(\w+)(?:<([^{]*)>)?\s+for\s+(\w+)\s*\{.*?^\}", re.M | re.S)


class Crate:
    """The functions of a crate: where each stands, whether it is public, and which of the crate's functions it calls."""

    def __init__(self, name):
        self.name, self.places, self.public, self.calls = name, {}, set(), {}
        for path in sorted((ROOT / "crates" / name / "src").rglob("*.rt")):
            text = re.sub(r"//[^\n]*", "", path.read_text(encoding="utf-8"))
            heads = list(HEAD.finditer(text))
            impls = [(m.start(), m.end(), "".join(word[0].upper() + word[1:] for word in (m.group(3), m.group(1), *re.findall(r"\w+", m.group(2) or "")))) for m in TRAIT.finditer(text)]
            for head, after in zip(heads, heads[1:] + [None]):
                end = after.start() if after else len(text)
                start = head.end() - len(head.group().lstrip())
                first = text.count("\n", 0, start) + 1
                owner = next((name for a, b, name in impls if a < start < b), "")
                function = f"{owner}::{head.group(2)}" if owner else head.group(2)
                self.places[function] = (str(path.relative_to(ROOT / "crates" / name)), first, first + text.count("\n", start, end))
                self.calls[function] = set(re.findall(r"\b(\w+)\(", text[head.end():end]))
                if head.group(1) or owner:
                    self.public.add(function)

    def at(self, place, line):
        """The function whose proof or code stands there, or None."""
        parts = pathlib.PurePath(place).parts
        if parts and parts[0] == "proofs" and len(parts) > 2:
            for function in ("::".join(parts[-3:-1]), parts[-2]):
                if function in self.places:
                    return function
        return next((f for f, (path, first, last) in self.places.items() if path == place and first <= line <= last), None)

    def answerable(self, function):
        """The function, and the private ones that it reaches by private ones alone."""
        seen, todo = {function}, [function]
        while todo:
            for f in self.calls[todo.pop()]:
                if f in self.places and f not in self.public and f not in seen:
                    seen.add(f)
                    todo.append(f)
        return seen


class Wrong:
    """A wrong answer: its name, the functions that it is of, and what is replaced in which file."""

    def __init__(self, name, functions):
        self.name, self.functions, self.pairs = name, functions, []


def wrongs(edit):
    """The wrong answers of an edit, in their order."""
    found, file, old = [], "", ""
    for line in edit.read_text(encoding="utf-8").split("\n"):
        said = re.match(r"wrong: (\w+) of (\S.*)$", line)
        if said:
            found.append(Wrong(said.group(1), re.split(r",\s*", said.group(2))))
        elif line.startswith("file: "):
            file = line[6:].strip()
        elif line.startswith("old: "):
            old = line[5:]
        elif line.startswith("new:") and found:
            found[-1].pairs.append((file, old, line[4:].removeprefix(" ")))
    return found


def said_in(log):
    """Each refusal: its place, what is said there with the lines that go on below it, and which declaration it is of."""
    lines = log.split("\n")
    for i, line in enumerate(lines):
        found = SAID.match(line)
        if found and (": error: " in line or "it is not proved that" in line):
            more = next((j for j in range(i + 1, len(lines)) if not lines[j].startswith("  ")), len(lines))
            declared = DECLARED.match(found.group(3))
            yield found.group(1), int(found.group(2)), "\n".join([found.group(3), *lines[i + 1:more]]), declared.group(1) if declared else ""


def first_causes(log, crate):
    """The first cause of each function that is refused, its own or of a law that it wants, and of each law that no function is refused for want of."""
    first, laws, wants, cut = {}, {}, collections.defaultdict(list), []
    for place, line, said, declared in said_in(log):
        function, follows = crate.at(place, line), FOLLOWS.search(said.split("\n")[0])
        if follows:  # the declarations that were not checked, `a, b (via a)`, or the function whose proof has them
            names, more = re.subn(r" and \d+ more$", "", re.sub(r" \(via [^)]*\)", "", follows.group(2)))
            cut += [follows.group(1)] * more  # some of those that want it are not listed
            for name in [function] if function else names.split(", "):
                wants[name].append(follows.group(1))
        elif function:
            first.setdefault(function, (f"{place}:{line}", said))
        else:
            laws.setdefault(declared, (f"{place}:{line}", said))
    met = set()
    for function in [f for f in wants if f in crate.places]:
        todo, seen = list(wants[function]), set()
        while todo:
            law = todo.pop(0)
            if law in laws:
                met.add(law)
                first.setdefault(function, laws[law])
            todo += [other for other in wants[law] if other not in seen]
            seen.update(todo)
        for law in cut:  # it wants what is listed nowhere
            if function not in first and law in laws:
                met.add(law)
                first[function] = laws[law]
    return first | {law: cause for law, cause in laws.items() if law not in met}


def tried(room, crate, label, pairs):
    """What the check says of a copy of the crate in which the pairs are replaced; and why they cannot be."""
    folder, texts = room / "crates" / crate.name, {}
    for file, old, new in pairs:
        text = texts.get(file) or (ROOT / "crates" / crate.name / file).read_text(encoding="utf-8")
        if text.count(old) != 1:
            return "", f"{file} has {text.count(old)} times, and not once: {old}"
        texts[file] = text.replace(old, new)
    for file, text in texts.items():
        (folder / file).write_text(text, encoding="utf-8")
    try:
        for _ in range(2):  # once more where it was killed, most likely for memory
            run = subprocess.run(["rt", "check", "--jobs", "1"], cwd=folder, stdin=subprocess.DEVNULL, stdout=subprocess.PIPE, stderr=subprocess.STDOUT, errors="replace")
            if run.returncode >= 0 and "logic /" in run.stdout:
                break
    finally:
        for file in texts:
            shutil.copyfile(ROOT / "crates" / crate.name / file, folder / file)
    log = LOGS / crate.name / f"{label}.log"
    log.parent.mkdir(parents=True, exist_ok=True)
    log.write_text(run.stdout, encoding="utf-8")
    why = "" if run.returncode in (0, 1) and re.search(r"^logic=", run.stdout, re.M) else f"no verdict, status {run.returncode}; see {log.relative_to(ROOT)}"
    return run.stdout, why


def unmet(wrong, log, first, crate):
    """What is amiss with the functions of a wrong answer."""
    for f in wrong.functions:
        place, said = first.get(f, ("", "nothing"))
        if f not in first:
            yield f"`{f}` is not refused"
        elif f in crate.places and not re.search(rf"^fn {crate.name}(?:::\w+)*::{f}: (?:not proved|no proof)", log, re.M):
            yield f"`{f}` is proved all the same"
        elif UNFIT.search(said.split("\n")[0]) or not FACT.search(said):
            yield f"`{f}`: {place}: {said[:200]}"


def faults_of(edit, crate, room):
    """What is amiss with one edit."""
    answers = wrongs(edit)
    named = [f for wrong in answers for f in wrong.functions]
    if not answers:
        return ["no `wrong:` line"]
    log, why = tried(room, crate, edit.stem, [pair for wrong in answers for pair in wrong.pairs])
    if why:
        return [why]
    first, causes = first_causes(log, crate), collections.defaultdict(set)
    for f, cause in first.items():
        causes[cause].add(f)
    out = [f"`{f}` is named twice" for f, n in collections.Counter(named).items() if n > 1]
    out += [f"`{f}` is refused too, and not named" for f in first if f not in named]
    for (place, said), functions in causes.items():
        if len({wrong.name for wrong in answers if functions & set(wrong.functions)}) > 1:
            out.append(f"one cause for several wrong answers, {place}: {said[:100]}")
    for wrong in answers:
        amiss = list(unmet(wrong, log, first, crate))
        if amiss and len(answers) > 1:
            alone, why = tried(room, crate, f"{edit.stem}.{wrong.name}", wrong.pairs)
            amiss = [why] if why else list(unmet(wrong, alone, first_causes(alone, crate), crate))
            if not amiss:
                print(f"{crate.name}/{edit.stem}: {wrong.name} is refused alone, where no other wrong answer hides it", flush=True)
        out += amiss
    return out


def linked(one, other):
    """Kept work is copied by links where a check replaces a file and never writes into it."""
    if one.endswith(".oantt"):
        try:
            return os.link(one, other)
        except OSError:
            pass
    return shutil.copy2(one, other)


def proved(names):
    """Has every crate's kept work in out/, so that a copy begins with it."""
    for name in names:
        if not (ROOT / "crates" / name / "out/incremental").is_dir():
            run = subprocess.run(["rt", "check"], cwd=ROOT / "crates" / name, stdin=subprocess.DEVNULL, stdout=subprocess.PIPE, stderr=subprocess.STDOUT, errors="replace")
            if run.returncode != 0:
                print(run.stdout[-2000:])
                sys.exit(f"{name} is not proved as it stands")


def copied(room):
    for name in ("crates.txt", "HANDLES"):
        if (ROOT / name).exists():
            shutil.copy2(ROOT / name, room / name)
    for crate in sorted((ROOT / "crates").iterdir()):
        for part in ("src", "specs", "proofs", "must-fail", "out/incremental", "out/rlib"):
            if (crate / part).is_dir():
                shutil.copytree(crate / part, room / "crates" / crate.name / part, copy_function=linked)
    return room


def main():
    only = sys.argv[1:]
    edits = [e for e in sorted(ROOT.glob("crates/*/must-fail/*.edit")) if not only or e.parts[-3] in only or f"{e.parts[-3]}/{e.stem}" in only]
    order = re.findall(r"^(\w+)(?: staticlib)?:", (ROOT / "crates.txt").read_text(encoding="utf-8"), re.M)
    crates = {path.name: Crate(path.name) for path in sorted((ROOT / "crates").iterdir())}
    with_edits = {edit.parts[-3] for edit in edits}
    shutil.rmtree(LOGS, ignore_errors=True)
    proved([name for name in order if name in with_edits])
    faults, number, counted = [], 0, collections.defaultdict(set)
    with tempfile.TemporaryDirectory(prefix="edits-") as top:
        rooms = queue.SimpleQueue()
        for i in range(AT_ONCE):
            rooms.put(copied(pathlib.Path(top) / str(i)) if not (pathlib.Path(top) / str(i)).mkdir() else None)

        def work(edit):
            room = rooms.get()
            try:
                return edit, faults_of(edit, crates[edit.parts[-3]], room)
            finally:
                rooms.put(room)

        with concurrent.futures.ThreadPoolExecutor(AT_ONCE) as pool:
            for edit, amiss in pool.map(work, edits):
                faults += [f"{edit.parts[-3]}/{edit.stem}: {fault}" for fault in amiss]
    for edit in edits:
        for wrong in wrongs(edit):
            number += 1
            for f in wrong.functions:
                counted[edit.parts[-3], f].add(wrong.name)
    contracts = 0
    for crate in crates.values() if not only else ():
        if (ROOT / "crates" / crate.name / "src/main.rt").exists():
            continue
        for f in sorted(crate.public):
            contracts += 1
            names = set().union(*(counted[crate.name, g] for g in crate.answerable(f)))
            if len(names) < 2:
                faults.append(f"{crate.name}::{f}: fewer than two wrong answers: {', '.join(sorted(names)) or 'none'}")
    print("\n".join(faults + [f"{number} wrong answers in {len(edits)} edits, for {contracts} public contracts; {len(faults)} faults"]))
    sys.exit(1 if faults or not edits else 0)


if __name__ == "__main__":
    main()
