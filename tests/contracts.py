"""Holds every public function of crates/ to document 01's "No public function lacks a contract on what it returns".

- A function that returns something, or takes a `&mut`, has an `ensures`. A method of a trait for a type is public too; its `ensures` is the trait's, of which the `impl`
  says the rest in its ghost members (`from_gives`).
- A function that has a `requires` stands in docs/PROMISES.md, "What inner functions ask", and every function that stands there has one. An entry point,
  which is any function of the crates ENTRY, refuses bad input and asks nothing.
- A function of a library that is no promise (`fn laws() ensures ..`) has its theorem of one outcome in the specs of crate unique; where that is of a part of the
  outcome only, the function stands in docs/PROMISES.md, "Exceptions to one outcome".
- No crate can depend on a static library, so that of each export no theorem can be written. It is a library's function instead, called under its own name with the
  export's parameters in their order, and has that function's parameters, result and clauses word by word; that function has the theorem.
"""
import pathlib
import re
import sys

ROOT = pathlib.Path(__file__).resolve().parent.parent
HEAD = re.compile(r'\bpub\s+(?:extern\s+"C"\s+)?fn\s+(\w+)')
ENTRY = {"start", "start_c", "monitor", "manifest", "manifest_c", "devicemap", "devicemap_c", "sha_1", "sha1_c", "switch", "wellformed", "wellformed_c", "twin", "host", "host_c", "bench_c"}
STATIC = set(re.findall(r"^(\w+) staticlib:", (ROOT / "crates.txt").read_text(encoding="utf-8"), re.M))
IMPL = re.compile(r"^impl\s+(\w+)\s*\{", re.M)
TRAIT = re.compile(r"^impl\s+(?:\w+::)*(\w+)(?:<([^{]*)>)?\s+for\s+(\w+)\s*\{", re.M)
METHOD = re.compile(r"\bfn\s+(\w+)")


def closing(text, at):
    """The place behind the bracket that closes the one at `at`."""
    pairs = {"(": ")", "{": "}", "[": "]"}
    depth, opens, shuts = 0, text[at], pairs[text[at]]
    while True:
        depth += (text[at] == opens) - (text[at] == shuts)
        at += 1
        if depth == 0:
            return at


def functions(text):
    """Each public function: name, the type that it is a method of, parameters, result, clauses with their texts, body."""
    text = re.sub(r"//[^\n]*", "", text)
    spans = [(m.start(), closing(text, m.end() - 1), m.group(1), []) for m in IMPL.finditer(text)]
    heads = list(HEAD.finditer(text))
    for m in TRAIT.finditer(text):  # by the toolchain's name of the `impl`
        end = closing(text, m.end() - 1)
        said = [("ensures", clause) for clause in re.findall(r"\bghost\s+\w+\s*=\s*\{(.*?)\};", text[m.end():end], re.S)]
        spans.append((m.start(), end, "".join(word[0].upper() + word[1:] for word in (m.group(3), m.group(1), *re.findall(r"\w+", m.group(2) or ""))), said))
        heads += METHOD.finditer(text, m.end(), end)
    for m in heads:
        begin = text.index("(", m.end())
        end = closing(text, begin)
        result = re.match(r"\s*->\s*([^{]*?)\s*(?=\brequires\b|\bensures\b|\{)", text[end:])
        at = end + (result.end() if result else 0)
        owner, given = next(((name, said) for a, b, name, said in spans if a < m.start() < b), ("", []))
        clauses = list(given)
        while True:
            clause = re.match(r"\s*(requires|ensures)\b[^{]*", text[at:])
            if not clause:
                break
            upto = closing(text, at + clause.end())
            clauses.append((clause.group(1), " ".join(text[at:upto].split())))
            at = upto
        yield m.group(1), owner, text[begin:end], result.group(1) if result else "", clauses, text[at:closing(text, text.index("{", at))]


def named(title):
    """The functions that a part of docs/PROMISES.md names."""
    text = (ROOT / "docs/PROMISES.md").read_text(encoding="utf-8")
    part = re.search(rf"^#+ {title}$(.*?)(?=^##|\Z)", text, re.M | re.S)
    return set(re.findall(r"`(\w+::\w+)`", part.group(1))) if part else set()


def theorem(place, unique):
    """Of what the contract of the function at this place is proved to leave one: Outcome, View or nothing."""
    alias = re.search(rf"^use {re.escape(place)} as (\S+)$", unique, re.M)
    found = alias and re.search(rf"^  pub {alias.group(1)}_one : One(Outcome|View) {alias.group(1)}\.ended ", unique, re.M)
    return found.group(1) if found else ""


def said(parameters, result, clauses):
    """A function's head, so that two can be compared."""
    return re.sub(r",?\s*\)$", ")", re.sub(r"\(\s+", "(", " ".join(parameters.split()))), " ".join(result.split()), sorted(text for _, text in clauses)


def meant(text, clauses):
    """From where each word of the clauses is that the file brings in."""
    found = {}
    for path, names, alias in re.findall(r"^(?:ghost )?use ([^;{\n]+?)(?:\.\{([^}]*)\}|::\{([^}]*)\})?;", text, re.M):
        for name in (names or alias).split(",") if names or alias else [re.split(r"\.|::", path)[-1]]:
            old, _, new = (path if not (names or alias) else name.strip()).partition(" as ")
            found[new or re.split(r"\.|::", old)[-1]] = old if not (names or alias) else f"{path}.{old}"
    return {word: found[word] for _, clause in clauses for word in re.findall(r"[\w◌≡≤<+×']+", clause) if word in found}


def exported(name, parameters, result, clauses, body, text):
    """What is amiss with an export of a static library, and the function that it stands for."""
    given = [re.match(r"\s*(\w+)\s*:", part).group(1) for part in re.split(r",(?![^<(\[]*[>)\]])", parameters[1:-1]) if part.strip()]
    call = re.fullmatch(rf"\{{\s*(\w+)::{name}\(([^()]*)\);?\s*\}}", body.strip())
    if not call or [word.strip() for word in call.group(2).split(",") if word.strip()] != given:
        return f"its body is not one call of a library's {name} with the same arguments"
    source = ROOT / "crates" / call.group(1) / "src/lib.rt"
    below = source.read_text(encoding="utf-8") if source.exists() else ""
    other = next((f for f in functions(below) if f[0] == name and not f[1]), None)
    if other is None:
        return f"{call.group(1)} has no public function {name}"
    if said(parameters, result, clauses) != said(*other[2:5]):
        return f"its head is not that of {call.group(1)}::{name}"
    if meant(text, clauses) != meant(below, other[4]):
        return f"its clauses take a word from elsewhere than {call.group(1)}::{name}"
    return ""


def main():
    listed, exceptions = named("What inner functions ask"), named("Exceptions to one outcome")
    unique = "\n".join(f.read_text(encoding="utf-8") for f in ROOT.glob("crates/unique/specs/*.antt"))
    faults, total, asking = [], 0, set()
    for path in sorted(ROOT.glob("crates/*/src/**/*.rt")):
        crate = path.relative_to(ROOT).parts[1]
        program = (ROOT / "crates" / crate / "src/main.rt").exists()
        root = ROOT / "crates" / crate / "src" / ("main.rt" if program else "lib.rt")
        if re.search(rf"^mod {path.stem};", root.read_text(encoding="utf-8"), re.M):
            continue  # a module that is not `pub`: no other crate can call what is in it
        text = path.read_text(encoding="utf-8")
        for name, owner, parameters, result, clauses, body in functions(text):
            total += 1
            where = f"{path.relative_to(ROOT)}: {name}"
            speaks = bool(result) or "&mut" in parameters
            kinds = {kind for kind, _ in clauses}
            if "ensures" not in kinds:
                faults.append(f"{where}: no `ensures`")
            if "requires" in kinds:
                asking.add(f"{crate}::{name}")
                if crate in ENTRY:
                    faults.append(f"{where}: an entry point with a `requires`")
            if crate in STATIC:
                amiss = exported(name, parameters, result, clauses, body, text)
                faults += [f"{where}: {amiss}"] if amiss else []
                continue
            module = "" if path.stem in ("lib", "main") else path.stem + "."
            place = f"Rattle.{crate}.specs.contracts.{module}{owner + '.' if owner else ''}{name}"
            proved = theorem(place, unique)
            if speaks and not program and not proved:
                faults.append(f"{where}: no theorem of one outcome names {place}")
            if proved == "View" and f"{crate}::{name}" not in exceptions:
                faults.append(f"{where}: one outcome of a part only, and not among the exceptions in docs/PROMISES.md")
    faults += [f"docs/PROMISES.md, \"What inner functions ask\", lacks `{name}`" for name in sorted(asking - listed)]
    faults += [f"docs/PROMISES.md, \"What inner functions ask\": `{name}` asks nothing" for name in sorted(listed - asking)]
    print("\n".join(faults + [f"{total} public functions, {len(asking)} of them ask something of their caller, {len(faults)} faults"]))
    sys.exit(1 if faults or not total else 0)


main()
