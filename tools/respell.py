#!/usr/bin/env python3
"""tools/respell.py: run once, at the top of the repository, after the toolchain's port.py. It brings the repository's own definitions, fields of records, lemmas and
names of imported modules to one spelling, small letters with underscores (types and modules keep their capitals); names in proof files that stand for a function's
proof get the function's name and `_spec`; and it brings must-fail edits to the spelling that port.py and this script give the files that they are about.

It goes by names alone. Names that a file takes from the toolchain's libraries stay as they are in that file. Functions, strings, inputs and outputs keep their names.
"""
import collections
import difflib
import pathlib
import re
import subprocess
import sys

BASE = sys.argv[1] if len(sys.argv) > 1 else "HEAD"  # the commit before port.py ran
CRATES = pathlib.Path("crates")
NAME = re.compile(r"[A-Za-z_◌⊎≤][\w'₀-₉◌⊎≤≢]*(?:-[\w'₀-₉◌⊎≤≢]+)*")
DECLARED = re.compile(r"^( *)(?:(?:abbrev|unfoldable|pub|private) +)*(?:(record|data) +)?([A-Za-z_][\w'₀-₉]*(?:-[\w'₀-₉]+)*)(?: +[({][^=]*)? *(?=:[ \n])", re.M)
USE = re.compile(r"^\s*(?:ghost )?(?:pub )?use +([^;{\n]+?)(?:\.\{([^}]*)\})?(?: as ([\w'-]+))?;?$", re.M)


def snake(name):
    """The new spelling: a type keeps its capitals, and what it is joined to does not."""
    if name[0].isupper():
        return name
    out = re.sub(r"(?<=[a-z0-9'])([A-Z])", lambda m: "_" + m[1].lower(), name)
    return out.replace("-", "_")


def sources():
    for path in sorted(CRATES.rglob("*.antt")) + sorted(CRATES.rglob("*.rt")):
        if "out" not in path.parts:
            yield path


def is_own(path):
    return path.startswith("Rattle.") and path.split(".")[1] in OWN


OWN = {p.name for p in CRATES.iterdir() if p.is_dir()}
texts = {p: p.read_text() for p in sources()}

declared, fields, in_specs = set(), set(), set()
for path, text in texts.items():
    if path.suffix != ".antt" or path.name == "Proof.antt":
        continue
    inside = None
    for line in text.splitlines():
        m = DECLARED.match(line)
        if re.match(r" *(?:pub )?record ", line):
            inside = len(line) - len(line.lstrip())
            continue
        if line.strip() and inside is not None and len(line) - len(line.lstrip()) <= inside:
            inside = None
        if m and not m[2]:
            declared.add(m[3])
            if "specs" in path.parts:
                in_specs.add(m[3])
            if inside is not None:
                fields.add(m[3])
aliases = {m[3] for text in texts.values() for m in USE.finditer(text) if m[3]}

# Where two names would be one, the definition has it, and a lemma gets `_lem` behind it.
together = collections.defaultdict(set)
for n in declared:
    together[snake(n)].add(n)
final = {}
for n, olds in together.items():
    first = sorted(olds, key=lambda o: (o not in in_specs, "-" in o, o))[0]
    for o in olds:
        final[o] = n if o == first else n + "_lem"
for n in aliases - declared:
    final[n] = snake(n)


def foreign(text):
    """What a file takes from the toolchain's libraries."""
    taken = set()
    for m in USE.finditer(text):
        if m[2] is not None and not is_own(m[1]):
            for it in m[2].split(","):
                taken.add(it.split(" as ")[-1].strip())
    return taken


def new_names(text):
    taken = foreign(text)
    return {n: final[n] for n in final if final[n] != n and n not in taken}


def respell(text, names, rust):
    def word(m):
        n, before = m[0], text[m.start() - 1 : m.start()]
        if n not in names:
            return n
        if before == "." and n not in fields and not re.search(r"(?:Rattle|tie)[\w.'-]*$|\{[^}]*$", text[: m.start()].rsplit("\n", 1)[-1]):
            # behind a dot: a field of ours, or a name in one of our modules
            head = re.search(r"([\w'-]+)\.$", text[max(0, m.start() - 60) : m.start()])
            if not (head and head[1] in aliases):
                return n
        return names[n]

    if not rust:
        return NAME.sub(word, text)
    out = []
    for part in re.split(r'(b?"(?:[^"\\]|\\.)*")', text):  # strings stay
        out.append(part if part.endswith('"') and part[:1] in 'b"' else NAME.sub(lambda m: names.get(m[0], m[0]), part))
    return "".join(out)


clashes = 0
for path, text in texts.items():
    names = new_names(text)
    if path.suffix == ".rt":
        names = {n: to for n, to in names.items() if not to.endswith("_lem")}
    new = respell(text, names, path.suffix == ".rt")
    words = set(NAME.findall(text))
    for old in names.keys() & words:
        if names[old] in words and path.suffix == ".antt":
            print(f"clash: {path}: {old} and {names[old]}")
            clashes += 1
    if path.name == "Proof.antt":
        f = path.parent.name
        new = re.sub(rf"(?<![\w'-]){re.escape(f.replace('_', '-'))}-spec(?![\w'-])", f"{f}_spec", new)
        new = re.sub(r"Need-overflow-(add|sub|mul|cast|shl|shr|step|neg)-", r"Need-overflow_\1-", new)
        new = new.replace("Need-slice-bounds-", "Need-slice_bounds-").replace("Need-nonzero-div-", "Need-nonzero_div-").replace("Need-nonzero-rem-", "Need-nonzero_rem-")
    if new != text:
        path.write_text(new)

for n, olds in sorted(together.items()):
    if len(olds) > 1:
        print("told apart: " + ", ".join(f"{o} is {final[o]}" for o in sorted(olds)))


# ---- must-fail edits: each pair of lines gets the words that the file about which it is got since BASE
def at_base(path):
    r = subprocess.run(["git", "show", f"{BASE}:{path}"], capture_output=True, text=True)
    return r.stdout if r.returncode == 0 else None


def turned(text):
    text = text.replace("′", "'")
    text = re.sub(r"λ r\. ⌜ (.*?) ⌝", lambda m: re.sub(r"\br\b", "result", m[1]), text)
    text = re.sub(r"(?<=[\w')]) (\.[a-z])", r"\1", text)
    text = re.sub(r"#\[no_mangle\]", "#[unsafe(no_mangle)]", text)
    return re.sub(r"⌜ | ⌝", "", text)


WORDS = re.compile(r"[A-Za-z_◌⊎≤][\w'₀-₉◌⊎≤≢]*(?:-[\w'₀-₉◌⊎≤≢]+)*|·")
mapped = collections.defaultdict(collections.Counter)  # of each old word, the new ones that stand in its place
old_texts = {}
for path in sources():
    was = at_base(path)
    old_texts[path] = was
    if was is None:
        continue
    a, b = [turned(l) for l in was.splitlines()], path.read_text().splitlines()
    for tag, i, j, k, m in difflib.SequenceMatcher(None, a, b, autojunk=False).get_opcodes():
        if tag != "replace" or j - i != m - k:
            continue
        for x, y in zip(a[i:j], b[k:m]):
            xs, ys = WORDS.findall(x), WORDS.findall(y)
            if len(xs) == len(ys) and not x.lstrip().startswith(("use ", "ghost use")):
                for v, w in zip(xs, ys):
                    mapped[path, v][w] += 1
                    mapped[None, v][w] += 1


def edited(path, text):
    def word(m):
        if path.suffix == ".rt" and m[0] == snake(m[0]):
            return m[0]
        for key in ((path, m[0]), (None, m[0])):
            if mapped[key]:
                return mapped[key].most_common(1)[0][0]
        return final.get(m[0], m[0])

    return WORDS.sub(word, turned(text))


def tries(path, text):
    """The ways in which a clause's or a definition's projections may read now."""
    one = edited(path, text)
    yield one
    two = re.sub(r"\(now \((\w+)\.exit\)\)", r"\1.new", one)
    two = re.sub(r"now \((\w+)\.exit\)", r"\1.new", two)
    two = re.sub(r"(?<![\w'])r(?=[ .])", "result", two) if path.suffix == ".rt" else two
    for entry in ("now", "old"):
        it = re.sub(r"\(now \((\w+)\.entry\)\)", rf"\1.{entry}", two)
        yield re.sub(r"now \((\w+)\.entry\)", rf"\1.{entry}", it)
    tight = re.sub(r"\(([\w'₀-₉]+(?:\.[\w']+)+)\)", r"\1", one)
    yield tight
    yield re.sub(r"(\b[a-z]\w* (?:[\w']+ )*[\w']+)((?:\.[\w']+)+)", r"(\1)\2", tight)
    yield re.sub(r"(?<=\d) \.(?=\d)", ".", tight)


left = 0
for edit in sorted(CRATES.glob("*/must-fail/*.edit")):
    lines, out, file = edit.read_text().splitlines(), [], None
    for line in lines:
        if line.startswith("file: "):
            file = edit.parent.parent / line[6:].strip()
        elif line.startswith(("old: ", "new: ")) and file is not None and file in texts:
            now = file.read_text()
            body = line[5:]
            if line.startswith("old: "):
                kept = now.count(body) == 1 and (old_texts[file] or "").count(body) == 1
                way, new = 0, body
                if not kept:
                    ways = list(tries(file, body))
                    way = next((k for k, it in enumerate(ways) if now.count(it) == 1), 0)
                    new = ways[way]
                if now.count(new) != 1:
                    print(f"left: {edit}: {file.name} has {now.count(new)} times: {new}")
                    left += 1
            else:
                new = list(tries(file, body))[way]
            line = line[:5] + new
        elif line.startswith("wrong: "):
            line = re.sub(r"[\w'-]+", lambda m: (mapped[None, m[0]].most_common(1) or [[final.get(m[0], m[0])]])[0][0] if "-" in m[0] or m[0] != m[0].lower() else m[0], line)
        out.append(line)
    edit.write_text("\n".join(out) + "\n")
print(f"respell: {len(declared)} names declared, {clashes} clashes in a file, {left} texts of edits left by hand")
