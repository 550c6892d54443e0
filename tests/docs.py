"""Holds the pages to the repository: what docs/PROMISES.md and docs/MAP.md name exists, and so does every file that a page links to or names."""
import pathlib
import re
import sys

ROOT = pathlib.Path(__file__).resolve().parent.parent
PAGES = [ROOT / "README.md", *sorted((ROOT / "docs").glob("*.md"))]
SOURCES = {c.name: "\n".join(f.read_text(encoding="utf-8") for f in sorted(c.rglob("*")) if f.suffix in (".rt", ".antt") and "out" not in f.relative_to(c).parts)
           for c in (ROOT / "crates").iterdir() if c.is_dir()}
WRONG = {c.name: re.findall(r"^wrong: (\w+) of ", "\n".join(e.read_text(encoding="utf-8") for e in c.glob("must-fail/*.edit")), re.M)
         for c in (ROOT / "crates").iterdir() if c.is_dir()}
WORDS = set(re.findall(r"[\w′-]+", "\n".join(SOURCES.values())))
PLAIN = {"ensures", "requires", "enum", "struct", "match", "usize", "memmove", "memcpy", "memset", "rt ci", "hex"}


def file_named(token):
    """A file or folder, by its path from the root or from crates/."""
    return any((base / token).exists() for base in (ROOT, ROOT / "crates"))


def known(token):
    """Whether a token of those two stands for something that is there."""
    wrong = re.fullmatch(r"(\w+)/(\w+)", token)
    if wrong and wrong.group(2) in WRONG.get(wrong.group(1), ()):
        return True
    function = re.fullmatch(r"(\w+)::(\w+)", token)
    if function:  # of a crate, or of a type
        text = SOURCES.get(function.group(1)) or "\n".join(t for t in SOURCES.values() if f"impl {function.group(1)} " in t)
        return bool(re.search(rf"\bpub (?:extern \"C\" )?fn {function.group(2)}\b", text))
    if "/" in token:
        return file_named(token)
    return token in SOURCES or token in WORDS or token in PLAIN or not re.fullmatch(r"[\w-]+", token)


def main():
    faults, seen = [], 0
    for page in PAGES:
        text = page.read_text(encoding="utf-8")
        text = re.sub(r"^```.*?^```", "", text, flags=re.M | re.S)
        for target in re.findall(r"\]\(([^)#]+)(?:#[^)]*)?\)", text):
            seen += 1
            if not target.startswith("http") and not (page.parent / target).exists():
                faults.append(f"{page.name}: no file {target}")
        for token in re.findall(r"`([^`\n]+)`", text):
            seen += 1
            path = re.fullmatch(r"(?:crates|docs|tests|tools|examples|bench|host)/[\w./-]+", token) and "NAME" not in token
            if not known(token) if page.name in ("PROMISES.md", "MAP.md") else path and not file_named(token):
                faults.append(f"{page.name}: `{token}` names nothing that is there")
    print("\n".join(faults + [f"{len(PAGES)} pages, {seen} names, {len(faults)} faults"]))
    sys.exit(1 if faults or not seen else 0)


main()
