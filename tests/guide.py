"""Holds docs/GUIDE.md to the proved line program: the manifest's bytes, the session's answers, and the line for each number given for no.

The arguments say how to run the program.
"""
import pathlib
import re
import subprocess
import sys

ROOT = pathlib.Path(__file__).resolve().parent.parent
GUIDE = (ROOT / "docs/GUIDE.md").read_text(encoding="utf-8")


def part(title):
    return re.search(rf"^## {title}$(.*?)(?=^## |\Z)", GUIDE, re.M | re.S).group(1)


def answers(lines):
    run = subprocess.run(sys.argv[1:], input="\n".join(lines) + "\n", capture_output=True, text=True, check=True)
    return run.stdout.splitlines()


def main():
    manifest = "".join(re.findall(r"^\| `([0-9a-f ]+)` \|", part("Write the manifest"), re.M)).replace(" ", "")
    session = re.findall(r"^\| `([^`]+)` \| `([^`]+)` \|", part("Try it"), re.M)
    refused = [("".join(re.findall(r"`([^`]+)`", row[0])), row[1])
               for row in re.findall(r"\| (`[^|]*) → `(no \d+)` \|$", part("The numbers given for no"), re.M)]
    assert len(session) > 10 and len(refused) > 7, "the guide's tables are not found"
    faults = []
    if f"reg 7 {manifest}" not in [line for line, _ in session]:
        faults.append(f"the table's bytes are not those that the session registers: {manifest}")
    wrote = answers([line for line, _ in session])
    faults += [f"{line}: {said}, and not {says}" for (line, says), said in zip(session, wrote, strict=True) if said != says]
    # while a codeblock runs, where the event asks for that
    register, call = session[1][0], "call 7 8192 100 200"
    for line, says in refused:
        before = [register, call] if line.startswith("pcr") else []
        said = answers(before + [line])[-1]
        if said != says:
            faults.append(f"{line}: {said}, and not {says}")
    print("\n".join(faults + [f"docs/GUIDE.md: {len(session)} lines and {len(refused)} refusals, {len(faults)} faults"]))
    sys.exit(1 if faults else 0)


main()
