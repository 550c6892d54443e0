#!/usr/bin/env python3
"""Runs the benchmark of the monitor under the emulator, and adds to its table of events the instructions of one event: `counts.py EMULATOR PROGRAM [ARGUMENTS]`.

The emulator's times are not a processor's; the instructions that it goes through are. Registrations of many pages are left out, since counting them takes long."""
import os
import subprocess
import sys


def instructions(emulator, program, row, monitor, times):
    read, write = os.pipe()
    with subprocess.Popen([emulator, "-one-insn-per-tb", "-d", "nochain,exec", "-D", f"/dev/fd/{write}", program, "count", str(row), monitor, str(times)], pass_fds=[write]) as run:
        os.close(write)
        count, last = 0, b""
        with open(read, "rb", buffering=1 << 20) as log:
            for line in log:
                at = line.split(b"/", 2)[1] if line.startswith(b"Trace") else last
                count += at != last  # one after the other at one place: a string instruction's repetitions
                last = at
    if run.returncode != 0:
        sys.exit(f"row {row} could not be counted")
    return count


def of_one(emulator, program, row, monitor):
    return (instructions(emulator, program, row, monitor, 3) - instructions(emulator, program, row, monitor, 1)) // 2


def main():
    emulator, program, *rest = sys.argv[1:]
    out = subprocess.run([emulator, program, *rest], stdout=subprocess.PIPE, text=True)
    row = None
    for line in out.stdout.splitlines():
        if line.startswith("| event"):
            row, line = -1, line + " instructions, proved | C | ratio |"
        elif row == -1:
            row, line = 0, line + "--:|--:|--:|"
        elif not line:
            row = None
        elif row is not None:
            if line.startswith(("| register 16", "| register 64")):
                line += " | | |"
            else:
                ours, c = (of_one(emulator, program, row, monitor) for monitor in ("proved", "c"))
                line += f" {ours} | {c} | {ours / c:.2f} |"
            row += 1
        print(line, flush=True)
    sys.exit(out.returncode)


if __name__ == "__main__":
    main()
