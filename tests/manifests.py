"""Compares the proved reader with a second one, written from document 01 alone.

For several manifests: every single-byte change, every shortening and some lengthenings go through the program `manifests`
(the arguments say how to run it); its number, and for an accepted one the bytes that the writer makes again, must be those of this reader.
"""
import struct
import subprocess
import sys


def accepted(m):
    """Document 01, "Manifest: body first, trailer last"."""
    if not 40 <= len(m) <= 112:
        return False
    word, version, r, e, zero, back_runs, back_entries = struct.unpack("<4sBBBBII", m[-16:])
    if word != bytes.fromhex("53534342") or version != 1 or zero != 0:
        return False
    if not (2 <= r <= 4 and 1 <= e <= 8) or len(m) != 8 * (r + e) + 16:
        return False
    if back_runs != 8 * (r + e) or back_entries != 8 * e:
        return False
    start = len(m) - 16
    runs = [struct.unpack_from("<BBHI", m, start - back_runs + 8 * i) for i in range(r)]
    entries = [struct.unpack_from("<IHH", m, start - back_entries + 8 * i) for i in range(e)]
    next_free, pages, code = 0, 0, set()
    for kind, blank, count, first in runs:
        if kind not in (1, 2, 3, 4) or blank or count < 1 or first < next_free or first + count - 1 >= 1024:
            return False
        next_free = first + count
        pages += count
        if kind == 1:
            code |= set(range(first, first + count))
        if kind == 4 and count != 1:
            return False
    if pages > 64 or not code or sum(1 for run in runs if run[0] == 4) != 1:
        return False
    before = -1
    for address, put_in, put_out in entries:
        if address // 4096 not in code or put_in > 2048 or put_out > 2048 or address <= before:
            return False
        before = address
    return True


def made(runs, entries):
    body = b"".join(struct.pack("<BBHI", k, 0, c, f) for k, c, f in runs) + b"".join(struct.pack("<IHH", *x) for x in entries)
    return body + b"SSCB" + struct.pack("<BBBBII", 1, len(runs), len(entries), 0, 8 * (len(runs) + len(entries)), 8 * len(entries))


long = made([(1, 1, 2), (4, 1, 3)], [(8192, 4, 4)])
assert long.hex() == "01000100020000000400010003000000002000000400040053534342010201001800000008000000"
bases = [
    long,
    made([(4, 1, 0), (1, 3, 1), (2, 2, 4), (3, 1, 6)], [(4096, 0, 2048), (4097, 2048, 0), (16383, 1, 1)]),
    made([(1, 60, 100), (1, 1, 160), (2, 2, 900), (4, 1, 1023)], [(409600 + 4096 * i, 256 * i, 2048 - 256 * i) for i in range(8)]),
    made([(2, 30, 1), (1, 32, 31), (4, 1, 64)], [(31 * 4096 + 255, 2047, 255), (31 * 4096 + 256, 511, 512)]),
    made([(1, 1, 255), (4, 1, 256), (3, 1, 511)], [(255 * 4096, 1, 2), (256 * 4096 - 1, 3, 4)]),
]
cases = []
for base in bases:
    assert accepted(base)
    cases.append(base)
    for at in range(len(base)):
        cases += [base[:at] + bytes([value]) + base[at + 1:] for value in range(256) if value != base[at]]
    cases += [base[:n] for n in range(len(base))] + [base[n:] for n in range(len(base))]
    cases += [base + bytes(n) for n in range(1, 9)] + [bytes(n) + base for n in range(1, 9)]
    cases += [base[:8 * i] + base[8 * i + 8:] for i in range(len(base) // 8)]

out = subprocess.run(sys.argv[1:], input=b"".join(bytes([len(m)]) + m + bytes(255 - len(m)) for m in cases), capture_output=True, check=True).stdout
place, yes = 0, 0
for m in cases:
    number = 0 if accepted(m) else 3
    assert out[place] == number, (m.hex(), out[place], number)
    place += 1
    if number == 0:
        assert out[place:place + 112] == m + bytes(112 - len(m)), (m.hex(), out[place:place + 112].hex())
        place += 112
        yes += 1
assert place == len(out)
print(f"manifests: {len(cases)} read alike, {yes} of them accepted and written again")
