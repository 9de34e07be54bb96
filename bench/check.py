#!/usr/bin/env python3
"""Times `check` on a shelf of merged files that it makes.

  check.py BIN [FILES [BYTES]]     e.g.  bench/check.py crates/fire_tool/out/fire_tool 2000 1000

Each file has 100 blocks with payloads of so many bytes. It prints the processor time, the bytes of payloads a
second, and the most memory; the shelf stands in a new folder, which is taken away again.
"""
import hashlib
import os
import resource
import struct
import subprocess
import sys
import tempfile

HEADER = b"dbin\x01" + struct.pack(">H", 10) + b"test.Block"


def record(num, payload):
    """The record of a block of one chain, with the payload's digest."""
    own, parent = b"b%d" % num, b"b%d" % (num - 1)
    fields = struct.pack(">QQQQ", num, num - 1, num - 1, 0) + bytes([len(own)]) + own + bytes([len(parent)]) + parent
    return b"\x02" + fields + struct.pack(">I", len(payload)) + payload + hashlib.sha256(payload).digest()


def make(folder, files, size):
    """Writes so many merged files, from block 100 on."""
    os.makedirs(folder)
    for base in range(100, 100 * (files + 1), 100):
        with open(os.path.join(folder, "%010d.dbin" % base), "wb") as out:
            out.write(HEADER)
            for num in range(base, base + 100):
                one = record(num, (b"%d " % num).ljust(size, b"."))
                out.write(struct.pack(">I", len(one)) + one)


def main():
    if not 2 <= len(sys.argv) <= 4:
        sys.exit(__doc__)
    tool = os.path.abspath(sys.argv[1])
    files = int(sys.argv[2]) if len(sys.argv) > 2 else 2000
    size = int(sys.argv[3]) if len(sys.argv) > 3 else 1000
    with tempfile.TemporaryDirectory() as place:
        make(os.path.join(place, "shelf", "merged"), files, size)
        subprocess.run([tool, "check"], cwd=place, check=True, stdout=subprocess.DEVNULL)
        before = resource.getrusage(resource.RUSAGE_CHILDREN)
        done = subprocess.run([tool, "check"], cwd=place, capture_output=True, check=True)
        after = resource.getrusage(resource.RUSAGE_CHILDREN)
    spent = after.ru_utime + after.ru_stime - before.ru_utime - before.ru_stime
    print(done.stdout.decode().replace("\n", ", ").rstrip(", "))
    print("%.2f s, %.0f MB of payloads a second, %.1f MB at most" % (spent, files * 100 * size / spent / 1e6, after.ru_maxrss / 1e3))


main()
