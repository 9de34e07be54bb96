#!/usr/bin/env python3
"""Times a load of a shelf of merged files, and `steps` on the same blocks as lines.

  load.py BENCH_STORE FIRE_TOOL [BLOCKS [BYTES [ROUNDS]]]

There are 1,000,000 blocks with payloads of 200 bytes where no numbers are given, a hundred in each file, in a new
folder, which is taken away again. In each round both programs run, and both must end with the last block. It prints
each run's processor time, user and system together, the most memory of either, and the ratio of the best times.
"""
import base64
import hashlib
import os
import resource
import struct
import subprocess
import sys
import tempfile

HEADER = b"dbin\x01" + struct.pack(">H", 10) + b"test.Block"


def payload(num, size):
    return (b"%d " % num)[:size].ljust(size, b".")


def record(num, text):
    """The record of a block of one chain, with the payload's digest."""
    own, parent = b"b%d" % num, b"b%d" % (num - 1)
    fields = struct.pack(">QQQQ", num, num - 1, num - 1, 0) + bytes([len(own)]) + own + bytes([len(parent)]) + parent
    return b"\x02" + fields + struct.pack(">I", len(text)) + text + hashlib.sha256(text).digest()


def make_files(folder, blocks, size):
    """Writes the merged files, from block 100 on."""
    os.makedirs(folder)
    for base in range(100, 100 + blocks, 100):
        with open(os.path.join(folder, "%010d.dbin" % base), "wb") as out:
            out.write(HEADER)
            for num in range(base, base + 100):
                one = record(num, payload(num, size))
                out.write(struct.pack(">I", len(one)) + one)


def make_lines(name, blocks, size):
    """Writes the same blocks as the lines of a node."""
    with open(name, "wb") as out:
        out.write(b"FIRE INIT 3.0 test.Block\n")
        for num in range(100, 100 + blocks):
            text = base64.b64encode(payload(num, size))
            out.write(b"FIRE BLOCK %d b%d %d b%d %d 0 %s\n" % (num, num, num - 1, num - 1, num - 1, text))


def spent(words, folder, given):
    """What a run prints, and its processor seconds."""
    before = resource.getrusage(resource.RUSAGE_CHILDREN)
    with open(given, "rb") as lines, open(os.path.join(folder, "answer"), "wb") as out:
        subprocess.run(words, cwd=folder, stdin=lines, stdout=out, check=True)
    after = resource.getrusage(resource.RUSAGE_CHILDREN)
    with open(os.path.join(folder, "answer"), "rb") as out:
        last = out.read().split(b"\n")[-2].decode()
    return last, after.ru_utime + after.ru_stime - before.ru_utime - before.ru_stime


def main():
    if not 3 <= len(sys.argv) <= 6:
        sys.exit(__doc__)
    store, tool = (os.path.abspath(word) for word in sys.argv[1:3])
    blocks, size, rounds = [*map(int, sys.argv[3:]), *(1_000_000, 200, 5)[len(sys.argv) - 3 :]]
    best = {}
    ends = {
        "load": f"admitted {blocks} waiting 0 passed 0 conflicts 0 stored {blocks - 1}",
        "steps": f"new {blocks + 99} b{blocks + 99}",
    }
    with tempfile.TemporaryDirectory() as folder:
        lines = os.path.join(folder, "lines")
        make_files(os.path.join(folder, "shelf", "merged"), blocks, size)
        make_lines(lines, blocks, size)
        for _ in range(rounds):
            for words in ([store, "load"], [tool, "steps"]):
                last, seconds = spent(words, folder, lines)
                if last != ends[words[1]]:
                    sys.exit(f"{words[1]} ends with '{last}'")
                best[words[1]] = min(seconds, best.get(words[1], seconds))
                print(f"{words[1]}: {seconds:.2f} s", flush=True)
    most = resource.getrusage(resource.RUSAGE_CHILDREN).ru_maxrss / 1e3
    load, steps = best["load"], best["steps"]
    print(f"load {load:.2f} s, steps {steps:.2f} s, ratio {load / steps:.2f}, {most:.0f} MB at most")


main()
