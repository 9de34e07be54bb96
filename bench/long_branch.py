#!/usr/bin/env python3
"""Times `steps` on a chain and a branch that leaves it in the middle and overtakes it with its last block.

  long_branch.py PROGRAM [BLOCKS]

The chain has BLOCKS blocks, 1,000,000 where no number is given, with empty payloads. The branch skips one number and
has half as many blocks, so that only its last one is higher than the chain. That block undoes half of the chain and
tells the whole branch. Each run is timed with it and without it, in processor time.
"""
import os
import resource
import subprocess
import sys
import tempfile


def lines(blocks):
    """The lines of the chain and of the branch."""
    half = blocks // 2
    yield "FIRE INIT 3.0 bench.Block\n"
    for n in range(1, blocks + 1):
        yield f"FIRE BLOCK {n} a{n} {n - 1} a{n - 1} 0 0 \n"
    parent = f"{half} a{half}"
    for n in range(half + 2, blocks + 2):
        yield f"FIRE BLOCK {n} b{n} {parent} 0 0 \n"
        parent = f"{n} b{n}"


def run(program, text, out):
    """Processor seconds of one run."""
    before = resource.getrusage(resource.RUSAGE_CHILDREN)
    with open(text, "rb") as given:
        subprocess.run([program, "steps"], stdin=given, stdout=out, check=True)
    after = resource.getrusage(resource.RUSAGE_CHILDREN)
    return after.ru_utime - before.ru_utime + after.ru_stime - before.ru_stime


def main():
    program = os.path.abspath(sys.argv[1])
    blocks = int(sys.argv[2]) if len(sys.argv) > 2 else 1_000_000
    with tempfile.TemporaryDirectory() as folder:
        whole, short, told = (os.path.join(folder, name) for name in ("whole", "short", "told"))
        made = list(lines(blocks))
        for name, part in ((whole, made), (short, made[:-1])):
            with open(name, "w") as out:
                out.writelines(part)
        seconds = []
        for name in (short, whole):
            with open(told, "wb") as out:
                seconds.append(run(program, name, out))
            with open(told, "rb") as it:
                seconds.append(sum(1 for _ in it))
        before, steps_before, after, steps_after = seconds
        count = len(made) - 2
        print(f"{count} blocks: {before:.2f} s, {before / count * 1e6:.2f} us a block, {steps_before} steps")
        print(f"the last one: {(after - before) * 1e3:.0f} ms for {steps_after - steps_before} steps")


main()
