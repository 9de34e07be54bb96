#!/usr/bin/env python3
"""Ends a program that takes blocks at random moments, and loads what is left each time.

  stops.py BENCH_STORE [STOPS]

There are 200 stops where no number is given, in a new folder, which is taken away again. Every second one waits for
the block after which the program merges. It prints how many came after such a block and before the next one. Each
block whose number was printed must be there after the stop, and one more at most; none may be passed or contradict
another, and the final blocks in merged files never get fewer.
"""
import os
import random
import signal
import subprocess
import sys
import tempfile
import time

EVERY = 100


def loaded(program, folder):
    """The numbers that a load prints, by their names."""
    words = subprocess.run([program, "load"], cwd=folder, capture_output=True, text=True, check=True).stdout.split()
    return {name: int(number) for name, number in zip(words[::2], words[1::2])}


def stopped(program, folder, waits):
    """The numbers that the program printed before it was ended."""
    words = [program, "take", "1000000", "200"]
    with subprocess.Popen(words, cwd=folder, stdout=subprocess.PIPE, text=True) as taking:
        numbers = []
        for line in taking.stdout if waits else ():
            numbers.append(int(line))
            if numbers[-1] % EVERY == 0:
                break
        time.sleep(random.uniform(0.0, 0.3))
        taking.kill()
        numbers += map(int, taking.stdout.read().split("\n")[:-1])
    if taking.returncode != -signal.SIGKILL:
        sys.exit(f"the program ended by itself, with {taking.returncode}")
    return numbers


def fault(before, numbers, now):
    """What is wrong with what is left, or nothing."""
    first = before["admitted"] + 1
    if numbers != list(range(first, first + len(numbers))):
        return "the numbers do not follow the blocks that were there"
    if not 0 <= now["admitted"] - before["admitted"] - len(numbers) <= 1:
        return "a block was lost, or was never taken"
    if now["stored"] < before["stored"]:
        return "a final block left the merged files"
    if now["passed"] or now["conflicts"] or now["waiting"]:
        return "a block was passed, contradicts another or waits"
    return None


def main():
    if not 2 <= len(sys.argv) <= 3:
        sys.exit(__doc__)
    program = os.path.abspath(sys.argv[1])
    stops = int(sys.argv[2]) if len(sys.argv) > 2 else 200
    before, merging = {"admitted": 0, "stored": 0}, 0
    with tempfile.TemporaryDirectory() as folder:
        for stop in range(stops):
            numbers = stopped(program, folder, stop % 2 == 1)
            now = loaded(program, folder)
            wrong = fault(before, numbers, now)
            if wrong:
                sys.exit(f"stop {stop}: {wrong}: {numbers[-1:]} was the last number, {now} is left after {before}")
            before = now
            merging += bool(numbers) and numbers[-1] % EVERY == 0
    print(f"{stops} stops, {merging} after a hundredth block, {before['admitted']} blocks, {before['stored']} stored")


main()
