#!/usr/bin/env python3
"""The script programs' benchmark.

`make N` prints a script of N lines for a wheel of 512 cells: arms, moves, cancels and advances by handles that are good, with a fixed seed. The handles
are known since the free stack and the order of firing are document 01's; `time` says so if one is refused.
`time SCRIPT WHEEL READER` runs the wheel's program and the plain reader on it in turns, and prints the smallest times of each.
"""
import heapq
import os
import random
import subprocess
import sys
import time

TURNS = 9

CELLS, ROOM = 512, 64


class Wheel:
    """What the script's handles follow from: the free stack, and who stands where with which deadline and order number."""

    def __init__(self):
        self.clock, self.counter = 0, 1
        self.free = list(range(CELLS - 1, -1, -1))
        self.live, self.cells, self.heap = {}, [], []

    def file(self, cell, ticket, deadline):
        self.live[cell] = (deadline, self.counter, ticket)
        heapq.heappush(self.heap, (deadline, self.counter, cell, ticket))
        self.counter += 1

    def arm(self, deadline):
        cell = self.free.pop()
        self.cells.append(cell)
        self.file(cell, self.counter, deadline)

    def give_back(self, cell):
        del self.live[cell]
        self.cells.remove(cell)
        self.free.append(cell)

    def due(self, target):
        """The first entry with a deadline at most the target, if there is one; filings that no longer hold are dropped."""
        while self.heap:
            deadline, order, cell, ticket = self.heap[0]
            if self.live.get(cell) == (deadline, order, ticket):
                return self.heap[0] if deadline <= target else None
            heapq.heappop(self.heap)
        return None

    def advance(self, target):
        fired = 0
        while fired < ROOM and self.due(target):
            self.give_back(heapq.heappop(self.heap)[2])
            fired += 1
        late = self.due(target)
        self.clock = late[0] if late else target


def line(dice, wheel):
    kind = dice.random()
    deadline = wheel.clock + dice.randint(1, 100_000)
    if kind < 0.35 and wheel.free:
        wheel.arm(deadline)
        return f"A {deadline} {dice.getrandbits(32)}"
    if kind < 0.75 and wheel.cells:
        cell = dice.choice(wheel.cells)
        ticket = wheel.live[cell][2]
        if kind < 0.6:
            wheel.file(cell, ticket, deadline)
            return f"M {cell} {ticket} {deadline}"
        wheel.give_back(cell)
        return f"C {cell} {ticket}"
    target = wheel.clock + dice.randint(1, 400)
    wheel.advance(target)
    return f"G {target} {ROOM}"


def make(lines):
    dice, wheel = random.Random(1), Wheel()
    print(f"wheel {CELLS} 0")
    for _ in range(lines - 1):
        print(line(dice, wheel))


def run(program, script):
    """Seconds on the clock and of the processor for one run."""
    before, start = os.times(), time.perf_counter()
    with open(script, "rb") as lines:
        subprocess.run([program], stdin=lines, stdout=subprocess.DEVNULL, check=True)
    after, end = os.times(), time.perf_counter()
    return end - start, after.children_user + after.children_system - before.children_user - before.children_system


def measure(script, wheel, reader):
    with open(script, "rb") as lines:
        count = sum(1 for _ in lines)
    with open(script, "rb") as lines:
        answers = subprocess.run([wheel], stdin=lines, stdout=subprocess.PIPE, check=True).stdout
    if b"refused" in answers or b"bad line" in answers:
        sys.exit("a line of the script was refused: the handles are not as foreseen")
    best = {}
    for _ in range(TURNS):
        for program in (wheel, reader):
            taken = run(program, script)
            best[program] = tuple(map(min, taken, best.get(program, taken)))
    for name, program in (("wheel_script", wheel), ("plain reader in C", reader)):
        clock, processor = best[program]
        print(f"{name}: {count} lines in {clock:.3f} s, {processor:.2f} s of the processor, {count / clock / 1e6:.1f} million lines a second")
    print(f"ratio {best[wheel][0] / best[reader][0]:.2f}")


def main():
    if len(sys.argv) == 3 and sys.argv[1] == "make":
        make(int(sys.argv[2]))
    elif len(sys.argv) == 5 and sys.argv[1] == "time":
        measure(*sys.argv[2:])
    else:
        sys.exit(__doc__)


main()
