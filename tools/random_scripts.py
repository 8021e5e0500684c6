#!/usr/bin/env python3
"""Run random scripts under several cuts of reads and writes, and compare what comes of each.

usage: tools/random_scripts.py [COUNT [SEED]]

Draws COUNT scripts of built forms, 200,000 if not given, from SEED, 1 if not given. Each is run by the
program `cases` over files in memory with reads and writes that are cut into 1, 2 and 3 bytes and not at all, and must end
with the same status and cause, leave the same files, and have the same journal. The line before the last says how many
there were of each status; the status of this program is 1 where a script came out differently.
"""

import random
import re
import subprocess
import sys
import tempfile
from collections import Counter
from pathlib import Path

from cases_data import ROOT, escaped

PROGRAM = ROOT / "crates" / "cases" / "out" / "cases"
CUTS = (0, 1, 2, 3)
BATCH = 5000

CLASSES = ["digit", "alpha", "space", "newline", 'is "a"', "below 100", "not digit", "not upper", "hexdigit"]
MAPS = ["xor 1", "add 200", "rot13"]


class Script:
    """A script that is being drawn: names are written and marked once at most."""

    def __init__(self, draw):
        self.draw, self.names, self.keys, self.input = draw, 0, [], False

    def name(self, front):
        self.names += 1
        return f'"{front}{self.names}"'

    def source(self, depth):
        choice = self.draw.randrange(8)
        if choice == 0 and not self.input:
            self.input = True
            return "stdin"
        if choice == 1 and depth:
            return f"mark {self.name('m')} {{ {self.bytes(depth - 1)} }}"
        if choice == 2 and depth:
            return "{ " + "; ".join(self.bytes(depth - 1) for _ in range(self.draw.randrange(1, 4))) + " }"
        return f'sourceFile "{self.draw.choice("abcd")}"'

    def bytes(self, depth):
        """What gives bytes where nothing comes."""
        return self.joined([self.source(depth), *(self.map(depth) for _ in range(self.draw.choice((0, 0, 1, 1, 2, 3))))])

    def joined(self, parts):
        return parts[0] if len(parts) == 1 else "(" + " | ".join(parts) + ")"

    def exact(self):
        """A word that gives back what it did not use."""
        count = self.draw.randrange(8)
        kind = self.draw.choice(CLASSES)
        return self.draw.choice([f"takeE {count}", f"dropE {count}", f"takeWhileE {kind}", f"dropWhileE {kind}"])

    def map(self, depth):
        """What makes bytes of bytes. What only drops them gives none that a word could stand on."""
        if depth and self.draw.randrange(4) == 0:
            return "{ " + "; ".join([*(self.exact() for _ in range(self.draw.randrange(3))), self.map(depth - 1)]) + " }"
        return self.draw.choice([
            "passE", f"takeE {self.draw.randrange(8)}", f"takeWhileE {self.draw.choice(CLASSES)}",
            f"filterE {self.draw.choice(CLASSES)}", f"mapE {self.draw.choice(MAPS)}", f"repeatE {self.draw.randrange(4)}",
        ])

    def sink(self, depth):
        """What reads bytes and gives none."""
        if depth and self.draw.randrange(4) == 0:
            return f"mark {self.name('m')} {{ {self.sink(depth - 1)} }}"
        if depth and self.draw.randrange(4) == 0:
            return "{ " + "; ".join([*(f"dropE {self.draw.randrange(5)}" for _ in range(self.draw.randrange(3))), self.sink(depth - 1)]) + " }"
        if depth and self.draw.randrange(3) == 0:
            return self.joined([self.map(depth - 1), self.sink(depth - 1)])
        kind = self.draw.choice(CLASSES)
        return self.draw.choice([
            "stdout", "stdout", f"sinkFile {self.name('x')}", f"sinkFile {self.name('x')}", "sinkNull", "lengthE", "sumE", "headE",
            "peekE", "lastE", "nullE", f"allE {kind}", f"anyE {kind}", f"collectE {self.draw.randrange(20)}",
            f"dropE {self.draw.randrange(5)}", f"dropWhileE {kind}",
        ])

    def statement(self):
        if self.keys and self.draw.randrange(6) == 0:
            return f"release {self.keys.pop(self.draw.randrange(len(self.keys)))};"
        if self.draw.randrange(6) == 0:
            key = f"k{self.names}"
            self.keys.append(key)
            return f"hold {key} = mark {self.name('m')};"
        parts = [self.source(2), *(self.map(2) for _ in range(self.draw.choice((0, 1, 1, 2, 3)))), self.sink(2)]
        return "run " + " | ".join(parts) + ";"

    def text(self):
        return "\n".join(self.statement() for _ in range(self.draw.choice((1, 1, 1, 2, 3, 5)))) + "\n"


def held(draw):
    signs = draw.choice(["ab1 \n", "0123456789", "aAbB-\n", "abcdefgh"])
    return "".join(draw.choice(signs) for _ in range(draw.choice((0, 1, 5, 20, 60))))


def case_of(number, draw):
    """The lines of a script's runs, and what is to be the same of them."""
    text = Script(draw).text()
    words = ["run", *draw.choice(([], [], ["--chunk", str(draw.randrange(1, 9))], ["--limit", str(draw.randrange(1, 40))])), "s"]
    files = {"s": text} | {name: held(draw) for name in "abcd"} | {"<stdin>": held(draw), "<stdout>": ""}
    shown = ["<stdout>", *re.findall(r'(?:sinkFile|mark) "(\w+)"', text)]
    for cut in CUTS:
        lines = [f"case {number}, cut by {cut}", *(f"word {word}" for word in words)]
        lines += [f"cut {cut}"] if cut else []
        lines += [f"shows {name}" for name in shown]
        for name, bytes_held in files.items():
            lines += [f"file {name}", *([f"holds {escaped(bytes_held)}"] if bytes_held else [])]
        yield "\n".join(lines)


def answers(block):
    return [line for line in block.split("\n") if line.startswith("= ")]


def run_batch(numbers, draw, counts):
    """Runs these scripts, and returns those that came out differently."""
    cases = [block for number in numbers for block in case_of(number, draw)]
    with tempfile.TemporaryDirectory(prefix="conduit-random-") as folder:
        (Path(folder) / "runs").write_text("\n\n".join(cases) + "\n")
        ran = subprocess.run([PROGRAM, "runs"], cwd=folder, capture_output=True, text=True)
    if ran.returncode:
        sys.exit(f"the program ended with status {ran.returncode}: {ran.stderr}")
    blocks = ran.stdout.rstrip("\n").split("\n\n")
    if len(blocks) != len(cases):
        sys.exit(f"{len(cases)} runs, and {len(blocks)} answers")
    different = []
    for first in range(0, len(blocks), len(CUTS)):
        told = [answers(block) for block in blocks[first:first + len(CUTS)]]
        counts[told[0][0]] += 1
        if any(one != told[0] for one in told):
            different.append("\n\n".join(blocks[first:first + len(CUTS)]))
    return different


def main():
    given = [int(word) for word in sys.argv[1:]]
    count, seed = given + [200000, 1][len(given):]
    draw, counts, different = random.Random(seed), Counter(), []
    for first in range(0, count, BATCH):
        different += run_batch(range(first, min(first + BATCH, count)), draw, counts)
    for block in different[:3]:
        print(block, end="\n\n")
    print(f"{count} scripts from seed {seed}: " + ", ".join(f"{many} with {said[2:]}" for said, many in counts.most_common()))
    print(f"{len(different)} came out differently under other cuts")
    sys.exit(1 if different else 0)


if __name__ == "__main__":
    main()
