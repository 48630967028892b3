#!/usr/bin/env python3
"""Holds the program `pairs` against a second reader, written here from docs/ alone, on seeded texts, good and damaged.

    scripts/pairs >/dev/null                     # builds crates/pairs/out/pairs
    scripts/compare_texts.py [TEXTS] [SEED]      # 20000 texts from seed 1, if not said otherwise

Prints the number of texts and how many of them met each refusal; ends with status 1 at the first difference,
after printing the seed of the text and both answers.
"""
import collections
import os
import random
import re
import subprocess
import sys

METERS, CAPACITY, LIMIT = 256, 4096, 32768
NAMES = [b"act", b"a", b"b", b"saving"]
NUMBER = re.compile(rb"(0|[1-9][0-9]{0,6})\Z")


class Stop(Exception):
    def __init__(self, byte, number):
        self.byte, self.number = byte, number


class Patient:
    """The open proposals, and the chosen ones: a set of pairs for each level."""

    def __init__(self):
        self.open = {}
        self.chosen = collections.defaultdict(set)

    def free(self, meter, level):
        return all(meter not in pair for pair in self.chosen[level])

    def put(self, pair, saving):
        if pair in self.open:
            return 5
        if len(self.open) == CAPACITY:
            return 6
        self.open[pair] = saving
        level = saving.bit_length() - 1
        if all(self.free(meter, level) for meter in pair):
            self.chosen[level].add(pair)
        return 0

    def take(self, pair):
        if pair not in self.open:
            return 7
        level = self.open.pop(pair).bit_length() - 1
        if pair in self.chosen[level]:
            self.chosen[level].remove(pair)
            for meter in pair:
                self.rejoin(meter, level)
        return 0

    def rejoin(self, meter, level):
        if not self.free(meter, level):
            return
        others = [other for pair, saving in self.open.items()
                  if meter in pair and saving.bit_length() - 1 == level
                  for other in pair if other != meter and self.free(other, level)]
        if others:
            self.chosen[level].add((min(meter, min(others)), max(meter, min(others))))

    def kept(self):
        taken, pairs = set(), []
        for level in range(19, -1, -1):
            for low, high in sorted(self.chosen[level]):
                if low not in taken and high not in taken:
                    taken |= {low, high}
                    pairs.append((low, high, self.open[low, high]))
        return sorted(pairs)


def read_line(line, start, order):
    """The act, the numbers and the byte of each column; raises at what is not in form."""
    fields = line.split(b";")
    if len(fields) != 4:
        raise Stop(start, 12)
    bytes_at, at = [], start
    for field in fields:
        bytes_at.append(at)
        at += len(field) + 1
    act = fields[order.index(b"act")]
    if act not in (b"add", b"off"):
        raise Stop(bytes_at[order.index(b"act")], 13)
    for name, field, at in zip(order, fields, bytes_at):
        wants_hyphen = name == b"saving" and act == b"off"
        if name != b"act" and not (field == b"-" if wants_hyphen else NUMBER.match(field)):
            raise Stop(at, 14)
    value = {name: int(field) if NUMBER.match(field) else None for name, field in zip(order, fields)}
    return act, value, dict(zip(order, bytes_at))


def obey(keeper, start, act, value, at):
    a, b, saving = value[b"a"], value[b"b"], value[b"saving"]
    if a == b:
        raise Stop(at[b"b"], 2)
    if act == b"add" and not 1 <= saving <= 1048575:
        raise Stop(at[b"saving"], 3)
    for name, meter in ((b"a", a), (b"b", b)):
        if meter >= METERS:
            raise Stop(at[name], 4)
    pair = (min(a, b), max(a, b))
    number = keeper.put(pair, saving) if act == b"add" else keeper.take(pair)
    if number:
        raise Stop(start, number)


def feed(keeper, text):
    """Feeds the text; answers the stop, as a line, a byte and a number, or none."""
    if len(text) > LIMIT:
        return 1, 0, 9
    names, feed_mark, rest = text.partition(b"\n")
    order = names.split(b";")
    if not feed_mark or sorted(order) != sorted(NAMES):
        return 1, 0, 10
    start, line_number = len(names) + 1, 2
    while rest:
        line, feed_mark, rest = rest.partition(b"\n")
        try:
            if not feed_mark:
                raise Stop(start, 11)
            obey(keeper, start, *read_line(line, start, order))
        except Stop as stop:
            return line_number, stop.byte, stop.number
        start += len(line) + 1
        line_number += 1
    return None


def report(text):
    keeper = Patient()
    stop = feed(keeper, text)
    lines = ["a;b;saving"] + ["%d;%d;%d" % pair for pair in keeper.kept()]
    if stop:
        lines.append("stopped;%d;%d;%d" % stop)
    return "".join(line + "\n" for line in lines).encode(), stop


def some_number(draw, most):
    return draw.choice([draw.randrange(most), draw.randrange(1, 9), draw.choice([most - 1, most, 1048575, 1048576, 9999999])
                        if draw.random() < 0.01 else draw.randrange(most)])


def some_text(draw):
    """A text of some lines, mostly good, in any order of the columns; often damaged a little."""
    order = NAMES[:]
    draw.shuffle(order)
    meters = draw.choice([3, 5, 8, 20, 256])
    lines, opened = [b";".join(order)], []
    for _ in range(draw.choice([0, 3, 10, 40, 40, 120, 900 if draw.random() < 0.05 else 60])):
        if opened and draw.random() < 0.35:
            a, b = opened.pop(draw.randrange(len(opened)))
            cells = {b"act": b"off", b"saving": b"-"}
        else:
            a, b = some_number(draw, meters), some_number(draw, meters)
            if (a == b or (min(a, b), max(a, b)) in opened) and draw.random() < 0.97:
                continue
            opened.append((min(a, b), max(a, b)))
            saving = draw.choice([1 << draw.randrange(20), some_number(draw, 64) + 1, draw.randrange(1, 1048576)])
            cells = {b"act": b"add", b"saving": str(saving).encode()}
        if draw.random() < 0.5:
            a, b = b, a
        cells |= {b"a": str(a).encode(), b"b": str(b).encode()}
        lines.append(b";".join(cells[name] for name in order))
    text = b"\n".join(lines) + b"\n"
    return damaged(draw, text) if draw.random() < 0.5 else text


def damaged(draw, text):
    for _ in range(draw.choice([1, 1, 1, 2, 4])):
        at = draw.randrange(len(text) + 1)
        what = draw.randrange(7)
        piece = draw.choice([b";", b"\n", b"-", b"0", b"00", b"add", b"off", b"1234567", b"12345678", b"\r", b" ", bytes([draw.randrange(256)])])
        if what == 0:
            text = text[:at] + piece + text[at:]
        elif what == 1:
            text = text[:at] + text[at + 1:]
        elif what == 2:
            text = text[:at] + piece + text[at + len(piece):]
        elif what == 3:
            text = text[:at]
        elif what == 4:
            text = text + draw.choice([b"\n", b"add;0;1;2", b";;;\n", b"-"])
        elif what == 5 and draw.random() < 0.05:
            text = text + b"x" * max(0, LIMIT - len(text) + draw.choice([-1, 0, 1]))
        else:
            text = text.replace(draw.choice(NAMES), draw.choice(NAMES), 1)
    return text


def main():
    texts = int(sys.argv[1]) if len(sys.argv) > 1 else 20000
    first = int(sys.argv[2]) if len(sys.argv) > 2 else 1
    program = os.path.join(os.path.dirname(os.path.abspath(__file__)), "..", "crates", "pairs", "out", "pairs")
    met = collections.Counter()
    for seed in range(first, first + texts):
        text = some_text(random.Random(seed))
        mine, stop = report(text)
        theirs = subprocess.run([program], input=text, stdout=subprocess.PIPE, check=True).stdout
        if mine != theirs:
            print("seed %d differs\ntext: %r\nthis reader: %r\npairs: %r" % (seed, text, mine, theirs))
            return 1
        met[stop[2] if stop else 0] += 1
    print("%d texts, no difference; to the end: %d, stopped by refusal: %s" % (
        texts, met.pop(0, 0), ", ".join("%d: %d" % item for item in sorted(met.items()))))
    return 0


if __name__ == "__main__":
    sys.exit(main())
