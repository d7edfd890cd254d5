#!/usr/bin/env python3
"""Writes sources of a given size for measuring the reader: make_sources.py FAMILY BYTES >FILE.

Families: realistic, uses, empty, deep, named (deep with a name in each block), names (as many names as fit).
"""
import sys

PART = """function part_%d(first, second) {
    let total = 0;
    for (let index = 0; index < first.length; index += 1) {
        const item = first[index];
        if (item.kind === "word" && item.size > second) {
            total += item.size * 2;
        } else {
            total -= item.size;
        }
    }
    return { total: total, name: "part %d" };
}
print(part_%d([{ kind: "word", size: 7 }], 3).total);
"""


def names():
    number = 0
    while True:
        yield "let name_%x;" % number
        number += 1


def parts():
    number = 0
    while True:
        yield PART % (number, number, number)
        number += 1


def again(text):
    while True:
        yield text


def filled(pieces, size):
    done = 0
    for piece in pieces:
        if done + len(piece) > size:
            return
        done += len(piece)
        yield piece


def deep(size, name):
    levels = 190
    front = "let a;" + "".join("{" + name(level) for level in range(levels))
    return [front, *filled(again("a;"), size - len(front) - levels), "}" * levels]


FAMILIES = {
    "realistic": lambda size: filled(parts(), size),
    "uses": lambda size: filled(again("a;"), size),
    "empty": lambda size: filled(again(";"), size),
    "deep": lambda size: deep(size, lambda level: ""),
    "named": lambda size: deep(size, lambda level: "let b%d;" % level),
    "names": lambda size: filled(names(), size),
}

sys.stdout.writelines(FAMILIES[sys.argv[1]](int(sys.argv[2])))
