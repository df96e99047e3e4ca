#!/usr/bin/env python3
"""Runs a program on small texts made at random, full of names that lead back to themselves: circles.py PROGRAM FIRST COUNT.

Each text has five types, two templates of a type and one of an object set, two values, a class, two objects and an object set, whose
names stand in all kinds of places; the number of a text makes it. It prints each text that ends with a status beside 0, 1 and 2, or takes longer than a minute, and how many
ended with each: no such text should be want of memory or stack. The program is given the stack that link.sh asks for.
"""

import collections
import random
import resource
import subprocess
import sys

TYPES = "ABCDE"
VALUES = "vw"
SECONDS = 60
STACK = 64 * 1024 * 1024


class Maker:
    """The parts of one text."""

    def __init__(self, number):
        self.random = random.Random(number)

    def one_of(self, *makers):
        """What one of these makes, each as likely as the others."""
        return self.random.choice(makers)()

    def name(self, dummies):
        """A type's name, or a dummy's where there is one."""
        if dummies and self.random.random() < 0.35:
            return self.random.choice(dummies)
        return self.random.choice(TYPES)

    def value_name(self):
        return self.random.choice(VALUES)

    def constraint(self, dummies):
        return self.one_of(
            lambda: "",
            lambda: f" (0..{self.value_name()})",
            lambda: f" ({self.value_name()})",
            lambda: f" (INCLUDES {self.name(dummies)})",
            lambda: f" (SIZE (1..{self.value_name()}))",
            lambda: " (WITH COMPONENT (0..5))",
            lambda: " (WITH COMPONENTS { ..., a (0..5) })",
        )

    def component(self, name, depth, dummies):
        if self.random.random() < 0.2:
            return f"COMPONENTS OF {self.name(dummies)}"
        default = self.random.choice((self.value_name(), "5"))
        behind = self.random.choice(("", " OPTIONAL", f" DEFAULT {default}"))
        return f"{name} {self.type(depth - 1, dummies)}{behind}"

    def struct(self, depth, dummies):
        word = self.random.choice(("SEQUENCE", "SET"))
        return f"{word} {{ {self.component('a', depth, dummies)}, {self.component('b', depth, dummies)} }}"

    def type(self, depth, dummies):
        """A type of at most this depth."""
        if depth == 0 or self.random.random() < 0.2:
            return self.name(dummies)
        return self.one_of(
            lambda: self.name(dummies) + self.constraint(dummies),
            lambda: f"{self.random.choice('TU')} {{{self.type(depth - 1, dummies)}}}",
            lambda: f"{self.random.choice('ab')} < {self.name(dummies)}",
            lambda: f"INTEGER{self.constraint(dummies)}",
            lambda: self.random.choice(("K.&id", "K.&id ({S})", "o.&Type", "K.&Type ({S})", "V {{S}}", "V {{o}}", "V {{p | S}}")),
            lambda: f"OCTET STRING (CONTAINING {self.type(depth - 1, dummies)})",
            lambda: self.struct(depth, dummies),
            lambda: f"CHOICE {{ a {self.type(depth - 1, dummies)}, b {self.type(depth - 1, dummies)} }}",
            lambda: f"SEQUENCE (SIZE (1..{self.value_name()})) OF {self.struct(depth - 1, dummies) if depth > 1 else self.name(dummies)}",
        )

    def value(self, name):
        governor = self.random.choice(("INTEGER", *TYPES))
        written = self.random.choice(("5", self.value_name(), "{a v, b w}", "{a 5}", "a : v", "o.&id"))
        return f"{name} {governor} ::= {written}"

    def object(self, name):
        return f"{name} K ::= {{ &id {self.random.choice(('5', 'v'))}, &Type {self.type(1, '')} }}"

    def text(self):
        parts = [f"{name} ::= {self.type(3, '')}" for name in TYPES]
        parts += [f"{name} {{X}} ::= {self.type(2, 'X')}" for name in "TU"]
        parts += [self.value(name) for name in VALUES]
        parts.append(self.random.choice(("V {K: Z} ::= SEQUENCE { a K.&id ({Z}), b K.&Type ({Z}{@a}) }", "V {K: Z} ::= SEQUENCE OF K.&Type ({Z})")))
        parts.append(f"K ::= CLASS {{ &id {self.type(1, '')}, &Type OPTIONAL, &k {self.random.choice(('K', 'K.&id', 'NULL'))} OPTIONAL }}")
        parts += [self.object(name) for name in "op"]
        parts.append(f"S K ::= {{ {self.random.choice(('o', 'o | p', '{&id 5, &Type A}', '{&id 5, &Type B} | o'))}, ... }}")
        self.random.shuffle(parts)
        return f"M DEFINITIONS ::= BEGIN {' '.join(parts)} END\n"


def status(program, text):
    """The status of a run under the word link, or None where it takes too long."""
    try:
        return subprocess.run([program, "link"], input=text.encode(), stdout=subprocess.DEVNULL, timeout=SECONDS, check=False).returncode
    except subprocess.TimeoutExpired:
        return None


def main():
    if len(sys.argv) != 4:
        sys.exit("usage: circles.py PROGRAM FIRST COUNT")
    program, first, count = sys.argv[1], int(sys.argv[2]), int(sys.argv[3])
    resource.setrlimit(resource.RLIMIT_STACK, (STACK, resource.getrlimit(resource.RLIMIT_STACK)[1]))
    ended = collections.Counter()
    for number in range(first, first + count):
        text = Maker(number).text()
        told = status(program, text)
        ended[told] += 1
        if told not in (0, 1, 2):
            print(number, told, text, end="")
    for told, times in ended.items():
        print(f"status {told}: {times}")


if __name__ == "__main__":
    main()
