#!/usr/bin/env python3
"""Writes a text of the whole notation of about SIZE bytes to standard output: make_shapes.py SHAPE SIZE.

The shapes are those of usual modules: definitions with imports, long enumerations, nested types, constraints, templates with
their arguments, classes with objects, and types in which all of that is put in. Each name is defined once but in `one name`, and the same words give the same text.
"""

import sys

DEFINITIONS_IN_MODULE = 200


def plain(number):
    """A type of components with tags, defaults and an extension."""
    return (
        f"Message{number} ::= [APPLICATION {number % 31}] SEQUENCE {{\n"
        f"    identifier [0] INTEGER (0..{100 + number % 1000}),\n"
        f"    label      [1] UTF8String (SIZE (1..{1 + number % 64})) OPTIONAL,\n"
        f"    flags      [2] BIT STRING {{ urgent(0), last(1) }} DEFAULT '00'B,\n"
        f"    body       Message{max(number - 1, 0)} OPTIONAL, -- the one before\n"
        f"    ...,\n"
        f"    [[ note OCTET STRING (SIZE (0..{number % 9})) OPTIONAL ]]\n"
        f"}}\n"
    )


def enumeration(number):
    """An enumeration of two hundred items."""
    items = ", ".join(f"item-{number}-{place}" for place in range(200))
    return f"Choice{number} ::= ENUMERATED {{ {items}, ..., later-{number}(1000) }}\n"


def nested(number):
    """Types in each other, ten deep."""
    inner = "NULL"
    for place in range(10):
        inner = f"SEQUENCE {{ part{place} {inner}, also{place} CHOICE {{ a NULL, b BOOLEAN }} }}"
    return f"Nest{number} ::= {inner}\n"


def constrained(number):
    """Types with constraints of each form."""
    return (
        f"Range{number} ::= INTEGER (MIN..-1 | {number % 50}..<{100 + number % 50} ^ 0..1000 EXCEPT 7, ...)\n"
        f'Word{number} ::= PrintableString (SIZE (1..{1 + number % 9})) (FROM ("a".."z" | " "))\n'
        f"List{number} ::= SEQUENCE (SIZE (1..{1 + number % 9})) OF INTEGER (0..255)\n"
        f"Held{number} ::= OCTET STRING (CONTAINING Range{number})\n"
    )


def template(number):
    """A template, and a type that gives it arguments."""
    return (
        f"Pair{number} {{Left, INTEGER: most}} ::= SEQUENCE {{ left Left, right INTEGER (0..most) }}\n"
        f"Both{number} ::= Pair{number} {{BOOLEAN, {number}}}\n"
        f"most{number} INTEGER ::= {number}\n"
    )


def classes(number):
    """A class with its own syntax, objects and a set of them, and a type with a table."""
    return (
        f"CLASS{number} ::= CLASS {{ &code INTEGER UNIQUE, &Type OPTIONAL }} WITH SYNTAX {{ CODE &code [TYPE &Type] }}\n"
        f"first{number} CLASS{number} ::= {{ CODE 1 TYPE BOOLEAN }}\n"
        f"second{number} CLASS{number} ::= {{ CODE 2 }}\n"
        f"Some{number} CLASS{number} ::= {{ first{number} | second{number}, ... }}\n"
        f"Use{number} ::= SEQUENCE {{ code CLASS{number}.&code ({{Some{number}}}), value CLASS{number}.&Type ({{Some{number}}}{{@code}}) }}\n"
    )


def linked(number):
    """Types in which linking has something to put in: arguments, components, fields of a class, values by name, selections."""
    return (
        f"Pair{number} {{Left, INTEGER: most}} ::= SEQUENCE {{ left Left, right INTEGER (0..most), label UTF8String (SIZE (1..most)) OPTIONAL }}\n"
        f"Both{number} ::= Pair{number} {{SEQUENCE OF BOOLEAN, {1 + number % 99}}}\n"
        f"Deep{number} ::= SEQUENCE {{ one Pair{number} {{Both{number}, least{number}}}, two Pair{number} {{NULL, 7}} OPTIONAL, ... }}\n"
        f"least{number} INTEGER ::= {1 + number % 50}\n"
        f"Whole{number} ::= SEQUENCE {{ first NULL, COMPONENTS OF Both{number}, ..., last INTEGER (least{number}..100 | INCLUDES Size{number}) }}\n"
        f"Size{number} ::= INTEGER (200..{300 + number % 50})\n"
        f"CLASS{number} ::= CLASS {{ &code INTEGER (0..255) UNIQUE, &Type OPTIONAL }}\n"
        f"Use{number} ::= SEQUENCE {{ code CLASS{number}.&code, value CLASS{number}.&Type, chosen whole < Chosen{number} }}\n"
        f"Chosen{number} ::= CHOICE {{ whole [1] Whole{number}, size [2] Size{number} }}\n"
    )


def one_name(number):
    """The same name again."""
    return "A ::= NULL\n"


DEFINITIONS = {
    "modules": plain,
    "enumerations": enumeration,
    "nested types": nested,
    "constraints": constrained,
    "templates": template,
    "classes": classes,
    "linked types": linked,
    "one name": one_name,
}


def header(index):
    """The header of a module that takes names from the one before it."""
    imports = f"IMPORTS Message{index}, most{index} FROM M{index - 1} {{ iso(1) example(9999) {index} }};\n" if index else ""
    return f"M{index} {{ iso(1) example(9999) {index + 1} }} DEFINITIONS AUTOMATIC TAGS ::= BEGIN\n{imports}"


def text(shape, size):
    """Whole modules of the shape, as many definitions as fit into SIZE bytes."""
    definition = DEFINITIONS[shape]
    lines = [header(0)]
    length = len(lines[0]) + len("END\n")
    number = 0
    while True:
        following = definition(number)
        if number and number % DEFINITIONS_IN_MODULE == 0:
            following = f"END\n{header(number // DEFINITIONS_IN_MODULE)}{following}"
        length += len(following)
        if length > size:
            return "".join(lines) + "END\n"
        lines.append(following)
        number += 1


def main():
    if len(sys.argv) != 3 or sys.argv[1] not in DEFINITIONS:
        sys.exit(f"usage: make_shapes.py SHAPE SIZE, SHAPE one of {', '.join(DEFINITIONS)}")
    sys.stdout.write(text(sys.argv[1], int(sys.argv[2])))


if __name__ == "__main__":
    main()
