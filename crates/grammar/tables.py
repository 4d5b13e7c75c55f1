#!/usr/bin/env python3
"""The tables of the grammar (docs/grammar.md), written for the definition, specs/Tables.antt, and for the code, crates/scan/src/tables.rt.

tables.py           writes them, and `rt fmt` lays them out
tables.py --check   tells whether they hold what would be written

A new element or attribute is an entry here and moves no proof: the tables have room for 24 elements, 16 attributes and 32 levels. An element has at
most 4 attributes, of which it may require one; a level has at most 8 children; a word has at most 10 bytes, and one that begins another stands
before it in a level's list."""
import os
import re
import sys
import textwrap

top = os.path.join(os.path.dirname(os.path.abspath(__file__)), "..", "..")
ELEMENTS, ATTRIBUTES, ENTITIES, LEVELS, LENGTH = 24, 16, 8, 32, 11
NONE = ELEMENTS + ATTRIBUTES + ENTITIES  # no word
FREE, NAME, NAMES, DESCRIPTORS = range(4)  # what a value may be

# number: name, its attributes with what their values are, the one that is required, the level that its start tag opens
elements = {
    0: ("scxml", {"xmlns": FREE, "version": FREE, "initial": NAMES}, None, 2),
    1: ("state", {"id": NAME, "initial": NAMES}, None, 4),  # 3 where the attribute initial is there
    2: ("parallel", {"id": NAME}, None, 5),
    3: ("final", {"id": NAME}, None, 6),
    4: ("history", {"id": NAME, "type": FREE}, None, 7),
    5: ("initial", {}, None, 8),
    6: ("transition", {"type": FREE, "event": DESCRIPTORS, "cond": FREE, "target": NAMES}, None, 10),
    7: ("onentry", {}, None, 11),
    8: ("onexit", {}, None, 12),
    9: ("raise", {"event": NAME}, "event", 13),
    10: ("log", {"label": FREE}, "label", 14),
    11: ("transition", {"type": FREE, "target": NAMES}, "target", 10),  # the transition of an initial element
    12: ("if", {"cond": FREE}, "cond", 15),
    13: ("else", {}, None, 16),
    14: ("elseif", {"cond": FREE}, "cond", 17),
    15: ("send", {"event": NAME, "delay": FREE, "id": NAME}, "event", 18),
    16: ("cancel", {"sendid": NAME}, "sendid", 19),
}
attributes = "xmlns version id initial type event cond target label delay sendid".split()
entities = "amp lt gt quot apos".split()
row = [1, 2, 3, 4, 6, 7, 8]
block = [9, 10, 12, 15, 16, 13, 14]
# number: the element that the level is in, its children, may it end. Level 0 is before the root, 1 behind it, 4 a state that may still have an
# initial element, 3 one that may not; 8 an initial element before its transition, 9 behind it.
levels = {
    0: (None, [0], False),
    1: (None, [], False),
    2: (0, row, True),
    3: (1, row, True),
    4: (1, row + [5], True),
    5: (2, row, True),
    6: (3, row, True),
    7: (4, row, True),
    8: (5, [11], False),
    9: (5, [], True),
    10: (6, block, True),
    11: (7, block, True),
    12: (8, block, True),
    13: (9, [], True),
    14: (10, [], True),
    15: (12, block, True),
    16: (13, [], True),
    17: (14, [], True),
    18: (15, [], True),
    19: (16, [], True),
}


def filled(cells, size, fill):
    assert len(cells) <= size
    return cells + [fill] * (size - len(cells))


def tables():
    word = [""] * NONE
    for number, (name, _, _, _) in elements.items():
        word[number] = name
    for i, name in enumerate(attributes):
        word[ELEMENTS + i] = name
    for i, name in enumerate(entities):
        word[ELEMENTS + ATTRIBUTES + i] = name
    number_of = {name: ELEMENTS + i for i, name in enumerate(attributes)}
    unused = ("", {}, None, 14)
    row_of = [elements.get(e, unused) for e in range(ELEMENTS)]
    level_of = [levels.get(t, (9, [], True)) for t in range(LEVELS)]
    entity_menu = filled([ELEMENTS + ATTRIBUTES + i for i in range(len(entities))], 8, NONE)
    return {
        "words": sum((filled([ord(c) for c in w], LENGTH, 0) for w in word), []),
        "menus": sum((filled(children, 8, NONE) for _, children, _ in level_of), []) + entity_menu,
        "attrs": sum((filled([number_of[a] for a in have], 4, NONE) for _, have, _, _ in row_of), []),
        "kinds": sum((filled(list(have.values()), 4, 0) for _, have, _, _ in row_of), []),
        "needed": [4 if need is None else list(have).index(need) for _, have, need, _ in row_of],
        "opened": [opens for _, _, _, opens in row_of],
        "owners": [NONE if owner is None else owner for owner, _, _ in level_of],
        "ends": [int(ends) for _, _, ends in level_of],
        "bits": [(x >> j) & 1 for x in range(16) for j in range(4)],
        "adds": [x | (1 << j) for x in range(16) for j in range(4)],
    }


MEANING = {
    "words": "the bytes of the words: elements, attributes, entities, 11 to a word, zeros behind it",
    "menus": "the children of each level, 8 to a level, 48 for none; the entities behind them",
    "attrs": "the attributes of each element, 4 to an element, 48 for none",
    "kinds": "what their values are: 0 free, 1 a name, 2 names, 3 descriptors",
    "needed": "the place of the attribute that an element requires, 4 for none",
    "opened": "the level that an element's start tag opens",
    "owners": "the element that a level is in, 48 outside the root",
    "ends": "1 where an end tag may stand",
    "bits": "is attribute j in the set x",
    "adds": "the set x with attribute j",
}


def definition():
    text = "-- The tables of the grammar, as crates/grammar/tables.py writes them from the elements, attributes and levels that it lists.\n"
    text += "use Rattle.std.specs.Prelude.{List, [], ◌∷◌, ℕ}\n"
    for name, cells in tables().items():
        lines = textwrap.fill(" ∷ ".join(map(str, cells + ["[]"])), 150, initial_indent="    ", subsequent_indent="    ")
        text += "\n-- %s\nunfoldable pub %s : List ℕ\n%s =\n%s\n" % (MEANING[name], name, name, lines)
    return text


def code():
    text = "// The tables of the grammar, as crates/grammar/tables.py writes them.\n"
    for name, cells in tables().items():
        text += "// %s\npub static %s: [u8; %d] = [%s];\n" % (MEANING[name], name.upper(), len(cells), ", ".join(map(str, cells)))
    return text


FILES = {"crates/grammar/specs/Tables.antt": definition, "crates/scan/src/tables.rt": code}


def words_of(text):
    return re.findall(r"[^\s,;\[\]]+", text)


def main():
    faults = 0
    for name, write in FILES.items():
        path = os.path.join(top, name)
        text = write()
        if "--check" not in sys.argv:
            open(path, "w", encoding="utf-8").write(text)
        elif words_of(open(path, encoding="utf-8").read()) != words_of(text):
            print("%s is not what tables.py writes" % name)
            faults += 1
    return 1 if faults else 0


sys.exit(main())
