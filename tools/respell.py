#!/usr/bin/env python3
"""Brings the definitions and lemmas of specs/ and proofs/ to one spelling: words in snake case, types and facts in upper camel case.

usage: tools/respell.py [--said]      at the top of the repository, once, right after the kit's port.py

What turns is what the crates declare in specs/ and proofs/ (a definition, a lemma, a field, a constructor), and a variable in camel case:
`slotOf` and `slot-of` are `slot_of`. A dash stays beside a type or a fact, as in `Sorted-tail`. Where a lemma would get the name of a
definition it ends in `_lem`. Names of the library, functions of src/, strings and the names that a check makes stay as they are.
--said prints each name with its new spelling and writes nothing. Not for later: it would take the goals' names in proofs/ for lemmas.
"""
import collections
import os
import re
import sys

TOKEN = re.compile(r'--[^\n]*|"(?:[^"\\]|\\.)*"|[^\s(){}.;,@"«»\[\]]+')
PLAIN = re.compile(r"[\w'₀-₉]+\Z")
KIT = {"std", "core", "std_alloc", "std_io", "std_collections", "std_heap", "io", "bytes", "libc", "os"}
DECLARED = re.compile(r"(?m)^ *(?:abbrev |unfoldable )*(?:pub )?(?:(?:record|data) )?([^\s(){}:,;]+) (?:: (?!tie\.)|: Type|\()")
DATA = re.compile(r"(?m)^ *(?:abbrev |unfoldable )*(?:pub )?(?:record|data) ([^\s:]+)")
# Two definitions that would fall together, and variables that would hide a definition.
BY_HAND = {
    "anyOrder": "in_any_order",
    "everyByte": "each_byte",
    "inTwice": "in_twice_rows",
    "isDigit": "is_decimal_digit",
    "listInside": "is_list_inside",
    "noRoom": "has_no_room",
    "numberFits": "fits_number",
    "rowFits": "fits_row",
    "rowRoom": "room_in_row",
    "someStay": "any_stay",
    "byDefault": "entered_by_default",
    "externalCount": "external_total",
    "internalCount": "internal_total",
    "setAt": "row_set_at",
    "namePlace": "name_place_is",
    "nameRoom": "names_room",
    "nameWork": "names_work",
}


def read(path):
    with open(path, encoding="utf-8") as it:
        return it.read()


def files(root, ends):
    for folder, below, names in os.walk(root):
        below[:] = sorted(it for it in below if it not in ("out", ".git", "build", "target", "must-fail"))
        for name in sorted(names):
            if name.endswith(ends):
                yield os.path.join(folder, name)


def snake(part):
    if not part or not part[0].islower():
        return part
    return re.sub(r"(?<=[a-z0-9₀-₉'])([A-Z])", lambda it: "_" + it[1].lower(), part)


def respelled(name):
    parts = name.split("-")
    if not all(PLAIN.match(it) for it in parts):
        return name
    out = snake(parts[0])
    for before, after in zip(parts, parts[1:]):
        out += ("-" if before[0].isupper() or after[0].isupper() else "_") + snake(after)
    return out


def table_of(root):
    declared, taken, camel, of_kit = set(), collections.Counter(), set(), set()
    for path in files(os.path.join(root, "crates"), ".antt"):
        text = re.sub(r"--[^\n]*", "", read(path))
        for module, names in re.findall(r"(?m)^(?:pub )?use (\S+?)\.\{([^}]*)\}", text):
            first = module.split(".")
            if first[0] != "Rattle" or first[1] in KIT:
                of_kit.update(it.split(" as ")[0].strip() for it in names.split(","))
        declared.update(DECLARED.findall(text))
        declared.update(DATA.findall(text))
        words = [it for it in TOKEN.findall(text) if not it.startswith('"')]
        taken.update(words)
        camel.update(it for it in words if re.match(r"[a-z][a-z0-9_]*[A-Z]\w*'*\Z", it))
    names = [it for it in declared | camel if it not in of_kit and respelled(it) != it]
    table, got = {}, {it for it in declared if respelled(it) == it} | of_kit
    table.update({old: new for old, new in BY_HAND.items() if old in names})
    got |= set(table.values())
    # Definitions and variables, in camel case, before lemmas, with dashes.
    for old in sorted(names, key=lambda it: ("-" in it, it)):
        if old in table:
            continue
        new = respelled(old)
        while new in got and "-" in old:
            new += "_lem"
        got.add(new)
        table[old] = new
    return table


def antt(text, table, is_proof):
    code = set(it for it in TOKEN.findall(text) if not it.startswith(("--", '"')))

    def one(found):
        word = found[0]
        if word.startswith('"'):
            return word
        if word.startswith("--"):
            return re.sub(r"[\w'₀-₉-]+", lambda it: table[it[0]] if it[0] in table and ("-" not in it[0] or it[0] in code) else it[0], word)
        if word not in table:
            return word
        before = text[max(0, found.start() - 60) : found.start()]
        # The steps of a function's code keep the names that the check gives them.
        if is_proof and re.search(r"(?<![\w'.])[a-z]\w*(\.before)+\.\Z|(?<![\w'.])c\.\Z|\btie\.\Z", before):
            return word
        return table[word]

    return TOKEN.sub(one, text)


def rust(text, table):
    def one(found):
        word = found[0]
        if word.startswith(('"', "b'", "'")):
            return word
        if word.startswith("//"):
            return re.sub(r"[\w']+", lambda it: table.get(it[0], it[0]), word)
        return table.get(word, word)

    return re.sub(r"//[^\n]*|b?\"(?:[^\"\\]|\\.)*\"|b?'(?:[^'\\\n]|\\[^\n]{1,3})'|[\w₀-₉][\w'₀-₉-]*", one, text)


def prose(text, table):
    def span(found):
        return re.sub(r"[\w₀-₉][\w'₀-₉-]*", lambda it: table.get(it[0], it[0]), found[0])

    return re.sub(r"`[^`\n]+`", span, text)


def main():
    root = "."
    table = table_of(root)
    if "--said" in sys.argv:
        for old, new in sorted(table.items()):
            print(f"{old}\t{new}")
        return
    count = 0
    for path in [*files("crates", (".antt", ".rt")), "README.md", *files("docs", ".md")]:
        text = read(path)
        if path.endswith(".antt"):
            new = antt(text, table, "/proofs/" in path)
        elif path.endswith(".rt"):
            new = rust(text, table)
        else:
            new = prose(text, table)
        if new != text:
            count += 1
            with open(path, "w", encoding="utf-8") as it:
                it.write(new)
    print(f"respell: {len(table)} names, {count} files")


if __name__ == "__main__":
    main()
