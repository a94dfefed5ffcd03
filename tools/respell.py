#!/usr/bin/env python3
"""Brings the repository's own definitions and lemmas to today's spelling, once, after the kit's port.py.

usage: python3 tools/respell.py            at the top of the repository
       python3 tools/respell.py --list     prints each name with its new one, and names that fall together; writes nothing

Types, records and facts are in upper camel case, with no dash; functions, lemmas, fields and constructors are in snake case. A
dash stays in a lemma where it joins two names of FUNCTIONS. Names of src/ stay. Where the rule would give a definition the name
of a function or of another definition in its scope, BY_HAND has its name. What port.py imports as `All` is written with the
library's own name, AllByRecursion. Words of comments that are such names are turned too, but for All.
"""

import os
import re
import sys

# functions of the library and of this repository whose names a dash may join
FUNCTIONS = set("""length take drop append replicate decimal padded justified pointed written decimals front read_on numeral
placed without amended cleared cut""".split())
SPLIT = re.compile(r"([\s(){}\[\];,.:|]+)")
WORDS = re.compile(r"^(\s*)((?:(?:abbrev|unfoldable|pub|data|record)\s+)*)([^\s:(){},;=.]+)((?:\s+[({][^:]*:.*?)?)\s*:(?:\s+(.*))?$")
NOT_NAMES = {"use", "let", "in", "λ", "module", "|", "--"}
# where the rule alone would make two names one: of a definition and a function of src/ that meet, or of two definitions
BY_HAND = {
    "isBlank": "is_blank_message",
    "order-of": "whole_order",
    "row-of": "order_row",
    "reset-row": "changed_row",
    "sameSide": "sides_agree",
    "eventOf": "packet_event",
    "put-point": "put_point_lem",
    "replacedAt": "replaced_offset",
    "sameId": "ids_agree",
    "newAt": "new_offset",
    "active-order": "order_of_active",
    "idPlace": "id_offset",
    "orderSize": "order_width",
    "countAt": "count_read",
    "quantityAt": "quantity_from",
    "quantity-given": "quantity_given_back",
    "maker-given": "maker_given_back",
    "same-pair": "same_pair_self",
    "first-repeat": "first_repeat_is",
    "price-text": "written_price",
    "pairs-met": "pairs_met_lem",
    "pairsAt": "pairs_from",
}


def texts(root):
    for folder, dirs, files in os.walk(os.path.join(root, "crates")):
        dirs[:] = sorted(d for d in dirs if d != "out")
        for f in sorted(files):
            if f.endswith((".rt", ".antt", ".edit")):
                yield os.path.join(folder, f)


def read(path):
    with open(path, encoding="utf-8") as f:
        return f.read()


def snake(name):
    return re.sub(r"(?<=[a-z0-9])([A-Z])", lambda m: "_" + m.group(1).lower(), name)


def new_name(name, kind):
    if name in BY_HAND:
        return BY_HAND[name]
    if kind == "type" or name[0].isupper():
        return "".join(p[:1].upper() + p[1:] for p in name.split("-"))
    parts = [snake(p) for p in name.split("-")]
    out = parts[0]
    for a, b in zip(parts, parts[1:]):
        joined = kind == "lemma" and a in FUNCTIONS and b in FUNCTIONS
        out += ("-" if joined else "_") + b
    return out


def declared(text):
    """The names that a file of antt declares, each with its kind and the signature's rest."""
    inside = None
    for line in text.split("\n"):
        if not line.strip():
            continue
        m = WORDS.match(line)
        head = re.match(r"^(?:(?:pub|abbrev|unfoldable)\s+)*(data|record)\s+(\S+)", line)
        if head:
            inside = head.group(1)
            yield head.group(2), "type"
            continue
        if not m or m.group(3) in NOT_NAMES:
            if not line.startswith(" ") and not line.startswith("--"):
                inside = None
            continue
        indent, name, rest = m.group(1), m.group(3), m.group(5) or ""
        if "goal." in rest and rest.strip().startswith("goal."):
            inside = None
            continue
        if indent and inside:
            yield name, "type" if name[0].isupper() and rest.strip().endswith("Type 0") else "part"
        else:
            if not indent:
                inside = None
            yield name, "type" if rest.strip().endswith("Type 0") else "lemma"


def is_odd(name):
    return "-" in name or (not name[0].isupper() and re.search(r"[a-z0-9][A-Z]", name) is not None)


def imports(text):
    """The names that the file's use lines bring, with the module of each."""
    out = {}
    for m in re.finditer(r"^\s*(?:pub\s+)?(?:ghost\s+)?use ([^\s{;]+?)(?:\.\{([^}]*)\})?(?: as \S+)?;?\s*$", text, re.M):
        for it in (m.group(2) or "").split(","):
            n = it.strip().split(" as ")[0].strip()
            if n:
                out[n] = m.group(1)
    return out


def renamings(root):
    names = {}
    for path in texts(root):
        if not path.endswith(".antt"):
            continue
        for name, kind in declared(read(path)):
            names.setdefault(name, {}).setdefault(kind, []).append(os.path.relpath(path, root))
    out = {}
    for name, kinds in names.items():
        if not is_odd(name):
            continue
        kind = "type" if "type" in kinds else "part" if "part" in kinds else "lemma"
        new = new_name(name, kind)
        if new != name:
            out[name] = new
    return out, names


def own_crates(root):
    return set(os.listdir(os.path.join(root, "crates")))


def turned(text, table, crates):
    foreign = {n for n, m in imports(text).items() if not (m.split(".")[0] == "Rattle" and len(m.split(".")) > 1 and m.split(".")[1] in crates)}
    parts = SPLIT.split(text)
    for i in range(0, len(parts), 2):
        w = parts[i]
        if w in table and w not in foreign:
            parts[i] = table[w]
    return "".join(parts)


def in_code(text, old, new):
    """The text with a word turned where it stands in code, and not in a comment."""
    lines = []
    for line in text.split("\n"):
        code = re.split(r"(?<!\S)(?:--|//)", line, maxsplit=1)[0]
        parts = SPLIT.split(code)
        parts[::2] = [new if w == old else w for w in parts[::2]]
        lines.append("".join(parts) + line[len(code):])
    return "\n".join(lines)


def own_all(text):
    if "AllByRecursion as All" not in text:
        return text
    return in_code(text.replace("AllByRecursion as All", "AllByRecursion"), "All", "AllByRecursion")


def of_pair(path, text):
    """In the book port.py gives the test that a row is of a pair the name of a function of src/, `row_of`."""
    if os.sep + "book" + os.sep not in path or "RowTests" not in text and "RowTests" not in path:
        return text
    if path.endswith(".antt"):
        return in_code(text, "row_of", "row_of_pair")
    clauses = re.compile(r"\b(ghost|ensures|requires)\b")
    return "\n".join(in_code(it, "row_of", "row_of_pair") if clauses.search(it) else it for it in text.split("\n"))


def main(argv):
    root = os.getcwd()
    table, names = renamings(root)
    if "--list" in argv:
        made = {}
        for old, new in table.items():
            made.setdefault(new, []).append(old)
            print(old, "→", new)
        for new, olds in made.items():
            if len(olds) > 1:
                print("FALL TOGETHER:", new, olds)
            if new in names:
                print("STANDS:", new, olds, names[new], names[olds[0]])
        return 0
    crates = own_crates(root)
    for path in texts(root):
        text = read(path)
        new = of_pair(path, own_all(turned(text, table, crates)))
        if new != text:
            with open(path, "w", encoding="utf-8") as f:
                f.write(new)
    print(f"respell: {len(table)} names")
    return 0


if __name__ == "__main__":
    raise SystemExit(main(sys.argv[1:]))
