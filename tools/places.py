#!/usr/bin/env python3
"""Lists the places in crates/*/src where an older form may stand, by the points of docs/DESIGN-PASS.md.

    python3 tools/places.py [FOLDER] [POINT ..]

FOLDER is a checkout (default: this one). It goes by text: a line is a place to read, and no verdict.
"""
import glob
import os
import re
import sys

args = sys.argv[1:]
root = args.pop(0) if args and not args[0].isdigit() else "."
wanted = set(args)


def sources():
    for path in sorted(glob.glob(root + "/crates/*/src/**/*.rt", recursive=True)):
        yield os.path.relpath(path, root), open(path).read()


def without_comments(text):
    return re.sub(r"//[^\n]*", "", text)


def functions(text):
    """(line, name, parameters, result, clauses, body) of each function with a body"""
    for m in re.finditer(r"^( *)(?:pub(?:\(crate\))? )?fn (\w+)", text, re.M):
        start = text.find("(", m.end() - 0)
        if text[m.end():start].count("\n") > 2:
            continue
        depth, i = 0, start
        while True:
            depth += {"(": 1, ")": -1}.get(text[i], 0)
            if depth == 0:
                break
            i += 1
        params = text[start + 1:i]
        brace = re.compile(r"^%s\{$|\{$|;$" % m.group(1), re.M).search(text, i)
        # the body begins at the first '{' at the end of a line that is no clause
        j = i
        body_at = None
        for line in re.finditer(r"[^\n]*\n", text[i:]):
            s = line.group(0).rstrip()
            if s.endswith(";") and body_at is None:
                break
            if s.strip() == "{" or (s.endswith("{") and not re.match(r"\s*(requires|ensures)", s)):
                body_at = i + line.end()
                head = text[i + 1:i + line.start()] + s
                break
        if body_at is None:
            continue
        depth, k = 1, body_at
        while depth and k < len(text):
            depth += {"{": 1, "}": -1}.get(text[k], 0)
            k += 1
        yield text.count("\n", 0, m.start()) + 1, m.group(2), params, head, text[body_at:k - 1]


def shape(body):
    """a body with types, numbers and texts taken out"""
    body = without_comments(body)
    body = re.sub(r"'[^']*'|\"[^\"]*\"|\b[0-9][0-9_xa-f]*\b", "#", body)
    body = re.sub(r"\b[A-Z]\w*(::\w+)?", "T", body)
    return re.sub(r"\s+", " ", body).strip()


def say(point, title, lines):
    if not wanted or point in wanted:
        print("%s. %s: %d" % (point, title, len(lines)))
        for l in lines:
            print("   " + l)


def grep(pattern, skip=None):
    found = []
    for path, text in sources():
        for n, line in enumerate(text.split("\n"), 1):
            code = line.split("//")[0]
            if re.search(pattern, code) and not (skip and re.search(skip, code)):
                found.append("%s:%d: %s" % (path, n, line.strip()))
    return found


say("1", "enums", grep(r"^\s*(pub(\(crate\))? )?enum "))
flags = []
for path, text in sources():
    for line, name, params, head, body in functions(text):
        if "&mut" in params and re.search(r"->\s*bool", head):
            flags.append("%s:%d: %s answers a bool and writes" % (path, line, name))
say("1", "functions that write and answer a bool", flags)
say("1", "fields that are flags", grep(r"^\s*(pub(\(crate\))? )?\w+: bool,"))
say("1", "NUL for none, letters and numbers for kinds", grep(r"'\\0'|: char\b|-> char\b|Letter\(char\)|-> u8$"))

groups = {}
for path, text in sources():
    for line, name, params, head, body in functions(text):
        s = shape(body)
        if len(s) > 12:
            groups.setdefault(s, []).append("%s:%d %s" % (path, line, name))
twins = [g for g in groups.values() if len(g) > 1]
say("2", "bodies of one shape (types, numbers and texts apart)", ["; ".join(g) for g in twins])
structs = {}
for path, text in sources():
    for m in re.finditer(r"struct (\w+)[^{;]*\{(.*?)^\}", text, re.M | re.S):
        s = shape(re.sub(r"ghost [^\n]*", "", m.group(2)))
        structs.setdefault(s, []).append("%s %s" % (path, m.group(1)))
say("2", "structs of one shape", ["; ".join(g) for g in structs.values() if len(g) > 1])

say("3", "loops that count by hand", grep(r"\bwhile\b|\bloop\b|for \w+ in [^{]*\.\.|enumerate\(\)|[+-]= 1;"))

say("4", "comparisons and copies by hand", grep(r"^impl.*\b(PartialEq|Eq|PartialOrd|Ord|Clone|Copy|Default|Hash)\b.* for "))
say("4", "functions that only compare", grep(r"fn (same\w*|is_same\w*|byte_before)\b"))
say("4", "a match that a method of Option or Result says", grep(r"(Some|Ok)\((\w+)\) => (Some|Ok)\(|None => None|Err\(_\) => (None|Err|false)|Ok\(_\) => (true|None)|Some\(\w+\) => \w+,$"))
say("4", "conversions and printing by name", grep(r"fn (from_\w+|to_\w+|\w+_of|name_of|print_\w+|text_of)\b"))

clauses = {}
for path, text in sources():
    for m in re.finditer(r"(requires|ensures)\*? (?:\w+ )?\{ (.*) \}$", text, re.M):
        c = re.sub(r"\b(self|book|state|b|c)\b", "v", m.group(2))
        clauses.setdefault(c, []).append(path)
say("5", "clauses that stand three times or more", ["%d times: %s" % (len(p), c) for c, p in clauses.items() if len(p) > 2])
pairs = {}
for path, text in sources():
    for line, name, params, head, body in functions(text):
        ps = [re.sub(r"\s+", " ", p.strip()) for p in re.split(r",(?![^<(]*[>)])", params) if ":" in p]
        ps = [re.sub(r"^mut ", "", p) for p in ps]
        for a, b in zip(ps, ps[1:]):
            pairs.setdefault((a, b), []).append("%s %s" % (path, name))
say("5", "parameters side by side in three functions or more", ["%d times: %s, %s" % (len(v), k[0], k[1]) for k, v in pairs.items() if len(v) > 2])

say("6", "buffers and tables", grep(r"\[(u8|0|b'.'); ?\w+\]|Vec<"))

one = []
for path, text in sources():
    for m in re.finditer(r"trait (\w+)[^{]*\{(.*?)^\}", text, re.M | re.S):
        if len(re.findall(r"\bfn ", m.group(2))) == 1:
            one.append("%s %s" % (path, m.group(1)))
say("7", "traits of one function", one)
say("7", "closures, dyn, function pointers", grep(r"\|\w*(, \w+)*\| |\bdyn\b|\bimpl Fn|: Fn(Mut|Once)?\(|\bfn\("))

if not wanted or "8" in wanted:
    for crate in sorted(os.listdir(root + "/crates")):
        answers = lemmas = lines = 0
        for f in glob.glob("%s/crates/%s/proofs/**/Answers.antt" % (root, crate), recursive=True):
            answers += len(re.findall(r"^(?:abbrev )?pub \S+ : goal\.", open(f).read(), re.M))
        for f in glob.glob("%s/crates/%s/proofs/*.antt" % (root, crate)):
            t = open(f).read()
            lemmas += len(re.findall(r"^ *(?:(?:abbrev|unfoldable) )?(?:pub )?[\w≡◌+*<≤-]+ : ", t, re.M))
            lines += t.count("\n")
        print("8. %s: %d answers, %d lemmas in %d lines" % (crate, answers, lemmas, lines))
