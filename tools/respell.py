#!/usr/bin/env python3
"""Respells the definitions and lemmas of this repository: words in snake case, facts and types in upper camel case.

usage: python3 tools/respell.py          at the top of the checkout, once, after /opt/rattle/port/port.py

The names are those that the .antt files declare and the ghost members that traits of src/ declare; a name of Rust code, a goal's
name, a string, an input or an output stays. It goes over crates/ (.antt, .rt, .edit), what stands between backticks in README.md
and docs/, and tools/rule-changes.txt. It prints each new name that a file would hold twice (`meets:`).
"""
import collections
import os
import re
import sys

NAME = r"[^\s(){}\[\];,.@\"«»`]+"
DECLARED = re.compile(r"(?m)^[ ]*(?:\| )?(?:(?:pub|abbrev|unfoldable|mutual|deriving) )*(?:(data|record) )?(?:pub )?(%s)((?:[ ]+(?:\([^()\n]*(?:\([^()\n]*\)[^()\n]*)*\)|\{[^{}\n]*\}))*)[ ]+:[ ]+(.*)$" % NAME)
MEMBER = re.compile(r"\bghost ([a-z]\w*)\s*:")
TOKEN = re.compile(r"(?<![^\s(){}\[\];,.@\"«»`])%s" % NAME)


def files(ending):
    for folder, dirs, names in os.walk("crates"):
        dirs[:] = sorted(d for d in dirs if d != "out")
        for f in sorted(names):
            if f.endswith(ending):
                yield os.path.join(folder, f)


def read(path):
    with open(path, encoding="utf-8") as f:
        return f.read()


def is_type(result):
    return bool(re.search(r"(?:^|→ )Type(?: \d+)?(?: where)?\s*$", result.strip()))


def snake(name):
    words = re.sub(r"(?<=[a-z0-9])([A-Z])", lambda m: "_" + m[1].lower(), name)
    words = re.sub(r"(?<=[a-z0-9_])([A-Z])(?=[a-z])", lambda m: m[1].lower(), words)
    return words.replace("-", "_")


def camel(name):
    parts = re.split(r"[-_]", name)
    return "".join(p[:1].upper() + p[1:] for p in parts)


def gather():
    table, types, in_specs = {}, {}, set()
    for path in files(".antt"):
        for m in DECLARED.finditer(read(path)):
            word, name, _, result = m.groups()
            if result.startswith("goal.") or name.startswith(("invariant-", "decreases-", "returns-", "loop-", "overflow-")):
                continue
            if re.search(r"[-a-zA-Z]", name) is None or not re.match(r"[A-Za-z]", name):
                continue
            kind = bool(word) or is_type(result)
            types.setdefault(name, set()).add(kind)
            if "/specs/" in path:
                in_specs.add(name)
    for path in files(".rt"):
        for m in MEMBER.finditer(read(path)):
            types.setdefault(m[1], set()).add(False)
    functions = {m for path in files(".rt") for m in re.findall(r"\bfn (\w+)", read(path))}
    others = functions | {snake(n) for n in types if "-" not in n}
    for name, kinds in types.items():
        if kinds == {True}:
            new = camel(name)
        elif name[0].isupper() and "-" not in name:
            new = name  # a page or a key of an example, as A
        elif name[0].isupper():
            new = camel(name)
        else:
            if True in kinds:
                print("look: both a type and a value:", name)
            new = snake(name)
            if "-" in name and name not in in_specs and new in others:  # a lemma that would have a function's name
                new += "_lem"
        if new != name:
            table[name] = new
    table["in-range"] = "ranges_hold"
    return table


def turned(text, table, where, said):
    taken = set(TOKEN.findall(text))

    def one(m):
        old = m[0]
        tail = ""
        while old and old not in table and old[-1] in "'" and old[:-1] in table:
            break
        new = table.get(old)
        if new is None:
            return old
        before = text[max(0, m.start() - 60) : m.start()]
        # a goal's name, or a step of the code that a fact of an answer is taken from
        if re.search(r"(?:^|[\s(){}\[\];,])(?:goal|c|w|w1|w2|l|g)\.$", before):
            return old
        if re.search(r"Goals\.\{[^}]*$", text[max(0, m.start() - 4000) : m.start()]):
            return old
        if new in taken:
            said.add((where, old, new))
        return new

    return TOKEN.sub(one, text) 


def outside_strings(text, f):
    parts = re.split(r'("(?:\\.|[^"\\\n])*")', text)
    return "".join(p if i % 2 else f(p) for i, p in enumerate(parts))


def main():
    for path in files("Judged.antt"):
        if path.startswith("crates/protocol"):  # a fact beside the test of its name
            text = read(path)
            with open(path, "w", encoding="utf-8") as f:
                f.write(re.sub(r"(?<![\w-])goes_on(?![\w-])", "book_on", text))
    table = gather()
    said = set()
    news = collections.defaultdict(list)
    for old, new in table.items():
        news[new].append(old)
    for new, olds in sorted(news.items()):
        if len(olds) > 1:
            print("look: fall together:", new, olds)
    for path in [p for e in (".antt", ".rt", ".edit") for p in files(e)]:
        text = read(path)
        new = outside_strings(text, lambda t: turned(t, table, path, said)) if path.endswith(".rt") else turned(text, table, path, said)
        if new != text:
            with open(path, "w", encoding="utf-8") as f:
                f.write(new)
    pages = ["README.md"] + [os.path.join("docs", f) for f in sorted(os.listdir("docs")) if f.endswith(".md")]
    for path in pages:
        text = read(path)
        new = re.sub(r"`[^`\n]+`", lambda m: turned(m[0], table, path, set()), text)
        if new != text:
            with open(path, "w", encoding="utf-8") as f:
                f.write(new)
    if os.path.exists("tools/rule-changes.txt"):
        text = read("tools/rule-changes.txt")
        with open("tools/rule-changes.txt", "w", encoding="utf-8") as f:
            f.write(turned(text, table, "tools/rule-changes.txt", set()))
    for where, old, new in sorted(said):
        print(f"meets: {where}: {old} -> {new}, which stands there already")
    print(f"respell: {len(table)} names")
    with open(sys.argv[1], "w") if len(sys.argv) > 1 else open(os.devnull, "w") as f:
        for old, new in sorted(table.items()):
            f.write(f"{old}\t{new}\n")


main()
