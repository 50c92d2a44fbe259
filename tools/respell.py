#!/usr/bin/env python3
"""Respells this repository's own definitions and lemmas in snake case, and its types in camel case.

usage: python3 tools/respell.py [--list]      at the top of the repository

It was run once, right after the kit's own script had turned the files. A name is turned where it is declared
in specs/ or in a lemma file of proofs/ and has a dash: 'count-in' becomes 'count_in', 'First-fault' becomes
'FirstFault'. Labels that the toolchain makes ('loop-x-preserved', 'c.if-a-b') keep their dashes. Strings and
comments of code stay; of pages the code spans turn. --list prints the table and writes nothing.
"""

import os
import re
import sys

WORD = re.compile(r'[^\s(){}.;,@"«»`\[\]|]+')
DECLARED = re.compile(r"^ *(?:abbrev |unfoldable |mutual )*(?:pub )?(?:record |data )?([^\s(){}:.;,@\"]+(?: [^\s(){}:.;,@\"=]+)*?)(?: \{[^{}\n]*\}| \([^()\n]*\))* : ")
ALIAS = re.compile(r"(?m)^ *(?:ghost )?use .*? as ([A-Za-z][\w-]*)")


def files(top, ending):
    for folder, dirs, names in os.walk(top):
        dirs[:] = sorted(d for d in dirs if d not in ("out", ".git", "target"))
        for name in sorted(names):
            if name.endswith(ending):
                yield os.path.join(folder, name)


def is_lemma_file(path):
    parts = path.split(os.sep)
    return parts[-2] in ("specs", "proofs") and parts[-1] != "Lib.antt"


def declared(text):
    """The names that a file of definitions or lemmas declares: fields and constructors too."""
    for line in text.split("\n"):
        line = re.sub(r"(^|\s)--.*", "", line)
        found = DECLARED.match(line)
        if found:
            for name in found[1].split():
                yield name


def respelled(name):
    head, *rest = name.split("-")
    if not name[0].isupper():
        return name.replace("-", "_")
    return head + "".join(p[:1].upper() + p[1:] for p in rest)


def table(top):
    turned = {}
    for path in [*files(top, ".antt"), *files(top, ".rt")]:
        if path.endswith(".rt"):
            with open(path, encoding="utf-8") as f:
                names = re.findall(r" as ([A-Za-z][\w-]*)", " ".join(re.findall(r"ghost use [^;]*;", f.read())))
            turned.update((n, respelled(n)) for n in names if "-" in n)
        elif is_lemma_file(path):
            with open(path, encoding="utf-8") as f:
                text = f.read()
            for name in [*declared(text), *ALIAS.findall(text)]:
                if "-" in name and name.strip("-"):
                    turned[name] = respelled(name)
    return turned


def is_library(path):
    return path.startswith("Rattle.std.") or path.startswith("borrow.") or path.startswith("mathlib.") or path.startswith("Prim.")


def library_names(text):
    """The names that a file imports from the kit: they keep their spelling there."""
    for path, names in re.findall(r"(?m)^ *(?:ghost )?use ([^\s{;]+)\.\{([^}]*)\}", text):
        if is_library(path):
            for name in names.split(","):
                yield name.split(" as ")[0].strip()
                yield name.split(" as ")[-1].strip()


def turn_code(text, turned, labels):
    """labels: in an answer, a name after a dot or one that a goal has keeps its spelling; the file's own helpers turn too."""
    kept = set(library_names(text))
    goals = set(re.findall(r"goal\.([^\s(){}.;,@\"]+)", text)) if labels else set()
    if labels:
        helpers = {n for n in declared(text) if "-" in n and n.strip("-") and n not in goals}
        turned = turned | {n: respelled(n) for n in helpers}

    def one(part):
        out, last = [], 0
        for m in WORD.finditer(part):
            word, at = m[0], m.start()
            out.append(part[last:at])
            last = m.end()
            behind = part[at - 1] if at else ""
            made = labels and (behind == "." and not re.search(r"Rattle\.\S*\.$", part[:at]) and word not in FIELDS) or word in goals
            out.append(word if word in kept or made else turned.get(word, word))
        return "".join(out) + part[last:]

    quoted = re.compile(r'"(?:[^"\\\n]|\\.)*"|(?:^|(?<=\s))--[^\n]*|//[^\n]*')
    out, last = [], 0
    for m in quoted.finditer(text):
        out += [one(text[last : m.start()]), m[0]]
        last = m.end()
    return "".join(out) + one(text[last:])


def turn_page(text, turned):
    return re.sub(r"`[^`\n]+`", lambda m: WORD.sub(lambda w: turned.get(w[0], w[0]), m[0]), text)


FIELDS = set()


def fields(top):
    """The dashed fields of the repository's own records."""
    for path in files(top, ".antt"):
        if is_lemma_file(path):
            inside = False
            for line in open(path, encoding="utf-8"):
                if re.match(r"^(?:abbrev )?(?:pub )?record ", line):
                    inside = True
                elif line.strip() and not line.startswith(" ") and not line.startswith("--"):
                    inside = False
                elif inside:
                    found = DECLARED.match(line)
                    if found:
                        FIELDS.update(n for n in found[1].split() if "-" in n)


def main(argv):
    turned = table(".")
    fields(".")
    if "--list" in argv:
        for old in sorted(turned):
            print(old, turned[old], "(field)" if old in FIELDS else "")
        return 0
    changed = 0
    for path in [p for e in (".antt", ".rt", ".edit", ".md") for p in files(".", e)]:
        with open(path, encoding="utf-8") as f:
            old = f.read()
        labels = path.endswith(".antt") and not is_lemma_file(path)
        new = turn_page(old, turned) if path.endswith(".md") else turn_code(old, turned, labels)
        if new != old:
            changed += 1
            with open(path, "w", encoding="utf-8") as f:
                f.write(new)
    print(f"respell: {len(turned)} names, {changed} files")
    return 0


if __name__ == "__main__":
    raise SystemExit(main(sys.argv[1:]))
