#!/usr/bin/env python3
"""Brings the repository's own definitions and lemmas to snake case.

usage: tools/respell.py [--dry]      at the top of a repository that port.py has turned

A name is ours where a file of specs/, or a lemma file of proofs/, declares it: `wordsToCome` becomes `words_to_come`, `first-of`
becomes `first_of`. Types and facts keep their capitals. Functions of src/, exported names, strings, inputs and outputs keep theirs,
since no such name is in camel case or has a dash. A new name that the repository uses already is listed in APART with another one.
"""
import os
import re
import sys

# New names that would fall together with one that the repository or the library has: old name, new name.
APART = {}
# Lemmas that port.py has turned already, whose names a definition takes now.
TURNED = "all_lines as_it_was at_rest by_end going_on in_place is_open last_taken next_word none_after not_full nothing_left same_end same_size same_test".split()
# Names that Rattle makes in proof files.
MADE = re.compile(r"^(returns|fits|bounds|Need|need|loop)-|-(requires|init|preserved|smaller)(-\d+)?$")
TOKEN = re.compile(r"[^\s(){}\[\];,.@\"`]+")
HEAD = re.compile(r"^\s*(?:(?:abbrev|unfoldable|pub|private|data|record|ruleset)\s+)*([^\s(){}:.]+)(?:\s[^:=]*)?\s*(?::|=)")
FIELD = re.compile(r"^\s+(?:pub\s+)?([^\s(){}:.]+)\s*:")


def files(top, endings):
    for folder, dirs, names in os.walk(top):
        dirs[:] = sorted(d for d in dirs if d not in ("out", ".git", "target"))
        for name in sorted(names):
            if name.endswith(endings):
                yield os.path.join(folder, name)


def is_ours(path):
    parts = path.split(os.sep)
    return path.endswith(".antt") and parts[0] == "crates" and (parts[2] == "specs" or parts[2] == "proofs" and len(parts) == 4)


def snake(name):
    text = re.sub(r"([A-Z]+)", lambda m: "_" + m.group(1).lower(), name.replace("-", "_"))
    return re.sub(r"__+", "_", text)


def declared():
    found = set()
    for path in files("crates", ".antt"):
        if not is_ours(path):
            continue
        with open(path, encoding="utf-8") as f:
            inside_data = False
            for line in f:
                if line.lstrip().startswith("--"):
                    continue
                m = HEAD.match(line)
                if m:
                    found.add(m.group(1))
                m = FIELD.match(line)
                if m:
                    for name in m.group(1).split():
                        found.add(name)
                m = re.match(r"^\s+((?:[^\s(){}:.]+\s+)+[^\s(){}:.]+)\s*:", line)
                if m and not re.match(r"^\s*(abbrev|unfoldable|pub)\b", line):
                    found.update(m.group(1).split())
    return found


def wanted(found, words, imported):
    """The table of old and new names. A lemma that would have another's name gets `_lem`."""
    table = {}
    for name in sorted(found, key=lambda name: ("-" in name, name)):
        if name in imported or MADE.search(name):
            continue
        if not re.match(r"^[a-zℕ]", name) or name in ("-", "--"):
            continue
        if "◌" in name or not re.search(r"[A-Z-]", name):
            continue
        if not re.match(r"^[A-Za-z0-9_'-]+$", name):
            continue
        new = APART.get(name, snake(name))
        if "-" in name and (new in words or new in table.values()):
            new += "_lem"
        table[name] = new
    return table


def imports_of(text):
    """What a file brings from the library."""
    found = set()
    for m in re.finditer(r"use (?!Rattle\.(?:%s)\.)[\w.·-]+\.\{([^}]*)\}" % "|".join(sorted(os.listdir("crates"))), text):
        found.update(word.strip().split(" as ")[0] for word in m.group(1).split(","))
    return found


def turn_words(text, table):
    return TOKEN.sub(lambda m: table.get(m.group(0), m.group(0)), text)


def turn_ticks(text, table):
    return re.sub(r"`([^`\n]+)`", lambda m: "`" + turn_words(m.group(1), table) + "`", text)


def turn_antt(text, table):
    out = []
    text = re.sub(r"(?<![\w.'-])(%s)(?![\w'-])" % "|".join(TURNED), r"\1_lem", text)
    for line in text.split("\n"):
        at = re.search(r"(^|\s)--(\s|$)", line)
        if at:
            out.append(turn_words(line[: at.start()], table) + turn_ticks(line[at.start() :], table))
        else:
            out.append(turn_words(line, table))
    return "\n".join(out)


def turn_rt(text, table):
    out = []
    for line in text.split("\n"):
        if re.match(r"^\s*//", line):
            out.append(turn_ticks(line, table))
        elif re.match(r"^\s*(ghost use|ensures|requires|ghost )", line) or "⌝" in line or re.match(r"^\s*\{ ", line):
            out.append(turn_words(line, table))
        else:
            out.append(line)
    return "\n".join(out)


def main(argv):
    found = declared()
    words, imported = set(), set()
    for path in files("crates", (".antt", ".rt")):
        with open(path, encoding="utf-8") as f:
            text = f.read()
            words.update(TOKEN.findall(text))
            imported |= imports_of(text)
    table = wanted(found, words, imported)
    print("left, since the library has them:", " ".join(sorted(name for name in found & imported if re.search("[A-Z-]", name) and name[0].islower())))
    backwards = {}
    for old, new in sorted(table.items()):
        backwards.setdefault(new, []).append(old)
    for new, olds in sorted(backwards.items()):
        if len(olds) > 1 or new in words:
            print("falls together:", new, "<-", " ".join(olds), "(and itself)" if new in words else "")
    print(len(table), "names")
    if "--dry" in argv:
        return 0
    for path in files("crates", (".antt", ".rt", ".edit")):
        with open(path, encoding="utf-8") as f:
            old = f.read()
        new = turn_antt(old, table) if path.endswith(".antt") else turn_rt(old, table)
        if path.endswith(".edit"):
            new = turn_words(old, table)
        if new != old:
            with open(path, "w", encoding="utf-8") as f:
                f.write(new)
    for path in files(".", ".md"):
        with open(path, encoding="utf-8") as f:
            old = f.read()
        new = turn_ticks(old, table)
        if new != old:
            with open(path, "w", encoding="utf-8") as f:
                f.write(new)
    return 0


if __name__ == "__main__":
    raise SystemExit(main(sys.argv[1:]))
