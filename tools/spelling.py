#!/usr/bin/env python3
"""Brings the repository's own definitions, fields, constructors and lemmas to snake case, in specs/, proofs/ and the clauses of src/.

usage: python3 tools/spelling.py           at the top of the repository, once, after port.py
       python3 tools/spelling.py --list    prints each old name and its new one, and writes nothing

A name of the repository's own is one that a file of specs/ or proofs/ declares. Its words are joined by '_' in place of a capital or a dash;
types, modules and whatever begins with a capital keep their spelling, and so do the names of goals in a Proof.antt, which Rattle makes.
Functions of src/, exported names, strings, inputs and outputs are left alone. A lemma that would fall together with a definition of the same file
ends in `_lem`. At the end each crate is laid out by `rt fmt`.
"""
import collections
import os
import re
import subprocess
import sys

CAMEL = re.compile(r"(?<=[a-z0-9])[A-Z]")
TOKEN = re.compile(r"--[^\n]*|\"(?:[^\"\\]|\\.)*\"|[^\s(){}.;,@\"«»\[\]\\λ⟦⟧]+")
DECLARED = re.compile(r"^\s*(?:(?:abbrev|unfoldable|opaque|instance|pub|data|record|codata) +)*([^\s:(){}.]+(?: +[^\s:(){}.]+)*)(?: *[({][^\n]*?[)}])* :(?= |$)")
SPREAD = re.compile(r"^ *(?:(?:abbrev|unfoldable) +)?(?:pub +)?([^\s:(){}.]+)\n +: ", re.M)
GOAL = re.compile(r"^([^\s:]+) : tie\.Need-", re.M)
# What a proof file names after Rattle's own words and not after the repository's.
MADE = re.compile(r"^(?:Need|After|Else|Then|Joined|In|At)-|-spec$")


def files(end):
    for folder, dirs, names in os.walk("crates"):
        dirs[:] = sorted(d for d in dirs if d != "out" or os.path.dirname(folder) != "crates")
        for name in sorted(names):
            if name.endswith(end):
                yield os.path.join(folder, name)


def read(path):
    with open(path, encoding="utf-8") as it:
        return it.read()


def snake(name):
    return CAMEL.sub(lambda up: "_" + up[0].lower(), name).replace("-", "_")


def camel(name):
    return name[0].islower() and CAMEL.search(name)


def own(text):
    """The names that a file declares at its lines' heads, those of its goals aside."""
    goals = set(GOAL.findall(text))
    out = {it for it in SPREAD.findall(text) if it not in goals and not MADE.search(it)}
    for line in text.splitlines():
        if line.lstrip().startswith("--"):
            continue
        m = DECLARED.match(line)
        if m:
            out.update(it for it in m[1].split() if it not in goals and not MADE.search(it))
    return out


USE = re.compile(r"^use (\S+)\.\{([^}]*)\}", re.M)


def borrowed(text):
    """The names that a file takes from a library."""
    for module, names in USE.findall(text):
        crate = re.match(r"Rattle\.(\w+)", module)
        if not crate or not os.path.isdir(os.path.join("crates", crate[1])):
            yield from (it.strip().split(" as ")[0] for it in names.split(","))


# Definitions that a field of the record behind them would hide from its later fields.
HIDDEN = {"tooMany": "too_many_steps", "tooManyAndWrong": "too_many_and_wrong_steps"}
# Lemmas that port.py has already spelled as a definition is spelled now.
LEMMAS = {"left_behind", "past_the_end", "value_read", "part_by", "pair_values", "insert_all"}
FIELD = re.compile(r"^ +pub ([^\s:(){}.]+) :(?= |$)", re.M)
LABEL = re.compile(r" =(?: |$)")


def bare(text):
    """The names that a file mentions other than behind a dot."""
    at = ((m[0], m.start()) for m in TOKEN.finditer(text))
    return {it for it, n in at if it[0] != '"' and not it.startswith("--") and not (n and text[n - 1] == ".")}


def renamed():
    """The texts, the new names, and for each file the names that are a lemma's there and no other file's."""
    texts = {path: read(path) for path in files(".antt")}
    here = {path: own(text) for path, text in texts.items()}
    mentioned = {path: bare(text) for path, text in texts.items()}
    declared = set().union(*here.values()) - {it for text in texts.values() for it in borrowed(text)}
    fields = {it for path, text in texts.items() if "/specs/" in path for it in FIELD.findall(text)}
    seen = set().union(*({it for it in TOKEN.findall(text) if it[0] != '"' and not it.startswith("--")} for text in texts.values()))
    new = {it: snake(it) for it in declared if it[0].islower() and ("-" in it or camel(it))}
    # A variable in camel case is the repository's own too: Rattle's words have none.
    new.update({it: snake(it) for it in seen if it[0].isascii() and camel(it) and "-" not in it})
    groups = collections.defaultdict(set)
    for old, name in new.items():
        groups[name].add(old)
        if name in declared:
            groups[name].add(name)
    new.update({it: snake(it) for it in seen if it.startswith("◌") and CAMEL.search(it)})
    new.update({it.strip("◌"): snake(it).strip("◌") for it in seen if it.startswith("◌") and CAMEL.search(it)})
    new.update(HIDDEN)
    apart = collections.defaultdict(dict)
    for name, group in groups.items():
        for old in (it for it in group if len(group) > 1 and not camel(it)):
            others = group - {old}
            together = [path for path in texts if old in mentioned[path] and others & mentioned[path]]
            if old in LEMMAS or together and "-" in old and old not in fields:
                new[old] = name + "_lem"
            else:
                for path in together:
                    if old in here[path] and not ("/specs/" in path and old in FIELD.findall(texts[path])):
                        apart[path][old] = name + "_lem"
    return texts, new, apart


def turned(text, new, keep=(), lemmas={}):
    def one(m):
        it, n = m[0], m.start()
        if it.startswith("\""):
            return it
        if it.startswith("--"):
            return re.sub(r"`([^`\n]+)`", lambda q: "`" + TOKEN.sub(named, q[1]) + "`", it)
        behind = n and m.string[n - 1] == "."
        label = LABEL.match(m.string, m.end()) and m.string[m.string.rfind("\n", 0, n) + 1 : n].strip() == "" and m.string[n - 1] == " "
        if it in lemmas and not behind and not label:
            return lemmas[it]
        if it in LEMMAS and (behind or label):
            return it
        return named(m)

    def named(m):
        return new.get(m[0], m[0]) if m[0] not in keep else m[0]

    return TOKEN.sub(one, text)


# The clauses of a source file: what stands behind `ghost use`, `requires`, `ensures` and `ghost`.
CLAUSE = re.compile(r"^ *ghost use [^;]*;|\b(?:requires|ensures)\*?(?: \w+)? \{|^ *ghost \w+: \{", re.M)


def clauses(text):
    """The spans of a source file's clauses."""
    for m in CLAUSE.finditer(text):
        if m[0].endswith(";"):
            yield m.start(), m.end()
            continue
        depth, at = 1, m.end()
        while depth:
            depth += {"{": 1, "}": -1}.get(text[at], 0)
            at += 1
        yield m.end(), at - 1


def source(text, new):
    out, last = [], 0
    for start, end in clauses(text):
        out += [text[last:start], turned(text[start:end], new)]
        last = end
    return "".join(out) + text[last:]


def main(argv):
    texts, new, apart = renamed()
    if argv == ["--list"]:
        for old in sorted(new):
            print(old, new[old])
        for path in sorted(apart):
            print(path, apart[path])
        return 0
    after = {path: turned(text, new, set(GOAL.findall(text)), apart[path]) for path, text in texts.items()}
    before = {path: read(path) for path in files(".rt")}
    after.update({path: source(text, new) for path, text in before.items()})
    for path, text in after.items():
        if text != {**texts, **before}[path]:
            with open(path, "w", encoding="utf-8") as it:
                it.write(text)
    for name in sorted(os.listdir("crates")):
        subprocess.run(["rt", "fmt"], cwd=os.path.join("crates", name), check=True, stdout=subprocess.DEVNULL)
    return 0


if __name__ == "__main__":
    raise SystemExit(main(sys.argv[1:]))
