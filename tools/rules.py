#!/usr/bin/env python3
"""Looks whether every name that docs/RULES.md gives exists, and every rule, file and theorem that the other documents name.

usage: tools/rules.py [ROOT]

The last line of a rule is `code · definition · theorem`: `crate::item` is an item of crates/crate/src, a path a file under crates/, `crate::name` a
statement of crates/crate/proofs; several are parted by commas, and a dash stands for none. Rules stand in order, each number once, and the table of
refusals has the numbers and names of crates/link/src/cause.rt. In docs/, README.md, CHANGELOG.md and the READMEs of oracle/, rust/ and mutants/ it
looks at every rule's number, at every path that begins with a folder of the repository, and at every `crate::name`. What it doesn't find it prints, a
line each, and ends with 1."""

import functools
import os
import re
import sys

ROOT = sys.argv[1] if len(sys.argv) > 1 else os.path.join(os.path.dirname(os.path.abspath(__file__)), "..")
CHAPTERS = "NSGOFLACPBTW"
RULE = re.compile(r"^- \*\*([A-Z])(\d+)\*\* ")
TIED = re.compile(r"^  → (.+)$")
# A rule's number in running text, and a list or a row of them.
CITED = re.compile(r"(?<![\w`.:/-])([%s])([1-9]\d?)(?![\w`.:/-])" % CHAPTERS)
NAMED = re.compile(r"`([a-z_0-9]+)::([A-Za-z_0-9-]+)`")
PATH = re.compile(
    r"`((?:crates|docs|edits|mutants|oracle|rust|tools)/[A-Za-z_0-9./-]+)`"
    r"|\b((?:docs|tools|oracle|rust|mutants)/[A-Za-z_0-9./-]+\.(?:md|py|sh|rs|h))\b"
)
# Files that a build or a run makes.
MADE = re.compile(r"/out/|/target/|^rust/target|^oracle/target")

wrong = []


def path(*parts):
    return os.path.join(ROOT, *parts)


@functools.lru_cache(None)
def text_of(crate, folder, suffix):
    found = []
    for top, _, files in os.walk(path("crates", crate, folder)):
        for it in sorted(files):
            if it.endswith(suffix):
                found.append(open(os.path.join(top, it), encoding="utf-8").read())
    return "\n".join(found)


def is_item(crate, name):
    return re.search(r"\b(?:fn|struct|enum|const|trait|mod) %s\b" % re.escape(name), text_of(crate, "src", ".rt")) is not None


def is_statement(crate, name):
    text = text_of(crate, "proofs", ".antt") + "\n" + text_of(crate, "specs", ".antt")
    # several may share a signature, as `pub a b : ..`
    return re.search(r"^ *(?:unfoldable |abbrev )?pub (?:\S+ )*?%s (?:\S+ )*?:(?: |$)" % re.escape(name), text, re.M) is not None


def is_definition(file):
    return re.match(r"^[a-z_0-9]+/specs/", file) is not None and os.path.isfile(path("crates", file))


def column(where, given, test, kind):
    for it in given.split(", "):
        if it == "–":
            continue
        name = it.strip("`")
        if it != "`%s`" % name or not test(name):
            wrong.append("%s: no such %s: %s" % (where, kind, it))


def crate_and(test):
    return lambda name: name.count("::") == 1 and test(*name.split("::"))


def read_rules():
    rules = []
    last = None
    for n, line in enumerate(open(path("docs", "RULES.md"), encoding="utf-8").read().split("\n"), 1):
        where = "docs/RULES.md:%d" % n
        begun = RULE.match(line)
        if begun:
            if last is not None:
                wrong.append("%s: %s has no last line" % (where, last))
            last = begun[1] + begun[2]
            key = (CHAPTERS.find(begun[1]), int(begun[2]))
            if key[0] < 0 or rules and key <= rules[-1]:
                wrong.append("%s: %s isn't behind the rule before it" % (where, last))
            rules.append(key)
        tied = TIED.match(line)
        if tied:
            if last is None:
                wrong.append("%s: a last line without a rule" % where)
            parts = tied[1].split(" · ")
            if len(parts) != 3:
                wrong.append("%s: not three columns" % where)
                continue
            column(where, parts[0], crate_and(is_item), "function")
            column(where, parts[1], is_definition, "definition's file")
            column(where, parts[2], crate_and(is_statement), "theorem")
            last = None
    if last is not None:
        wrong.append("docs/RULES.md: %s has no last line" % last)
    return rules


def look_at_refusals():
    """The table of refusals has the numbers and names of the causes."""
    causes = re.findall(r"^    (\w+) = (\d+),", open(path("crates", "link", "src", "cause.rt"), encoding="utf-8").read(), re.M)
    table = re.findall(r"^\| (\d+) \| (\w+) \|", open(path("docs", "RULES.md"), encoding="utf-8").read(), re.M)
    for name, number in causes:
        if (number, name) not in table:
            wrong.append("docs/RULES.md: no refusal %s, %s" % (number, name))
    for number, name in table:
        if (name, number) not in causes:
            wrong.append("docs/RULES.md: no cause %s, %s" % (number, name))


def documents():
    yield from ("README.md", "CHANGELOG.md", "oracle/README.md", "rust/README.md", "mutants/README.md")
    for it in sorted(os.listdir(path("docs"))):
        if it.endswith(".md"):
            yield "docs/" + it


def look_at(document, rules):
    if not os.path.isfile(path(document)):
        return
    for n, line in enumerate(open(path(document), encoding="utf-8").read().split("\n"), 1):
        where = "%s:%d" % (document, n)
        if document.startswith("docs/"):
            for it in CITED.finditer(line):
                if (CHAPTERS.find(it[1]), int(it[2])) not in rules:
                    wrong.append("%s: no such rule: %s" % (where, it[0]))
        for it in PATH.finditer(line):
            name = (it[1] or it[2]).rstrip(".")
            if not MADE.search(name) and not os.path.exists(path(name)) and not os.path.exists(path(os.path.dirname(document), name)):
                wrong.append("%s: no such file: %s" % (where, name))
        if TIED.match(line) or not document.startswith("docs/") and document != "README.md":
            continue
        for it in NAMED.finditer(line):
            if it[1] == "crate":
                continue
            if os.path.isdir(path("crates", it[1])) and not is_item(it[1], it[2]) and not is_statement(it[1], it[2]):
                wrong.append("%s: no such name: %s" % (where, it[0]))
            elif not os.path.isdir(path("crates", it[1])):
                wrong.append("%s: no such crate: %s" % (where, it[1]))


def main():
    rules = read_rules()
    look_at_refusals()
    for document in documents():
        look_at(document, set(rules))
    for it in wrong:
        print(it)
    print("%d rules, %d names or places wrong" % (len(rules), len(wrong)))
    return 1 if wrong else 0


sys.exit(main())
