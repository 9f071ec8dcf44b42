#!/usr/bin/env python3
"""Spells the definitions and lemmas of this repository in snake case: `isNamed` as `is_named`, `named-cut` as `named_cut`.

usage: tools/spell.py [FOLDER]    once, after port.py; FOLDER is the repository, or a copy of it

Types, modules and constructors in camel case stay, and so do the functions of src/, strings, and the names that Rattle
makes: those of a step, a goal or a loop of the code. It prints the names that fall together, and then writes nothing.
"""

import collections
import os
import re
import sys

ROOT = sys.argv[1] if len(sys.argv) > 1 else "."
WORD = r"[^\s(){}\[\].;,:@\"«»`|]+"
TOKEN = re.compile(WORD)
DECLARED = re.compile(
    r"(?m)^ *(?:(?:abbrev|unfoldable|pub|let|mutual|record|data|ruleset) )*((?:%s )*?%s)(?: \{[^{}\n]*\}| \([^()\n]*\))* :(?= |$)(?! (?:tie|goal)\.)"
    % (WORD, WORD)
)
MADE = re.compile(r"(?m)^(?:abbrev |pub )*(\S+) : (?:tie|goal)\.")
USE = re.compile(r"\buse (Rattle\.(\w+)[^\s;{]*?)(?:\.?(\{[^}]*\}))?(?: as ([^\s;]+))?(?=[;\s]|$)")
CAMEL = re.compile(r"(?<![\w'-])[a-z][\w'-]*[A-Z][\w'-]*")
# A lemma that would have its function's name, and two more names that would meet another.
OTHER = {
    **{
        name: snake + "_lem"
        for name, snake in [
            ("first-header", "first_header"),
            ("set-codes", "set_codes"),
            ("group-codes", "group_codes"),
            ("trailer-if", "trailer_if"),
            ("group_at", "group_at"),
            ("place-codes", "place_codes"),
            ("takes-length", "takes_length"),
            ("printed-by", "printed_by"),
            ("id-bytes", "id_bytes"),
            ("missing-in", "missing_in"),
            ("turn_by", "turn_by"),
            ("edition-table", "edition_table"),
            ("check-by", "check_by"),
            ("report-at", "report_at"),
            ("groups-size", "groups_size"),
            ("was-day", "was_day"),
            ("fields_out", "fields_out"),
        ]
    },
    "noGroup": "absent_group",
    "Call-line": "CallLine",
}
STRING = re.compile(r"""b?"(?:\\.|[^"\\\n])*"|\bb'[^'\\\n]'""")


def snake(name):
    if name in OTHER:
        return OTHER[name]
    words = re.sub(r"(?<=[a-z0-9])(?=[A-Z])|(?<=[A-Z])(?=[A-Z][a-z])", "_", name)
    return words.replace("-", "_").lower()


def is_turned(name):
    if name in OTHER:
        return True
    if not re.match(r"[A-Za-z]", name):
        return False
    return "-" in name or bool(CAMEL.fullmatch(name))


def is_camel(name):
    return bool(CAMEL.fullmatch(name)) and "-" not in name or name in OTHER


def read(path):
    with open(path, encoding="utf-8") as f:
        return f.read()


def files(*ends):
    for folder, dirs, names in os.walk(ROOT):
        dirs[:] = sorted(d for d in dirs if d not in ("out", ".git", "target", "landings", "cases", "node_modules"))
        for name in sorted(names):
            if name.endswith(ends):
                yield os.path.join(folder, name)


def code_of(text):
    return re.sub(r"--[^\n]*", "", text)


texts = {p: read(p) for p in files(".antt", ".rt", ".edit", ".md") if "/tools/" not in p}
crates = {p.split("/crates/")[1].split("/")[0] for p in texts if "/crates/" in p}
declared_in, made_in = {}, {}
for path, text in texts.items():
    if path.endswith(".antt"):
        code = code_of(text)
        made_in[path] = set(MADE.findall(code))
        declared_in[path] = {w for m in DECLARED.finditer(code) for w in m[1].split()} - made_in[path]
declared = {w for names in declared_in.values() for w in names if is_turned(w)}
rust = set()
for path, text in texts.items():
    if path.endswith(".rt"):
        rust |= set(re.findall(r"\bfn (\w+)", text))


def own_names(path, text):
    """The dashed names that this file declares or brings in from the repository, and its modules' aliases."""
    names, aliases = set(declared_in.get(path, ())), set()
    for m in USE.finditer(code_of(text) if path.endswith(".antt") else text):
        if m[2] not in crates:
            continue
        items, alias = m[3], m[4]
        if items:
            for item in items.strip("{}").split(","):
                parts = item.split(" as ")
                names.update(p.strip() for p in parts)
        else:
            aliases.add(alias or m[1].split(".")[-1])
    return names - made_in.get(path, set()), aliases


def turned(path, text):
    own, aliases = own_names(path, text)
    antt = path.endswith(".antt")

    def one(m):
        word, start = m[0], m.start()
        if path.endswith(".rt") and word in rust or not is_turned(word) or word.startswith("Need-"):
            return word
        # A primed or a subscripted name goes as its stem does.
        if is_camel(word):
            return snake(word)
        if word not in declared and word not in aliases:
            return word
        behind = m.string[:start]
        if behind.endswith("."):
            before = re.search(r"([^\s(){}\[\],;]*)\.$", behind)[1]
            head = before.split(".")[0]
            if head == "Rattle" or head in aliases or snake(head) in aliases or word in fields and word not in made_fields:
                return snake(word)
            return word
        return snake(word) if word in own or word in aliases else word

    def plain(part):
        return TOKEN.sub(one, part)

    if path.endswith(".md"):
        cited = lambda m: "`" + TOKEN.sub(lambda t: snake(t[0]) if is_camel(t[0]) or t[0] in declared and "-" in t[0] else t[0], m[1]) + "`"
        return re.sub(r"`([^`\n]+)`", cited, text)
    out, at = [], 0
    for m in STRING.finditer(text):
        out += [plain(text[at : m.start()]), m[0]]
        at = m.end()
    return "".join(out + [plain(text[at:])])


# The fields of records and the names of Rattle's own steps that are spelled like one.
fields, made_fields = set(), set()
for path, text in texts.items():
    if path.endswith(".antt"):
        for m in re.finditer(r"(?m)^( *)(?:pub |abbrev )*(?:record|data) .*?where\n((?:\1 +.*\n|\n)*)", code_of(text)):
            for d in re.finditer(r"(?m)^ +(?:pub )?([^\s:]+(?: [^\s:]+)*) :", m[2]):
                fields |= set(d[1].split())

# Names that fall together: in one module, or in one file.
bad = 0
for path, names in declared_in.items():
    by = collections.defaultdict(set)
    own, aliases = own_names(path, texts[path])
    for name in own | aliases:
        by[snake(name) if is_turned(name) and (is_camel(name) or name in declared or name in aliases) else name].add(name)
    for new, olds in by.items():
        if len(olds) > 1:
            print(f"{path}: {', '.join(sorted(olds))} fall together as {new}")
            bad += 1
parameters = re.compile(r"\bfn (\w+)[^(]*\(([^)]*)\)(.*?)(?=\n\s*\{\n|;\n)", re.S)
for path, text in texts.items():
    if path.endswith(".rt"):
        for name, inside, clauses in parameters.findall(text):
            taken = set(re.findall(r"(\w+):", inside))
            for word in TOKEN.findall(clauses):
                if is_camel(word) and snake(word) in taken:
                    print(f"{path}: in {name}, {word} would be hidden by a parameter")
                    bad += 1
if bad and "--anyway" not in sys.argv:
    sys.exit(1)
count = 0
for path, text in texts.items():
    new = turned(path, text)
    if new != text:
        count += 1
        with open(path, "w", encoding="utf-8") as f:
            f.write(new)
print(f"{count} files turned")
