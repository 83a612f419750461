#!/usr/bin/env python3
"""Spells this repository's own definitions, lemmas, fields and local names as today's Rattle does.

usage: python3 tools/port-names.py [TOP]      once, after /opt/rattle/port/port.py

Words are joined by '_' and not by '-', and names of types are in camel case: `rest-of` becomes
`rest_of`, and `Rest-kept` becomes `RestKept`. Names that a file brings in from the kit, names that
the check makes (of goals and steps), comments and strings stay as they are. It prints each pair of
names that would fall together.
"""

import os
import re
import sys

TOKEN = re.compile(r'b\'(?:[^\'\\]|\\.)\'|--[^\n]*|//[^\n]*|"(?:[^"\\]|\\.)*"|\'(?:[^\'\\]|\\.)\'|«[^»]*»|[^\W\d][\w\'-]*|.', re.S)
USE = re.compile(r"(?m)^\s*(?:pub )?(?:ghost )?use ([\w.·+'-]+)\.\{([^}]*)\}")


# Names that would fall together with another of the same spelling, and three that the kit's script
# spells by a library's name.
APART = {
    "Begins-nothing": "BeginsNone",
    "Class-word": "IsClassWord",
    "FoundNone": "found_none",
    "Goes_on": "GoesOn",
    "Item_at": "ItemAt",
    "Nodes-full": "IsNodesFull",
    "Too-long": "IsTooLong",
    "Well-formed": "IsWellFormed",
    "bit-and": "bit_bit_and",
    "bit-or": "bit_bit_or",
    "survey-of": "survey_of_tokens",
    "survey-text": "text_of_survey",
}
# The same, in one file, where the name means something else.
APART_IN = {
    "crates/grammar/specs/Refusals.antt": {"Nodes-full": "NodesFullTold", "Too-long": "TooLongTold"},
    "crates/yields/specs/Marks.antt": {"bit-or": "bit_or"},
}
# A word of the Prelude means something else today, so no file may use it for this one.
ALIAS = "AllByRecursion as All"


def files(top, crate):
    for part, end in (("specs", ".antt"), ("proofs", ".antt"), ("src", ".rt")):
        for folder, dirs, names in os.walk(os.path.join(top, "crates", crate, part)):
            dirs.sort()
            for n in sorted(names):
                if n.endswith(end):
                    yield os.path.join(folder, n)


def is_made(path):
    return os.path.basename(path) in ("Answers.antt", "Invariants.antt", "Proof.antt")


def spelled(name, path):
    if name in APART_IN.get(path, {}):
        return APART_IN[path][name]
    if name in APART:
        return APART[name]
    head = name.split("-")[0]
    if head[:1].isupper():
        return "".join(w[:1].upper() + w[1:] for w in name.split("-"))
    return name.replace("-", "_")


def imports(text, crates):
    """What a file brings in: names of the kit, and names that the check makes."""
    foreign = set()
    for path, names in USE.findall(text):
        own = path.startswith("Rattle.") and path.split(".")[1] in crates
        made = own and re.search(r"\.(Goals|Given|Needs)\b|\.declared\.", path)
        for one in names.split(","):
            words = one.split()
            if words and (made or not own):
                foreign |= {words[0], *words[0].split("+")}
                if len(words) == 3 and words[1] == "as":
                    foreign.discard(words[2])
    return foreign


SIGNATURE = re.compile(r"^\s*(?:\|\s*)?(?:(?:pub|abbrev|unfoldable|data|record|module)\s+)*([^\W\d][\w'-]*(?:\s+[^\W\d][\w'-]*)*)\s*(?:[({].*)?:(?!=)", re.M)


def declared(text):
    """Names that a file of specs/ or proofs/ declares: definitions, lemmas, fields, constructors."""
    bare = re.sub(r"--.*", "", text)
    found = set()
    for names in SIGNATURE.findall(bare):
        found |= set(names.split())
    return found


def main(top):
    crates = sorted(c for c in os.listdir(os.path.join(top, "crates")) if os.path.isdir(os.path.join(top, "crates", c, "src")))
    texts = {}
    for c in crates:
        for p in files(top, c):
            with open(p, encoding="utf-8") as f:
                texts[p] = f.read()
    own = set()
    for p, t in texts.items():
        if p.endswith(".antt") and not is_made(p):
            own |= {n for n in declared(t) if "-" in n or n in APART}
    changed, clashes = 0, []
    for p, t in texts.items():
        foreign = imports(t, crates)
        made = set(re.findall(r"(?m)^(?:abbrev )?(?:pub )?([\w'-]+) : goal\.", t)) if is_made(p) else set()
        out, was, renamed = [], "", {}
        plain = set()
        for m in TOKEN.finditer(t):
            w = m.group(0)
            field = was == "."
            if ("-" in w or w in APART) and (w[0].isalpha() or w[0] == "_") and (w not in foreign or os.path.relpath(p, top) in APART_IN) and w not in made:
                own_name = w in own
                local = not field and p.endswith(".antt") and not is_made(p)
                local = local or (not field and is_made(p) and p.endswith(".antt") and w not in own)
                if own_name or local:
                    renamed[w] = spelled(w, os.path.relpath(p, top))
                    w = renamed[w]
            elif w[0].isalpha():
                plain.add(w)
            out.append(w)
            was = m.group(0)
        for a, b in sorted(renamed.items()):
            if b in plain:
                clashes.append(f"{os.path.relpath(p, top)}: {a} and {b}")
        new = "".join(out)
        if ALIAS in new:
            new = re.sub(r"\bAll\b(?= [A-Z(]|[;},)])", "AllByRecursion", new).replace("AllByRecursion as AllByRecursion", "AllByRecursion")
        if new != t:
            changed += 1
            with open(p, "w", encoding="utf-8") as f:
                f.write(new)
    print("\n".join("together: " + c for c in clashes))
    print(f"{len(own)} names of this repository had a dash; {changed} files changed")
    return 0


if __name__ == "__main__":
    raise SystemExit(main(sys.argv[1] if len(sys.argv) > 1 else "."))
