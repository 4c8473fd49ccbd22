#!/usr/bin/env python3
"""Brings the repository's own names in contracts, definitions and lemmas to the spelling of Rattle's style: snake case for words,
lemmas and fields, upper camel case for types and facts. A dash stays where it joins a lemma's function to what it is applied to.

usage: tools/respell.py        at the top of the repository, once, right after the toolchain's port.py
       tools/respell.py list   prints the renamings, and writes nothing

Names that a file imports from the toolchain's library, and names that the check makes for a function's goals, keep their spelling.
Comments and strings are left alone, but for a name that a comment cites between backticks.
"""

import os
import re
import sys

DASHED = re.compile(r"(?<![\w'-])[A-Za-z][\w']*(?:-[\w']+)+(?![\w'-])")
# A lemma about one of the library's functions is named by both, as in length-map.
JOINS = ("length", "map", "filter", "take", "drop", "get_or")
IMPORT = re.compile(r"use ([\w.ᴰ]+)\.\{([^}]*)\}")


def files():
    for folder, dirs, names in os.walk("crates"):
        dirs[:] = sorted(d for d in dirs if d != "out")
        for name in sorted(names):
            if name.endswith((".antt", ".rt")):
                yield os.path.join(folder, name)


def crates():
    return set(os.listdir("crates"))


def parts(text, antt):
    """Pieces (is code, text): comments and strings apart."""
    mark = "--" if antt else "//"
    at, start, n = 0, 0, len(text)
    while at < n:
        end = None
        if text.startswith(mark, at) and (at == 0 or not re.match(r"[\w']", text[at - 1])):
            end = text.find("\n", at)
            end = n if end < 0 else end
        elif text[at] == '"':
            end = at + 1
            while end < n and text[end] != '"':
                end += 2 if text[end] == "\\" else 1
            end = min(end + 1, n)
        if end is None:
            at += 1
            continue
        if start < at:
            yield True, text[start:at]
        yield False, text[at:end]
        start = at = end
    if start < n:
        yield True, text[start:n]


def of_function(path):
    """Whether the file answers the goals of a function. A file of lemmas may have such a name too."""
    return os.path.basename(path) in ("Answers.antt", "Invariants.antt", "Proof.antt") and os.path.basename(os.path.dirname(path)) != "proofs"


def imported(text, own_crates):
    """Names that a file takes from the library."""
    names = set()
    for path, items in IMPORT.findall(text):
        if not (path.startswith("Rattle.") and path.split(".")[1] in own_crates):
            names.update(i.split(" as ")[-1].strip() for i in items.split(","))
    return names


def own_modules(text, own_crates):
    """Modules of the repository that a file imports whole."""
    return {m[1] for m in re.findall(r"use Rattle\.(\w+)\.(?:\w+\.)*([A-Z]\w*)(?=[ ;\n])", text) if m[0] in own_crates}


def made(code):
    """Names in the proof of a function that the check makes: its goals."""
    names = set(re.findall(r"([A-Za-z][\w'-]*) : (?:goal|given)\.", code))
    names.update(re.findall(r"(?:goal|given)\.([A-Za-z][\w'-]*)", code))
    return names


def new_spelling(name):
    head, *rest = name.split("-")
    if head in JOINS or name == "T-cases":
        return head + "-" + "_".join(rest)
    if name[0].isupper():
        return "".join(p[0].upper() + p[1:] for p in [head, *rest])
    return "_".join([head, *rest])


# Imports under a second name, where a function of the same file has the first.
SECOND = {
    "nodeQuestion": "node_number",
    "fileQuestion": "file_number",
    "atSocket": "report_at",
    "nodeAt": "node_of",
    "nodesAt": "nodes_of",
    "reportOf": "report_of",
    "questionOf": "question_of",
    "designOf": "design_of",
    "socketNumber": "socket_number",
    "changeIn": "change_in",
    "enterFault": "enter_fault",
    "proposeFault": "propose_fault",
    "withProposed": "with_proposed",
    "currentOf": "current_of",
    "standingOf": "standing_of",
    "writtenNodes": "written_nodes",
    "termOf": "term_of",
    "firstFault": "first_fault",
}

# A name that a file imports beside a function of its own.
BESIDE = {"crates/sheets/src/different.rt": {"named-fault": "fault_named"}}


def main(argv):
    own_crates = crates()
    texts = {p: open(p, encoding="utf-8").read() for p in files()}
    own, taken = set(), set()
    for p, text in texts.items():
        code = "\n".join(t for is_code, t in parts(text, p.endswith(".antt")) if is_code)
        lib = imported(text, own_crates)
        taken.update(re.findall(r"[A-Za-z][\w']*(?:-[\w']+)*", code))
        if of_function(p):
            continue
        for m in DASHED.finditer(code):
            if m.group() not in lib:
                own.add(m.group())
    turned = {name: new_spelling(name) for name in own}
    turned = {a: b for a, b in turned.items() if a != b}
    by_new = {}
    for a, b in turned.items():
        by_new.setdefault(b, []).append(a)
    for b, olds in sorted(by_new.items()):
        if len(olds) > 1 or b in taken:
            print("falls together:", b, "<-", " ".join(sorted(olds)), "(the new name stands already)" if b in taken else "")
    if argv == ["list"]:
        for a in sorted(turned):
            print(a, turned[a])
        return 0
    for p, text in texts.items():
        antt = p.endswith(".antt")
        code = "\n".join(t for is_code, t in parts(text, antt) if is_code)
        lib = imported(text, own_crates)
        goals = made(code) if of_function(p) else set()
        modules = own_modules(text, own_crates)

        def swap(m):
            name = m.group()
            before = m.string[: m.start()]
            if name in lib or name not in turned:
                return name
            if before.endswith("."):
                head = re.search(r"([\wᴰ']+)\.$", before)
                if head and (head.group(1)[0].isupper() and head.group(1) not in modules or head.group(1)[0].islower() and of_function(p)):
                    return name
            elif of_function(p) and name in goals:
                return name
            return turned[name]

        out = []
        for is_code, t in parts(text, antt):
            if is_code:
                out.append(DASHED.sub(swap, t))
            else:
                out.append(re.sub(r"`[^`\n]*`", lambda m: DASHED.sub(swap, m.group()), t) if t.startswith(("--", "//")) else t)
        new = "".join(out)
        for old, second in SECOND.items():
            new = re.sub(rf"\b{old}\b", second, new)
        for old, second in BESIDE.get(p, {}).items():
            first = new_spelling(old)
            if old not in turned:
                continue
            new = re.sub(rf"(ghost use [^;]*){first}\b", rf"\g<1>{first} as {second}", new)
            new = re.sub(rf"(?m)^(\s*(?:ensures|requires)\b.*?)\b{first}\b", rf"\g<1>{second}", new)
        new = re.sub(r"(?m)^(?:ghost )?use .*$", lambda m: re.sub(r"\b([\w']+) as \1\b", r"\1", m.group()), new)
        if new != text:
            with open(p, "w", encoding="utf-8") as f:
                f.write(new)
    return 0


if __name__ == "__main__":
    raise SystemExit(main(sys.argv[1:]))
