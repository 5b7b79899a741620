#!/usr/bin/env python3
"""Brings the repository's own definitions and lemmas to snake case, once, after the kit's port.py: usage: spelling.py [--list], at the top of the repository.
A name of specs/ or of a file of lemmas in proofs/ that is in camel case with a small first letter, or has a dash, is respelled wherever it stands in
crates/*/specs, proofs, must-fail and in the clauses and ghost uses of src, and in README.md and docs/*.md between backquotes. Names of functions in src/, names that Rattle makes
and names of single proof files stay as they are. Text between double quotes and in comments stays, but for what is between backquotes."""

import collections
import os
import re
import sys

WORD = re.compile(r"[^\s(){}\[\].,;:=\"`@|]+")
HEAD = re.compile(r"^( *)(?:(?:abbrev|opaque|unfoldable|pub|instance)\s+)*(?:(?:record|data)\s+)?([^\s:(){},.=|;]+)(?:\s+[({\[].*?)?\s+:(?:\s|$)")
ALONE = re.compile(r"^( *)(?:(?:abbrev|opaque|unfoldable|pub|instance)\s+)+([^\s:(){},.=|;]+)\s*$")
# Where the snake form is another name already, or two names would fall together.
LEM = """accepted-stated at-time child-set counts-word entry-fits entry-sound full-entry level-set long-enough new-root note-at number-of open-end parent-of read-child read-entry read-header root-of
same-value state-sound table-entry view-single view-sound with-attribute"""
OTHERWISE = {n: n.replace("-", "_") + "_lem" for n in LEM.split()}
for n in ("field", "seqs", "sets-above", "sets-below", "upto"):
    OTHERWISE["getD-" + n] = "get_or_" + n.replace("-", "_")
# Lemmas in snake case already that would have the new name of a definition.
LOCAL = {
    "crates/represents/proofs/Finished.antt": {"all_sound": "all_sound_lem", "stands_at": "stands_at_lem"},
    "crates/represents/": {"stands_at": "stands_at_lem"},
    "crates/full_question/proofs/Fulls.antt": {"entries_from": "entries_from_lem"},
}


def walk(top, *endings):
    for folder, dirs, files in os.walk(top):
        dirs[:] = sorted(d for d in dirs if d != "out")
        for f in sorted(files):
            if f.endswith(endings):
                yield os.path.join(folder, f)


def snake(name):
    return re.sub(r"(?<=[a-z0-9])([A-Z])(?=[a-z]|$|[-_0-9N])", lambda m: "_" + m[1].lower(), name).replace("-", "_")


def old_form(name):
    if not re.match(r"^[A-Za-z+]", name) or name.startswith("--"):
        return False
    return "-" in name or (name[0].islower() and re.search(r"[a-z0-9][A-Z]", name))


def defined():
    names = collections.defaultdict(set)
    for p in walk("crates", ".antt"):
        parts = p.split(os.sep)
        if parts[2] == "proofs" and len(parts) > 4 and parts[-1] in ("Proof.antt", "Answers.antt", "Invariants.antt"):
            continue
        for l in open(p, encoding="utf-8"):
            if l.lstrip().startswith("--"):
                continue
            m = HEAD.match(l) or ALONE.match(l)
            if m and m[2] not in ("let", "in", "use", "module"):
                names[m[2]].add(p)
    return names


OWN = set()


def theirs(text):
    """The names that a file imports from modules that are not of this repository's crates."""
    out = set()
    for m in re.finditer(r"\buse\s+([^\s;{]+?)\.\{([^}]*)\}", text):
        parts = m[1].split(".")
        if not (parts[0] == "Rattle" and parts[1] in OWN):
            out |= {n.split(" as ")[0].strip() for n in m[2].split(",")}
    return out


def words(text):
    return set(WORD.findall(text))


def turned(text, table, made=False):
    """The text with the table's names. In a proof file (made) a name behind a dot with no module before it is one that Rattle made, unless it is in camel case."""

    def word(m):
        w = m[0]
        if w not in table:
            return w
        if made and "-" in w and m.start() and text[m.start() - 1] == ".":
            before = re.search(r"([\w'-]+)\.$", text[: m.start()])
            if not before or not before[1][0].isupper():
                return w
        return table[w]

    return WORD.sub(word, text)


def code_parts(text, comment):
    """The text in pieces: (is it code, piece). Comments and strings are no code."""
    at, out = 0, []
    for m in re.finditer(comment + r'[^\n]*|"(?:\\.|[^"\\\n])*"', text):
        out.append((True, text[at : m.start()]))
        out.append((False, m[0]))
        at = m.end()
    out.append((True, text[at:]))
    return out


def quoted(piece, table):
    return re.sub(r"`[^`\n]*`", lambda m: turned(m[0], table), piece)


def main(argv):
    OWN.update(os.listdir("crates"))
    names = defined()
    table = {n: OTHERWISE.get(n, snake(n)) for n in sorted(names) if old_form(n)}
    table = {a: b for a, b in table.items() if a != b}
    back = collections.defaultdict(list)
    for a, b in table.items():
        back[b].append(a)
    for b, olds in sorted(back.items()):
        if len(olds) > 1:
            print("fall together:", b, olds, {o: sorted(names[o]) for o in olds})
    for p in walk("crates", ".antt", ".rt"):
        here = words("".join(t for code, t in code_parts(open(p, encoding="utf-8").read(), "--" if p.endswith(".antt") else "//") if code))
        for a in sorted(here & set(table)):
            if table[a] in here:
                print("stands already:", p, a, table[a])
    if "--list" in argv:
        for a, b in table.items():
            print(a, b)
        return
    n = 0
    for p in [*walk("crates", ".antt", ".rt", ".edit"), *walk("docs", ".md"), "README.md"]:
        if os.path.basename(p).startswith("PORT"):
            continue
        text = open(p, encoding="utf-8").read()
        if p.endswith(".md"):
            new = quoted(text, table)
        else:
            comment = "--" if p.endswith(".antt") else "//" if p.endswith(".rt") else "#"
            made = os.path.basename(p) == "Proof.antt"
            here = table | next((t for ends, t in LOCAL.items() if p.startswith(ends)), {})
            here = {a: b for a, b in here.items() if a not in theirs(text)}
            new = "".join(turned(t, here, made) if code else quoted(t, here) for code, t in code_parts(text, comment))
        if new != text:
            open(p, "w", encoding="utf-8").write(new)
            n += 1
    print(f"spelling: {len(table)} names, {n} files")


if __name__ == "__main__":
    main(sys.argv[1:])
