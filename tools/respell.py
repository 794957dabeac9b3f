#!/usr/bin/env python3
"""Respells the definitions and lemmas of crates/: words in snake case, types in camel case. Run once, after the kit's own script, at the top.

Renamed is each name that a file of specs/ or proofs/ defines (a signature, a record, its fields, a data type, its constructors) and that has a dash or a
hump: `enterSays` becomes `enter_says`, `change-leaves` becomes `change_leaves`, `Read-answer` becomes `ReadAnswer`. Names that Rattle makes (goals, steps,
labels) keep their spelling. It prints each renaming, and names that would fall together.
"""

import os
import re
import sys

# Names of lemmas and fields that would fall together with a definition's, or read badly.
CHOSEN = {
    "complete-in": "complete_in_lem",
    "getD-mapped": "get_or_mapped",
    "line-leaves": "line_leaves_lem",
    "line-text": "line_text_lem",
    "move-of": "move_of_lem",
    "rule-of": "the_rule",
    "same-items": "same_items_lem",
    "sides-at": "sides_at_lem",
}

# Lemmas that the kit's script brought to the name that a definition has now.
LEMMAS = {("Equalling.antt", "same_flags"): "same_flags_lem"}

NAME = r"[^\s(){}\[\]⦃⦄;,.\"@`|:=λ→]+"
TOKEN = re.compile(r"[^\s(){}\[\]⦃⦄;,.\"@`|]+")
SIGNATURE = re.compile(r"^(\s*)((?:(?:pub|abbrev|unfoldable|opaque|irreducible|instance|inline|private)\s+)*)(" + NAME + r")\s+:\s+(.*)$")
HEAD = re.compile(r"^\s*(?:(?:pub|abbrev)\s+)*(record|data)\s+(" + NAME + r")")
CONSTRUCTOR_LIST = re.compile(r"^(\s+)(?:pub\s+)?((?:" + NAME + r"\s+)+):\s")


def texts(root, ends):
    for folder, dirs, files in os.walk(os.path.join(root, "crates")):
        dirs[:] = sorted(d for d in dirs if d != "out")
        for f in sorted(files):
            if f.endswith(ends):
                yield os.path.join(folder, f)


def pages(root):
    docs = os.path.join(root, "docs")
    return [os.path.join(root, "README.md")] + [os.path.join(docs, f) for f in sorted(os.listdir(docs)) if f.endswith(".md") and not f.startswith("PORT")]


def is_type(kind, rest):
    return kind in ("record", "data") or bool(re.search(r"Type\s*(\d|\{|$)", rest.strip()[-8:]))


def snake(name):
    out = re.sub(r"(?<=[a-z0-9])([A-Z])", lambda m: "_" + m.group(1).lower(), name)
    return out.replace("-", "_")


def camel(name):
    return "".join(w[:1].upper() + w[1:] for w in name.split("-"))


def wanted(name, type_):
    if name in CHOSEN:
        return CHOSEN[name]
    plain = name.strip("◌")
    if not re.match(r"^[A-Za-z][\w'-]*$", plain) or plain != name:
        return None
    if type_:
        new = camel(name) if "-" in name else name
    elif name[0].isupper():
        return None
    else:
        new = snake(name)
    return new if new != name else None


def definitions(path):
    """Names that a file defines, each with whether it is a type."""
    kind = None
    with open(path, encoding="utf-8") as f:
        for line in f:
            m = HEAD.match(line)
            if m:
                yield m.group(2), True
                continue
            m = SIGNATURE.match(line)
            if m and not m.group(4).startswith("goal."):
                yield m.group(3), is_type(None, m.group(4))


def renamings(root):
    found = {}
    for p in texts(root, ".antt"):
        for name, type_ in definitions(p):
            new = wanted(name, type_)
            if new:
                found[name] = new
    return found


def main():
    root = "."
    names = renamings(root)
    used = {}
    for p in texts(root, (".antt", ".rt")):
        with open(p, encoding="utf-8") as f:
            for t in TOKEN.findall(f.read()):
                used.setdefault(t, set()).add(p)
    made = {}
    for old, new in sorted(names.items()):
        print(f"{old} -> {new}")
        made.setdefault(new, []).append(old)
    for new, olds in sorted(made.items()):
        if len(olds) > 1:
            print(f"fall together: {' '.join(olds)} -> {new}")
        if new in used:
            print(f"in use already: {new} (from {olds[0]}): {' '.join(sorted(used[new]))[:300]}")
    if "--list" in sys.argv:
        return
    for p in list(texts(root, (".antt", ".rt", ".edit"))) + pages(root):
        with open(p, encoding="utf-8") as f:
            text = f.read()
        own = {old: new for (file, old), new in LEMMAS.items() if os.path.basename(p) == file}
        turn = lambda m: own.get(m.group(0), names.get(m.group(0), m.group(0)))
        if p.endswith(".md"):
            turned = re.sub(r"`[^`\n]+`", lambda m: TOKEN.sub(turn, m.group(0)), text)
        else:
            turned = TOKEN.sub(turn, text)
        if turned != text:
            with open(p, "w", encoding="utf-8") as f:
                f.write(turned)


main()
