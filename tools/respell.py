#!/usr/bin/env python3
"""Respells the repository's own definitions and lemmas as today's Rattle spells names.

usage: tools/respell.py            at the top of the checkout, once, behind the kit's port/port.py
       tools/respell.py --list     prints the names it would change and those that fall together, and writes nothing

It reads each .rt, .antt and .edit file of crates/ and tools/:
- a word in camel case that begins small becomes snake case, part by part (`frameDue-shows` is `frame_due-shows`);
- a name with a dash keeps it: a dash joins two names;
- names that would fall together with another name get one of their own (SPECIAL, IN).
Functions of src/, C names, strings, inputs and outputs have no such names, and keep theirs.
"""
import collections
import os
import re
import sys

WORD = re.compile(r"(?<![A-Za-z0-9_'\-₀-₉])[A-Za-z_][A-Za-z0-9_'\-₀-₉]*")
LITERAL = re.compile(r"""("(?:\\[\s\S]|[^"\\\n])*"|b?'(?:\\.[^']*|[^'\\])')""")
# names that would fall together with a field, a lemma, a constructor or a variable beside them
SPECIAL = {
    "fromTester": "heard_from_tester",  # fields from_tester, from_unit of the same file
    "fromUnit": "heard_from_unit",
    "ranOut": "tests_ran_out",  # a lemma ran_out beside it
    "noEnd": "not_at_end",  # a variable, beside a constructor no_end
    "atFirst": "is_at_first",  # a constructor at_first beside it
    "getD-behind": "get_or-behind",
    "getD-stream": "get_or-stream",
    "getD-stream-end": "get_or-stream-end",
}
# in files below a folder alone
IN = {
    "crates/open_rows/": {"inOrder": "is_in_order"},  # elsewhere a field, which stays apart from a constructor in_order
    "crates/connection_rows/": {"inOrder": "is_in_order"},
    "crates/unit_rows/": {"inOrder": "is_in_order"},
    "tools/wrong/open_rows/": {"inOrder": "is_in_order"},
    "tools/wrong-definitions/open_rows/": {"inOrder": "is_in_order"},
    "crates/follow/proofs/Views.antt": {"is_open": "stage_open"},  # a constructor, beside the function isOpen
    "crates/follow/proofs/Opening.antt": {"is_open": "stage_open"},
}
ROOTS = ("crates", "tools")
ENDS = (".rt", ".antt", ".edit")


def files():
    for top in ROOTS:
        for folder, dirs, names in os.walk(top):
            dirs[:] = sorted(d for d in dirs if d not in ("out", "__pycache__"))
            for n in sorted(names):
                if n.endswith(ENDS):
                    yield os.path.join(folder, n)


def piece(p):
    if not re.match(r"^[a-z][a-z0-9]*[A-Z]", p):
        return p
    p = re.sub(r"([a-z0-9])([A-Z])", r"\1_\2", p)
    p = re.sub(r"([A-Z])([A-Z][a-z])", r"\1_\2", p)
    return p.lower()


def snake(w):
    return "".join(piece(p) for p in re.split(r"([-_])", w))


def table(texts):
    names = collections.defaultdict(set)
    for path, text in texts.items():
        for m in WORD.finditer(text):
            names[m.group(0)].add(path)
    out = {}
    for w in names:
        n = SPECIAL.get(w) or snake(w)
        if n != w:
            out[w] = n
    return names, out


def main(argv):
    texts = {}
    for p in files():
        with open(p, encoding="utf-8") as f:
            texts[p] = f.read()
    names, out = table(texts)
    if argv == ["--list"]:
        back = collections.defaultdict(list)
        for w, n in sorted(out.items()):
            back[n].append(w)
            both = sorted(p for p in names.get(n, ()) if p in names[w])
            print(w, n, *(["BOTH"] + both[:4] if both else []))
        for n, ws in back.items():
            if len(ws) > 1:
                print("TOGETHER", n, *ws)
        return 0
    for p, text in texts.items():
        own = {}
        for folder, special in IN.items():
            if p.startswith(folder):
                own.update(special)
        turned = lambda t: WORD.sub(lambda m: own.get(m.group(0)) or out.get(m.group(0)) or m.group(0), t)
        # texts and characters of programs stay as they are
        new = "".join(t if i % 2 else turned(t) for i, t in enumerate(LITERAL.split(text))) if p.endswith(".rt") else turned(text)
        if new != text:
            with open(p, "w", encoding="utf-8") as f:
                f.write(new)
    print(len(out), "names")
    return 0


if __name__ == "__main__":
    raise SystemExit(main(sys.argv[1:]))
