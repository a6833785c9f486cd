#!/usr/bin/env python3
"""Spells this repository's own definitions, lemmas and fields as the library does, after port.py: words in snake case, no middle dot.

usage: tools/respell.py [--check] [FOLDER]        once, right after port.py: what it spells `_lem` a second run would spell so again

A name that a file of specs/ or proofs/ declares or brings in under another name (`as`), in camel case (bytesOf) or with dashes (kept-below), gets underscores (bytes_of, kept_below).
What answers a goal (its type begins with `tie.` or `goal.`) keeps the name that Rattle gives it, and so does what the library declares.
A local name with a middle dot (Lib·length) gets an underscore after a lower-case beginning (lib_length).
Written: crates/*/specs, proofs, src (clauses and comments; no Rust name is of either form), must-fail edits, and the pages' code spans.
--check lists what would change and what would fall together, and writes nothing.
"""

import collections
import glob
import os
import re
import sys

WORD = re.compile(r'[^\s(){}.;,@"«»`]+')
HEAD = re.compile(r"^(\s*)((?:(?:abbrev|opaque|unfoldable|pub|record|data)\s+)*)([^\s:(){},.=|]+)(?:\s+(?:\(|\{)[^=]*)?\s*:(?:\s+(.*)|$)")
DASHED = re.compile(r"[a-zA-Z][a-zA-Z0-9]*(?:[-_][a-zA-Z0-9]+)*-[a-zA-Z0-9]+(?:[-_][a-zA-Z0-9]+)*'*")
CAMEL = re.compile(r"[a-z][a-z0-9]*(?:_[a-z0-9]+)*[A-Z][A-Za-z0-9_]*'*")
PAGES = ("README.md", "docs/*.md", "docs/changes/*.md", "rust/README.md")
# Lemmas that port.py spelled as a definition is spelled here: where each stands, a lemma that has its function's name gets `_lem`.
LEMMAS = {
    "crates/part/proofs/Course.antt": ("from_first", "from_start", "register_of"),
    "crates/part/proofs/Words.antt": ("register_of",),
    "crates/microassembler/proofs/Normal.antt": ("is_normal",),
    "crates/interpreter/proofs/Laws.antt": ("goes_on",),
    "crates/interpreter/proofs/BelowPorts.antt": ("goes_on",),
}


# A name that would meet another in its file.
APART = {
    "crates/token/proofs/Packed.antt": {"all-bytes": "all_bytes_lem"},
    "crates/facetgrove/proofs/Refused.antt": {"Interpreter-as-State": "InterpreterState", "interpreter-leaves": "interpreter_leaves"},
    "crates/console/proofs/Laws.antt": {"lastDigits": "digits_of_io"},
}


def files(top, *patterns):
    return sorted(p for it in patterns for p in glob.glob(os.path.join(top, it), recursive=True) if os.path.isfile(p) and "/out/" not in p)


def text_of(path):
    with open(path, encoding="utf-8") as f:
        return f.read()


def snake(name):
    name = re.sub(r"(?<=[a-z0-9])([A-Z])", lambda m: "_" + m[1].lower(), name) if CAMEL.fullmatch(name) else name
    return name.replace("-", "_")


def declared(texts):
    """Each name that a text declares: a definition, a lemma, a field or a constructor; not the answer to a goal."""
    names = set()
    for text in texts.values():
        for line in text.split("\n"):
            m = HEAD.match(re.sub(r"(^|\s)--.*", "", line))
            if m and not re.match(r"(?:tie|goal)\.", m[4] or ""):
                names.add(m[3])
        names |= {m[1] for use in re.finditer(r"\buse [^{};\n]+\{([^}]*)\}", text) for m in re.finditer(r" as ([^\s,]+)", use[1])}
    return names


def imported(texts):
    """Each name that a text brings in from the library."""
    names = set()
    for text in texts.values():
        for m in re.finditer(r"\buse ((?!Rattle\.(?!std\b))[\w.·]+)\.\{([^}]*)\}", text):
            names |= {it for part in m[2].split(",") for it in part.split(" as ")[:1] for it in [it.strip()] if it}
    return names


def main(argv):
    check = "--check" in argv
    rest = [it for it in argv if it != "--check"]
    top = rest[0] if rest else os.path.dirname(os.path.dirname(os.path.realpath(__file__)))
    proofs = {p: text_of(p) for p in files(top, "crates/*/specs/**/*.antt", "crates/*/proofs/**/*.antt")}
    sources = {p: text_of(p) for p in files(top, "crates/*/src/**/*.rt")}
    edits = {p: text_of(p) for p in files(top, "crates/*/must-fail/*.edit")}
    pages = {p: text_of(p) for p in files(top, *PAGES)}
    library = imported(proofs | sources)
    table = {it: snake(it) for it in declared(proofs | sources) if (DASHED.fullmatch(it) or CAMEL.fullmatch(it)) and it not in library}
    for text in (proofs | sources).values():
        for m in re.finditer(r"[\w]+·[\w]+", text):
            if not m[0].startswith("Rattle"):
                table[m[0]] = "_".join(snake(part[0].lower() + part[1:]) for part in m[0].split("·"))
    lemmas = {a: b + "_lem" for a, b in table.items() if "-" in a and any(b == table[c] for c in table if "-" not in c)}
    table |= lemmas
    known = {table.get(it, it) for it in declared(proofs | sources)}
    tokens = collections.defaultdict(set)
    for p, text in (proofs | sources).items():
        for w in WORD.findall(text):
            tokens[w].add(p)
    together = collections.defaultdict(list)
    for a, b in table.items():
        together[b].append(a)
    clash = [f"{' and '.join(a)} both become {b}" for b, a in sorted(together.items()) if len(a) > 1]
    clash += [f"{a} becomes {b}, which stands in {os.path.relpath(p, top)}" for a, b in sorted(table.items()) for p in sorted(tokens[a] & tokens[b])]
    for it in clash:
        print("look: " + it)

    def turn(text, path=""):
        place = os.path.relpath(path, top) if path else ""
        for it in LEMMAS.get(place, ()):
            text = re.sub(rf"(?<![\w.'-]){it}(?![\w'-])", it + "_lem", text)
        own = table | APART.get(place, {})
        # port.py writes no edit and no page: what it spelled anew in the crates is spelled anew there too.
        late = path in edits or path in pages

        def word(m):
            name = own.get(m[0], m[0])
            as_script = snake(name) if late and (DASHED.fullmatch(name) or CAMEL.fullmatch(name)) else name
            return as_script if as_script in known else name

        return WORD.sub(word, text)

    span = lambda text, path: re.sub(r"(`+)([^`\n]+)\1", lambda m: m[1] + turn(m[2], path) + m[1], text)  # noqa: E731
    changed = 0
    for p, text in (proofs | sources | edits | pages).items():
        to = span(text, p) if p in pages else turn(text, p)
        changed += to != text
        if to != text and not check:
            with open(p, "w", encoding="utf-8") as f:
                f.write(to)
    if check:
        for a, b in sorted(table.items()):
            print(f"{a}\t{b}")
    print(f"respell: {len(table)} names, {changed} files, {len(clash)} places to look at")


if __name__ == "__main__":
    main(sys.argv[1:])
