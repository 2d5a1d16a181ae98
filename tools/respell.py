#!/usr/bin/env python3
"""Spells the repository's own definitions and lemmas as today's Rattle does: words in snake case, with no dash and no inner capital.

usage: python3 tools/respell.py [--list]     at the top of the repository, once, right after the kit's port.py

Functions, types, fields and constants of src/, exported C names, strings, inputs and outputs keep their spelling, and so do the labels that
Rattle makes: what stands behind a dot, and the answers of a proof by hand that are named after them. The specs' two files whose name is that
of a module which Rattle makes get another. With --list it changes nothing, and prints the old and the new names, and those that meet.
"""

import os
import re
import subprocess
import sys

NAME = r"[^\s(){}.;,@\"«»]+"
HEAD = r"(?m)^[ \t]*(?:(?:abbrev|unfoldable|pub|axiom)[ \t]+)*"
DECLARED = re.compile(HEAD + r"((?:" + NAME + r"[ \t]+)*?" + NAME + r")(?:[ \t]+\{[^{}\n]*\})*[ \t]+:[ \t\n](.*)")
LOCAL = re.compile(r"(?:\blet |\()(" + NAME + r") :")
ALIAS = re.compile(r"\bas (" + NAME + r")")
PLAIN = re.compile(r"[a-z][\w'′₀-₉-]*\Z")
# A name of ours in the open: behind no dot, and before none.
WORD = re.compile(r"(?<![^\s(){};,@«»])(" + NAME + r")(?![^\s(){}.;,@\"«»])")
# A file of specs/ that has the name of a module which Rattle makes.
FILES = {"Contracts": "Promises"}

# A lemma whose plain spelling is that of a definition: it gets `_lem`, as the kit's do.
APART = {
    old: new
    for old, new in (line.split() for line in """
block-refusal block_refusal_lem
block_size block_size_lem
byte-bits byte_bits_lem
entry-bits entry_bits_lem
first-text first_text_lem
header-found header_found_lem
is-file is_file_lem
is-text is_text_lem
least-width least_width_lem
next-value next_value_lem
no-settings no_settings_lem
read_back read_back_lem
same-front same_front_lem
starting-initial starting_initial_lem
width-at width_at_lem
width-of width_of_lem
""".strip().split("\n"))
}
# Names of ours that functions of src/ have too: in src/ they stand for the function.
OF_RUST = {"block_size", "read_back"}
# The one field of a record of ours that has a dash.
FIELD = re.compile(r"\.(by-or)(?![\w-])")


def snake(name):
    words = re.sub(r"(?<=[a-z0-9])([A-Z])", lambda m: "_" + m[1].lower(), name)
    return words.replace("-", "_").replace("′", "'")


def files(root):
    said = subprocess.run(["git", "ls-files", "-co", "--exclude-standard", "crates"], cwd=root, capture_output=True, text=True, check=True).stdout
    return sorted({f for f in said.split("\n") if f.endswith((".antt", ".rt", ".edit")) and os.path.exists(os.path.join(root, f))})


def declared(texts):
    """The names that specs/ and proofs/ declare, but for those of a goal that Rattle made, which a proof by hand may call as it likes."""
    found = {}
    for f, t in texts.items():
        if not f.endswith(".antt"):
            continue
        names = [n for m in DECLARED.finditer(t) if not (f.endswith("/Proof.antt") and m[2].startswith("tie.")) for n in m[1].split()]
        for name in names + [m[1] for m in LOCAL.finditer(t)]:
            if PLAIN.match(name):
                found.setdefault(name, set()).add(f)
    return found


def meet(turned, found):
    by_new = {}
    for old, new in turned.items():
        by_new.setdefault(new, []).append(old)
    for new, olds in sorted(by_new.items()):
        olds += [new] if new in found and new not in turned else []
        if len(olds) > 1:
            print("meet:", new, *[f"{o} ({', '.join(sorted(x.replace('crates/', '') for x in found[o]))[:200]})" for o in olds])


def respell(f, text, turned):
    """The text of the file f with the names turned; in an edit only the texts that it puts into a file of specs/ or proofs/."""
    if f.endswith(".edit"):
        lines, of_rust = text.split("\n"), False
        for i, line in enumerate(lines):
            if line.startswith("file:"):
                of_rust = line.endswith(".rt")
            elif line.startswith(("old:", "new:")) and not of_rust:
                lines[i] = line[:4] + respell("x.antt", line[4:], turned)
        return "\n".join(lines)
    if f.endswith(".rt"):
        return WORD.sub(lambda m: m[1] if m[1] in OF_RUST else turned.get(m[1], m[1]), text)
    aliases = {m[1]: snake(m[1]) for m in ALIAS.finditer(text) if m[1] != snake(m[1])}
    for old, new in aliases.items():
        text = re.sub(r"(?<![^\s(){};,@«»])" + re.escape(old) + r"(?=[\s.})]|$)", new, text)
    return FIELD.sub(lambda m: "." + snake(m[1]), WORD.sub(lambda m: turned.get(m[1], m[1]), text))


def main(argv):
    root = subprocess.run(["git", "rev-parse", "--show-toplevel"], capture_output=True, text=True, check=True).stdout.strip()
    texts = {}
    for f in files(root):
        with open(os.path.join(root, f), encoding="utf-8") as it:
            texts[f] = it.read()
    found = declared(texts)
    turned = {old: APART.get(old, snake(old)) for old in found}
    turned = {old: new for old, new in turned.items() if old != new}
    if "--list" in argv:
        for old, new in sorted(turned.items()):
            print(old, new)
        meet(turned, found)
        return 0
    changed = 0
    for f, t in texts.items():
        new = respell(f, t, turned)
        for old, name in FILES.items():
            new = re.sub(r"\bspecs\." + old + r"\b", "specs." + name, new)
            new = re.sub(r"(?m)^pub mod " + old + "$", "pub mod " + name, new)
        path = os.path.join(root, f)
        if new != t:
            changed += 1
            with open(path, "w", encoding="utf-8") as it:
                it.write(new)
        folder, name = os.path.split(path)
        if folder.endswith("/specs") and name[:-5] in FILES:
            os.rename(path, os.path.join(folder, FILES[name[:-5]] + ".antt"))
    print(f"respell: {len(turned)} names, {changed} files")
    return 0


if __name__ == "__main__":
    raise SystemExit(main(sys.argv[1:]))
