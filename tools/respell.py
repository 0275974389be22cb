#!/usr/bin/env python3
"""Spells the repository's own definitions and lemmas in the words of today's Rattle: camelCase and dashes become snake_case, and a dash stays only
beside a type's name, as in 'All-at'. Ran once, after the kit's port.py.

usage: tools/respell.py [FOLDER]      (FOLDER: the top of the repository, by default the one that holds this script)

What turns: in specs/ and in the lemma files of proofs/ every name that comes from no library; in a function's proof, in the clauses and comments of
src/, the names that specs/ and the lemma files declare. Functions of src/, strings, inputs and outputs stay. Two names that would fall together, or a
name that would meet a library's, are listed, and nothing is written."""

import collections
import glob
import os
import re
import sys

NAME = re.compile(r"[^\s(){}.;,@\"«»\[\]|]+")
USE = re.compile(r"\buse\s+([\w.◌+-]+)\.\{([^}]*)\}")
COMMENT = re.compile(r"--[^\n]*")
DECLARED = re.compile(r"(?m)^[ ]*(?:(?:abbrev|unfoldable|pub)[ ]+)*(?:(?:record|data)[ ]+)?([^\s(){}\[\],;.]+)(?:[ ]+[({][^:\n]*)?[ ]*:(?:\s|$)")


# Names that would fall together with another's. A lemma gets '_lem' behind its function's name.
OTHERWISE = {
    "at-line": "line_text",
    "is-ring": "a_ring",
    "notOwn": "is_not_own",
}
LEMMAS = """count-of entry-bytes flag-byte may-see no-count no-rules owner-in part-plan part-total part-windows plan-for read-rules read-signed
read-state read-windows record-text record-written rule-at rule-bytes rule-holds rule-in rule-of rules-at state-in state-of total-at total-from
well-formed window-at windows-at""".split()
OTHERWISE.update({it: it.replace("-", "_") + "_lem" for it in LEMMAS})
# These meet a field or a crate that no file names beside them.
APART = {"from_at", "ring_text"}
# The same, for names that port.py had turned: the crate, the name, the new name.
IN_CRATE = [("ticket", "window_bytes", "window_bytes_lem"), ("viewing", "window_bytes", "window_bytes_lem"), ("renumbering", "owner_of", "owner_of_lem")]


def spelled(name):
    """A name in today's spelling: words in snake case, a dash beside a type."""
    if name in OTHERWISE:
        return OTHERWISE[name]
    if re.fullmatch(r"T_(true|false)", name):
        return name.replace("_", "-")
    if not re.search(r"[A-Za-z0-9₂']-[A-Za-z0-9]|(?:^|-)[a-z][a-z0-9_]*[A-Z]", name):
        return name
    parts = []
    for part in name.split("-"):
        if part[:1].isupper():
            parts.append(part)
        else:
            parts.append(re.sub(r"(?<=[a-z0-9])[A-Z]", lambda m: "_" + m[0].lower(), part))
    out = parts[0]
    for last, part in zip(parts, parts[1:]):
        out += ("-" if any(not it[:1].isalnum() or it[:1].isupper() for it in (last, part)) else "_") + part
    return out


def main():
    top = sys.argv[1] if len(sys.argv) > 1 else os.path.join(os.path.dirname(os.path.abspath(__file__)), "..")
    os.chdir(top)
    crates = {os.path.basename(it) for it in glob.glob("crates/*")}
    lemmas = sorted(set(glob.glob("crates/*/specs/**/*.antt", recursive=True)) | set(glob.glob("crates/*/proofs/*.antt")))
    proofs = sorted(set(glob.glob("crates/*/proofs/**/*.antt", recursive=True)) - set(lemmas))
    sources = sorted(glob.glob("crates/*/src/**/*.rt", recursive=True))
    texts = {}
    for path in lemmas + proofs + sources:
        with open(path, encoding="utf-8") as file:
            texts[path] = file.read()

    library = set()
    for text in texts.values():
        for path, names in USE.findall(text):
            steps = path.split(".")
            if not (steps[0] == "Rattle" and len(steps) > 1 and steps[1] in crates):
                for item in re.split(r",", names):
                    library.update(item.split())
    was = dict(texts)
    for crate, old, new in IN_CRATE:
        for path in lemmas:
            if path.startswith(f"crates/{crate}/"):
                texts[path] = NAME.sub(lambda m: new if m[0] == old else m[0], texts[path])
    declared, words = set(), set()
    for path in lemmas:
        code = COMMENT.sub("", texts[path])
        declared.update(DECLARED.findall(code))
        # a name that stands only behind a dot, and is not declared here, is a library's
        words.update(m[0] for m in NAME.finditer(code) if code[m.start() - 1 : m.start()] != ".")
    table = {it: spelled(it) for it in words | declared if it not in library and spelled(it) != it}
    own = {it: new for it, new in table.items() if it in declared}

    taken = collections.defaultdict(set)
    for it in words:
        taken[table.get(it, it)].add(it)
    clashes = {new: olds for new, olds in taken.items() if len(olds) > 1 and new not in APART}
    for new, olds in sorted(clashes.items()):
        print(f"fall together in {new}: {' '.join(sorted(olds))}")
    met = sorted(it for it, new in table.items() if new in library)
    for it in met:
        print(f"meets a library's name: {it}, {table[it]}")
    print(f"{len(table)} names, {len(own)} of them declared")
    if (clashes or met) and "--force" not in sys.argv:
        sys.exit(1)

    def antt(text, names):
        return NAME.sub(lambda m: names.get(m[0], m[0]), text)

    def comment(text, names):
        """The names in a comment, which may stand before a sign of prose."""
        return re.sub(r"[A-Za-z0-9_'₂∈-]+", lambda m: names.get(m[0], m[0]), text)

    def by_kind(text, names):
        out, at = [], 0
        for m in COMMENT.finditer(text):
            out += [antt(text[at : m.start()], names), comment(m[0], names)]
            at = m.end()
        return "".join(out) + antt(text[at:], names)

    dashes = {it: new for it, new in own.items()}
    for path, text in texts.items():
        if path in sources:
            names = dashes
            new = re.sub(r"\"(?:\\.|[^\"\\])*\"|//[^\n]*|[A-Za-z0-9_'₂∈]+(?:-[A-Za-z0-9_'₂∈]+)*",
                         lambda m: m[0] if m[0][0] == '"' else comment(m[0], names) if m[0][:2] == "//" else names.get(m[0], m[0]), text)
        else:
            new = by_kind(text, table if path in lemmas else own)
        if new != was[path]:
            with open(path, "w", encoding="utf-8") as file:
                file.write(new)


main()
