#!/usr/bin/env python3
"""Spells the repository's own definitions, fields, constructors and lemmas in snake case, by the table names.tsv beside this file (old, a tab,
new). Run once at the top, after the kit's port.py:  python3 tools/respell.py

In .antt files whole words turn, in code and in comments. Behind a dot in a function's Proof.antt, where a word may be a label that the
checker makes of a name of the source, it only gets plain underscores. In .rt files words turn outside strings, and in Markdown in code spans.
"""
import os
import re
import sys

HERE = os.path.dirname(os.path.realpath(__file__))
NAME = r'[^\s(){}.;,@"«»]+'
WORD = re.compile(r'(\.?)(' + NAME + ')')
RUST = re.compile(r'b?"(?:\\.|[^"\\])*"|(?<![\w\'-])[A-Za-z_][\w\'-]*')
SPEC = re.compile(r"(?m)^pub ([\w-]+)-spec :")


def table():
    with open(os.path.join(HERE, "names.tsv"), encoding="utf-8") as file:
        return dict(line.rstrip("\n").split("\t") for line in file)


def snake(name):
    return re.sub(r"(?<=[a-z0-9])[A-Z]", lambda m: "_" + m[0].lower(), name).replace("-", "_")


def imported(text):
    """What a file imports from the kit's libraries: those names are the kit's."""
    own = set(os.listdir("crates"))
    found = set()
    for path, words in re.findall(r"(?m)^use ([^\s{]+)\.\{([^}]*)\}", text):
        steps = path.split(".")
        if steps[0] != "Rattle" or steps[1] not in own:
            found |= {word.strip() for word in words.split(",")}
    return found


def antt(text, names, is_proof):
    libraries = imported(text)

    def turned(m):
        dot, word = m.groups()
        if word not in names or word in libraries:
            return m[0]
        return dot + (snake(word) if dot and is_proof else names[word])

    text = WORD.sub(turned, text)
    for name in SPEC.findall(text):
        text = re.sub(rf"(?<![\w.-]){re.escape(name)}-spec(?![\w-])", name.replace("-", "_") + "_spec", text)
    return text


def rust(text, names):
    """Functions of src/ are in snake case and keep their names: only words that are not turn."""
    names = {old: new for old, new in names.items() if snake(old) != old}
    return RUST.sub(lambda m: m[0] if '"' in m[0] else names.get(m[0], m[0]), text)


def markdown(text, names):
    def span(m):
        return re.sub(r"(?<![\w/.'-])[A-Za-z][\w'-]*(?![\w/'-])", lambda w: names.get(w[0], w[0]), m[0])

    return re.sub(r"`[^`\n]+`", span, text)


def main():
    names = table()
    for top in ("crates", "docs", "README.md"):
        places = [(top, "")] if os.path.isfile(top) else [(os.path.join(f, n), f) for f, _, ns in os.walk(top) for n in ns]
        for path, folder in sorted(places):
            if "/out/" in path or not path.endswith((".antt", ".rt", ".md")):
                continue
            with open(path, encoding="utf-8") as file:
                old = file.read()
            if path == "crates/session/specs/Reading.antt":  # a parameter and a field of one record
                old = old.replace("(rec builtIn d :", "(rec built_in_digest d :").replace("d ≡ builtIn", "d ≡ built_in_digest")
            if path.endswith(".antt"):
                new = antt(old, names, path.endswith("/Proof.antt") and "/proofs/" in path)
            elif path.endswith(".rt"):
                new = rust(old, names)
            else:
                new = markdown(old, names)
            if new != old:
                with open(path, "w", encoding="utf-8") as file:
                    file.write(new)


if __name__ == "__main__":
    sys.exit(main())
