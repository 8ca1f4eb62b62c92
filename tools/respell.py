#!/usr/bin/env python3
"""Brings the repository's own definitions and lemmas to today's spelling: words in snake case, types and claims in upper camel case.

usage: python3 tools/respell.py [FOLDER]      FOLDER: the top of the repository, else this folder

It reads which names the files of specs/ and proofs/ declare, and turns these alone: a capital inside a name that begins small, and a dash, become `_` and a
small letter. A lemma that would have its definition's name gets `_lem`. What Rust code names, what the library names, strings and what is behind a dot in a path
of modules stay. In a comment or a page a name turns where it has a capital inside. It writes files in place, and a second run writes nothing more.
"""
import glob
import os
import re
import sys

TOKEN = re.compile(r'[^\s(){}.;,@"«»]+')
DECLARED = re.compile(
    r'^\s*(?:(?:abbrev|unfoldable)\s+)?(?:pub\s+)?(?:(?:record|data|ruleset)\s+)?'
    r'([^\s(){}.;,@"«»:=|\[\]]+)\s+(?:\{[^}]*\}\s*|\([^)]*\)\s*)*:(?!=)'
)
USE = re.compile(r"^\s*(?:pub\s+)?use\s+([^\s{;]+?)\.\{([^}]*)\}", re.M)

# Lemmas that would have the name of the definition that they are about.
LEMMAS = """
run-at first-tree next-tree half-excess tree-length tree-bytes closed-by longest-lyndon previous-length next-length previous-at next-at
unless-refused byte-bit orders-agree left_open too_long counts_of bodies_of is_within rows_write entry_in
""".split()

# Two constructors that would have the names of definitions which their file uses.
OTHERS = {"word-refusal": "refusal_of_word", "word-start": "start_of_word"}

# What stands behind a dot under one of these names is a step of the code, called as the function is.
FUNCTIONS = "tree-length tree-bytes is_within word-refusal".split()


def snake(name):
    if name[0].isupper() and "-" not in name:
        return name
    parts = []
    for part in name.split("-"):
        if not part or part[0].isupper():
            parts.append(part)
        else:
            parts.append(re.sub(r"(?<=[a-z0-9₀-₉])[A-Z]", lambda m: "_" + m.group(0).lower(), part))
    return "_".join(parts)


def antt_files(root):
    return sorted(
        glob.glob(os.path.join(root, "crates/*/specs/**/*.antt"), recursive=True)
        + glob.glob(os.path.join(root, "crates/*/proofs/**/*.antt"), recursive=True)
    )


def crates(root):
    with open(os.path.join(root, "crates.txt"), encoding="utf-8") as f:
        return {line.split(":")[0].split()[0] for line in f if line.strip() and not line.startswith("#")}


def declared(files):
    names = set()
    for path in files:
        with open(path, encoding="utf-8") as f:
            for line in f:
                m = DECLARED.match(re.sub(r"--.*", "", line))
                # an answer to a goal has the goal's name
                if m and not re.match(r".*:\s*(?:tie|goal)\.", line):
                    names.add(m.group(1))
    return names


def of_library(text, own):
    names = set()
    for m in USE.finditer(text):
        path = m.group(1).split(".")
        if not (path[0] == "Rattle" and len(path) > 1 and path[1] in own):
            names |= {word.strip() for word in m.group(2).split(",")}
    return names


def turned(code, table, stays):
    out, at = [], 0
    for m in TOKEN.finditer(code):
        word = m.group(0)
        behind = m.start() > 0 and code[m.start() - 1] == "."
        new = word
        if word not in stays and word in table:
            new = table[word]
            if behind and word in FUNCTIONS:
                new = snake(word)
        out += [code[at : m.start()], new]
        at = m.end()
    return "".join(out) + code[at:]


def in_prose(text, table):
    return re.sub(
        r"(?<![\w'-])[a-z][\w'-]*[A-Z][\w'-]*(?![\w'-])",
        lambda m: table.get(m.group(0), m.group(0)),
        text,
    )


def antt(text, table, own):
    stays = of_library(text, own)
    lines = []
    for line in text.split("\n"):
        at = re.search(r"(?:^|(?<=[\s(){}.;,]))--(?=\s|-|$)", line)
        code, comment = (line[: at.start()], line[at.start() :]) if at else (line, "")
        lines.append(turned(code, table, stays) + in_prose(comment, table))
    return "\n".join(lines)


def rattle(text, table):
    lines = []
    for line in text.split("\n"):
        at = line.find("//")
        code, comment = (line[:at], line[at:]) if at >= 0 else (line, "")
        lines.append(in_prose(code, table) + in_prose(comment, table))
    return "\n".join(lines)


def main():
    root = sys.argv[1] if len(sys.argv) > 1 else "."
    own = crates(root)
    files = antt_files(root)
    names = declared(files)
    table = {name: snake(name) for name in names if snake(name) != name}
    # once the definitions have the small spelling, a lemma has had its own
    small = {snake(name) for name in names if re.search("[a-z][A-Z]", name)}
    table |= {name: snake(name) + "_lem" for name in LEMMAS if name in names and ("-" in name or name in small)}
    table |= {name: new for name, new in OTHERS.items() if name in names}
    pages = glob.glob(os.path.join(root, "README.md")) + glob.glob(os.path.join(root, "docs/*.md"))
    pages = [page for page in pages if os.path.basename(page) not in ("PORT.md", "CHANGES.md")]
    jobs = [(path, lambda t: antt(t, table, own)) for path in files]
    jobs += [(path, lambda t: rattle(t, table)) for path in sorted(glob.glob(os.path.join(root, "crates/*/src/**/*.rt"), recursive=True))]
    jobs += [(path, lambda t: in_prose(t, table)) for path in sorted(pages)]
    changed = 0
    for path, turn in jobs:
        with open(path, encoding="utf-8") as f:
            old = f.read()
        new = turn(old)
        if new != old:
            changed += 1
            with open(path, "w", encoding="utf-8") as f:
                f.write(new)
    print(f"{len(table)} names, {changed} files")


if __name__ == "__main__":
    main()
