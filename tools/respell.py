#!/usr/bin/env python3
"""Brings the repository's own definitions and lemmas to one spelling: words in snake case.

usage: tools/respell.py OLD        at the top of the repository, once, after the kit's port.py; OLD is the commit before it

A name written in camel case or with hyphens gets underscores: planLength becomes plan_length, tested-at becomes tested_at. Names of the kit, functions
of src/, exported names, strings, inputs and outputs stay. Where a definition and a law about it would fall together, the law gets _law behind its name.
"""
import collections
import os
import re
import subprocess
import sys

WORD = re.compile(r"[^\s(){}\[\],;.:`|]+")
DECLARED = re.compile(
    r"^(\s*)((?:(?:abbrev|unfoldable|pub|mutual)\s+)*)((?:record|data|module|ruleset)\s+)?([^\s:(){},;=]+)\s*((?:\([^)]*\)|\{[^}]*\}|\s)*):\s"
)
USE = re.compile(r"(?m)^\s*(?:pub )?(?:ghost )?use\s+([^\s{;]+?)(?:\.\{([^}]*)\}|\s+as\s+\S+)?\s*;?\s*$")
LEAVE = {"must-fail", "cross-check"}


def snake(name):
    """The name in snake case, if it is one of ours that begins in lower case."""
    if not re.match(r"[a-z]", name):
        return name
    name = name.replace("-", "_")
    return re.sub(r"([a-z0-9])([A-Z])", lambda m: m.group(1) + "_" + m.group(2).lower(), name)


def spelled(name):
    return re.match(r"[a-z]", name) and (("-" in name) or re.search(r"[a-z0-9][A-Z]", name)) and re.search(r"[a-zA-Z0-9]-[a-zA-Z0-9]|[a-z0-9][A-Z]", name)


def texts(ending):
    for folder, folders, files in os.walk("crates"):
        folders[:] = sorted(f for f in folders if f != "out")
        for f in sorted(files):
            if f.endswith(ending):
                yield os.path.join(folder, f)


def read(path):
    with open(path, encoding="utf-8") as f:
        return f.read()


def write(path, text):
    with open(path, "w", encoding="utf-8") as f:
        f.write(text)


def old_text(commit, path):
    r = subprocess.run(["git", "show", commit + ":" + path], capture_output=True, text=True)
    return r.stdout if r.returncode == 0 else ""


def bare(text):
    """The text without its comments."""
    return re.sub(r"(?m)(^|\s)--( .*)?$", "", text)


def imported(text, own):
    """The names that a file has from the kit."""
    names = set()
    for m in USE.finditer(text):
        path = m.group(1).split(".")
        if path[0] == "Rattle" and len(path) > 1 and path[1] in own:
            continue
        if m.group(2):
            for part in m.group(2).replace("\n", " ").split(","):
                names.update(part.split())
    return names


def words(text):
    """Each word of a text with whether it stands behind a dot."""
    for m in WORD.finditer(text):
        yield m, m.start() > 0 and text[m.start() - 1] == "."


def declared(own):
    names, fields = collections.Counter(), set()
    for path in texts(".antt"):
        if path.endswith("/Proof.antt"):
            continue
        for line in read(path).split("\n"):
            m = DECLARED.match(line)
            if m:
                names[m.group(4)] += 1
                if m.group(1) and "pub" in m.group(2):
                    fields.add(m.group(4))
    return names, fields


def fallen(commit, path, text):
    """Where two old names of one file are one name now: which of its words were written with hyphens."""
    before = bare(old_text(commit, path))
    groups = collections.defaultdict(set)
    for m, _ in words(before):
        if spelled(m.group(0)):
            groups[snake(m.group(0))].add(m.group(0))
    laws = {}
    for name, forms in groups.items():
        hyphened = {f for f in forms if "-" in f}
        if len(forms) > 1 and hyphened:
            laws[name] = hyphened
    return laws, before


def main():
    if len(sys.argv) != 2:
        sys.exit(__doc__)
    commit = sys.argv[1]
    own = {line.split(":")[0].strip() for line in read("crates.txt").split("\n") if re.match(r"[a-z]\w*:", line)}
    names, fields = declared(own)

    # Laws whose name falls together with a definition's get another, in every file of the repository.
    laws = {}
    for path in texts(".antt"):
        if not path.endswith("/Proof.antt"):
            for name in fallen(commit, path, "")[0]:
                laws[name] = name + "_law"

    done = {}
    for path in texts(".antt"):
        text = read(path)
        kit = imported(text, own)
        proof = path.endswith("/Proof.antt")
        before = bare(old_text(commit, path))
        # which of the words that are one name now were hyphened, in order
        was = collections.defaultdict(list)
        for m, dot in words(before):
            if snake(m.group(0)) in laws:
                was[snake(m.group(0))].append("-" in m.group(0) and not dot)
        at = collections.Counter()
        out, last, line_start = [], 0, 0
        comment = re.compile(r"(?:^|\s)--(?: .*)?$", re.M)
        comments = [(m.start(), m.end()) for m in comment.finditer(text)]
        c = 0
        for m, dot in words(text):
            while c < len(comments) and comments[c][1] <= m.start():
                c += 1
            if c < len(comments) and comments[c][0] <= m.start() < comments[c][1]:
                continue
            word = m.group(0)
            new = word
            short = snake(word)
            if short in laws:
                k = at[short]
                at[short] += 1
                if word in kit:
                    continue
                hyphened = was[short][k] if k < len(was[short]) else "-" in word
                if len(was[short]) <= k:
                    print(f"look: {path}: {word} stands more often than before")
                new = laws[short] if hyphened and not (dot and word in fields and not names[word] > 0) else short
                if dot and not hyphened:
                    new = short
            elif spelled(word) and word not in kit:
                if dot:
                    new = short if word in fields or word in names else word
                elif proof:
                    new = short if word in names else word
                else:
                    new = short
            if new != word:
                out.append(text[last:m.start()])
                out.append(new)
                last = m.end()
                done[word] = new
        out.append(text[last:])
        text = "".join(out)
        write(path, text)

    # Clauses of src/ cite definitions, in camel case. Strings and code have no such words.
    for path in list(texts(".rt")):
        text = read(path)

        def put(m):
            word = m.group(0)
            return snake(word) if word in names and spelled(word) and "-" not in word else word

        write(path, "".join(part if i % 2 else re.sub(r"(?<![\w'])[a-z]\w*", put, part) for i, part in enumerate(re.split(r'("(?:[^"\\\n]|\\.)*")', text))))

    # Edits and pages name them too.
    pages = list(texts(".edit")) + [os.path.join("docs", f) for f in os.listdir("docs") if f.endswith(".md")] + ["README.md", "CONTRIBUTING.md"]
    for path in pages:
        text = read(path)

        def put(m):
            word = m.group(0)
            if "-" in word and path.endswith(".md"):
                return done.get(word, word)
            return snake(word) if (word in names and spelled(word)) else word

        if path.endswith(".edit"):
            lines = [re.sub(r"(?<![\w'/-])[a-z][\w'-]*", put, l) if re.match(r"(old|new):", l) else l for l in text.split("\n")]
            text = "\n".join(lines)
        else:
            text = re.sub(r"`[^`\n]+`", lambda q: re.sub(r"(?<![\w'/-])[a-z][\w'⁺-]*(?![/.]\w)", put, q.group(0)), text)
        write(path, text)
    print(f"respell: {len(done)} names")


main()
