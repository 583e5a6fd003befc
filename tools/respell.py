#!/usr/bin/env python3
"""Respells this repository's own definitions and lemmas as today's Rattle spells names: words in snake case, no camel case.

usage: tools/respell.py [--dry]      at the top of a checkout on which the toolchain's port.py has run, once

A name is a word of specs/ or proofs/: a definition, a lemma, a constructor or a field. Each word inside it becomes snake case.
A dash stays only between a word of the library and a definition, as in 'length-up_to'. Types and modules keep their capital. Functions of src/, exported names,
strings, inputs and outputs are not touched. Pages and must-fail edits follow; in a page only what stands in backticks is read.
"""
import collections
import os
import re
import subprocess
import sys

# What a lemma may be named after besides this repository's own definitions: words of the library.
LIBRARY = set("length get_or take drop set append map replicate add mul min max reverse sum".split())
# Old words of the library inside names of this repository.
WORDS = {"getD": "get_or"}
# Lemmas that already have the spelling that a definition beside them gets, and the files in which they are meant.
BESIDE = {
    "all_known": ["crates/ports/proofs/"],
    "far_at": ["crates/ends/proofs/Counts.antt"],
    "first_found": ["crates/forward/proofs/Chosen.antt"],
}

STOP = r"\s(){}\[\],;.\"`"
TOKEN = re.compile(r"[^" + STOP + r"]+")
TOP = re.compile(r"(?m)^(?:unfoldable |abbrev |pub )*([^\s:(){}]+)(?: \{[^}]*\})? :(?=\s)")
TYPE = re.compile(r"(?m)^ *(?:pub )?(?:record|data) (\S+)")
INSIDE = re.compile(r"(?m)^ +(?:unfoldable |abbrev |pub )*([^\s:(){}]+)(?: \{[^}]*\})? :(?=\s)")


def tracked():
    return subprocess.run(["git", "ls-files", "-z"], capture_output=True, text=True, check=True).stdout.split("\0")[:-1]


def snake(word):
    word = WORDS.get(word, word)
    if re.match(r"^[A-Z]", word) or not re.search(r"[a-z0-9][A-Z]", word):
        return word
    return re.sub(r"(?<=[a-z0-9])([A-Z]+)", lambda m: "_" + m.group(1).lower(), word)


def declared(paths):
    """The names that stand declared: those of specs/ that are definitions, and all others."""
    words, names = set(), collections.defaultdict(set)
    for p in paths:
        t = open(p, encoding="utf-8").read()
        for m in TOP.finditer(t):
            name = m.group(1)
            line = t[m.start():t.find("\n", m.start())]
            if " tie." in line or " goal." in line or name.endswith("-spec") or name.endswith("_spec"):
                continue
            names[name].add(p)
            if "/specs/" in p and ("unfoldable" in line.split(":")[0] or "abbrev" in line.split(":")[0]):
                words.add(name)
        for m in TYPE.finditer(t):
            names[m.group(1)].add(p)
            words.add(m.group(1))
        if "/Proof.antt" not in p:
            for m in INSIDE.finditer(t):
                names[m.group(1)].add(p)
                if "/specs/" in p and re.match(r" +(unfoldable|abbrev) ", m.group(0)):
                    words.add(m.group(1))
    return words, names


def respelled(name, words, is_word):
    parts = [snake(p) for p in name.split("-")]
    if "" in parts:
        return name
    out = parts[0]
    for left, right in zip(parts, parts[1:]):
        both = not is_word and left in LIBRARY and right in words
        out += ("-" if both else "_") + right
    return out


def table():
    antt = [p for p in tracked() if p.endswith(".antt")]
    words, names = declared(antt)
    new_words = LIBRARY | {respelled(w, set(), True) for w in words}
    to = {}
    for n in names:
        if re.match(r"^[A-Z]", n) and "-" not in n:
            continue
        r = respelled(n, new_words, n in words)
        if r != n:
            to[n] = r
    # A lemma that would have a definition's name gets '_lem'.
    own = {to.get(w, w) for w in words}
    for n, r in list(to.items()):
        if n not in words and r in own:
            to[n] = r + "_lem"
    return to, names


def code(text, to):
    """Rewrites the tokens of antt's text; of a comment, only camel case and what stands in backticks."""
    out = []
    for line in text.split("\n"):
        at = line.find("--")
        while at > 0 and not line[at - 1].isspace():
            at = line.find("--", at + 2)
        if at == 0 or at > 0:
            out.append(tokens(line[:at], to) + comment(line[at:], to))
        else:
            out.append(tokens(line, to))
    return "\n".join(out)


def tokens(text, to):
    parts = re.split(r'("[^"]*")', text)
    for i in range(0, len(parts), 2):
        parts[i] = TOKEN.sub(lambda m: to.get(m.group(0), to.get(m.group(0).rstrip("'"), m.group(0)) if not m.group(0).endswith("'") else m.group(0)), parts[i])
    return "".join(parts)


def comment(text, to):
    camel = {k: v for k, v in to.items() if re.search(r"[a-z0-9][A-Z]", k)}
    text = TOKEN.sub(lambda m: camel.get(m.group(0), m.group(0)), text)
    return re.sub(r"`[^`\n]*`", lambda m: tokens(m.group(0), to), text)


def source(text, to):
    """Rewrites the ghost lines and the clauses of a source file, and comments as of antt."""
    out, depth = [], 0
    for line in text.split("\n"):
        s = line.strip()
        if s.startswith("//"):
            out.append(comment(line, to))
            continue
        begins = re.match(r"\s*(requires|ensures|invariant|decreases|ghost)\b[^{]*\{", line)
        if depth > 0 or begins or s.startswith("ghost use") or s.startswith("#[tactic") or s.startswith("#![tactic"):
            out.append(tokens(line, to))
            if depth > 0 or begins:
                depth += line.count("{") - line.count("}")
        else:
            out.append(line)
    return "\n".join(out)


def page(text, to):
    return re.sub(r"`[^`\n]*`", lambda m: tokens(m.group(0), to) if "/" not in m.group(0) else m.group(0), text)


def edit(text, to):
    of_source = re.search(r"(?m)^file: .*\.rt$", text) is not None
    out, rt = [], of_source
    for line in text.split("\n"):
        if line.startswith("file:"):
            rt = line.rstrip().endswith(".rt")
        if line.startswith(("old:", "new:")) and not rt:
            line = line[:4] + tokens(line[4:], to)
        elif line.startswith(("old:", "new:")) and re.search(r"ensures|requires|ghost use", line):
            line = line[:4] + tokens(line[4:], to)
        elif line.startswith("refused at:"):
            line = line[:11] + " ".join(tokens(w, to) if "/" not in w else w for w in line[11:].split(" "))
        out.append(line)
    return "\n".join(out)


def main():
    to, names = table()
    back = collections.defaultdict(set)
    for a, b in to.items():
        back[b].add(a)
    for b in list(back):
        if b in names:
            back[b].add(b)
    bad = {b: a for b, a in back.items() if len(a) > 1}
    texts = {}
    for p in tracked():
        try:
            texts[p] = open(p, encoding="utf-8").read()
        except (UnicodeDecodeError, FileNotFoundError):
            pass
    if "--dry" in sys.argv:
        for b, a in sorted(bad.items()):
            print("together:", b, sorted(a), [sorted(names[x])[:2] for x in sorted(a)])
        for p, t in texts.items():
            if p.endswith(".antt"):
                seen = set(TOKEN.findall("\n".join(l.split(" -- ")[0] for l in t.split("\n") if not l.startswith("--"))))
                for x in seen:
                    if x in to and to[x] in seen:
                        print("beside:", p, x, to[x])
        print(len(to))
        if "--table" in sys.argv:
            for a, b in sorted(to.items()):
                print(a, b)
        return
    for p, t in texts.items():
        if p.endswith(".antt"):
            for name, where in BESIDE.items():
                if name in to.values() and any(p.startswith(w) for w in where):
                    t = re.sub(r"(?<![\w.'-])" + name + r"(?![\w.'-])", name + "_lem", t)
            n = code(t, to)
        elif p.endswith(".rt"):
            n = source(t, to)
        elif p.endswith(".edit"):
            n = edit(t, to)
        elif p.endswith(".md"):
            n = page(t, to)
        else:
            continue
        if n != t:
            open(p, "w", encoding="utf-8").write(n)
    print(len(to), "names respelled")


if __name__ == "__main__":
    main()
