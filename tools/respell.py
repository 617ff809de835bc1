#!/usr/bin/env python3
"""Brings the repository's own names to today's spelling: definitions and lemmas in snake case.

usage: python3 tools/respell.py [--dry]     at the top of the repository, once, right after the kit's port.py

A name such as `legalMovesOf` becomes `legal_moves_of`, a lemma such as `after-says` becomes `after_says`. Where the new
name is taken, a lemma gets `_lem` after it. Functions, types, variants, texts, inputs and outputs keep their names.
A name declared only in a Proof.antt stays: those files are rewritten for today's goals.
"""

import glob
import re
import sys

TOKEN = re.compile(r"(?<![0-9A-Za-z_'◌≡≢⊎ℕℤ])[A-Za-z][A-Za-z0-9_']*(?:-[A-Za-z0-9_'][A-Za-z0-9_']*)*(?![A-Za-z0-9_'◌≡≢⊎ℕℤ])")
DECLARED = re.compile(
    r"^\s*(?:(?:abbrev|unfoldable|pub|record|data|ruleset)\s+)*([^\s:(){},;]+)\s*(?:\{[^}]*\}\s*|\([^)]*\)\s*)*:(?:\s|$)"
)
IMPORT = re.compile(r"^\s*(?:ghost )?(?:pub )?use ([^;{]*)(?:\{([^}]*)\})?")
CAMEL = re.compile(r"[a-z][a-z0-9']*[A-Z]")
# names of the checker's own, which look like ours
GENERATED = re.compile(r"(^|-)(Inv|Need|Given)-")


def sources():
    return sorted(f for e in ("antt", "rt") for f in glob.glob(f"crates/**/*.{e}", recursive=True) if "/out/" not in f)


def pages():
    found = ["README.md", "CONTRIBUTING.md", "crates.txt"] + glob.glob("docs/**/*.md", recursive=True)
    return sorted(found + glob.glob("crates/*/must-fail/*.edit"))


def snake(name):
    parts = [re.sub(r"([a-z0-9'])([A-Z])", lambda m: m[1] + "_" + m[2].lower(), p) for p in name.split("-")]
    return "_".join(p[:1].lower() + p[1:] if CAMEL.match(p) else p for p in parts)


def is_camel(name):
    return bool(CAMEL.match(name)) and "-" not in name and not re.search(r"_[A-Z]", name)


def main():
    dry = "--dry" in sys.argv
    declared, walked, foreign = set(), set(), set()
    camel = set()
    for f in sources():
        with open(f, encoding="utf-8") as it:
            text = it.read()
        for line in text.splitlines():
            bare = line.lstrip()
            m = IMPORT.match(line)
            if m:
                ours = re.match(r"Rattle\.(\w+)\.", m[1]) and glob.glob(f"crates/{re.match(r'Rattle.(.+?)[.]', m[1])[1]}/")
                if not ours:
                    foreign |= set(re.findall(r"[^\s,]+", m[2] or ""))
                continue
            if f.endswith(".antt"):
                if bare.startswith("--"):
                    continue
                m = DECLARED.match(line)
                if m:
                    (walked if f.endswith("Proof.antt") else declared).add(m[1])
                camel |= {t for t in TOKEN.findall(line) if is_camel(t)}
    camel = {n for n in camel if n not in foreign}
    dashed = {n for n in declared if "-" in n and TOKEN.fullmatch(n) and not GENERATED.search(n)}
    new, taken = {}, (declared | walked) - camel - dashed | foreign
    clash = []
    for n in sorted(camel):
        s = snake(n)
        if s in taken:
            clash.append((n, s))
        new[n] = s
    taken |= set(new.values())
    for n in sorted(dashed):
        s = snake(n)
        if s in taken:
            clash.append((n, s + "_lem"))
            s += "_lem"
        if s in taken:
            print("taken twice:", n, s)
        new[n] = s
        taken.add(s)
    print(len(camel), "definitions,", len(dashed), "lemmas")
    for n, s in clash:
        print("met another name:", n, "->", s)
    spoken = {}
    after_dot = {}
    for f in sources():
        with open(f, encoding="utf-8") as it:
            text = it.read()
        out = []
        aliases = set(re.findall(r"(?m)^use \S+ as (\S+)$", text)) - {"tie", "lts", "reads", "goal"}
        for line in text.split("\n"):
            comment = line.lstrip().startswith(("--", "//"))

            def one(m, line=line, comment=comment):
                t = m[0]
                if t not in new:
                    return t
                if "-" in t and line[: m.start()].endswith("."):
                    root = re.search(r"([A-Za-z0-9_']+)(?:\.[^\s.]+)*\.$", line[: m.start()])
                    if f.endswith("Proof.antt") and not (root and root[1] in aliases):
                        return t
                    after_dot.setdefault(t, f + ": " + line.strip()[:100])
                if comment and "-" in t:
                    spoken.setdefault(t, f + ": " + line.strip()[:110])
                return new[t]

            if f.endswith(".rt") and not comment and '"' in line:
                parts = re.split(r'("(?:[^"\\]|\\.)*")', line)
                line = "".join(p if p.startswith('"') else TOKEN.sub(lambda m: new.get(m[0], m[0]) if "-" not in m[0] else m[0], p) for p in parts)
            else:
                line = TOKEN.sub(one, line)
            out.append(line)
        if not dry:
            with open(f, "w", encoding="utf-8") as it:
                it.write("\n".join(out))
    # the pages and the edits: names that port.py respelled, too
    known = taken
    for f in pages():
        with open(f, encoding="utf-8") as it:
            text = it.read()
        edit = f.endswith(".edit")

        def page(m):
            t = m[0]
            if t in new and ("-" not in t or edit or text[m.start() - 1 : m.start()] == "`"):
                return new[t]
            if is_camel(t) and snake(t) in known:
                return snake(t)
            return t

        turned = TOKEN.sub(page, text)
        if not dry and turned != text:
            with open(f, "w", encoding="utf-8") as it:
                it.write(turned)
    if dry:
        for t, w in sorted(spoken.items()):
            print("in a comment:", t, "|", w)
        for t, w in sorted(after_dot.items()):
            print("after a dot:", t, "|", w)


main()
