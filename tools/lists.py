#!/usr/bin/env python3
"""The lists of old and new on docs/DESIGN-PASS.md, made from two trees of this repository.

usage: python3 tools/lists.py OLD_TREE            prints what differs between the page and what this would write
       python3 tools/lists.py OLD_TREE --write    rewrites the three blocks on the page, and nothing else
       python3 tools/lists.py OLD_TREE --gone     prints gone laws that the page's last list lacks, and laws on it that
                                                  are not gone
       python3 tools/lists.py OLD_TREE --names    prints names on the old pages that are gone, where the page is silent

OLD_TREE is a checkout of the commit in the first line of the page. The new tree is the one in which this file lies.
The blocks are sorted by name. A text is written without comments and with single spaces, then wrapped.

- Signatures: of crates/*/src/*.rt each `pub fn` with its clauses, each `pub struct` and `pub enum` with its derives,
  each `pub trait` as a whole, each `impl Trait for Type` with its ghost items. No other bodies, attributes,
  constants or `type`s.
- Definitions: each `pub` definition of crates/*/specs/*.antt as a whole, without the parameters of its module.
- Theorems: each `pub` law of crates/*/proofs/*.antt that a page of either tree names, without its proof. A page names
  what it has in backticks, alone or at the end of a path (`a::law`).
"""

import argparse
import difflib
import itertools
import re
import sys
from pathlib import Path

NEW = Path(__file__).resolve().parent.parent
PAGE = NEW / "docs" / "DESIGN-PASS.md"
WIDTH = 118  # in bytes


def read(path):
    return path.read_text(encoding="utf-8")


def one_line(*parts):
    return " ".join(" ".join(parts).split())


# ---- Rattle (.rt)

# a text or a character, or else a comment
RT_TEXT = re.compile(r'("(?:[^"\\]|\\.)*"|b?\'(?:[^\'\\\n]|\\.)\')|//.*')
RT_ITEM = re.compile(
    r"""^(?P<indent>\ *)(?P<attributes>(?:\#\[.*\]\s*)*)
    (?: (?P<item>pub\ (?P<kind>fn|struct|enum|trait)\ (?P<name>\w+))
      | impl(?:<[^>]*>)?(?P<head>\ (?:(?P<trait>[\w:<>]+)\ for\ )?(?P<type>\w+).*?\{) )""",
    re.M | re.X,
)
CLAUSE = re.compile(r"\b(?:requires|ensures)(?: \w+)?\s*\Z")
GHOST_ITEM = re.compile(r"ghost \w+ = \{.*?\};", re.S)


def first(code, start, wanted, pairs):
    """The first place from start on of a character that is wanted, outside these pairs of brackets."""
    depth = 0
    for i in range(start, len(code)):
        if code[i] in pairs:
            depth += 1 if pairs.index(code[i]) % 2 == 0 else -1
        if depth == 0 and code[i] in wanted:
            return i
    raise ValueError("a bracket is not closed")


def body_start(code, start):
    """The place of the brace or semicolon after the head of an item, and after the clauses of a function."""
    place = first(code, start, "{;", "()[]")
    if code[place] == "{" and CLAUSE.search(code[start:place]):
        return body_start(code, first(code, place, "}", "{}") + 1)
    return place


def signatures(tree):
    found = {}
    for path in sorted(tree.glob("crates/*/src/*.rt")):
        module = f"{path.parts[-3]}::{path.stem}"
        text = RT_TEXT.sub(lambda m: m[1] or "", read(path))
        code = RT_TEXT.sub(lambda m: "_" * len(m[0]), text)  # the same places, without braces in texts
        owner = ""
        for m in RT_ITEM.finditer(code):
            if m["trait"]:
                ghosts = GHOST_ITEM.findall(text[m.end() : first(code, m.end() - 1, "}", "{}")])
                found[f"{module}::{m['type']} ({m['trait']})"] = one_line("impl" + m["head"], *ghosts, "}")
            elif m["type"]:
                owner = m["type"] + "::"
            else:
                start = m.start("item")
                end = body_start(code, start)
                if m["kind"] == "fn":
                    name = (owner if m["indent"] else "") + m["name"]
                    found[f"{module}::{name}"] = one_line(text[start:end])
                else:
                    end = first(code, end, "};", "{}") + 1
                    derives = re.findall(r"#\[derive.*\]", m["attributes"])
                    kind = "trait" if m["kind"] == "trait" else "type"
                    found[f"{module}::{m['name']} ({kind})"] = one_line(*derives, text[start:end])
    return found


# ---- definitions and laws (.antt)

ANTT_TEXT = re.compile(r'("(?:[^"\\]|\\.)*")|(?<!\S)--.*')
DECLARED = re.compile(r"((?:abbrev |unfoldable |pub )*)(?:(?:record|data) (\S+)|(\S+)(?: \{\S+\})? :(?= |$))")
OTHER = re.compile(r"(?:pub )?(?:module|use|open|mod|ruleset) ")


def declarations(tree, folder):
    """What stands at the margin of a file or of a module: its `crate/File name`, whether it is pub, its lines."""
    for path in sorted(tree.glob(f"crates/*/{folder}/*.antt")):
        found, margins = [("", False, [])], [0]
        for line in read(path).splitlines():
            line = ANTT_TEXT.sub(lambda m: m[1] or "", line).rstrip()
            if not line:
                continue
            indent = len(line) - len(line.lstrip())
            while indent < margins[-1]:
                margins.pop()
            line = line[margins[-1] :]
            if m := DECLARED.match(line):
                found.append((m[2] or m[3], "pub" in m[1].split(), [line]))
            elif OTHER.match(line):
                found.append(("", False, [line]))
                if line.startswith("module "):
                    margins.append(indent + 2)
            else:
                found[-1][2].append(line)
        for name, public, lines in found:
            if name:
                yield f"{path.parts[-3]}/{path.stem} {name}", public, lines


def definitions(tree):
    return {key: one_line(*lines) for key, public, lines in declarations(tree, "specs") if public}


def theorems(tree, names):
    """The type of a law, a record or data with its fields: the first line and the indented lines below it."""
    found = {}
    for key, public, lines in declarations(tree, "proofs"):
        if public and key.split()[1] in names:
            stated = one_line(lines[0], *itertools.takewhile(lambda line: line.startswith(" "), lines[1:]))
            found[key] = stated if DECLARED.match(stated)[2] else stated.split(" : ", 1)[1]
    return found


def named(tree):
    """What the pages of a tree have in backticks; of a path, the last name."""
    pages = [tree / "README.md", tree / "CONTRIBUTING.md", *tree.glob("docs/*.md")]
    texts = [read(page) for page in pages if page.name != PAGE.name]
    return {span.split("::")[-1] for text in texts for span in re.findall(r"`([^`\n]+)`", text)}


def wrapped(mark, text):
    lines = [f"  {mark}"]
    for word in text.split():
        if len(f"{lines[-1]} {word}".encode()) > WIDTH:
            lines.append(f"      {word}")
        else:
            lines[-1] += f" {word}"
    return lines


def differences(old, new):
    lines = []
    for key in sorted(old.keys() | new.keys()):
        if old.get(key) != new.get(key):
            lines.append(key)
            lines += wrapped("-", old[key]) if key in old else []
            lines += wrapped("+", new[key]) if key in new else []
    return "".join(line + "\n" for line in lines)


def rewritten(page, old):
    names = named(old) | named(NEW)
    blocks = {
        "Public signatures, clauses and types": differences(signatures(old), signatures(NEW)),
        "Definitions in specs/": differences(definitions(old), definitions(NEW)),
        "Theorems in proofs/ that README or docs/ name": differences(theorems(old, names), theorems(NEW, names)),
    }
    for heading, block in blocks.items():
        start = f"### {heading}\n\n```text\n"
        place = page.index(start) + len(start)
        page = page[:place] + block + page[page.index("```", place) :]
    return page


def print_gone(old):
    bullets = read(PAGE).split("### Laws in proofs/ that are gone\n")[1].replace("\n  ", " ")
    found = re.findall(r"^- `(\w+/\w+)`: (`[^`]+`(?:, `[^`]+`)*):", bullets, re.M)
    listed = [f"{place} {name}" for place, names in found for name in re.findall(r"`([^`]+)`", names)]
    now = [*declarations(NEW, "specs"), *declarations(NEW, "proofs")]
    public_keys = {key for key, public, _ in now if public}
    public_names = {key.split()[1] for key in public_keys}
    for key, public, _ in declarations(old, "proofs"):
        name = key.split()[1]
        if public and name not in public_names and key not in listed:
            private = [key.split()[0] for key, _, _ in now if key.split()[1] == name]
            print("gone, not listed:", key, *(f"(private in {place})" for place in private))
    for key in listed:
        if key in public_keys:
            print("listed, not gone:", key)


def declared(tree):
    """A file that declares it, by the name of all in src, specs and proofs: also what is private, fields, variants."""
    places = {}
    for path in sorted(tree.glob("crates/*/src/*.rt")):
        code = RT_TEXT.sub("", read(path))
        names = re.findall(r"\b(?:fn|struct|enum|trait|type|const|static|mod|ghost) (\w+)", code)
        for body in re.findall(r"\b(?:struct|enum) [^;{]*\{.*?\n\}", code, re.S):
            names += re.findall(r"^\s+(?:pub(?:\(\w+\))? )?(\w+)\s*[:,({]", body, re.M)
        places |= dict.fromkeys(names, path)
    for path in sorted([*tree.glob("crates/*/specs/**/*.antt"), *tree.glob("crates/*/proofs/**/*.antt")]):
        matches = [DECLARED.match(line.strip()) for line in read(path).splitlines()]
        places |= dict.fromkeys([m[2] or m[3] for m in matches if m], path)
    return places


def print_names(old):
    page = read(PAGE)
    code = re.findall(r"^```text\n.*?^```|`[^`\n]+`", page, re.M | re.S)
    said = set(re.findall(r"[\w'-]+", " ".join(code)))
    places = declared(old)
    for name in sorted((named(old) & places.keys()) - declared(NEW).keys() - said):
        print(f"{name} ({places[name].relative_to(old)})")


def main():
    parser = argparse.ArgumentParser(description="The lists of old and new on docs/DESIGN-PASS.md.")
    parser.add_argument("old_tree", type=Path, help="a checkout of the commit in the first line of the page")
    mode = parser.add_mutually_exclusive_group()
    for option in ("--write", "--gone", "--names"):
        mode.add_argument(option, action="store_true")
    args = parser.parse_args()
    if not (args.old_tree / "crates").is_dir():
        sys.exit(f"no crates in {args.old_tree}")
    if args.gone:
        print_gone(args.old_tree)
    elif args.names:
        print_names(args.old_tree)
    else:
        page = read(PAGE)
        new_page = rewritten(page, args.old_tree)
        if args.write:
            PAGE.write_text(new_page, encoding="utf-8")
        else:
            sys.stdout.writelines(difflib.unified_diff(page.splitlines(True), new_page.splitlines(True), "page", "new"))


if __name__ == "__main__":
    main()
