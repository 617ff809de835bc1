"""The examples on the pages. Shared by scripts/examples and scripts/dame.

An example is in a code block, fenced or indented by four spaces or more, and has one of these forms:
  > REQUEST                 the line after it is the answer of `dame` to this line
  $ dame WORD ..            the lines up to the next example or the end of the block are the output of `dame` with these
                            arguments
  $ printf 'TEXT' | dame    the same, with this input and no arguments
or it is a row of a table with a column `example` and a column `answer`, each cell one code span; there `\\|` is a bar.
`dame` may be written `crates/dame/out/dame`. The words of a `$` line are cut as a shell cuts them, quotes and
backslashes included, and nothing else of a shell is understood. A `$` line with another program is no example: it is
not run.
"""
import os
import re
import shlex
import subprocess

ROOT = os.path.join(os.path.dirname(os.path.abspath(__file__)), "..")
PAGES = ["README.md", "docs/PROTOCOL.md", "docs/REFUSALS.md", "docs/RULES.md"]
PAGES += [f"docs/requests/{name}" for name in sorted(os.listdir(os.path.join(ROOT, "docs/requests")))]
PROGRAM = ("dame", "crates/dame/out/dame")


class Example:
    """What is asked, by arguments or by an input, and the lines of the answer."""

    def __init__(self, page, number, shown, arguments, text, output):
        self.page, self.number, self.shown = page, number, shown
        self.arguments, self.text, self.output = arguments, text, output

    def requests(self):
        """The lines that are asked; `--help` asks none."""
        if self.arguments:
            return [] if self.arguments[0].startswith("--") else [" ".join(self.arguments).encode()]
        return self.text.removesuffix(b"\n").split(b"\n")


def blocks(lines):
    """The code blocks: their lines with their numbers, without fences and indents."""
    block, fence, indent, blank = [], None, "", True
    for number, line in enumerate(lines, 1):
        mark = re.match(r" {0,3}(```+|~~~+)", line)
        if fence is not None:
            if mark and mark[1].startswith(fence):
                yield block
                block, fence = [], None
            else:
                block.append((number, line))
        elif indent and (line.startswith(indent) or not line.strip()):
            block.append((number, line[len(indent):]))
        else:
            if indent:
                yield block
                block, indent = [], ""
            if mark:
                fence = mark[1]
            elif blank and line.startswith("    ") and line.strip():
                indent = line[:len(line) - len(line.lstrip(" "))]
                block = [(number, line[len(indent):])]
        blank = not line.strip()
    if block:
        yield block


def command(words):
    """The arguments and the input of a `$` line's words, or None where it runs another program."""
    if words and words[0] in PROGRAM:
        return words[1:], b""
    if len(words) == 4 and words[0] == "printf" and words[2] == "|" and words[3] in PROGRAM:
        return [], subprocess.run(["printf", words[1]], capture_output=True, check=True).stdout
    return None


def in_block(page, block):
    """The examples of a code block, and the `$` lines that are none."""
    heads = [i for i, (_, line) in enumerate(block) if line.startswith(("$ ", "> "))]
    for i, end in zip(heads, heads[1:] + [len(block)]):
        number, line = block[i]
        output = [line for _, line in block[i + 1:end]]
        while output and not output[-1].strip():
            output.pop()
        if line.startswith("> "):
            # what follows the answer is the page's own
            yield Example(page, number, line, [], line[2:].encode() + b"\n", output[:1])
            continue
        known = command(shlex.split(line[2:]))
        if known is None:
            yield Example(page, number, line, None, None, None)
        else:
            yield Example(page, number, line, *known, output)


def in_tables(page, lines):
    header = []
    for number, line in enumerate(lines, 1):
        cells = [c.strip().replace("\\|", "|") for c in re.split(r"(?<!\\)\|", line)[1:-1]] if line.startswith("|") else []
        header = [] if not cells else header or cells
        if cells != header and "example" in header and "answer" in header and len(cells) == len(header):
            spans = [re.fullmatch(r"`([^`]+)`", cells[header.index(name)]) for name in ("example", "answer")]
            if None not in spans:
                yield Example(page, number, line, [], spans[0][1].encode() + b"\n", [spans[1][1]])


def examples(pages=None):
    """The examples of all pages that there are, and the `$` lines that are not run (their output is None)."""
    found = []
    for page in pages or PAGES:
        path = os.path.join(ROOT, page)
        if not os.path.exists(path):
            continue
        with open(path, encoding="utf-8") as file:
            lines = file.read().split("\n")
        for block in blocks(lines):
            found += in_block(page, block)
        found += in_tables(page, lines)
    return found


def requests():
    """Every line that an example asks, each once."""
    return list(dict.fromkeys(line for e in examples() if e.output is not None for line in e.requests()))
