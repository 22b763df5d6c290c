#!/usr/bin/env python3
"""The form of the documents: short lines, short sentences, plain words. checks/repository runs it.

    checks/form.py [FOLDER]      the findings of the checkout at FOLDER, or of this one, with the names and links of checks/documents.py

- No line of prose is longer than 160 characters. Headings, tables and code are no prose.
- No sentence has more than 40 words, and no three sentences in a row of a paragraph have at most 6 words each: such a text is correct and choppy.
- On the pages for people, on the promises, and on the pages for who works on the office, a sentence has on average at least 13 and at most 18 words.
- One of these pages that shows the step D says in bold that it is de-reserved, because D is also the trait of persons with disabilities.
- Outside of code and headings the de-reserved step is written out, and is not called the step D.
- Some words are in no document outside of code: each has a plainer one.

A span of code counts as one word, and so does a number. Cells of tables have to have short sentences too, and are left out of the averages.
So are lines that list names: those at the end of a promise, and items that have nothing but names."""
import os
import re
import sys
from typing import Iterator, Optional

import documents
from documents import text_of

WIDEST_LINE = 160
MOST_WORDS = 40
LEAST_ON_AVERAGE, MOST_ON_AVERAGE = 13, 18
# a sentence of at most so many words is very short, and so many in a row are choppy
VERY_SHORT, IN_A_ROW = 6, 3
# the pages for people who are not inside yet
COUNTED = ("README.md", "SECURITY.md", "CHANGELOG.md", "examples/README.md", *(f"docs/{it}.md" for it in
           ("CANDIDATE", "CLERK", "COURT", "INSTITUTE", "HTTP", "LAW", "JOSAA", "NOT", "RULES", "CHECKING", "TUTORIAL")))
# the pages for who works on the office, whose rhythm is held too
HELD = ("CONTRIBUTING.md", "deploy/README.md", "deploy/choices/README.md", "deploy/replicated/README.md", "tools/README.md", "web/README.md",
        *(f"docs/{it}.md" for it in ("DECISIONS", "DEFINITIONS", "FORMATS", "MAP", "PROMISES", "REFERENCES", "RUNNING", "TRUST")))
# the letter D in the place of a step, and the words that say so
STEP_D = re.compile(r"\bstep D\b|(?:^ *|\\n)D seats \d|`D - ", re.M)
SAYS_STEP_D = re.compile(r"\*\*[^*]*\bde-reserved\b[^*]*\*\*")
# the letter in place of the words, where it is not explained
BARE_STEP_D = re.compile(r"\b[Ss]teps? D\b(?! means)")
HARD_WORDS = re.compile(r"\b(told|whoever|the own|stands|beside|for want of)\b", re.I)
ITEM = re.compile(r"( *)(?:[-*+]|\d{1,9}[.)]) +(?=\S)")
# a sentence that lists names: one at the end of a promise, or an item of code alone
NAMES = re.compile(r"(?:Said by|Refused edits):|(?:CODE\W*)+$")
SENTENCE_ENDS = re.compile(r"[.!?][\"')\]*_]*\s+(?=[\"'(\[*_]*[A-Z0-9])")


def of_plain_words(path: str) -> bool:
    return path in ("README.md", "SECURITY.md", "CONTRIBUTING.md", "cases/README.md") or path.startswith("docs/")


def is_held(path: str) -> bool:
    """Returns whether a document is held to the averages, and to saying what the step D is."""
    return path in (*COUNTED, *HELD) or path.startswith("docs/promises/")


# ---- lines by their kind


def kinds(path: str) -> Iterator[tuple[int, str, str]]:
    """Each line of a document with its number and its kind: prose, item (which begins one of a list), heading, table, code or empty."""
    fence: Optional[str] = None
    indent, last = 0, "empty"
    for number, line in enumerate(text_of(path).splitlines(), 1):
        text, mark = line.strip(), re.match(r" {0,3}(```+|~~~+)", line)
        depth = len(line) - len(line.lstrip(" "))
        item = ITEM.match(line)
        if mark and not fence:
            kind, fence = "code", mark[1]
        elif fence:
            kind = "code"
            if text.startswith(fence) and text.strip(fence[0]) == "":
                fence = None
        elif not text:
            kind = "empty"
        elif depth >= indent + 4 and last in ("empty", "code"):
            kind = "code"
        elif re.match(r" {0,3}#{1,6} ", line):
            kind, indent = "heading", 0
        elif text.startswith("|"):
            kind = "table"
        elif text.startswith("<") and not text.startswith("<http"):
            kind = "code"
        elif item:
            kind, indent = "item", len(item[0])
        else:
            kind = "prose"
            if depth == 0 and last in ("empty", "heading"):
                indent = 0
        if kind != "empty" or last != "code":
            last = kind
        yield number, kind, line


def without_code(line: str) -> str:
    """The line with a word in place of each span of code, and without the targets of links."""
    line = re.sub(r"(`+)(?!`).+?(?<!`)\1(?!`)", "CODE", line)
    return re.sub(r"\]\([^)]*\)", "]", line)


# ---- lines and words


def long_lines(path: str) -> list[str]:
    return [f"{path}:{number}: a line of prose has {len(line)} characters, and {WIDEST_LINE} are the most"
            for number, kind, line in kinds(path) if kind in ("prose", "item") and len(line) > WIDEST_LINE]


def hard_words(path: str) -> list[str]:
    return [f"{path}:{number}: '{it[0]}' has a plainer word" for number, kind, line in kinds(path) if kind != "code" for it in HARD_WORDS.finditer(without_code(line))]


def bare_letters(path: str) -> list[str]:
    return [f"{path}:{number}: it calls the de-reserved step by its letter"
            for number, kind, line in kinds(path) if kind not in ("code", "heading") and BARE_STEP_D.search(without_code(line))]


def unclear_letters(path: str) -> list[str]:
    text = text_of(path)
    return [f"{path}: it shows the step D, and does not say in bold that it is de-reserved"] if STEP_D.search(text) and not SAYS_STEP_D.search(text) else []


# ---- sentences


def pieces(path: str) -> Iterator[tuple[int, str, bool]]:
    """The paragraphs, items and cells of tables of a document, each with the number of its first line, its text, and whether it is a cell."""
    begun = 0
    text: list[str] = []
    for number, kind, line in kinds(path):
        if kind != "prose" and text:
            yield begun, " ".join(text), False
            text = []
        if kind in ("prose", "item"):
            begun = begun if text else number
            text.append(re.sub(r"^(?:>\s*)*", "", (ITEM.sub("", line, count=1) if kind == "item" else line).strip()))
        elif kind == "table" and not re.fullmatch(r"[\s|:-]+", line):
            yield from ((number, cell, True) for cell in re.split(r"(?<!\\)\|", without_code(line).strip().strip("|")))
    if text:
        yield begun, " ".join(text), False


def words_of(sentence: str) -> list[str]:
    return [it for it in sentence.split() if re.search(r"\w", it)]


def sentences(path: str) -> Iterator[tuple[int, list[str], bool]]:
    """The sentences of a document: the number of the line where the piece of text begins, the words, and whether it is of a cell."""
    for number, text, is_cell in pieces(path):
        for sentence in SENTENCE_ENDS.sub(lambda it: it[0].rstrip() + "\n", without_code(text)).split("\n"):
            words = words_of(sentence)
            if words:
                yield number, words, is_cell


def average(path: str) -> float:
    """The words of a sentence of a document on average, without those of tables and of lists of names."""
    found = [len(words) for _, words, is_cell in sentences(path) if not is_cell and not NAMES.match(" ".join(words))]
    return sum(found) / max(len(found), 1)


def long_sentences(path: str) -> list[str]:
    return [f"{path}:{number}: a sentence has {len(words)} words, and {MOST_WORDS} are the most: {' '.join(words[:8])} .."
            for number, words, _ in sentences(path) if len(words) > MOST_WORDS]


def choppy(path: str) -> list[str]:
    """The paragraphs of a document with several very short sentences in a row."""
    of_paragraph: dict[int, list[list[str]]] = {}
    for number, words, is_cell in sentences(path):
        if not is_cell:
            of_paragraph.setdefault(number, []).append(words)
    return [f"{path}:{number}: {IN_A_ROW} sentences in a row have at most {VERY_SHORT} words: {' '.join(lines[at][:6])} .."
            for number, lines in of_paragraph.items()
            for at in range(len(lines) - IN_A_ROW + 1) if all(len(it) <= VERY_SHORT for it in lines[at : at + IN_A_ROW])]


def out_of_rhythm(path: str) -> list[str]:
    mean = average(path)
    if LEAST_ON_AVERAGE <= mean <= MOST_ON_AVERAGE:
        return []
    limit = f"{LEAST_ON_AVERAGE} are the least" if mean < LEAST_ON_AVERAGE else f"{MOST_ON_AVERAGE} are the most"
    return [f"{path}: a sentence has {mean:.1f} words on average, and {limit}"]


def averages() -> str:
    """A line with the average of each document that is counted."""
    return "words of a sentence on average: " + ", ".join(f"{it} {average(it):.1f}" for it in COUNTED if os.path.exists(it))


def faults() -> list[str]:
    found = [it for path in documents.markdown() for it in long_lines(path)]
    found += [it for path in documents.markdown() if not path.endswith(".hi.md") for it in [*long_sentences(path), *choppy(path), *bare_letters(path)]]
    found += [it for path in documents.markdown() if is_held(path) for it in [*out_of_rhythm(path), *unclear_letters(path)]]
    return found + [it for path in documents.markdown() if of_plain_words(path) for it in hard_words(path)]


def main(words: list[str]) -> int:
    if words == ["--help"]:
        print(__doc__)
        return 0
    if len(words) > 1:
        sys.exit(__doc__)
    os.chdir(words[0] if words else os.path.dirname(os.path.dirname(os.path.realpath(__file__))))
    found = [*faults(), *documents.faults()]
    for it in found:
        print(it)
    print(f"checks/form.py: {averages()}")
    print(f"checks/form.py: {len(found)} findings" if found else "checks/form.py: ok")
    return 1 if found else 0


if __name__ == "__main__":
    sys.exit(main(sys.argv[1:]))
