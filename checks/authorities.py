"""Holds the sources of docs/LAW.md to each other: what a rule cites, and with which rules each judgment says it is to be compared. checks/repository runs it.

A source cites a judgment by the first words of a party and the year, such as `Indra Sawhney 1992`, and a work by its authors and the year, such as
`Gale and Shapley 1962`. It works on the checkout in the current folder."""
import re
from typing import NamedTuple

from documents import text_of

PAGE = "docs/LAW.md"
WORKS = "docs/REFERENCES.md"
RULE = re.compile(r"^\| (\d+[a-z]) \| .*? \| (.*?) \| .*\|$", re.M)
WORK = re.compile(r"\b(\w+) and (\w+) (\d{4})\b")
# a year behind a name, as it remains of a source without what is known in it
NAMED = re.compile(r"\b[A-Z]\w*\.? (?:19|20)\d\d\b|, order of \d{4}")
# what a table of its own has
STATUTES = re.compile(r"\bmemorandum of January 2019\b")
FROM_MEMORY = "each citation is from memory"


class Judgment(NamedTuple):
    """A row of the judgments: its line, how sources may cite it, and the rules with which it is to be compared."""

    line: int
    names: list[str]
    rules: list[str]

    def is_for(self, rule: str) -> bool:
        """Returns whether it is to be compared with a rule, or with all rules of its number."""
        return rule in self.rules or rule[:-1] in self.rules


def rows(text: str, heading: str) -> list[tuple[int, list[str]]]:
    """Returns the rows of the table below a heading, each with the number of its line."""
    begun = text[: text.index(f"\n{heading}\n")].count("\n") + 2
    section = text.split("\n")[begun:]
    end = next((at for at, line in enumerate(section) if line.startswith("#")), len(section))
    found = [(begun + at + 1, [it.strip() for it in line.strip("|").split("|")]) for at, line in enumerate(section[:end]) if line.startswith("|")]
    return found[2:]


def first_words(party: str, end: str) -> list[str]:
    """Returns the ways to cite a party: its first words, and the end with the year."""
    words = party.split()
    return [" ".join(words[: at + 1]) + end for at in range(len(words))]


def judgments(text: str) -> list[Judgment]:
    """Returns the judgments of the page. `The same case, order of ..` is cited by the parties of the row above it."""
    found: list[Judgment] = []
    parties: list[str] = []
    for line, (name, _, _, compare) in rows(text, "### Judgments"):
        year = re.findall(r"\b\d{4}\b", name)[-1]
        is_order = name.startswith("the same case, order of")
        parties = parties if is_order else name.partition(f", {year}")[0].split(" v. ")
        end = f", order of {year}" if is_order else f" {year}"
        rules = re.findall(r"\b\d+[a-z]?\b", re.sub(r"\]\([^)]*\)", "]", compare))
        found.append(Judgment(line, [it for party in parties for it in first_words(party, end)], rules))
    return found


def is_work(found: re.Match[str], rule: str) -> bool:
    """Returns whether the references have a work of these authors and this year, and say that it is for the rule."""
    first, second, year = found.groups()
    lines = [it for it in text_of(WORKS).splitlines() if first in it and (second == "others" or second in it) and f"{year} |" in it]
    return any(f"[{rule}](" in it or f"[{rule[:-1]}](" in it for it in lines)


def unknown(rule: str, source: str, known: list[Judgment]) -> list[str]:
    """Returns what a source of a rule cites and no table has for that rule."""
    names = [name for it in known if it.is_for(rule) for name in it.names]
    rest = STATUTES.sub("", WORK.sub(lambda it: "" if is_work(it, rule) else it[0], source))
    for name in sorted(names, key=len, reverse=True):
        rest = rest.replace(name, "")
    return NAMED.findall(rest)


def faults() -> list[str]:
    """Returns the judgments that are not cited at their rules, and what rules cite otherwise."""
    text = text_of(PAGE)
    sources, known = dict(RULE.findall(text)), judgments(text)
    found = [] if FROM_MEMORY in text else [f"{PAGE}: it no longer says that {FROM_MEMORY}"]
    for it in known:
        for at in it.rules:
            if not any(name in source for rule, source in sources.items() if at in (rule, rule[:-1]) for name in it.names):
                found.append(f"{PAGE}:{it.line}: this judgment is to be compared with rule {at}, which does not cite it")
    for rule, source in sources.items():
        found += [f"{PAGE}: rule {rule} cites `{it}`, and neither a judgment nor a work of that name says that it is for this rule" for it in unknown(rule, source, known)]
    return found
