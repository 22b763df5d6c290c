"""Makes pages of the documents that candidates need, so that the office's site has them too.

Only the Markdown that these documents use is read: headings, paragraphs, lists, tables, indented code, bold, emphasis, code and links. What looks like another
form stops the build, so that nothing is shown as a raw sign. The machines that build the pages have Python and no library for Markdown, so this is done here."""
import html
import os
import re
from typing import Callable, Optional

# each document with the folder in which it is served, and its language
DOCUMENTS = {
    "docs/HELP.md": ("help/", "en"),
    "docs/HELP.hi.md": ("help/hi/", "hi"),
    "docs/CANDIDATE.md": ("help/more/", "en"),
    "docs/CANDIDATE.hi.md": ("help/more/hi/", "hi"),
    "docs/CHECKING.md": ("help/checking/", "en"),
    "docs/RULES.md": ("help/rules/", "en"),
}
ITEM = re.compile(r"( *)(-|\d+\.) +(.*)")
SPAN = re.compile(r"`([^`]+)`|!?\[([^\]]+)\]\(([^)\s]+)\)|\*\*(.+?)\*\*(?!\*)|\*(\S(?:.*?\S)?)\*")
UNKNOWN = re.compile(r"^ {0,3}(?:```|~~~|>|<|\+ |\* |#{5,})")


class Unknown(Exception):
    """A form of Markdown that is not read here."""


def slug(heading: str) -> str:
    """Returns the name under which links find a heading, as code sites make it."""
    return re.sub(r"[^\w\- ]", "", re.sub(r"[`*]", "", heading).lower()).replace(" ", "-")


def address(link: str, path: str) -> Optional[str]:
    """Returns where a link of a document leads on the site, or None if the site does not have that."""
    name, _, part = link.partition("#")
    target = os.path.normpath(os.path.join(os.path.dirname(path), name)) if name else path
    if target not in DOCUMENTS:
        return None
    at = "" if not name else f"/{DOCUMENTS[target][0]}"
    return at + (f"#{part}" if part else "") or None


def inline(text: str, path: str) -> str:
    """Returns the markup of a line's text."""

    def one(found: re.Match[str]) -> str:
        code, label, link, strong, soft = found.groups()
        if code:
            return f"<code>{html.escape(code)}</code>"
        if link:
            at, inside = address(link, path), inline(label, path)
            return f'<a href="{html.escape(at)}">{inside}</a>' if at else inside
        return f"<strong>{inline(strong, path)}</strong>" if strong else f"<em>{inline(soft, path)}</em>"

    parts: list[str] = []
    at = 0
    for found in SPAN.finditer(text):
        parts += [html.escape(text[at : found.start()]), one(found)]
        at = found.end()
    return "".join([*parts, html.escape(text[at:])])


def cells(line: str) -> list[str]:
    """Returns the cells of a table's row."""
    return [it.strip().replace(r"\|", "|") for it in re.split(r"(?<!\\)\|", line.strip().strip("|"))]


def table(lines: list[str], path: str) -> str:
    """Returns a table. Below it each cell says its column, for pages on which a row is a card."""
    head, rows = cells(lines[0]), [cells(it) for it in lines[2:]]

    def row(texts: list[str]) -> str:
        return "".join(f'<td role="cell" data-column="{html.escape(re.sub("[`*]", "", name))}">{inline(it, path)}</td>' for name, it in zip(head, texts))

    top = "".join(f'<th scope="col" role="columnheader">{inline(it, path)}</th>' for it in head)
    body = "".join(f'<tr role="row">{row(it)}</tr>' for it in rows)
    named = any(head)
    shown = f'<thead role="rowgroup"><tr role="row">{top}</tr></thead>' if named else ""
    return f'<table role="table" class="cards{"" if named else " plain"}">{shown}<tbody role="rowgroup">{body}</tbody></table>'


def items(lines: list[str], path: str) -> str:
    """Returns a list with the lists within it."""
    first = ITEM.match(lines[0])
    assert first, f"no list begins with {lines[0]!r}"
    depth, kind = len(first[1]), "ul" if first[2] == "-" else "ol"
    parts: list[list[str]] = []
    for line in lines:
        found = ITEM.match(line)
        if found and len(found[1]) == depth:
            parts.append([found[3]])
        else:
            parts[-1].append(line)
    return f"<{kind}>{''.join(f'<li>{item(it, path)}</li>' for it in parts)}</{kind}>"


def item(lines: list[str], path: str) -> str:
    """Returns what is in an item: its sentences, and then perhaps a list or some paragraphs."""
    first = next((at for at, it in enumerate(lines) if at and (not it.strip() or ITEM.match(it))), len(lines))
    text = inline(" ".join(it.strip() for it in lines[:first]), path)
    least = min((len(it) - len(it.lstrip()) for it in lines[first:] if it.strip()), default=0)
    return text + blocks([it[least:] for it in lines[first:]], path)


def is_table(lines: list[str], at: int) -> bool:
    return lines[at].startswith("|") and at + 1 < len(lines) and bool(re.fullmatch(r"\|[-| :]+\|", lines[at + 1]))


def taken(lines: list[str], at: int, holds: Callable[[str], object]) -> list[str]:
    """Returns the lines from one on for which something holds."""
    end = at
    while end < len(lines) and holds(lines[end]):
        end += 1
    return lines[at:end]


def blocks(lines: list[str], path: str) -> str:
    """Returns the markup of lines: block after block."""
    parts: list[str] = []
    at = 0
    while at < len(lines):
        line = lines[at]
        if not line.strip():
            at += 1
            continue
        if UNKNOWN.match(line):
            raise Unknown(f"{path}: this form is not read: {line[:60]}")
        heading = re.fullmatch(r"(#{1,4}) +(.*)", line)
        if heading:
            used, made = [line], f'<h{len(heading[1])} id="{slug(heading[2])}">{inline(heading[2], path)}</h{len(heading[1])}>'
        elif is_table(lines, at):
            used = taken(lines, at, lambda it: it.startswith("|"))
            made = table(used, path)
        elif line.startswith("    "):
            used = taken(lines, at, lambda it: it.startswith("    ") or not it.strip())
            made = f"<pre>{html.escape(chr(10).join(it[4:] for it in used).rstrip())}</pre>"
        elif ITEM.match(line):
            used = taken(lines, at, lambda it: ITEM.match(it) or it.startswith(" ") or not it.strip())
            made = items(used, path)
        else:
            used = taken(lines, at, lambda it: it.strip() and not it.startswith(("|", "#")) and not ITEM.match(it))
            made = f"<p>{inline(' '.join(used), path)}</p>"
        parts.append(made)
        at += len(used)
    return "\n".join(parts)


def body(text: str, path: str) -> str:
    """Returns the markup of a document, without its pictures and without the link to the other language at its head: the page has one."""
    lines = [it for it in text.splitlines() if not re.match(r"!\[|\[(?:हिन्दी में|In English)\]\(", it)]
    return blocks(lines, path)
