"""Draws letters of allotment as pages of a PDF, by Pango and cairo, which set names in every script that a font of the machine has."""
import os
import sys
from typing import Any, List, NamedTuple, Tuple

from dossier_papers import Wrong

PACKAGES = "python3-gi python3-gi-cairo gir1.2-pango-1.0 fonts-noto-core"
DEBIAN_PYTHON = "/usr/bin/python3"
WIDTH, HEIGHT, MARGIN = 595.28, 841.89, 62.0
LABEL_WIDTH, GAP = 140.0, 7.0
FONT = "Noto Sans, DejaVu Sans"


class NoLibrary(Exception):
    """The library that sets the text is missing."""


class Letter(NamedTuple):
    """What a letter says: its heads, its rows of a label and a value, its sentences, and its code, which a line of the letter says."""

    number: int
    heads: List[str]
    rows: List[Tuple[str, str]]
    sentences: List[str]
    code: str
    says_code: str


def libraries() -> Tuple[Any, Any, Any]:
    """Returns Pango, its drawing part and cairo. If this Python lacks them and Debian's own has them, that one takes the call."""
    try:
        import cairo
        import gi

        gi.require_version("Pango", "1.0")
        gi.require_version("PangoCairo", "1.0")
        # a package of its own, without which a context of cairo is no value for Pango
        gi.require_foreign("cairo", "Context")
        from gi.repository import Pango, PangoCairo
    except (ImportError, ValueError):
        if os.path.realpath(sys.executable) != os.path.realpath(DEBIAN_PYTHON) and os.access(DEBIAN_PYTHON, os.X_OK):
            os.execv(DEBIAN_PYTHON, [DEBIAN_PYTHON, *sys.argv])
        raise NoLibrary(f"the library that sets the letters is missing: apt-get install {PACKAGES}") from None
    return Pango, PangoCairo, cairo


class Pages:
    """A PDF that gets a page for each letter."""

    def __init__(self, path: str, title: str):
        self.pango, self.drawing, self.cairo = libraries()
        os.close(os.open(path, os.O_CREAT | os.O_WRONLY | os.O_TRUNC, 0o600))
        os.chmod(path, 0o600)
        self.surface = self.cairo.PDFSurface(path, WIDTH, HEIGHT)
        self.surface.set_metadata(self.cairo.PDF_METADATA_TITLE, title)
        self.context = self.cairo.Context(self.surface)
        self.layout = self.drawing.create_layout(self.context)
        self.layout.set_wrap(self.pango.WrapMode.WORD_CHAR)

    def put(self, text: str, font: str, left: float, top: float, width: float, is_centred: bool = False) -> float:
        """Sets a text, and returns where it ends below."""
        layout = self.layout
        layout.set_font_description(self.pango.FontDescription.from_string(f"{FONT} {font}"))
        layout.set_alignment(self.pango.Alignment.CENTER if is_centred else self.pango.Alignment.LEFT)
        layout.set_width(int(width * self.pango.SCALE))
        layout.set_text(text, -1)
        if layout.get_unknown_glyphs_count():
            raise Wrong(f"no font of this machine has all letters of `{text:.60}`: apt-get install fonts-noto-core, or the font of this script")
        self.context.move_to(left, top)
        self.drawing.show_layout(self.context, layout)
        height: float = layout.get_pixel_size()[1]
        return top + height

    def add(self, letter: Letter) -> None:
        """Draws a letter on a page of its own."""
        wide, at = WIDTH - 2 * MARGIN, MARGIN
        for number, head in enumerate(letter.heads):
            last = number == len(letter.heads) - 1
            at = self.put(head, "Bold 17" if last else "13", MARGIN, at + 4, wide, True)
        at += 20
        for label, value in letter.rows:
            below = self.put(label, "10.5", MARGIN, at, LABEL_WIDTH)
            at = GAP + max(below, self.put(value, "Bold 11", MARGIN + LABEL_WIDTH + GAP, at, wide - LABEL_WIDTH - GAP))
        at += 10
        for sentence in letter.sentences:
            at = self.put(sentence, "10.5", MARGIN, at, wide) + GAP
        at = self.put(letter.says_code, "Bold 13", MARGIN, at + 14, wide)
        if at > HEIGHT - MARGIN:
            raise Wrong(f"the letter of candidate {letter.number} does not fit on a page: shorten its longest text")
        self.context.show_page()

    def finish(self) -> None:
        self.surface.finish()


def write_letters(path: str, letters: List[Letter], title: str) -> None:
    """Writes letters into a PDF, whole or not at all."""
    pages = Pages(f"{path}.part", title)
    try:
        for letter in letters:
            pages.add(letter)
        pages.finish()
    except Wrong:
        pages.finish()
        os.remove(f"{path}.part")
        raise
    os.replace(f"{path}.part", path)
