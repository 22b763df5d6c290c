"""Files of definitions and lemmas (`.antt`) as checks/counts and checks/reading see them: what each declares, what it imports, and which words it has.

Nothing is resolved but by the imports of a file."""
import functools
import os
import re
from typing import Iterator

from documents import text_of

# the path of a module, the names that are brought, each as it is called there and here, and whether that may be a whole module
Import = tuple[str, list[tuple[str, str]], bool]

WORD = re.compile(r"[^\s(){}\[\],;.]+")
HEAD = re.compile(r"(?:(?:pub|abbrev|unfoldable|opaque)\s+)*(?:(record|data)\s+)?([^\s:(){},;.]+)")
# each begins with what it looks for, and then looks back: so a search need not stop at each letter
USE = re.compile(r"use(?<!\wuse)\s+([^\s{;]+?)\.?(?:\{([^}]*)\}|\s+as\s+([^\s;]+))?(?=[\s;]|$)")
FIELD = re.compile(r"\.(?<=[^\s(]\.)[^\s(){}\[\],;.]+")
COMMENT = re.compile(r"--(?<!\S--)[^\n]*")


class Declaration:
    """A name with its kind (lemma, abbrev, record or data), the number of its first line, what its module takes, and its text."""

    texts: list[str]

    def __init__(self, name: str, kind: str, line: int, given: str) -> None:
        self.name, self.kind, self.line, self.given, self.texts = name, kind, line, given, []

    @property
    def text(self) -> str:
        return "\n".join(self.texts)

    def statement(self) -> str:
        """The type of a lemma after what its module takes, with its blanks made one."""
        return " ".join([*self.given.split(), *self.texts[0].partition(" : ")[2].split()])

    def lines(self) -> int:
        return sum(it.count("\n") + 1 for it in self.texts)


def without_comments(text: str) -> str:
    return COMMENT.sub("", text)


def statements(text: str) -> list[tuple[int, str, str]]:
    """The parts of a file that begin at its margin, or at that of a module in it: the number of the first line, the text, and what its modules take."""
    found: list[tuple[int, list[str], list[list[str]]]] = []
    around: list[tuple[int, list[str]]] = []
    margin, in_head = 0, False
    for number, line in enumerate(text.split("\n"), 1):
        depth, bare = len(line) - len(line.lstrip(" ")), line.strip()
        if in_head:
            found[-1][1].append(line)
            in_head = not bare.endswith("where")
        elif not bare:
            continue
        elif found and (bare[0] in "}])" or depth > margin):
            found[-1][1].append(line)
        else:
            around, margin = [it for it in around if it[0] < depth], depth
            found.append((number, [bare], [it[1] for it in around]))
            if bare.startswith("module "):
                margin, in_head = depth + 2, not bare.endswith("where")
                around.append((depth, found[-1][1]))
    return [(number, "\n".join(lines), " ".join(map(without_words, heads))) for number, lines, heads in found]


def without_words(head: list[str]) -> str:
    """What a module takes: its head without the words `module _` and `where`."""
    return " ".join(head).removeprefix("module _").removesuffix("where")


def declarations(text: str) -> dict[str, Declaration]:
    """What a file declares, each with all of its text. Clauses of a definition follow its signature."""
    found: dict[str, Declaration] = {}
    for number, part, given in statements(without_comments(text)):
        head = HEAD.match(part)
        if not head or part.startswith(("use ", "pub use ", "mod ", "pub mod ", "module ")):
            continue
        name, rest = head[2], part[head.end() :]
        if name not in found and (head[1] or re.match(r"\s*:\s", rest)):
            kind = head[1] or ("abbrev" if re.match(r"(?:pub )?(?:abbrev|unfoldable|opaque) ", part) else "lemma")
            found[name] = Declaration(name, kind, number, given)
        if name in found:
            found[name].texts.append(part)
    return found


def imports(text: str) -> Iterator[Import]:
    """What a file uses: the path of a module, the names that it brings, each as it is called there and here, and whether that may be a whole module."""
    for it in USE.finditer(without_comments(text)):
        path, names, alias = it[1], it[2], it[3]
        if names is not None:
            yield path, [(one.split()[0], one.split()[-1]) for one in names.split(",") if one.strip()], False
        else:
            head, _, last = path.rpartition(".")
            yield head, [(last, alias or last)], True


def words_of(text: str) -> set[str]:
    """The words of a text without its imports: names, and the parts of operators. A field that follows a point is none."""
    return set(WORD.findall(FIELD.sub(" ", USE.sub(" ", without_comments(text)))))


def bound_in(name: str, text: str) -> set[str]:
    """The words that a declaration binds: before the sign `=` of its clauses, before the colon in brackets, after a lambda, and the fields of its record."""
    found = [it[1] for it in re.finditer(rf"^{re.escape(name)}((?: [^=]*?)?) =(?=\s)", text, re.M)]
    found += [it[1] for it in re.finditer(r"[({]([^(){}:]+) : ", text)] + [it[1] for it in re.finditer(r"λ ([^.]*)\. ", text)]
    return set(WORD.findall(" ".join(found))) | set(re.findall(r"^\s*pub ([^\s:]+) :", text, re.M))


def without_labels(text: str) -> str:
    """The text without the labels of fields that are given, as `seats` in `record { seats = .. }`."""
    return re.sub(r"(?<=[{;\s])[^\s{};]+ = ", " ", text)


def is_named(name: str, words: set[str]) -> bool:
    """Whether the words have a name; of an operator all of its parts."""
    return all(it in words for it in name.split("◌") if it)


def module_of(path: str) -> str:
    """The path that imports use for a file of specs/ or proofs/: crates/NAME/specs/A/B.antt is Rattle.NAME.specs.A.B."""
    return "Rattle." + os.path.splitext(path)[0].partition("/")[2].replace("/", ".")


class File:
    def __init__(self, path: str) -> None:
        self.path, self.text = path, text_of(path)
        self.lines = self.text.count("\n")

    @functools.cached_property
    def declared(self) -> dict[str, Declaration]:
        return declarations(self.text)

    @functools.cached_property
    def imported(self) -> list[Import]:
        return [*imports(self.text)]

    @functools.cached_property
    def words(self) -> set[str]:
        return words_of(self.text)


@functools.lru_cache(maxsize=None)
def file_of(path: str) -> File:
    return File(path)
