"""What the documents name and link to: the crates, calls, clauses, laws, edits, files and parts of documents that have to exist. checks/repository runs it.

It works on the checkout in the current folder."""
import collections
import functools
import os
import re
import subprocess
from typing import Iterable, Optional

MOST_ANSWERS = 14
SPAN = re.compile(r"`([^`\n]+)`")
# what is called a clause, or several
CLAUSES = re.compile(r"\b[Cc]lauses? (`[^`]+`(?:(?:, | and |, and )`[^`]+`)*)")
# the documents in which every span is a name of the code or a word of docs/FORMATS.md
OF_NAMES = tuple(f"docs/{it}.md" for it in ("PROMISES", "HEADLINE", "TRUST", "MAP", "DEFINITIONS"))
# in the other documents a span that looks so is a name of the code: a word with two capitals, a path, a word with underscores
LOOKS_LIKE_A_NAME = re.compile(r"[A-Z][a-z0-9]+[A-Z]\w*|\w+(?:::\w+)+|[a-z][a-z0-9]*(?:_[a-z0-9]+)+")
# names of Rust's and Rattle's standard library, of its tools and of the system that documents may use
FOREIGN = {"BufWriter", "HashMap"}


def text_of(path: str) -> str:
    with open(path, encoding="utf-8") as it:
        return it.read()


def files_below(*folders: str) -> list[str]:
    found: list[str] = []
    for folder in folders:
        for at, _, names in os.walk(folder):
            found += [f"{at}/{name}" for name in names]
    return sorted(found)


@functools.lru_cache(maxsize=None)
def crates() -> dict[str, list[str]]:
    """The crates of crates.txt, each with the crates that its line names."""
    found = {}
    for line in text_of("crates.txt").splitlines():
        head, colon, deps = line.split("#")[0].partition(":")
        if colon:
            found[head.split()[0]] = deps.split()
    return found


@functools.lru_cache(maxsize=None)
def markdown() -> list[str]:
    """The documents of the repository, also those that are new and not committed yet."""
    listed = subprocess.run(["git", "ls-files", "-z", "--cached", "--others", "--exclude-standard", "*.md"], stdout=subprocess.PIPE, stderr=subprocess.DEVNULL, text=True)
    found = listed.stdout.split("\0") if listed.returncode == 0 else [it.removeprefix("./") for it in files_below(".") if it.endswith(".md")]
    return sorted({it for it in found if os.path.isfile(it)})


def prose(path: str) -> list[str]:
    """The document without its indented and fenced blocks."""
    kept, fenced = [], False
    for line in text_of(path).splitlines():
        if line.startswith("```"):
            fenced = not fenced
        kept.append("" if fenced or line.startswith(("    ", "```")) else line)
    return kept


# ---- the names of a crate


@functools.lru_cache(maxsize=None)
def names_in(crate: str) -> set[str]:
    """What a crate's src/ and specs/ define: types, functions, variants, fields, modules, labels of clauses, definitions, fields of records."""
    found: set[str] = set()
    aliases: list[tuple[str, str]] = []
    for path in files_below(f"crates/{crate}/src"):
        text, module = text_of(path), os.path.basename(path).partition(".")[0]
        found |= {module}
        found |= set(re.findall(r"\b(?:fn|struct|enum|trait|type|const|mod|ensures|requires|ghost)\s+(\w+)", text))
        found |= set(re.findall(r"^\s+(?:pub )?(\w+)(?:: |,|\(| \{)", text, re.M))
        found |= {f"{kind}::{name}" for kind in types_in(text) for name in re.findall(r"\bfn (\w+)|^ {4}(\w+)[,({ ]", text, re.M) for name in name if name}
        found |= {f"{module}::{name}" for name in re.findall(r"\bfn (\w+)", text)}
        aliases += re.findall(r"\btype (\w+) = (\w+)", text)
    found |= {f"{alias}::{name.partition('::')[2]}" for alias, kind in aliases for name in found if name.startswith(f"{kind}::")}
    for path in files_below(f"crates/{crate}/specs"):
        found |= names_of_definitions(text_of(path))
    return found


@functools.lru_cache(maxsize=None)
def clauses_of(crate: str) -> set[str]:
    """The labels of the clauses of a crate's functions."""
    return {label for path in files_below(f"crates/{crate}/src") for label in re.findall(r"\b(?:ensures|requires)\*? (\w+) \{", text_of(path))}


def names_of_definitions(text: str) -> set[str]:
    """The definitions of a file of specs/, and the fields of its records, each also after the name of its record."""
    found: set[str] = set()
    record: Optional[str] = None
    for line in text.splitlines():
        name = re.match(r"(?:(?:pub|abbrev|unfoldable|opaque|data|record)\s+)*([^\s:(){},]+)", line)
        field = re.match(r"\s+(?:abbrev )?pub (?:record |data )?([^\s:(){},]+)", line)
        if name:
            found.add(name[1])
            record = name[1] if re.match(r"(?:pub )?record ", line) else None
        elif field:
            found |= {field[1], *([f"{record}.{field[1]}"] if record else [])}
    return found


def types_in(text: str) -> set[str]:
    return set(re.findall(r"\b(?:struct|enum|trait)\s+(\w+)", text)) | set(re.findall(r"^impl(?:<[^>{]*>)?[^{]*?\b(\w+)(?:<[^{]*>)?\s*\{", text, re.M))


def edits_in(folder: str) -> list[str]:
    return sorted(os.listdir(folder)) if os.path.isdir(folder) else []


@functools.lru_cache(maxsize=None)
def edits_of(crate: str) -> list[str]:
    """The edits that each gate tries, and the wrong bodies that checks/wrong-bodies tries."""
    return edits_in(f"crates/{crate}/must-fail") + edits_in(f"crates/{crate}/wrong-bodies")


@functools.lru_cache(maxsize=None)
def proofs_of(crate: str) -> set[str]:
    """The modules of a crate's proofs/, by their paths below it."""
    folder = f"crates/{crate}/proofs"
    return {os.path.splitext(it.removeprefix(f"{folder}/"))[0] for it in files_below(folder) if it.endswith(".antt")}


def is_file(name: str, within: Iterable[str]) -> bool:
    """Whether it is a path of the repository, or a file of one of the crates by its last part."""
    return os.path.exists(name) or any(os.path.exists(f"crates/{it}/{part}{name}") for it in within for part in ("", "specs/", "src/", "proofs/"))


def is_there(name: str, within: list[str], edits_too: bool = True) -> bool:
    """Whether some of these crates has what is named."""
    if name in crates() or name in {dep for deps in crates().values() for dep in deps}:
        return True
    first, _, rest = name.partition("::")
    if rest and first in crates():
        return is_there(rest, [first], edits_too)
    if "/" in name or name.endswith((".antt", ".rt", ".md")):
        return is_file(name, within)
    if edits_too and any(f"{name}.edit" in edits_of(it) for it in within):
        return True
    return any(name in names_in(it) or name in proofs_of(it) for it in within)


@functools.lru_cache(maxsize=None)
def spoken() -> set[str]:
    """What the forms and the picture of the repository spell, which is no name of the code."""
    return set(SPAN.findall(text_of("docs/FORMATS.md"))) | {"-", "crates.txt", "rt ci", "rt check", "rt try", "rt version", "out/", "proofs/", "src/", "specs/", "fault: usage", "main"}


def unknown(path: str, number: int, line: str, within: list[str]) -> list[str]:
    """The names between backticks of a line that none of these crates has."""
    missing = [it for it in SPAN.findall(line) if it not in spoken() and not is_there(it, within)]
    return [f"{path}:{number}: nothing is called {it}" + (f" in {', '.join(within)}" if len(within) < len(crates()) else "") for it in missing]


def names_of(path: str) -> list[str]:
    return [it for number, line in enumerate(prose(path), 1) for it in unknown(path, number, line, list(crates()))]


@functools.lru_cache(maxsize=None)
def words_of_deploy() -> set[str]:
    """The words of the files by which the program is put into use: settings of other programs."""
    found: set[str] = set()
    for path in files_below("deploy"):
        if not path.endswith(".md"):
            with open(path, encoding="utf-8", errors="replace") as it:
                found |= set(re.findall(r"\w+", it.read()))
    return found


def names_like_code(path: str) -> list[str]:
    """The spans of any document that look like names of the code, and are none. Where a crate is named with it, "`name` of `crate`", that crate has to have it."""
    faults = []
    for number, line in enumerate(prose(path), 1):
        for it in SPAN.findall(line):
            if LOOKS_LIKE_A_NAME.fullmatch(it) and it not in FOREIGN | words_of_deploy() and not is_there(it, list(crates())):
                faults.append(f"{path}:{number}: nothing is called {it}")
        for name, crate in re.findall(r"`([^`]+)` of `(\w+)`", line):
            if crate in crates() and name not in spoken() and not is_there(name, [crate]):
                faults.append(f"{path}:{number}: nothing is called {name} in {crate}")
    return faults


def no_clauses(path: str) -> list[str]:
    """What a document calls a clause, and is the label of no clause of the crates that its line names: a definition, say, or a field of a record."""
    faults: list[str] = []
    for number, line in enumerate(prose(path), 1):
        within = [it for it in SPAN.findall(line) if it in crates()] or list(crates())
        for listed in CLAUSES.findall(line):
            faults += [f"{path}:{number}: no clause is labelled {it}" for it in SPAN.findall(listed) if not any(it in clauses_of(crate) for crate in within)]
    return faults


# ---- the promises


Section = tuple[int, str, dict[int, str]]


def sections(path: str) -> list[Section]:
    """The sections of a document, each with the number of its line, its title, and the lines below it by their numbers."""
    found: list[Section] = []
    for number, line in enumerate(prose(path), 1):
        if line.startswith("#"):
            found.append((number, line, {}))
        elif found:
            found[-1][2][number] = line
    return found


def promises_of(path: str) -> list[str]:
    """Each promise says who says it and which edits are refused; both are looked for in the crates that these two lines name."""
    faults: list[str] = []
    for number, title, lines in sections(path):
        said, refused = ([at for at, line in lines.items() if line.startswith(start)] for start in ("Said by: ", "Refused edits: "))
        if not title.startswith("### "):
            faults += [it for at, line in lines.items() for it in unknown(path, at, line, list(crates()))]
        elif len(said) != 1 or len(refused) != 1:
            faults.append(f"{path}:{number}: a promise has one line 'Said by: ..' and one line 'Refused edits: ..'")
        else:
            within = [*dict.fromkeys(it for at in said + refused for it in SPAN.findall(lines[at]) if it in crates())]
            if not within and "every function" not in lines[said[0]]:
                faults.append(f"{path}:{said[0]}: no crate is named")
            for at, line in lines.items():
                if at == refused[0]:
                    wrong = [it for it in SPAN.findall(line) if it not in crates() and not any(f"{it}.edit" in edits_of(crate) for crate in within)]
                    faults += [f"{path}:{at}: no edit of {', '.join(within)} is called {it}" for it in wrong]
                    if not SPAN.search(line) and not re.match(r"Refused edits: (none|any)\b", line):
                        faults.append(f"{path}:{at}: no edit is named")
                else:
                    faults += unknown(path, at, line, within if at == said[0] and within else list(crates()))
    return faults


def promises() -> list[str]:
    """The page of promises has at most so many rows, each with a link; and no two promises have one name."""
    rows = [(number, line) for number, line in enumerate(prose("docs/PROMISES.md"), 1) if line.count(" | ") == 2][1:]
    faults = [f"docs/PROMISES.md:{number}: no link says where it is said" for number, line in rows if "](" not in line.rpartition(" | ")[2]]
    if len(rows) > MOST_ANSWERS:
        faults.append(f"docs/PROMISES.md: {len(rows)} answers, and {MOST_ANSWERS} are the most of a page: put the others into docs/promises/")
    titles = [(title, path) for path in files_below("docs/promises") for _, title, _ in sections(path) if title.startswith("### ")]
    faults += [f"{path}: another promise is called {title[4:]} too" for at, (title, path) in enumerate(titles) if title in [it for it, _ in titles[:at]]]
    return faults + [it for path in files_below("docs/promises") for it in promises_of(path)]


# ---- files and layers


@functools.lru_cache(maxsize=None)
def anchors_in(path: str) -> set[str]:
    """What a link to a part of a document may end with: its titles in small letters, with hyphens for blanks, and with a number where a title comes again."""
    found: set[str] = set()
    times: dict[str, int] = {}
    for _, title, _ in sections(path):
        text = re.sub(r"\[([^]]*)\]\([^)]*\)", r"\1", title)
        name = re.sub(r"[^\w -]", "", text.lstrip("#").strip().lower()).replace(" ", "-")
        found.add(f"{name}-{times[name]}" if name in times else name)
        times[name] = times.get(name, 0) + 1
    return found


def links_in(line: str) -> list[str]:
    """The targets of the links and pictures of a line that are no addresses of the net."""
    line = SPAN.sub("``", line)
    found = re.findall(r"\]\(\s*<?([^)\s>]+)>?(?:\s+\"[^\"]*\")?\s*\)", line) + re.findall(r"^ {0,3}\[[^]]+\]:\s*(\S+)", line) + re.findall(r"\b(?:href|src)=\"([^\"]+)\"", line)
    return [it for it in found if not re.match(r"[a-z][a-z0-9+.-]*:", it)]


def paths_of(path: str) -> list[str]:
    """The files that a document names between backticks or links to, and that are not there, and the parts of documents."""
    faults: list[str] = []
    for number, line in enumerate(prose(path), 1):
        named = [it.split()[0] for it in SPAN.findall(line) if re.match(r"(crates|docs|examples|checks|cases|bench|\.ci)/", it)]
        for link in links_in(line):
            name, _, part = link.partition("#")
            named.append(os.path.normpath(os.path.join(os.path.dirname(path), name)) if name else path)
            if part and named[-1].endswith(".md") and os.path.isfile(named[-1]) and part not in anchors_in(named[-1]):
                faults.append(f"{path}:{number}: {named[-1]} has no part {part}")
        faults += [f"{path}:{number}: there is no {it}" for it in named if not os.path.exists(it)]
    return faults


def layers() -> list[str]:
    """docs/MAP.md has each crate, in the order of crates.txt."""
    drawn = re.findall(r"^ {4}(\w+) {2,}\w", text_of("docs/MAP.md"), re.MULTILINE)
    faults = [f"docs/MAP.md: there is no crate {it}" for it in drawn if it not in crates()]
    faults += [f"docs/MAP.md: it lacks the crate {it}" for it in crates() if it not in drawn]
    wanted = [it for it in crates() if it in drawn]
    first = next((it for it, other in zip(drawn, wanted) if it != other), None)
    return faults if faults or not first else [f"docs/MAP.md: {first} is not at its place of crates.txt: the order is {' '.join(wanted)}"]


# ---- figures


# how much sooner a crate of the longest chain is proved with the jobs that the launcher gives it, by the number of processors
GAIN_OF_CHAIN = {4: 2.3, 2: 1.6}


def likely_minutes(program: str, processors: int) -> float:
    """How long the first proof of a program takes by what the launcher tells: by its share of the processors, or by its longest chain of crates."""
    seconds, needed = seconds_of_proofs(), {program}
    chain: dict[str, float] = {}
    for it in reversed([*crates()]):
        needed |= {dep for dep in crates()[it] if it in needed}
    for it in (it for it in crates() if it in needed):
        chain[it] = seconds[it] + max([chain[dep] for dep in crates()[it] if dep in chain], default=0)
    return 1.1 * max(sum(seconds[it] for it in chain) / processors, chain[program] / GAIN_OF_CHAIN[processors]) / 60


def minutes() -> list[str]:
    """The README says in how many minutes each program is proved, on four and on two processors, no more than a third away from checks/proof-seconds.txt."""
    rows = re.findall(r"^\| .* \| (\d+) once, then none \| (\d+) \| yes \|$", text_of("README.md"), re.M)
    wanted = ("step_program", "season_program", "allocation_cli")
    if len(rows) != len(wanted):
        return [f"README.md: {len(rows)} rows say how long a first proof takes, and not {len(wanted)}"]
    found = [(program, processors, int(it), likely_minutes(program, processors)) for program, row in zip(wanted, rows) for processors, it in zip((4, 2), row)]
    return [f"README.md: {program} on {processors} processors takes {likely:.0f} minutes by checks/proof-seconds.txt, and not {told}"
            for program, processors, told, likely in found if abs(told - likely) > likely / 3]


def above(name: str) -> set[str]:
    """The crates that depend on this one, at once or through others."""
    found = {name}
    for it, deps in crates().items():
        found |= {it} if found & set(deps) else set()
    return found - {name}


def seconds_of_proofs() -> dict[str, float]:
    """How long the proof of each crate takes. One that was not measured yet takes as long as the others on average."""
    measured = {name: int(seconds) for name, seconds in map(str.split, text_of("checks/proof-seconds.txt").splitlines())}
    return {it: measured.get(it, sum(measured.values()) / len(measured)) for it in crates()}


def minutes_of_change(name: str, processors: int) -> float:
    """How long a crate takes with all above it: no less than their share of the processors, nor than their longest chain."""
    seconds, proved_again = seconds_of_proofs(), above(name) | {name}
    chain: dict[str, float] = {}
    for it in (it for it in crates() if it in proved_again):
        chain[it] = seconds[it] + max([chain[dep] for dep in crates()[it] if dep in chain], default=0)
    return max(sum(seconds[it] for it in chain) / processors, max(chain.values())) / 60


def longest_chain() -> list[str]:
    """DECISIONS says how many crates the longest chain has."""
    length: dict[str, int] = {}
    for it, deps in crates().items():
        length[it] = 1 + max([length[dep] for dep in deps if dep in length], default=0)
    said = re.search(r"The longest chain of crates has (\d+)", text_of("docs/DECISIONS.md"))
    return [] if said and int(said[1]) == max(length.values()) else [f"docs/DECISIONS.md: the longest chain of crates has {max(length.values())}"]


def costs() -> list[str]:
    """CONTRIBUTING says how many crates a change proves again and in how many minutes, no more than a third away from what checks/proof-seconds.txt gives."""
    rows = re.findall(r"^\| [^|]+ \| `(\w+)` \| (\d+) \| (\d+) \| (\d+) \|$", text_of("CONTRIBUTING.md"), re.M)
    if not rows:
        return ["CONTRIBUTING.md: no row says what a change costs"]
    faults: list[str] = []
    for name, *figures in rows:
        likely = (len(above(name)) + 1, minutes_of_change(name, 4), minutes_of_change(name, 2)) if name in crates() else (0, 0, 0)
        faults += [f"CONTRIBUTING.md: a change of {name} has a figure {figure}, and {found:.0f} is so" for figure, found in zip(map(int, figures), likely) if abs(figure - found) > max(found / 3, 1)]
    return faults


def tests_in(crate: str) -> int:
    """Returns how many tests a crate has."""
    return sum(text_of(it).count("#[test]") for it in files_below(f"crates/{crate}/src"))


def tested() -> list[str]:
    """Holds docs/promises/tested.md to how many cases, examples, damaged scripts and tests there are; "some N cases" may be a tenth away."""
    # these read cases/ or run a plain office, which no other part of this module needs
    import cases
    import plain_scripts
    text = text_of("docs/promises/tested.md")
    count = collections.Counter(os.path.basename(it.label.partition(":")[0]) for it in cases.read("cases")[0])
    folders = sum(os.path.isdir(f"examples/{it}") for it in os.listdir("examples"))
    wanted = {
        r"`cases/counterexamples\.txt` \| (\d+)": count["counterexamples.txt"],
        r"`cases/scripts\.txt` \| (\d+)": count["scripts.txt"],
        r"`cases/stores\.txt` \| of (\d+)": count["stores.txt"],
        r"cases and (\d+) folders of examples": folders,
        r" of ([\d,]+): a script of all": len([*plain_scripts.damaged_scripts()]),
    }
    found = {pattern: [int(it.replace(",", "")) for it in re.findall(pattern, text)] for pattern in wanted}
    wrong = [f"docs/promises/tested.md: {pattern} is {found[pattern]}, and {number} is so" for pattern, number in wanted.items() if {number} != set(found[pattern])]
    some = re.search(r"some (\d+) cases", text)
    if not some or abs(int(some[1]) - sum(count.values())) > sum(count.values()) / 10:
        wrong.append(f"docs/promises/tested.md: there are {sum(count.values())} cases")
    told: collections.Counter[str] = collections.Counter()
    for crate, number in re.findall(r"^\| `(\w+)` \| (\d+) \|", text, re.M):
        told[crate] += int(number)
    trials = [it for it in crates() if it.endswith("_trials")]
    return wrong + [f"docs/promises/tested.md: {it} has {tests_in(it)} tests, and not {told[it]}" for it in trials if tests_in(it) != told[it]]


def faults() -> list[str]:
    """What the documents name or link to and is not there, and figures that are not so."""
    found = [it for path in OF_NAMES for it in names_of(path)] + promises()
    found += [it for path in markdown() if path not in OF_NAMES and not path.startswith("docs/promises/") for it in names_like_code(path)]
    found += [it for path in markdown() for it in [*paths_of(path), *no_clauses(path)]]
    return found + layers() + longest_chain() + minutes() + costs() + tested()
