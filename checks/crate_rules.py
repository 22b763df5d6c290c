"""What some crates may not name, and what the office's crates have to name. checks/repository runs it.

- The crates of the audit's first verdict make no round and choose nobody: none of them reaches the engine of rounds by crates.txt, and of the crates that choose
  their code names only laws and a sort. The audit of a special round is above them, and its code names nothing that makes a round or chooses.
- The office builds on ported crates of the kit and does not write their work anew: each of them is listed and named by a crate that is no test.

It also tries itself: `trial` takes a rule's premise away and says if no fault comes of it."""
import re

from documents import crates, files_below, text_of

Deps = dict[str, list[str]]
Codes = dict[str, str]

# the audit's first verdict, and the engine that makes rounds
AUDIT = ("list_audit", "audit_rules", "season_audit")
ENGINE = "apply_engine"
# the crates that choose, and what the audit's code may name of them: laws run nothing, and people have to be put in merit order
MAY_NAME = {"merit_choice": {"laws", "in_merit_order"}, "open_then_category": {"laws"}}
# the audit of a special round, and what its code may name of the crates that make rounds: what final admissions leave, and the replay
SPECIAL = "special_audit"
OF_MAKERS: dict[str, set[str]] = {ENGINE: set(), "best_audit": {"take_next"}, "special_round": {"laws", "left_season", "SpecialFault"}, **MAY_NAME}
# what the office uses each ported crate for
USES = {
    "csv": "reads the rows of sections, and writes choice lists with units",
    "indexmap": "numbers codes in the order in which they first appear",
    "sqlite": "keeps the records of a season",
    "httparse": "reads the heads of HTTP messages",
    "http": "has status codes and their phrases",
    "matchit": "finds the route of a path",
    "serde_json": "reads and writes bodies in JSON",
    "clap": "divides the words of a command line",
    "atomic_table": "carries the desk, where several threads have one history",
}


def without_comments(text: str) -> str:
    """Returns the code of a file of src/."""
    return re.sub(r"//[^\n]*", "", text)


def code_of(crate: str) -> str:
    """Returns the code of a crate."""
    return "".join(without_comments(text_of(it)) for it in files_below(f"crates/{crate}/src") if it.endswith(".rt"))


def reached(crate: str, deps: Deps) -> set[str]:
    """Returns the crates that a crate reaches by the lines of crates.txt."""
    found: set[str] = set()
    left = [crate]
    while left:
        new = set(deps.get(left.pop(), ())) - found
        found |= new
        left += new
    return found


def named_of(other: str, code: str) -> set[str]:
    """Returns what code names of another crate: the first part of each path into it, and `*` for all of it."""
    braced = [it for inner in re.findall(rf"\b{other}::\{{([^}}]*)\}}", code) for it in re.findall(r"(?:^|,)\s*(\w+|\*)", inner)]
    whole = ["*"] * len(re.findall(rf"\buse {other}\b(?!::)", code))
    return {*braced, *whole, *re.findall(rf"\b{other}::(\w+|\*)", code)}


def apart(deps: Deps, codes: Codes) -> list[str]:
    """Returns what a crate of the first verdict shares with the office that it checks."""
    faults = [f"crates.txt: {it} reaches {ENGINE}, and an audit never makes a round: put what does so into best_audit" for it in AUDIT if ENGINE in reached(it, deps)]
    for crate in AUDIT:
        for other, known in MAY_NAME.items():
            faults += [f"crates/{crate}: its code names {other}::{it}, and an audit chooses nobody" for it in sorted(named_of(other, codes[crate]) - known)]
    for other, known in OF_MAKERS.items():
        faults += [f"crates/{SPECIAL}: its code names {other}::{it}, and an audit makes no round" for it in sorted(named_of(other, codes[SPECIAL]) - known)]
    return faults


def unused(deps: Deps, codes: Codes) -> list[str]:
    """Returns the ported crates that no crate of the office names."""
    used = {it for crate, listed in deps.items() if not crate.endswith("_trials") for it in listed if re.search(rf"\b{it}::", codes[crate])}
    return [f"crates.txt: no crate of the office uses {it}, which {what}" for it, what in USES.items() if it not in used]


def trial(deps: Deps, codes: Codes) -> list[str]:
    """Returns which of these breaks brings no fault: an audit over the engine, one that chooses, one that makes a special round, a ported crate that is only listed."""
    above = {**deps, "list_audit": [*deps["list_audit"], ENGINE]}
    choosing = {**codes, "season_audit": codes["season_audit"] + "use merit_choice::{in_merit_order, choose};"}
    making = {**codes, SPECIAL: codes[SPECIAL] + "use special_round::special_over;"}
    listed = {crate: re.sub(r"\bclap::", "", code) for crate, code in codes.items()}
    tried = {
        "an audit over the engine": sum(f"reaches {ENGINE}," in it for it in apart(above, codes)) == len(AUDIT),
        "an audit that chooses": any("merit_choice::choose," in it for it in apart(deps, choosing)),
        "an audit that makes a special round": any("special_round::special_over," in it for it in apart(deps, making)),
        "a ported crate that no code names": any("uses clap," in it for it in unused(deps, listed)),
    }
    return [f"checks/crate_rules.py: {what} brings no fault" for what, seen in tried.items() if not seen]


def faults() -> list[str]:
    """Returns what the crates do otherwise, and what of it would not be seen."""
    codes = {it: code_of(it) for it in crates()}
    return [*apart(crates(), codes), *unused(crates(), codes), *trial(crates(), codes)]
