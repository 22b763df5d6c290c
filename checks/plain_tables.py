"""The tables of a season, plainly and apart from tools/tables: from the register, the lists and the final admissions of a dossier, one fact after another.

It reads no more than it needs, by plain searches over the text, and shares no code with the tools. What it makes of a dossier is compared with what tools/tables
writes: who has which seat, the opening and closing ranks, the vacant seats, and the counts by category and trait."""
import csv
import io
import re

TRAITS = {"W": "women", "D": "persons with disabilities", "X": "ex-servicemen", "S": "sports", "F": "dependants of freedom fighters", "L": "local area"}
CATEGORIES = ("GEN", "EWS", "OBC", "SC", "ST")
STEPS = ("OPEN", "EWS", "OBC", "SC", "ST", "D")
SHOWN = {"D": " (PwD)", "X": " (Ex-servicemen)", "S": " (Sports)", "F": " (Freedom fighters)", "L": " (Local area)"}
OTHER = {"GEN-EWS": "EWS", "OBC-NCL": "OBC"}


def section(text: str, name: str, after: str) -> list[list[str]]:
    """The rows of a section without its header."""
    body = text.partition(f"[{name}]\n")[2].partition(f"[{after}]\n")[0]
    return [row for row in csv.reader(io.StringIO(body)) if row][1:]


class Plain:
    """What a dossier says, as plain tables of fields."""

    def __init__(self, dossier: str) -> None:
        text = dossier.replace("\r\n", "\n")
        bundle, _, published = text.partition("[published]\n")
        self.register = {row[0]: [*row, *[""] * 8][:8] for row in section(bundle, "register", "matrix")}
        self.matrix = [[*row, *[""] * 11][:11] for row in section(bundle, "matrix", "choices")]
        self.choices = {row[0]: [code for code in row[1:] if code] for row in section(bundle, "choices", "requests")}
        self.codes = [*dict.fromkeys(row[0] for row in self.matrix)]
        self.institute, self.merit = {row[0]: row[1] for row in self.matrix}, {row[0]: int(row[2]) for row in self.matrix}
        self.lists: dict[tuple[str, str], str] = {(number, code): body for number, code, body in re.findall(r"^list (\d+) (\S+)\n(.*?)^end list$", published, re.M | re.S)}
        self.texts: dict[str, str] = {number: body for number, body in re.findall(r"^round (\d+) seated \d+\n(.*?)^end round$", published, re.M | re.S)}
        final = re.search(r"^final \d+\n(.*?)^end final$", published, re.M | re.S)
        if final:
            self.texts["final"] = final[1]

    def list_of(self, name: str, code: str) -> str:
        last = max((it for it in self.texts if it != "final"), key=int)
        return self.lists[last if name == "final" else name, code]

    def steps(self, name: str, code: str) -> dict[str, tuple[int, dict[str, str]]]:
        """The seats of each step of a list, and the rows below its line."""
        found = {}
        for step, seats, rows in re.findall(r"^step (\S+) seats (\d+) candidates \d+ admitted \d+\nhonoured \d+\n((?:\d+ .\n)*)", self.list_of(name, code), re.M):
            found[step] = int(seats), dict(row.split(" ") for row in rows.splitlines())
        return found

    def seats(self, name: str) -> list[tuple[str, str, str, str]]:
        """Who has which seat, with the letter of the list: candidate, programme, step, letter."""
        return [(cand, code, step, self.steps(name, code)[step][1][cand]) for _, cand, code, step in (row.split(" ") for row in self.texts[name].splitlines())]

    def place(self, cand: str, code: str) -> str:
        return self.register[cand][3 + self.merit[code]]

    def quota(self, code: str) -> tuple[str, str]:
        base = code[:-3]
        is_unit = code[-3:] in ("-HS", "-OS") and {f"{base}-HS", f"{base}-OS"} <= {*self.codes}
        return (base, code[-2:]) if is_unit else (code, "AI")


def ranks(plain: Plain, name: str) -> list[list[str]]:
    """The opening and closing ranks of a text, as rows in no order."""
    found: dict[tuple[str, str, str, str, str], list[str]] = {}
    for cand, code, step, letter in plain.seats(name):
        base, quota = plain.quota(code)
        kind = ("de-reserved" if step == "D" else step) + SHOWN.get(letter, "")
        gender = "Female-only" if letter == "W" else "Gender-Neutral"
        found.setdefault((plain.institute[code], base, quota, kind, gender), []).append(plain.place(cand, code))
    ordered = {key: sorted(places, key=lambda it: int(it.rstrip("R"))) for key, places in found.items()}
    return sorted([*key, places[0], places[-1]] for key, places in ordered.items())


def allotments(plain: Plain, name: str) -> list[list[str]]:
    """Who has which seat: candidate, institute, code, programme, quota, step, trait of the seat, category, traits, list, place, preference."""
    rows = []
    for cand, code, step, letter in plain.seats(name):
        base, quota = plain.quota(code)
        _, category, traits = plain.register[cand][:3]
        held = ", ".join(words for it, words in TRAITS.items() if it in traits)
        preference = str(plain.choices[cand].index(code) + 1)
        rows.append([cand, plain.institute[code], code, base, quota, "de-reserved" if step == "D" else step, TRAITS.get(letter, ""), OTHER.get(category, category), held, str(plain.merit[code]), plain.place(cand, code), preference])
    return sorted(rows)


def vacant(plain: Plain, name: str) -> list[list[str]]:
    """The seats of each step that has some, as programme code, step, seats, admitted, taken by the de-reserved step, vacant."""
    rows = []
    for code in plain.codes:
        left = {step: seats for step, (seats, _) in plain.steps(name, code).items() if step != "D"}
        own = [step for _, other, step, _ in plain.seats(name) if other == code]
        for step in own:
            if step != "D":
                left[step] -= 1
        before = dict(left)
        for _ in range(own.count("D")):
            left["OBC" if left["OBC"] > 0 else "EWS"] -= 1
        for step in STEPS[:-1]:
            seats = plain.steps(name, code)[step][0]
            if seats:
                rows.append([*plain.quota(code), step, str(seats), str(own.count(step)), str(before[step] - left[step]), str(left[step])])
    return sorted(rows)


def counts(plain: Plain, name: str) -> dict[str, list[str]]:
    """How many candidates, lists, seats and seats of the first choice each category and each trait has."""
    seats = {cand: (code, step) for cand, code, step, _ in plain.seats(name)}
    rows = plain.register.items()
    groups = {"all candidates": [*plain.register]}
    groups.update({it: [cand for cand, row in rows if OTHER.get(row[1], row[1]) == it] for it in CATEGORIES})
    groups.update({words: [cand for cand, row in rows if it in row[2]] for it, words in TRAITS.items()})
    found = {}
    for label, people in groups.items():
        first = [cand for cand in people if cand in seats and plain.choices[cand][0] == seats[cand][0]]
        found[label] = [str(len(it)) for it in (people, [it for it in people if plain.choices.get(it)], [it for it in people if it in seats], first)]
    return found
