"""What the words in a board's sheets mean: numbers, categories, traits, states, pools. tools/season reads single fields by this, and reports what is wrong in them."""
import re
from typing import Optional

from formats import ALLOWED, CATEGORIES, CODE, NUMBER, OTHER_WORDS, PLACE, TRAITS, Limit
from spreadsheets import Cell, Findings

# how people write the words, without signs and in small letters
CATEGORY_WORDS = {"general": "GEN", "ur": "GEN", "unreserved": "GEN", "generalews": "EWS", "obcncl": "OBC", "genews": "EWS", "scheduledcaste": "SC", "scheduledtribe": "ST"}
CATEGORY_WORDS |= {it.lower(): it for it in CATEGORIES} | {words.replace(" ", ""): it for it, words in CATEGORIES.items()}
TRAIT_WORDS = {re.sub("[^a-z]", "", words): letter for letter, words in TRAITS.items()}
TRAIT_WORDS |= {"female": "W", "woman": "W", "disabled": "D", "exserviceman": "X", "esm": "X", "ff": "F", "local": "L", "none": "", "nil": "", "na": ""}
DISABLED = ("pwd", "pwbd", "ph")
OPEN_WORDS = ("gen", "general", "ur", "unreserved")
YES, NO = ("yes", "y", "1", "true", "t"), ("", "no", "n", "0", "false", "none", "nil", "na", "notapplicable")
FEMALE, NOT_FEMALE = ("f", "female", "woman", "women", "w", "girl"), ("m", "male", "man", "boy", "transgender", "thirdgender", "tg", "t", "other", "others", "o")
NEUTRAL_POOL = ("genderneutral", "neutral", "gn", "all", "general", "both", "coed")
FEMALE_POOL = ("femaleonly", "female", "femaleonlyincludingsupernumerary", "women", "womenonly", "girls", "f", "fo")
QUOTAS = {"": "", "ai": "", "allindia": "", "hs": "HS", "homestate": "HS", "home": "HS", "os": "OS", "otherstate": "OS", "otherstates": "OS", "outsidehomestate": "OS"}
ASKS_F = "F means dependants of freedom fighters, never female (women are W): do these candidates have it?"
ASKS_D = "is D meant, persons with disabilities?"
ASKS_GEN = "OPEN is a step: is the category GEN meant?"
ASKS_OPEN = "are the OPEN seats meant, for candidates of every category?"
ASKS_CODES = "a spreadsheet program turns codes into dates, powers and numbers without a word: are these codes meant? Format such columns as text."
ASKS_STATES = "the tool knows no state of India by these letters: are they meant?"
STATES = {
    "AN": "andaman and nicobar islands", "AP": "andhra pradesh", "AR": "arunachal pradesh", "AS": "assam", "BR": "bihar", "CG": "chhattisgarh", "CH": "chandigarh",
    "DL": "delhi", "DN": "dadra and nagar haveli and daman and diu", "GA": "goa", "GJ": "gujarat", "HP": "himachal pradesh", "HR": "haryana", "JH": "jharkhand",
    "JK": "jammu and kashmir", "KA": "karnataka", "KL": "kerala", "LA": "ladakh", "LD": "lakshadweep", "MH": "maharashtra", "ML": "meghalaya", "MN": "manipur",
    "MP": "madhya pradesh", "MZ": "mizoram", "NL": "nagaland", "OD": "odisha", "PB": "punjab", "PY": "puducherry", "RJ": "rajasthan", "SK": "sikkim",
    "TN": "tamil nadu", "TR": "tripura", "TS": "telangana", "UK": "uttarakhand", "UP": "uttar pradesh", "WB": "west bengal",
}
# other letters and names for the same states
OTHER_STATES = {"or": "OD", "orissa": "OD", "ct": "CG", "chattisgarh": "CG", "tg": "TS", "ut": "UK", "uttaranchal": "UK", "dh": "DN", "dd": "DN", "newdelhi": "DL"}
OTHER_STATES |= {"nctofdelhi": "DL", "delhinct": "DL", "pondicherry": "PY", "jammukashmir": "JK", "dadraandnagarhaveli": "DN", "damananddiu": "DN", "bh": "BR"}
STATE_WORDS = {code.lower(): code for code in STATES} | {name.replace(" ", ""): code for code, name in STATES.items()} | OTHER_STATES
# what a spreadsheet program makes of codes such as 1-2, 1E5 and TRUE
REWRITTEN = re.compile(r"\d{1,2}-(jan|feb|mar|apr|may|jun|jul|aug|sep|oct|nov|dec)(-\d+)?|(jan|feb|mar|apr|may|jun|jul|aug|sep|oct|nov|dec)-\d{1,4}|\d{4}-\d\d-\d\d|true|false|\d+e\d+", re.I)


def bare(text: str) -> str:
    """Returns a text in small letters and without signs; what is in no Latin letters keeps them."""
    return re.sub(r"[\W_]+", "", text.lower().replace("&", "and"))


# ---- numbers and codes


def number(cell: Cell, limit: Limit, allowed: str, findings: Findings, whole: Optional[Cell] = None) -> Optional[int]:
    """Returns the number of a field, or None if it is none within the limit. `whole` is the field for messages, if more is in it than the number."""
    text, seen = cell.text, whole or cell
    if text.isascii() and text.isdecimal() and text[0] != "0" and limit.has(int(text)):
        return int(text)
    plain = re.fullmatch(r"0*([0-9]+?)(\.0+)?", text)
    parts = re.fullmatch(r"[0-9]{1,3}([,'\u2019 \u00a0\u202f][0-9]{2,3})*[,'\u2019 \u00a0\u202f][0-9]{3}(\.0+)?", text)
    if parts:
        digits = re.sub(r"\.0+$|[^0-9.]", "", text)
        if limit.has(int(digits)):
            findings.read_as(seen, int(digits), "numbers with commas between their digits")
            return int(digits)
    if plain and limit.has(int(plain[1])):
        if plain[1] != text:
            findings.read_as(seen, plain[1], "numbers with zeros before them or .0 behind them")
        return int(plain[1])
    more = ""
    if plain and limit is NUMBER and int(plain[1]) > limit.most:
        more = "; call a column of longer numbers `application number`, and the tool numbers the candidates"
    elif re.fullmatch(r"[0-9.,]+[eE][+]?[0-9]+", text):
        more = "; the spreadsheet shortened the number: format the column as a number without decimals"
    elif limit is PLACE and re.fullmatch(r"[0-9]+[.,][0-9]+", text):
        more = "; two candidates with one mark need an order: break ties before"
    findings.wrong(seen, allowed + more)
    return None


def place(cell: Cell, findings: Findings) -> str:
    """Returns a place of a merit list as the office spells it, or nothing."""
    if not cell.text:
        return ""
    plain = re.sub(r"\s*[rR]$", "", cell.text)
    found = number(cell._replace(text=plain), PLACE, ALLOWED["place"], findings, cell)
    if found is None:
        return ""
    relaxed = plain != cell.text
    if relaxed and not re.fullmatch("[0-9.]+R", cell.text):
        findings.read_as(cell, f"{found}R")
    return f"{found}R" if relaxed else str(found)


def application(cell: Cell, findings: Findings) -> Optional[str]:
    """Returns an application number of any form without blanks, or None if it is none."""
    text = cell.text
    if re.fullmatch(r"[0-9]+\.0+", text):
        text = text.partition(".")[0]
        findings.read_as(cell, text, "numbers with .0 behind them")
    found = re.sub(r"\s", "", text).upper()
    if re.fullmatch(r"[0-9.,]+E[+]?[0-9]+", found) and not re.fullmatch("[0-9]+E[0-9]+", found):
        findings.wrong(cell, "an application number is whole; the spreadsheet shortened it: format the column as a number without decimals, and fill it anew")
        return None
    if not re.fullmatch(r"[\w/.-]{1,40}", found) or not re.search("[0-9]", found):
        findings.wrong(cell, "an application number has 1 to 40 letters, digits and the signs - / . and at least one digit")
        return None
    return found


def is_code(text: str) -> bool:
    return CODE.has(len(text)) and re.fullmatch("[A-Za-z0-9-]+", text) is not None


def code(cell: Cell, findings: Findings) -> Optional[str]:
    """Returns a code, or None if it is none."""
    text = cell.text
    if re.fullmatch(r"[0-9]+\.0+", text):
        text = text.partition(".")[0]
        findings.read_as(cell, text, "numbers with .0 behind them")
    if is_code(text):
        return text
    more = "; names are in a column `programme name` or `institute name` of columns.csv" if re.search(r"\s", text) else ""
    findings.wrong(cell, ALLOWED["code"] + more)
    return None


# ---- people


def category_of(word: str) -> Optional[str]:
    """Returns the category of a bare word, OPEN if the word says that, or None."""
    return CATEGORY_WORDS.get(word) or CATEGORY_WORDS.get(word.rstrip("s")) or ("OPEN" if word == "open" else None)


def category(cell: Cell, findings: Findings) -> tuple[Optional[str], str]:
    """Returns the category of a field, and D if the field says that too."""
    word = bare(cell.text)
    ending = next((it for it in DISABLED if word.endswith(it) and category_of(word.removesuffix(it))), "")
    found = category_of(word.removesuffix(ending))
    if found == "OPEN":
        found = "GEN" if findings.doubts("GEN", ASKS_GEN, cell) else None
    elif not found:
        findings.wrong(cell, ALLOWED["category"])
    if ending and not findings.doubts("PwD", ASKS_D, cell):
        return found, ""
    if found and cell.text not in (found, *OTHER_WORDS):
        findings.read_as(cell, f"{found}{' with the trait D' if ending else ''}")
    return found, "D" if ending else ""


def letters_of(word: str, cell: Cell, findings: Findings) -> Optional[str]:
    """Returns the trait letters of one word, or None if it has none."""
    name = bare(word)
    if name in DISABLED:
        return "D" if findings.doubts("PwD", ASKS_D, cell) else ""
    if name in TRAIT_WORDS:
        return TRAIT_WORDS[name]
    found = word.upper().replace("-", "")
    if not set(found) <= set(TRAITS):
        return None
    if "F" in found:
        findings.doubts("F", ASKS_F, cell)
    return found


def traits(cell: Cell, findings: Findings) -> str:
    """Returns the traits of a field, as the office spells them."""
    text = bare(cell.text)
    words = [cell.text] if text in TRAIT_WORDS or text in DISABLED else [it for it in re.split(r"[;,/+&|\s]+", cell.text) if it]
    found = [letters_of(it, cell, findings) for it in words]
    if None in found:
        why = "; there is no trait for men: leave the field empty" if bare(cell.text) in ("m", "male") else ""
        findings.wrong(cell, ALLOWED["traits"] + why)
        return ""
    joined = "".join(filter(None, found))
    if len(set(joined)) < len(joined):
        findings.wrong(cell, f"a letter is there twice; {ALLOWED['traits']}")
    made = "".join(it for it in TRAITS if it in joined) or "-"
    if cell.text not in ("", made):
        findings.read_as(cell, made)
    return made


def gender(cell: Cell, findings: Findings) -> str:
    """Returns W for a woman, and nothing for anybody else."""
    word = bare(cell.text)
    if word in FEMALE:
        findings.read_as(cell, "the trait W")
        return "W"
    if word not in NOT_FEMALE:
        findings.wrong(cell, "a gender is Female or Male, F or M, or Transgender; only women have the trait W")
    elif word not in ("m", "male", "man", "boy"):
        findings.read_as(cell, "no trait")
    return ""


def has_trait(cell: Cell, letter: str, findings: Findings) -> str:
    """Returns the letter of a trait if the field says yes."""
    word = bare(cell.text)
    if word in NO:
        return ""
    if word in YES or letter == "D" and word in DISABLED:
        findings.read_as(cell, f"the trait {letter}")
        return letter
    if letter == "D":
        return "D" if findings.doubts("PwD", ASKS_D, cell) else ""
    findings.wrong(cell, f"this column says Yes or No: whether the candidate has the trait {letter} ({TRAITS[letter]})")
    return ""


def state(cell: Cell, findings: Findings) -> str:
    """Returns the two letters of a state, or nothing."""
    if not cell.text:
        return ""
    found = STATE_WORDS.get(bare(cell.text)) or STATE_WORDS.get(re.sub(r"^(state|nct|ut|unionterritory)of", "", bare(cell.text)))
    if found:
        if cell.text != found:
            findings.read_as(cell, found, "names of states as their letters")
        return found
    if re.fullmatch("[A-Z]{2}", cell.text):
        return cell.text if findings.doubts("states", ASKS_STATES, cell) else ""
    findings.wrong(cell, "a state is its two letters, such as KA, or its name, such as Karnataka")
    return ""


# ---- seats


def step(cell: Cell, findings: Findings) -> Optional[str]:
    """Returns the step of a row of seats, or None if it is none."""
    word = bare(cell.text)
    if word in OPEN_WORDS:
        if findings.doubts("OPEN", ASKS_OPEN, cell):
            findings.read_as(cell, "OPEN")
        return "OPEN"
    found = "OPEN" if word == "open" else CATEGORY_WORDS.get(word) or CATEGORY_WORDS.get(word.rstrip("s"))
    if found is None:
        more = "; protected seats are the columns W to L" if any(it in word for it in DISABLED) else ""
        findings.wrong(cell, ALLOWED["step"] + more)
    elif cell.text not in (found, *OTHER_WORDS):
        findings.read_as(cell, found)
    return found


def is_female_pool(cell: Cell, findings: Findings) -> Optional[bool]:
    """Returns whether a row of seats is for women only, or None if the field does not say."""
    word = bare(cell.text)
    if word in FEMALE_POOL:
        return True
    if word in NEUTRAL_POOL:
        return False
    findings.wrong(cell, "a seat pool is Gender-Neutral or Female-only")
    return None


def quota(cell: Cell, findings: Findings) -> Optional[str]:
    """Returns HS, OS or nothing for a quota, or None if it is another one."""
    word = bare(cell.text)
    found = QUOTAS.get(word)
    if found is None:
        findings.wrong(cell, "a quota is HS (home state), OS (other states) or AI (all India); seats of another quota, such as Goa's, need a programme of their own")
    elif word not in ("", "ai", "hs", "os"):
        findings.read_as(cell, found or "AI")
    return found
