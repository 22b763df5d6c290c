"""What tools/explain has to say of each kind of fault line, with N in place of its numbers: a form that its explanation has. checks/tool_trials.py looks for each of
these on every case of cases/ that has the fault."""

ROW = r"line \d+, row \d+ of \[{}\]: .*\n"


def of_row(section: str, rest: str) -> str:
    return ROW.format(section) + rest


FORMS = {
    "sheet line N TooLong": "at most 16,777,216 bytes",
    "sheet line N BadFirstLine": "the first line is step sheet 1",
    "sheet line N BadLine": r"(line \d+: `|the input ends with line \d+).*lines come in this order",
    "sheet line N RepeatedProtect": r"line \d+: `protect,.*at most one line",
    "sheet line N RepeatedCandidate": r"line \d+: `cand,.*each candidate has one line",
    "sheet line N ProtectionsExceedSeats": r"line \d+: `protect,.*more seats are protected",
    "sheet line N TooMany": "at most 250,000 candidates",
    "bundle TooLong|units TooLong|special TooLong|dossier TooLong": "at most 134,217,728 bytes",
    "bundle NotUtfN": r"line \d+: the byte [0-9A-F]{2}",
    "bundle BadFirstLine": r"(line 1: `.*|the input is empty)\n(the first line is office bundle 1 or office bundle 2|this is a bundle with units: say `units`)",
    "bundle line N Section": r"(line \d+: `.*|the input ends before)\n(here the line \[\w+\] is expected|after the last section)",
    "units BadFirstLine": "the first line is office units 1",
    "units line N Section": r"(line \d+: `.*|the input ends before)\n(here the line \[\w+\] is expected|after the last section)",
    "units row N BadUnit": of_row("units", r"(CODE|STATE|field 3) is .*: (it has one row|row \d+ has it too|a divided programme|a state is|a row has two|there are at most)"),
    "states row N BadState": of_row("states", r"(CAND|STATE|field 3) is .*: (row \d+ has it too|a candidate number|a state is|a row has two|there are at most)"),
    "choices row N DirectUnit": of_row("choices", r"choice \d+ is `\S+-[HO]S`: a choice names the programme"),
    "choices row N NoState": of_row("choices", r"choice \d+ is `\S+`: a candidate who lists a divided programme"),
    "season row N BadSeason": r"(\[season\] has \d+ rows\nthe row .* is missing|line \d+, row \d+ of \[season\]: .*\n.* is .*: (rounds are 1 to 10|a token is|the clerk's token|row \d+ has it|the rows are|a row of))",
    "register row N BadHeader": "the first row is id,category,traits",
    "register row N TooMany": "at most 250,000 candidates",
    "register row N BadId": of_row("register", "id is .*: a candidate number is 1 to 999,999,999"),
    "register row N RepeatedId": of_row("register", r"id is `\d+`: row \d+ has it too"),
    "register row N BadCategory": of_row("register", "category is .*: a category is GEN, EWS, OBC, SC or ST"),
    "register row N BadTrait": of_row("register", "traits is `.*`: traits are distinct letters"),
    "register row N BadPlace": of_row("register", r"(m\d is `.*`: a place is|field 9 is `.*`: a row has at most eight)"),
    "register row N RepeatedPlace": of_row("register", r"m\d is `\d+R?`: row \d+ has it too"),
    "register row N RelaxedGeneral": of_row("register", r"m\d is `\d+R`: R is for places"),
    "register row N BadToken": of_row("register", r"token is (nothing|a text of \d+ signs): (row \d+ has it too; )?a token is"),
    "matrix row N BadHeader": "the first row is programme,institute",
    "matrix row N BadCode": of_row("matrix", "(programme|institute|step) is .*: a (code|step) is"),
    "matrix row N RepeatedRow": of_row("matrix", r"step is `\S+`: row \d+ has it too"),
    "matrix row N BadNumber": of_row("matrix", r"(seats is .*: seats are 0|[WDXSFL] is .*: protected seats are|field 12 is)"),
    "matrix row N ProtectionsExceedSeats": of_row("matrix", r"seats is `\d+`: \d+ seats are protected"),
    "matrix row N UnknownList": of_row("matrix", "list is .*: the merit list is 1 to 4"),
    "matrix row N TwoInstitutes": of_row("matrix", r"institute is `\S+`: row \d+ has programme"),
    "matrix row N TwoLists": of_row("matrix", r"list is `\d`: row \d+ has programme"),
    "matrix row N TooMany": of_row("matrix", "(programme is .*: a matrix has at most 2,000|seats is .*: all rows together have at most 1,000,000)"),
    "choices row N BadHeader": "the first row is candidate,programmes",
    "choices row N UnknownCandidate": of_row("choices", "candidate is .*: the first field is the number of a candidate"),
    "choices row N RepeatedCandidate": of_row("choices", r"candidate is `\d+`: row \d+ has it too"),
    "choices row N TooLong": of_row("choices", r"choice 1001 is `\S+`: a list has at most 1,000"),
    "choices row N TooMany": "all rows together have at most 5,000,000",
    "choices row N UnknownProgramme": r"(choice \d+ is .*: |\n)(each choice is the code of a programme|for this candidate the choice is the unit)",
    "choices row N RepeatedProgramme": of_row("choices", r"choice \d+ is `\S+`: .*the row has it before"),
    "choices row N NotRankedThere": r"(choice \d+ is `\S+`: .*this one has merit list \d|a candidate lists only programmes)",
    "requests row N BadRequest": r"line \d+, row \d+ of \[requests\]: .*\n(.* is .*: )?(the first field of a request is|a row is)",
    "special NotFinal now N": "the special round comes after the final admissions",
    "special row N Admitted": r"candidate is `\d+`: a candidate with a final admission",
    "dossier NoSection": r"a line \[requests\] and after it a line \[published\]",
    "published line N": r"(line \d+, line \d+ after \[published\]: `.*|the input ends before)\na published text that may come here",
    "special line N": r"(line \d+, line \d+ after \[special\]: `.*|the input ends before)\na published text that may come here",
    "keeper holds a season": "`resume` continues it",
    "keeper holds no season": "`run` begins a season",
    r"stray (raise|answer) N": "the kept records do not agree",
    r"differs round N candidate N kept .* computed .*": "the kept records do not agree",
}
# faults that no small case has
RARE = ("sheet line N TooLong", "sheet line N TooMany", "bundle TooLong|units TooLong|special TooLong|dossier TooLong", "register row N TooMany", "matrix row N TooMany", "choices row N TooMany")
