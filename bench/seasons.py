"""Makes season bundles of any size, line by line, for the measurements."""
from typing import Iterator

CATEGORIES = ("GEN", "EWS", "OBC-NCL", "SC", "ST")
STEPS = (("OPEN", 40), ("GEN-EWS", 10), ("OBC-NCL", 20), ("SC", 12), ("ST", 6))


def number_of(k: int) -> int:
    """Numbers of candidates that are spread over their whole range."""
    return 1 + (k * 700_001) % 999_999_937


def register(candidates: int) -> Iterator[str]:
    """Each candidate has a place in the lists 1, 2 and 4."""
    yield "[register]"
    yield "id,category,traits,token,m1,m2,m3,m4"
    for k in range(candidates):
        category = CATEGORIES[k % 5]
        relaxed = "R" if category != "GEN" and k % 7 == 0 else ""
        place = 1 + (k * 7_919) % 9_999_991
        yield f"{number_of(k)},{category},{'-WDXSFL'[k % 7]},g{k:08d},{place}{relaxed},{1 + k},,{9_999_999 - k}{relaxed}"


def matrix(programmes: int, times: int) -> Iterator[str]:
    """Each step of a programme has so many times the seats of `STEPS`."""
    yield "[matrix]"
    yield "programme,institute,list,step,seats,W,D,X,S,F,L"
    for k in range(programmes):
        for step, once in STEPS:
            seats = times * once
            yield f"P{k:04d},I{k // 10},{(1, 2, 4)[k % 3]},{step},{seats},{seats // 4},{seats // 8},,1"


def choices(candidates: int, programmes: int, each: int) -> Iterator[str]:
    """Each candidate names as many programmes, which lie at a step of their own through all of them."""
    yield "[choices]"
    yield "candidate,programmes"
    for k in range(candidates):
        begin, stride = (k * 37) % programmes, (7, 11, 13, 17)[k % 4]
        named = ",".join(f"P{(begin + n * stride) % programmes:04d}" for n in range(each))
        yield f"{number_of(k)},{named}"


def bundle(candidates: int, programmes: int, each: int, rounds: int = 6, times: int = 1) -> Iterator[str]:
    yield "office bundle 1"
    yield "[season]"
    yield f"rounds,{rounds}"
    yield "clerk,clerkoffice"
    yield from register(candidates)
    yield from matrix(programmes, times)
    yield from choices(candidates, programmes, each)
