"""The generated season, line by line, by a plain recipe that shares no code with the program.

The output of `generate` is compared with it, and the measurements take inputs from it."""
from typing import Iterator

CATEGORIES = ("GEN",) * 8 + ("EWS",) * 2 + ("OBC",) * 6 + ("SC",) * 3 + ("ST",)
CHOICES = ("withdraw",) + ("freeze",) * 3 + ("slide",) * 3 + ("float",) * 13
STRIDES = (1, 3, 7, 9)


class Draws:
    """A linear congruential generator over 64 bits."""

    def __init__(self, seed: int) -> None:
        self.state = seed

    def draw(self, n: int) -> int:
        self.state = (self.state * 6364136223846793005 + 1442695040888963407) % 2**64
        return self.state // 2**33 % n


def places(draws: Draws, n: int) -> list[int]:
    """The places from 1 to n, exchanged."""
    held = list(range(1, n + 1))
    for j in range(n - 1, 0, -1):
        k = draws.draw(j + 1)
        held[j], held[k] = held[k], held[j]
    return held


def matrix(n: int) -> Iterator[str]:
    s = n // 800 + 1
    steps = (("OPEN", 2 * s, s // 2, s // 8), ("EWS", s // 2, s // 8, 0), ("OBC", s, s // 4, s // 16),
             ("SC", s // 2, s // 8, 0), ("ST", s // 4, 0, 0))
    for k in range(100):
        for name, seats, women, disabled in steps:
            yield f"P{k:02d},I{k // 10},{1 + k % 2},{name},{seats},{women},{disabled}"


def generated(n: int, seed: int) -> Iterator[str]:
    draws = Draws(seed)
    first, second = places(draws, n), places(draws, n)
    register, choices = [], []
    for i in range(1, n + 1):
        category = CATEGORIES[draws.draw(20)]
        traits = ("W" if draws.draw(2) == 0 else "") + ("D" if draws.draw(20) == 0 else "")
        relaxed = "R" if draws.draw(10) == 0 and category != "GEN" else ""
        begin, stride = draws.draw(100), STRIDES[draws.draw(4)]
        register.append(f"{i},{category},{traits or '-'},g{i:08d},{first[i - 1]}{relaxed},{second[i - 1]}{relaxed}")
        choices.append(",".join([str(i)] + [f"P{(begin + t * stride) % 100:02d}" for t in range(40)]))
    yield from ("office bundle 1", "[season]", "rounds,6", "clerk,clerk0001")
    yield from ("[register]", "id,category,traits,token,m1,m2,m3,m4", *register)
    yield from ("[matrix]", "programme,institute,list,step,seats,W,D,X,S,F,L", *matrix(n))
    yield from ("[choices]", "candidate,programmes", *choices)
    yield from ("[requests]", "cut,clerk,0")
    for w in range(1, 7):
        for i in range(1, n + 1):
            yield f"answer,{i},{i},{w},1,{CHOICES[draws.draw(20)]}"
        yield f"cut,clerk,{w}"


if __name__ == "__main__":
    import sys

    sys.stdout.writelines(line + "\n" for line in generated(int(sys.argv[1]), int(sys.argv[2])))
