"""Reads the public papers that the pages show: names for codes, and the mock round that `papers --mock` wrote."""
import json
import os
import re
import time
from typing import Any, Callable, Optional

MOCK = (("mock-round.txt", "mockText"), ("mock-cutoffs.csv", "mockCutoffs"), ("mock-closing.csv", "mockClosing"))
SEAT = re.compile(r"^allot (\d+) (\S+) (\S+)$", re.M)


class Papers:
    """The folder of the public papers; a file is read again when it has changed, and looked at once in a second."""

    def __init__(self, folder: str) -> None:
        self.folder = folder
        # of each file when it was looked at, its time, size and number then, and what it has
        self.kept: dict[str, tuple[float, Optional[tuple[int, int, int]], Any]] = {}

    def read(self, name: str, reader: Callable[[str], Any], nothing: Any) -> Any:
        """Returns what a file has, or nothing if it is not there or is no such file."""
        looked, mark, value = self.kept.get(name, (-9.0, None, nothing))
        if time.monotonic() - looked < 1:
            return value
        try:
            path = f"{self.folder}/{name}"
            stat = os.stat(path)
            found = (stat.st_mtime_ns, stat.st_size, stat.st_ino)
            if found != mark:
                with open(path, encoding="utf-8") as it:
                    mark, value = found, reader(it.read())
        except (OSError, ValueError):
            mark, value = None, nothing
        self.kept[name] = (time.monotonic(), mark, value)
        return value

    def name(self, kind: str, code: str, language: str = "en") -> str:
        """Returns the published name of a programme, an institute or a merit list, in this language if it is published so, or nothing."""
        named = self.read("names.json", json.loads, {})
        parts = [named.get(language), named] if isinstance(named, dict) else []
        found = [part[kind].get(code) for part in parts if isinstance(part, dict) and isinstance(part.get(kind), dict)]
        return next((it for it in found if isinstance(it, str) and it), "")

    def has_mock(self) -> bool:
        """Returns whether a mock round is published."""
        return os.path.isfile(f"{self.folder}/mock-round.txt")

    def mock_seat(self, number: int) -> Optional[tuple[str, str]]:
        """Returns the programme and step of a candidate in the mock round."""
        seats: dict[int, tuple[str, str]] = self.read("mock-round.txt", lambda text: {int(who): (code, step) for who, code, step in SEAT.findall(text)}, {})
        return seats.get(number)

    def mock_files(self) -> list[tuple[str, str]]:
        """Returns the papers of the mock round that are there, each with the name of its sentence."""
        return [it for it in MOCK if os.path.isfile(f"{self.folder}/{it[0]}")]
