"""Does what is to be kept, one after another in a thread of its own, and tells each asker when it is on the disk."""
import asyncio
import os
import queue
import sqlite3
import sys
import threading
from typing import Any

from store import Refused, Store

# a job of the store, with what tells its asker what came of it
Job = tuple[str, tuple[Any, ...], "asyncio.Future[Any]"]


class NotKept(Exception):
    """The disk did not take it."""


class Writer(threading.Thread):
    """The one thread that writes. `together` is how many of those that wait at the same moment may share one transaction."""

    def __init__(self, path: str, together: int) -> None:
        super().__init__(daemon=True)
        self.path, self.together = path, together
        self.waiting: "queue.SimpleQueue[Job]" = queue.SimpleQueue()
        self.loop = asyncio.get_running_loop()
        self.start()

    async def done(self, name: str, *args: Any) -> Any:
        """Does a job of the store, and returns what came of it when it is on the disk."""
        told = self.loop.create_future()
        self.waiting.put((name, args, told))
        came = await told
        if isinstance(came, Exception):
            raise came
        return came

    def run(self) -> None:
        """Writes until the service ends. If this thread cannot go on, the whole service ends, and systemd starts it again."""
        try:
            self.write(Store(self.path))
        except BaseException as why:
            print(f"choices: the thread that writes ended: {type(why).__name__}", file=sys.stderr, flush=True)
            os._exit(1)

    def write(self, store: Store) -> None:
        """Does what waits, again and again."""
        while True:
            jobs = [self.waiting.get()]
            while len(jobs) < self.together and not self.waiting.empty():
                jobs.append(self.waiting.get())
            try:
                came = store.all_together([(name, args) for name, args, _ in jobs])
            except sqlite3.Error as why:
                print(f"choices: nothing of {len(jobs)} was kept: {why}", file=sys.stderr, flush=True)
                came = [NotKept()] * len(jobs)
            self.loop.call_soon_threadsafe(tell, [it for _, _, it in jobs], came)


def tell(waiting: "list[asyncio.Future[Any]]", came: list[Any]) -> None:
    """Tells those who wait, unless they left."""
    for told, it in zip(waiting, came):
        if not told.done():
            told.set_result(it)


__all__ = ["NotKept", "Refused", "Writer"]
