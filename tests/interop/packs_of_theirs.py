"""Runs the jobs of a script by processes of Subversion's own library, with its own `svnadmin pack` beside them and behind them, to try what
`jobs_and_packs` tries of `svnjobs --pack`."""
import os
import threading

from pack_runs import THEIR_ADMIN, all_packed
from processes_of_theirs import Theirs
from svn_shows import output


class TheirPacking(Theirs):
    """Runs by that library, in small shards."""

    def create(self, path, size):
        super().create(path, size)
        with open(os.path.join(path, "db", "format"), "w", encoding="ascii") as file:
            file.write(f"4\nlayout sharded {size}\n")

    def run(self, path, script, seconds):
        """A run, beside which another thread packs again and again."""
        ended = threading.Event()
        packer = threading.Thread(target=pack_on, args=(path, ended))
        packer.start()
        try:
            return super().run(path, script, seconds)
        finally:
            ended.set()
            packer.join()
            output(THEIR_ADMIN, "pack", "-q", path)
            all_packed(path, True)


def pack_on(path, ended):
    while not ended.is_set():
        output(THEIR_ADMIN, "pack", "-q", path)
        ended.wait(0.01)
