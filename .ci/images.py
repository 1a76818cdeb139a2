"""What the scripts of rows share: guest images of numbers, and calls of the two programs."""
import os
import struct
import subprocess
import sys

TOP = os.path.realpath(os.path.join(os.path.dirname(os.path.realpath(__file__)), ".."))


def words(*numbers):
    """Returns the bytes of words."""
    return struct.pack(f"<{len(numbers)}I", *numbers)


def bundle(segments=(), programs=(), turns=(0,), blocks=0, frames=64):
    """Returns an image in version 1: addresses and bytes of segments, numbers and bytes of programs, zeros for blocks."""
    numbers = [1, frames, max(turns) + 1, len(turns), 0x80000000, len(segments), blocks, len(programs)]
    made = b"CLOAKBND" + words(*numbers) + bytes(turns)
    for address, data in segments:
        made += words(address, len(data)) + data
    made += bytes(4096 * blocks)
    for start, data in programs:
        pages = max(1, -(-len(data) // 4096))
        made += words(pages, *start) + data.ljust(4096 * pages, b"\0")
    return made


def built(script, names, given):
    """Returns the programs of these crates, as each compiler built them, or those that are given."""
    made = [[f"{TOP}/crates/{it}/out/{it}{build}" for it in names] for build in ("", ".by-rattle")]
    made = [given] if given else [them for them in made if all(os.access(it, os.X_OK) for it in them)]
    if not made:
        sys.exit(f"{script}: there are no programs to run: rt ci builds them")
    return made


class Calls:
    """Calls of programs in a folder, and how many rows were tried and failed."""

    def __init__(self, script, room):
        self.script, self.room, self.tried, self.failed = script, room, 0, 0

    def put(self, **files):
        """Writes files; a name's last `_` is its dot."""
        for name, data in files.items():
            self.write(".".join(name.rsplit("_", 1)), data)

    def write(self, name, data):
        with open(f"{self.room}/{name}", "wb") as it:
            it.write(data)

    def bytes(self, name):
        """Returns a file's bytes, none of one that is missing."""
        try:
            with open(f"{self.room}/{name}", "rb") as it:
                return it.read()
        except FileNotFoundError:
            return b""

    def empty(self):
        """Removes all files."""
        for name in os.listdir(self.room):
            os.remove(f"{self.room}/{name}")

    def call(self, program, line, out=subprocess.PIPE):
        """Returns the status, the output and the errors of words, which are a list or separated by spaces."""
        line = line.split() if isinstance(line, str) else line
        ended = subprocess.run([program, *line], cwd=self.room, stdin=subprocess.DEVNULL, stdout=out, stderr=subprocess.PIPE,
                               check=False)
        return ended.returncode, ended.stdout or b"", ended.stderr

    def same(self, row, got, wanted):
        """Counts a row, and tells it unless both are the same."""
        self.tried += 1
        if got != wanted:
            self.failed += 1
            print(f"{self.script}: {row}: {str(got)[:1000]}, and not {str(wanted)[:1000]}", file=sys.stderr)

    def end(self, what):
        """Tells how many rows failed, and returns the status."""
        print(f"{self.script}: {self.tried} {what}, {self.failed} not as they have to be")
        return 1 if self.failed else 0
