#!/bin/sh
# Reads logs of 1 MB and of 200 MB, of epochs of 100 changes and of one change. Checks the first
# epochs of their texts, and compares time per byte and memory with their bounds.
# This script makes the logs itself, byte by byte as docs/LOG_FORMAT.md says: a script of the program
# has at most 100,000 changes, too few for one file of 200 MB. The small logs are compared with what
# the program writes for a script of the same epochs.
# Usage: bench/read.sh [PROGRAM [WRITER]]. The defaults are the proved programs that ./rb build
# leaves. Needs python3, GNU time, and 250 MB for temporary files. Exit status: 0 if all bounds hold,
# 1 if one is broken or a text is wrong, 2 if it cannot measure.
here=$(cd "$(dirname "$0")" && pwd) || exit 2
PYTHONPATH=$here exec python3 - "${1:-$here/../crates/rb_cli/out/rb_cli}" "${2:-$here/../crates/rb_logs/out/rb_logs}" <<'PYTHON'
import os
import subprocess
import sys
import tempfile
import time
from measure import FIRST_EPOCH, Model, judge, program_and_timer, stop

MEGABYTE = 1_000_000
SMALL, LARGE = 1, 200
EPOCHS_OF = (100, 1)
RUNS = {SMALL: 15, LARGE: 5}

LARGEST_LIMIT = 67_108_864

MOST_RATIO = 1.2
MOST_MEMORY_ABOVE = 64 * MEGABYTE

QUERY, XID, TABLE_MAP, WRITE_ROWS, FORMAT = 2, 16, 19, 30, 15
STATUS_MAP = bytes.fromhex("000000000000 0000 05 6d7973716c 00 10 6e64625f6170706c795f737461747573 00 05 03080f0808 02 ff00 00")
TABLE = bytes.fromhex("010000000000 0000 02 6462 00 01 74 00 02 0808 00 00")
LENGTHS = bytes([0, 13, 0, 8, *[0] * 10, 92, 0, 0, 0, 8, *[0] * 10, 10, 10, 10, 0, 0, 0])
FORMAT_PAYLOAD = b"\x04\x00" + b"8.0-rb".ljust(50, b"\0") + bytes(4) + b"\x13" + LENGTHS


def number(value, width):
    return value.to_bytes(width, "little")


class Log:
    """A log of site A whose epochs have a number of inserts each, and the text that it must have."""

    def __init__(self, changes):
        self.changes = changes
        self.position = 4
        self.epochs = 0
        self.key = 0
        self.start = b"\xfe\x62\x69\x6e" + self._event(FORMAT, FORMAT_PAYLOAD)

    def _event(self, kind, payload):
        size = 19 + len(payload)
        self.position += size
        return bytes(4) + bytes([kind]) + number(1, 4) + number(size, 4) + number(self.position, 4) + bytes(2) + payload

    def epoch(self):
        """Returns the next epoch's bytes, and its text."""
        epoch = FIRST_EPOCH + self.epochs
        self.epochs += 1
        status = bytes(6) + number(0, 2) + number(2, 2) + b"\x05\x1f" + b"\0" + number(1, 4) + number(epoch, 8) + b"\0" + bytes(16)
        events = [self._event(QUERY, bytes(14) + b"BEGIN"), self._event(TABLE_MAP, STATUS_MAP), self._event(TABLE_MAP, TABLE)]
        events.append(self._event(WRITE_ROWS, status))
        lines = []
        for left in range(self.changes, 0, -1):
            self.key += 1
            head = number(1, 6) + number(1 if left == 1 else 0, 2) + number(11, 2) + b"\x52" + number(self.epochs, 8) + b"\x02\x03"
            events.append(self._event(WRITE_ROWS, head + b"\0" + number(self.key, 8) + number(3 * self.key, 8)))
            lines.append(f"ins db.t transid={self.epochs} key={self.key} before=- after=({self.key} {3 * self.key})")
        events.append(self._event(XID, number(epoch, 8)))
        title = f"epoch {epoch} server=1 reflected=0 changes={self.changes} end={self.position}"
        return b"".join(events), "\n".join([title, *lines]) + "\n"

    def write(self, path, size):
        """Writes a log of about `size` bytes, and returns the text of its first epochs."""
        text = "ndb binlog read\n"
        with open(path, "wb", buffering=MEGABYTE) as file:
            file.write(self.start)
            while self.position < size:
                events, lines = self.epoch()
                file.write(events)
                if self.epochs <= 3:
                    text += lines
        return text


def written(writer, epochs, changes):
    """Returns binlog file 1 of a script of such epochs, as the program writes it."""
    model = Model(limit=LARGEST_LIMIT)
    for first in range(1, epochs * changes + 1, changes):
        model.insert_all({key: 3 * key for key in range(first, first + changes)})
        model.close()
    model.log()
    run = subprocess.run([writer, "logs"], input=model.script().encode(), capture_output=True)
    _, _, dump = run.stdout.decode().partition("\nfile A 1 ")
    lines = dump.partition("\nfile ")[0].splitlines()[1:]
    return bytes.fromhex("".join(line.split()[1] for line in lines))


def check_written(writer, path, epochs, changes):
    """Checks that the program writes this log."""
    with open(path, "rb") as file:
        if file.read() != written(writer, epochs, changes):
            print("the log is not what the program writes", file=sys.stderr)
            sys.exit(1)


def read(program, path, runs, text):
    """Returns the best time of several readings, whose text must begin so and leave no byte."""
    best = None
    for _ in range(runs):
        with open(path, "rb") as source:
            start = time.perf_counter()
            done = subprocess.run([program, "read"], stdin=source, stdout=subprocess.DEVNULL)
            taken = time.perf_counter() - start
        if done.returncode != 0:
            stop(f"reading ended with {done.returncode}")
        best = taken if best is None else min(best, taken)
    with open(path, "rb") as source:
        reading = subprocess.Popen([program, "read"], stdin=source, stdout=subprocess.PIPE)
        front, last = reading.stdout.read(len(text)), b""
        while piece := reading.stdout.read(MEGABYTE):
            last = (last + piece)[-100:]
        reading.wait()
    if front.decode() != text or not last.endswith(b"end rest=0\n"):
        print("wrong text", file=sys.stderr)
        sys.exit(1)
    return best


def memory_of(timer, program, path):
    """Returns the greatest resident memory of a reading, in bytes."""
    with open(path, "rb") as source:
        run = subprocess.run([timer, "-f", "%M", program, "read"], stdin=source, stdout=subprocess.DEVNULL, stderr=subprocess.PIPE)
    return int(run.stderr.split()[-1]) * 1024


def main():
    program, timer = program_and_timer()
    holds = []
    for changes in EPOCHS_OF:
        per_byte, peak = {}, {}
        for size in (SMALL, LARGE):
            with tempfile.NamedTemporaryFile() as file:
                log = Log(changes)
                text = log.write(file.name, size * MEGABYTE)
                if size == SMALL:
                    check_written(os.path.abspath(sys.argv[2]), file.name, log.epochs, changes)
                length = os.path.getsize(file.name)
                seconds = read(program, file.name, RUNS[size], text)
                peak[size] = memory_of(timer, program, file.name)
            per_byte[size] = seconds / length
            print(f"{length:,} bytes, {changes} changes an epoch: {length / MEGABYTE / seconds:.0f} MB/s, "
                  f"{log.epochs * changes / seconds:,.0f} rows/s, peak memory {peak[size]:,} bytes")
        holds.append(judge("ratio of the times per byte", per_byte[LARGE] / per_byte[SMALL], MOST_RATIO, ".2f", ""))
        holds.append(judge("peak memory above the smaller one's", peak[LARGE] - peak[SMALL], MOST_MEMORY_ABOVE, ",", " bytes"))
    sys.exit(0 if all(holds) else 1)


main()
PYTHON
