"""A model of a site, which gives the report that a script must have, and functions to measure with."""
import os
import shutil
import subprocess
import sys
import time

FIRST_EPOCH = 2**32
END = "done"
RUNS = 9

# The bytes of a log. Each file begins with the magic number and the format event. Each epoch has
# BEGIN, two table maps, the status row, the inserts of rows of two numbers into the table `t`, and
# XID. A rotate event ends a full file. The index has a record for each epoch, and a byte at its end.
LOG_START = 4 + (19 + 92)
LOG_EPOCH = 38 + 62 + 39 + 61 + 27
LOG_CHANGE = 57
LOG_ROTATE = 19 + 8 + len("a-bin.000002")
INDEX_RECORD = 65
# The calls of the log device: an epoch's bytes, its record and its gate are each written and synced,
# and so are a rotate event and the start of the next file.
EPOCH_CALLS = 6
ROTATION_CALLS = 4
DEFAULT_LIMIT = 1048576


class Model:
    """A site with the table `t num`. A message is an epoch, a bucket, and a place among the bucket's
    changes in the epoch, or END. Each method appends a line of a script and its outcome. The script
    loses no group."""

    def __init__(self, groups=1, replicas=1, limit=DEFAULT_LIMIT):
        self.lines = [f"site A groups {groups} replicas {replicas} limit {limit}", "table t num"]
        self.limit = limit
        self.answers = []
        self.rows = {}
        self.open = FIRST_EPOCH
        self.drawn = 0
        self.replicas = replicas
        self.buckets = range(groups * replicas)
        self.owners = list(self.buckets)
        self.since = [FIRST_EPOCH for _ in self.buckets]    # by node, None where it is down
        self.failed_at = [0 for _ in self.buckets]          # by node: how many messages were sent then
        self.sent = []              # (message, sender), by place
        self.resent = 0
        self.received = set()       # messages
        self.delivered = set()      # places
        self.fresh = []             # the places sent since the last delivery of all
        self.counts = [0 for _ in self.buckets]             # of changes in the open epoch
        self.untaken = []           # (epoch, counts), the oldest first, of those that are closed and not taken
        self.unacknowledged = []    # the same of those above the last that is written
        self.taken = 0
        self.written = []           # (epoch, changes)

    def _say(self, line, answer):
        self.lines.append(line)
        self.answers.append(f"{len(self.lines)} {answer}")

    def _send(self, sender, epoch, bucket, place):
        self.fresh.append(len(self.sent))
        self.sent.append(((epoch, bucket, place), sender))

    def _send_again(self, sender, bucket):
        before = len(self.sent)
        for epoch, counts in self.unacknowledged:
            for place in [*range(counts[bucket]), END]:
                self._send(sender, epoch, bucket, place)
        for place in range(self.counts[bucket]):
            self._send(sender, self.open, bucket, place)
        self.resent += len(self.sent) - before

    def _covers(self, node):
        needed = self.unacknowledged[0][0] if self.unacknowledged else self.open
        return self.since[node] is not None and self.since[node] <= needed

    def _group(self, node):
        first = node - node % self.replicas
        return range(first, first + self.replicas)

    def insert(self, key, value):
        if key in self.rows:
            return self._say(f"tx A ins t {key} {value}", "key there 0")
        self.insert_all({key: value})

    def insert_all(self, rows):
        """Appends one transaction with new keys."""
        self.rows.update(rows)
        self.drawn += 1
        for key in rows:
            bucket = (key + 1) % len(self.buckets)
            self._send(self.owners[bucket], self.open, bucket, self.counts[bucket])
            self.counts[bucket] += 1
        operations = " ; ".join(f"ins t {key} {value}" for key, value in rows.items())
        self._say(f"tx A {operations}", f"ok transid={self.drawn} epoch={self.open} sent={len(self.sent)}")

    def close(self):
        closed, self.open = self.open, self.open + 1
        self.untaken.append((closed, self.counts))
        self.unacknowledged.append((closed, self.counts))
        self.counts = [0 for _ in self.buckets]
        for first in self.buckets[::self.replicas]:
            for bucket in self._group(first):
                self._send(self.owners[bucket], closed, bucket, END)
            for bucket in self._group(first):
                if self.owners[bucket] != bucket and self._covers(bucket):
                    self.owners[bucket] = bucket
                    self._send_again(bucket, bucket)
        self._say("epoch A", f"closed {closed} sent={len(self.sent)}")

    def fail(self, node):
        self.since[node] = None
        self.failed_at[node] = len(self.sent)
        group = self._group(node)
        behind = [*group[node - group[0] + 1:], *group[:node - group[0]]]
        successor = next(other for other in behind if self._covers(other))
        orphans = [bucket for bucket in self.buckets if self.owners[bucket] == node]
        for bucket in orphans:
            self.owners[bucket] = successor
            self._send_again(successor, bucket)
        self._say(f"fail A {node}", f"failed takeover={len(orphans)} sent={len(self.sent)}")

    def restart(self, node):
        self.since[node] = self.open + 1
        self._say(f"restart A {node}", f"restarted since={self.since[node]}")

    def _receive(self, place):
        message, _ = self.sent[place]
        if message[0] <= self.taken:
            return "old"
        if message in self.received:
            return "known"
        self.received.add(message)
        return "kept"

    def deliver(self, place):
        line = f"deliver A {place}"
        if place >= len(self.sent):
            return self._say(line, f"no message {place} {len(self.sent)}")
        self.delivered.add(place)
        self._say(line, self._receive(place))

    def _deliver_all(self):
        counts = {"kept": 0, "known": 0, "old": 0}
        for place in self.fresh:
            if place not in self.delivered and place >= self.failed_at[self.sent[place][1]]:
                counts[self._receive(place)] += 1
        self.fresh = []
        return "delivered kept={kept} known={known} old={old}".format(**counts)

    def deliver_all(self):
        self._say("deliver A all", self._deliver_all())

    def _missing(self):
        """Returns the first thing that the next epoch lacks, or None if it is whole."""
        if not self.untaken:
            return f"0:{END}"
        epoch, counts = self.untaken[0]
        wanted = ((bucket, place) for bucket in self.buckets for place in [END, *range(counts[bucket])])
        return next((f"{bucket}:{place}" for bucket, place in wanted if (epoch, bucket, place) not in self.received), None)

    def _inject(self):
        before = len(self.written)
        while not (missing := self._missing()):
            self.taken, counts = self.untaken.pop(0)
            if any(counts):
                self.written.append((self.taken, sum(counts)))
        while self.unacknowledged and self.unacknowledged[0][0] <= self._last():
            self.unacknowledged.pop(0)
        return f"wrote {len(self.written) - before} written={self._last()} missing={missing}"

    def _last(self):
        return self.written[-1][0] if self.written else 0

    def inject(self):
        self._say("inject A", self._inject())

    def log(self):
        self._say("log A", f"{self._deliver_all()} {self._inject()}")

    def script(self):
        return "\n".join(self.lines) + "\n"

    def _places(self):
        """Returns file, start and end of each written epoch, and the file after the last one."""
        file, end = 1, LOG_START
        places = []
        for _, changes in self.written:
            start, end = end, end + LOG_EPOCH + LOG_CHANGE * changes
            places.append((file, start, end))
            if end >= self.limit:
                file, end = file + 1, LOG_START
        return places, file

    def report(self):
        rows = [f"row {key} {value}" for key, value in sorted(self.rows.items())]
        places, files = self._places()
        index = [f"epoch {epoch} gci={epoch >> 32} file={file} pos={start} next={end} ins={changes} upd=0 del=0"
                 for (epoch, changes), (file, start, end) in zip(self.written, places)]
        log = [f"log A files={files} epochs={len(self.written)} written={self._last()}", *index]
        return "\n".join(["ndb replication report", *self.answers, *log, f"table A t rows={len(rows)}", *rows, "end"]) + "\n"

    def log_bytes(self):
        """Returns the number of bytes of all files and the index."""
        _, files = self._places()
        epochs = sum(LOG_EPOCH + LOG_CHANGE * changes for _, changes in self.written)
        return files * LOG_START + (files - 1) * LOG_ROTATE + epochs + len(self.written) * INDEX_RECORD + 1

    def device_calls(self):
        """Returns the number of device calls that log the epochs."""
        _, files = self._places()
        return len(self.written) * EPOCH_CALLS + (files - 1) * ROTATION_CALLS


def stop(why):
    print(f"{sys.argv[0]}: {why}", file=sys.stderr)
    sys.exit(2)


def program_given():
    """Returns the program to measure, from the command line."""
    program = os.path.abspath(sys.argv[1])
    if not os.access(program, os.X_OK):
        stop("there is no such program; ./rb builds it")
    return program


def program_and_timer():
    """Returns the program to measure, and GNU time."""
    timer = shutil.which("time")
    if timer is None:
        stop("GNU time is not installed")
    return program_given(), timer


def seconds_of(program, script, report):
    """Returns the best time of several runs, each of which must print the report."""
    best = None
    for _ in range(RUNS):
        with open(script, "rb") as source:
            start = time.perf_counter()
            run = subprocess.run([program, "run"], stdin=source, capture_output=True)
            taken = time.perf_counter() - start
        if run.returncode != 0 or run.stdout.decode() != report:
            print(f"wrong report, status {run.returncode}: {run.stdout[-300:]!r} {run.stderr!r}", file=sys.stderr)
            sys.exit(1)
        best = taken if best is None else min(best, taken)
    return best


def memory_of(timer, program, script):
    """Returns the greatest resident memory of a run, in bytes."""
    with open(script, "rb") as source:
        run = subprocess.run([timer, "-f", "%M", program, "run"], stdin=source, capture_output=True)
    return int(run.stderr.split()[-1]) * 1024


def judge(what, value, bound, form, unit):
    holds = value <= bound
    print(f"{what}: {value:{form}}{unit}, at most {bound:{form}}{unit}: {'holds' if holds else 'BROKEN'}")
    return holds
