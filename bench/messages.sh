#!/bin/sh
# Measures scripts of 10,000 and of 100,000 lines in which messages are delivered one by one, twice
# and all together; and a script of 1,000 epochs with and without nodes that fail and restart.
# Compares the ratios of the times with their bounds.
# Usage: bench/messages.sh [PROGRAM]. The default is the proved program that ./rb build leaves.
# Needs python3. Exit status: 0 if all bounds hold, 1 if one is broken or a report is wrong, 2 if it
# cannot measure.
here=$(cd "$(dirname "$0")" && pwd) || exit 2
PYTHONPATH=$here exec python3 - "${1:-$here/../crates/rb_cli/out/rb_cli}" <<'PYTHON'
import sys
import tempfile
from measure import Model, RUNS, judge, program_given, seconds_of

SMALL, LARGE = 10_000, 100_000
INSERTS = 400
INJECT_EACH = 100

GROUPS, REPLICAS = 8, 4
EPOCHS = 1000
FAILURES = 50

MOST_RATIO = 13
MOST_WITH_FAILURES = 1.5


def model_of(lines):
    """Returns a script of `lines` lines: one node and one table, then inserts spread evenly, an
    inject each hundred lines, and closes, deliveries of one place and deliveries of all."""
    model = Model()
    rest = lines - len(model.lines)
    inserted = turn = 0
    for at in range(rest):
        if at * INSERTS // rest != (at - 1) * INSERTS // rest:
            model.insert(inserted, inserted * 3)
            inserted += 1
        elif at % INJECT_EACH == INJECT_EACH - 1:
            model.inject()
        else:
            if turn % 3 == 0:
                model.close()
            elif turn % 3 == 1:
                model.deliver(at * 7919 % (len(model.sent) + 1))
            else:
                model.deliver_all()
            turn += 1
    return model


def failing_model(fails):
    """Returns a script of epochs with inserts spread evenly, written in as many rounds as there are
    failures. With failures, a node of the next group fails after a quarter of each round's epochs,
    and restarts after a half."""
    model = Model(GROUPS, REPLICAS)
    each = EPOCHS // FAILURES
    for at in range(EPOCHS):
        turn, step = divmod(at, each)
        node = turn % GROUPS * REPLICAS + turn // GROUPS % REPLICAS
        if fails and step == each // 4:
            model.fail(node)
        if fails and step == each // 2:
            model.restart(node)
        for key in range(at * INSERTS // EPOCHS, (at + 1) * INSERTS // EPOCHS):
            model.insert(key, key * 3)
        model.close()
        if step == each - 1:
            model.log()
    return model


def timed(program, folder, model):
    """Returns the best time of the runs of a model's script."""
    script = f"{folder}/script"
    with open(script, "w") as file:
        file.write(model.script())
    seconds = seconds_of(program, script, model.report())
    counts = f"{len(model.lines):,} lines, {len(model.sent):,} messages, {model.resent:,} of them sent again"
    print(f"{counts}: best of {RUNS} runs {seconds * 1000:.2f} ms")
    return seconds


def main():
    program = program_given()
    with tempfile.TemporaryDirectory() as folder:
        small, large = (timed(program, folder, model_of(lines)) for lines in (SMALL, LARGE))
        models = failing_model(False), failing_model(True)
        # A resent message costs what any message does, so the times are compared by message.
        steady, failing = (timed(program, folder, model) / len(model.sent) for model in models)
    holds = [
        judge("ratio of the times", large / small, MOST_RATIO, ".1f", ""),
        judge("ratio of the times by message, with failures and without", failing / steady, MOST_WITH_FAILURES, ".2f", ""),
    ]
    sys.exit(0 if all(holds) else 1)


main()
PYTHON
