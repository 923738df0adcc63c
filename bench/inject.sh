#!/bin/sh
# Measures scripts whose epochs are all written to the log: 1,000 epochs of 100 changes and 49,000
# epochs of one change. Binlog files have 512 bytes, so that each epoch or every second one rotates
# the log, or 67,108,864 bytes. Prints epochs and bytes of log a second, and the calls of the log
# device for each epoch: six, and four more for a rotation. The model of the run counts these calls,
# since the program does not print them. Compares the growth of the time for each epoch with its
# bound.
# Usage: bench/inject.sh [PROGRAM]. The default is the proved program that ./rb build leaves.
# Needs python3 and GNU time. Exit status: 0 if all bounds hold, 1 if one is broken or a report is
# wrong, 2 if it cannot measure.
here=$(cd "$(dirname "$0")" && pwd) || exit 2
PYTHONPATH=$here exec python3 - "${1:-$here/../crates/rb_cli/out/rb_cli}" <<'PYTHON'
import sys
import tempfile
from measure import Model, judge, memory_of, program_and_timer, seconds_of

MEGABYTE = 1_000_000
EPOCHS_OF = {100: 1_000, 1: 49_000}     # by the changes of an epoch
LIMITS = (512, 67_108_864)
PART = 10
LOG_EACH = 1_000

MOST_RATIO = 1.3


def model_of(epochs, changes, limit):
    """Returns a script of epochs of one transaction each, which inserts a number of rows. All epochs
    are written, a thousand at a time."""
    model = Model(limit=limit)
    for at in range(epochs):
        model.insert_all({key: 3 * key for key in range(at * changes, (at + 1) * changes)})
        model.close()
        if at % LOG_EACH == LOG_EACH - 1 or at == epochs - 1:
            model.log()
    return model


def measured(program, timer, folder, epochs, changes, limit):
    """Returns the best time for each epoch of such a script."""
    model = model_of(epochs, changes, limit)
    script = f"{folder}/script"
    with open(script, "w") as file:
        file.write(model.script())
    seconds = seconds_of(program, script, model.report())
    peak = memory_of(timer, program, script)
    print(f"{epochs:,} epochs of {changes}, limit {limit:,}: {epochs / seconds:,.0f} epochs/s, "
          f"{model.log_bytes() / MEGABYTE / seconds:.1f} MB/s of log, {model.log_bytes():,} bytes of log, "
          f"{model.device_calls() / epochs:.2f} calls of the device for each epoch, peak memory {peak:,} bytes")
    return seconds / epochs


def main():
    program, timer = program_and_timer()
    holds = []
    with tempfile.TemporaryDirectory() as folder:
        for changes, epochs in EPOCHS_OF.items():
            for limit in LIMITS:
                part, whole = (measured(program, timer, folder, count, changes, limit) for count in (epochs // PART, epochs))
                holds.append(judge("ratio of the times for each epoch", whole / part, MOST_RATIO, ".2f", ""))
    sys.exit(0 if all(holds) else 1)


main()
PYTHON
