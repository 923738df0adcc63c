#!/bin/sh
# Measures time and memory on scripts of inserts, closes and log writes, of 10,000 and of 100,000
# lines, and compares them with their bounds.
# Usage: bench/first-path.sh [PROGRAM]. The default is the proved program that ./rb build leaves.
# Needs python3 and GNU time. Exit status: 0 if all bounds hold, 1 if one is broken or a report is
# wrong, 2 if it cannot measure.
here=$(cd "$(dirname "$0")" && pwd) || exit 2
PYTHONPATH=$here exec python3 - "${1:-$here/../crates/rb_cli/out/rb_cli}" <<'PYTHON'
import sys
import tempfile
from measure import Model, RUNS, judge, memory_of, program_and_timer, seconds_of

SMALL, LARGE = 10_000, 100_000
INSERTS = 400

MOST_RATIO = 12
MOST_SECONDS = 1.0
MOST_TIMES_MEMORY = 4


def model_of(lines):
    """Returns a script of `lines` lines: one node and one table, then inserts spread evenly, with
    closes and log writes between them."""
    model = Model()
    rest = lines - len(model.lines)
    inserted, closes = 0, False
    for at in range(rest):
        if at * INSERTS // rest != (at - 1) * INSERTS // rest:
            model.insert(inserted, inserted * 3)
            inserted += 1
            closes = True
        elif closes:
            model.close()
            closes = False
        else:
            model.log()
            closes = True
    return model


def main():
    program, timer = program_and_timer()
    with tempfile.TemporaryDirectory() as folder:
        empty = f"{folder}/empty"
        open(empty, "wb").close()
        times, scripts = {}, {}
        for lines in (SMALL, LARGE):
            model = model_of(lines)
            text = model.script()
            scripts[lines] = f"{folder}/{lines}"
            with open(scripts[lines], "w") as file:
                file.write(text)
            times[lines] = seconds_of(program, scripts[lines], model.report())
            print(f"{lines:,} lines, {len(text):,} bytes: best of {RUNS} runs {times[lines] * 1000:.2f} ms")
        kept = len(text) + len(model.report()) + model.log_bytes()
        at_rest = memory_of(timer, program, empty)
        peak = memory_of(timer, program, scripts[LARGE])
        print(f"memory: {peak:,} bytes at the larger script, {at_rest:,} at an empty one; script, report and log have {kept:,} bytes")
        holds = [
            judge("ratio of the times", times[LARGE] / times[SMALL], MOST_RATIO, ".1f", ""),
            judge("time of the larger", times[LARGE], MOST_SECONDS, ".3f", " s"),
            judge("peak memory", peak, MOST_TIMES_MEMORY * kept, ",", " bytes"),
        ]
    sys.exit(0 if all(holds) else 1)


main()
PYTHON
