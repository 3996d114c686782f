#!/usr/bin/env python3
"""Refuses memory to octimap, one allocation after another.

    bench/refused_memory.py [--most N] [--feed NAME] [--command NAME] [--work FOLDER] [PROGRAM]

Over three small feeds and Vienna's underground, and for each command, counts the allocations of a run, and then runs it
with the first refused, with the second, and so on; and with all refused from the first, from the second, and so on. Where a
command has more than N allocations (30,000), the first N / 2 are tried and N / 2 that are spread over the others. Each
run has to end with status 9, or else with the status, outputs and standard output of a run to which nothing is refused;
never by a signal. At status 9 the outputs hold what they held before, and nothing is left beside them; OUT of a session
may hold a beginning of its bytes. Prints the counts, and ends with 1 where a run is wrong. PROGRAM is dist/octimap where
none is given.
"""
import argparse
import sys

from trials import COMMANDS, FEEDS, KINDS, TOP, Judge, Program, begins

MEMORY = KINDS.index("memory")


def spread(count, most):
    """The numbers from 1 to a count, or so many of them."""
    if count <= most:
        return list(range(1, count + 1))
    half = most // 2
    step = (count - half) / half
    return list(range(1, half + 1)) + sorted({half + 1 + int(k * step) for k in range(half)})


def main():
    parser = argparse.ArgumentParser(description=__doc__, formatter_class=argparse.RawDescriptionHelpFormatter)
    parser.add_argument("--most", type=int, default=30_000)
    parser.add_argument("--feed", default="")
    parser.add_argument("--command", default="")
    parser.add_argument("--work")
    parser.add_argument("program", nargs="?", default=str(TOP / "dist" / "octimap"))
    given = parser.parse_args()
    program = Program(given.program, given.work)
    runs = wrong = 0
    for feed in FEEDS:
        if given.feed not in feed:
            continue
        program.begin(feed)
        for command in COMMANDS:
            if given.command not in command or (command in ("trial", "help") and feed != "one line"):
                continue
            judge = Judge(program, command)
            tried, ended, faults = spread(judge.counts["memory"], given.most), {}, []
            for how in ["once", "on"]:
                for number in tried if how == "once" or len(tried) == judge.counts["memory"] else tried[::2]:
                    stand = number % 2 == 0
                    program.set_outputs(judge.names, stand)
                    status, said = program.run(judge.words, (MEMORY, number, how, 12))
                    fault = judge.fault(status, said, stand, (judge.status, 9))
                    if not fault and status == 9 and not begins(said, judge.said, b"no memory\n"):
                        fault = f"standard output {said[:60]!r}"
                    if not fault and how == "once" and status == 9 and not said.endswith(b"no memory\n"):
                        fault = "the line `no memory` is not whole"
                    ended[status] = ended.get(status, 0) + 1
                    if fault:
                        faults.append(f"{how} {number}: {fault}")
            runs, wrong = runs + sum(ended.values()), wrong + len(faults)
            print(f"{feed}: {command}: {judge.counts['memory']} allocations, status {judge.status}; refused: "
                  + ", ".join(f"{count} with status {status}" for status, count in sorted(ended.items(), key=str))
                  + (f"; {len(faults)} WRONG: {faults[:3]}" if faults else ""), flush=True)
    program.end()
    print(f"{runs} runs with refused memory, {wrong} wrong")
    sys.exit(1 if wrong else 0)


if __name__ == "__main__":
    main()
