#!/usr/bin/env python3
"""Times the gate: by the clock, and by processor time of each crate's proof, tests and edits.

    bench/gate.py run LOG [COMMAND ..]    runs COMMAND (.ci/run where none is named) in the current folder, and writes LOG
    bench/gate.py table LOG               prints what LOG tells

`run` prints what COMMAND prints. LOG has each line of it, behind the seconds since its start, and at its end a line `# CRATE KIND SECONDS MIB`
for the work on each crate, where KIND is proof, tests, edits or other, SECONDS the processor time of its processes and MIB the
greatest memory of one of them. Processes are looked at once a second, so the last second of each is lost. `# clock` and
`# processors` tell the time by the clock, and how much of all processors was used, idle, and taken away by other machines
of the same host. Where this program is told to end (SIGTERM), it ends COMMAND, and LOG has the table of what was done until then.
"""
import argparse
import collections
import os
import re
import signal
import subprocess
import sys
import threading
import time

TICK = os.sysconf("SC_CLK_TCK")
KINDS = ("proof", "tests", "edits", "other")


def text_of(path):
    try:
        with open(path, errors="replace") as file:
            return file.read()
    except OSError:
        return ""


def state_of(process):
    """(parent, seconds, start) of a process, by /proc."""
    fields = text_of(f"/proc/{process}/stat").rpartition(")")[2].split()
    return (int(fields[1]), (int(fields[11]) + int(fields[12])) / TICK, fields[19]) if len(fields) > 19 else (0, 0.0, "")


def work_of(process):
    """(crate, kind) of a process of the toolchain, if it tells one."""
    words = text_of(f"/proc/{process}/cmdline").split("\0")
    try:
        folder = os.readlink(f"/proc/{process}/cwd")
    except OSError:
        return None
    if "--crate-name" not in words[:-1]:
        return None
    crate = words[words.index("--crate-name") + 1]
    if re.match(r".*/rt-edit", folder):
        return crate, "edits"
    return crate, "tests" if "--test" in words else "proof"


class Sampler:
    """What was seen of the processes below one."""

    def __init__(self, top):
        self.top, self.seen, self.works = top, {}, {}
        self.seconds, self.peaks = collections.Counter(), collections.Counter()

    def look(self):
        states = {int(name): state_of(name) for name in os.listdir("/proc") if name.isdigit()}
        parents = {process: state[0] for process, state in states.items()}
        for process, (parent, spent, start) in states.items():
            if process != self.top and self.is_below(process, parents):
                self.add((process, start), (parent, states.get(parent, (0, 0, ""))[2]), spent)

    def is_below(self, process, parents):
        while process in parents and process != self.top:
            process = parents[process]
        return process == self.top

    def add(self, process, parent, spent):
        work = self.works.get(process) or work_of(process[0]) or self.works.get(parent) or ("", "other")
        self.works[process] = work
        self.seconds[work] += max(0.0, spent - self.seen.get(process, 0.0))
        self.seen[process] = spent
        memory = re.search(r"VmHWM:\s+(\d+)", text_of(f"/proc/{process[0]}/status"))
        if memory:
            self.peaks[work] = max(self.peaks[work], int(memory[1]) // 1024)


def processor_times():
    fields = [int(it) for it in text_of("/proc/stat").split("\n")[0].split()[1:9]]
    return fields[3] + fields[4], fields[7], sum(fields)


def run(log, command):
    started, (idle, taken, whole) = time.monotonic(), processor_times()
    child = subprocess.Popen(command, stdout=subprocess.PIPE, stderr=subprocess.STDOUT, text=True, errors="replace")
    signal.signal(signal.SIGTERM, lambda *_: child.terminate())
    sampler, lock = Sampler(child.pid), threading.Lock()

    def sample():
        while child.poll() is None:
            with lock:
                sampler.look()
            time.sleep(1)

    watcher = threading.Thread(target=sample, daemon=True)
    watcher.start()
    with open(log, "w") as out:
        for line in child.stdout:
            out.write(f"{time.monotonic() - started:.0f} {line}")
            out.flush()
            print(line, end="", flush=True)
        status = child.wait()
        clock = time.monotonic() - started
        watcher.join()
        for (crate, kind), seconds in sorted(sampler.seconds.items()):
            out.write(f"# {crate or '-'} {kind} {seconds:.1f} {sampler.peaks[crate, kind]}\n")
        idle_now, taken_now, whole_now = processor_times()
        shares = [100 * it / max(1, whole_now - whole) for it in (idle_now - idle, taken_now - taken)]
        out.write(f"# clock {clock:.0f} status {status}\n")
        out.write(f"# processors {os.cpu_count()} used {100 - sum(shares):.0f} idle {shares[0]:.0f} taken {shares[1]:.0f}\n")
    return status


def table(log):
    rows, peaks, ends = collections.defaultdict(collections.Counter), collections.Counter(), []
    for line in open(log, errors="replace"):
        words = line.split()
        if line.startswith(("# clock", "# processors")):
            ends.append(line[2:].rstrip())
        elif line.startswith("# ") and len(words) == 5 and words[2] in KINDS:
            rows[words[1]][words[2]] += float(words[3])
            peaks[words[1]] = max(peaks[words[1]], int(words[4]))
    print("| crate | proof | tests | edits | all | most MiB |\n|---|---|---|---|---|---|")
    for crate in sorted(rows, key=lambda it: -sum(rows[it].values())):
        print_row(crate, rows[crate], peaks[crate])
    whole = collections.Counter()
    for row in rows.values():
        whole.update(row)
    print_row("all", whole, max(peaks.values(), default=0))
    print("\n" + "\n".join(ends) if ends else "\nThe run has no end.")


def print_row(name, row, peak):
    times = [f"{row[kind]:.0f}" for kind in KINDS[:3]]
    print(f"| {name} | {' | '.join(times)} | {sum(row.values()):.0f} | {peak} |")


def main():
    parser = argparse.ArgumentParser(description=__doc__, formatter_class=argparse.RawDescriptionHelpFormatter)
    parser.add_argument("what", choices=("run", "table"))
    parser.add_argument("log", metavar="LOG")
    parser.add_argument("command", nargs=argparse.REMAINDER, metavar="COMMAND")
    given = parser.parse_args()
    if given.what == "table":
        table(given.log)
        return 0
    return run(given.log, given.command or [".ci/run"])


if __name__ == "__main__":
    sys.exit(main())
