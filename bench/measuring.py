"""Runs programs on one folder in turn, and prints their times, their peaks of memory, and whether they agree."""
import hashlib
import os
import pathlib
import subprocess
import sys
import time

OURS = str(pathlib.Path(__file__).resolve().parent.parent / "octimap")


def measure(program, command, folder):
    """(seconds, peak in KiB, digest of the output) of one run."""
    started = time.monotonic()
    child = subprocess.Popen([program, command, folder], stdout=subprocess.PIPE)
    digest = hashlib.sha256()
    for piece in iter(lambda: child.stdout.read(1 << 20), b""):
        digest.update(piece)
    _, status, usage = os.wait4(child.pid, 0)
    seconds = time.monotonic() - started
    if status != 0:
        sys.exit(f"{program} ended with status {os.waitstatus_to_exitcode(status)}")
    return seconds, usage.ru_maxrss, digest.hexdigest()


def compare(others, command, folder, runs):
    """Runs this repository's program and each of the others on a folder, `runs` times each in turn, and prints
    the least time and the greatest peak of each, and the ratios."""
    programs = [OURS] + others
    times, peaks, digests = {}, {}, {}
    for _ in range(runs):
        for program in programs:
            seconds, peak, digest = measure(program, command, folder)
            times[program] = min(seconds, times.get(program, seconds))
            peaks[program] = max(peak, peaks.get(program, peak))
            digests[program] = digest
    for program in programs:
        same = "same bytes" if digests[program] == digests[OURS] else "OTHER BYTES"
        print(f"{program}: {times[program]:.3f} s, {peaks[program] / 1024:.1f} MiB, {same}")
    for program in others:
        time_ratio = times[OURS] / times[program]
        peak_ratio = peaks[OURS] / peaks[program]
        print(f"octimap / {os.path.basename(program)}: {time_ratio:.2f} of the time, {peak_ratio:.2f} of the memory")
