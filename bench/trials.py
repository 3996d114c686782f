"""Runs of the program under refused calls: feeds, commands, a run with its outputs, and what must be true behind it."""
import mmap
import os
import pathlib
import shutil
import signal
import struct
import subprocess
import sys
import tempfile

TOP = pathlib.Path(__file__).resolve().parent.parent
KINDS = ["memory", "open", "read", "write", "close", "rename", "sync", "link", "remove", "stat", "mode", "resolve"]
OLD = b"what stood here before the run\n"
SECONDS = 120

# Small feeds: stations with their degrees, and trips by line.
ONE_LINE = [("X", "0", "0"), ("Y", "0", "0.010000")], [("A", ["X", "Y"])]
SHARED = (
    [("C", "0.004492", "0"), ("X", "0.008984", "0"), ("Y", "0.004492", "0.004492"), ("Z", "0", "0")],
    [(line, list(stops)) for line in "AB" for stops in ("XCY", "XCZ", "YCZ")],
)
CROSSED = (
    [("T1", "0.004492", "0"), ("T2", "0.004492", "0.004492"), ("T3", "0.004492", "0.008984"), ("P", "0.008984", "0"),
     ("Q", "0", "0"), ("R", "0.008984", "0.008984"), ("S", "0", "0.008984")],
    [("A", ["P", "T1", "T2", "T3", "S"]), ("B", ["Q", "T1", "T2", "T3", "R"])],
)


def write_feed(folder, stations, trips):
    os.makedirs(folder)
    rows = {
        "stops": ["stop_id,stop_name,stop_lat,stop_lon"] + [f"{name},{name},{lat},{lon}" for name, lat, lon in stations],
        "routes": ["route_id,route_type,route_color"] + [f"{line},1," for line in sorted({line for line, _ in trips})],
        "trips": ["route_id,service_id,trip_id"] + [f"{line},S,{line}{k}" for k, (line, _) in enumerate(trips)],
        "stop_times": ["trip_id,stop_id,stop_sequence"]
        + [f"{line}{k},{stop},{at}" for k, (line, stops) in enumerate(trips) for at, stop in enumerate(stops, 1)],
    }
    for table, lines in rows.items():
        with open(os.path.join(folder, table + ".txt"), "w") as out:
            out.write("\n".join(lines) + "\n")


def write_inputs(feed, folder):
    """The feed of this name, with a script, edits and settings that fit it."""
    settings, edits, script = "cell = 2500\nstation = [1, 5, 0]\n", "importance\tA\t4\n", "draw\nhide\tA\ndraw\nundo\ndraw\nundo\n"
    if feed == "vienna":
        shutil.copytree(TOP / "examples" / "vienna-ubahn", os.path.join(folder, "feed"))
        settings, edits, script = ((TOP / "examples" / name).read_text() for name in ("settings.toml", "edits.txt", "session.txt"))
    else:
        write_feed(os.path.join(folder, "feed"), *{"one line": ONE_LINE, "shared": SHARED, "crossed": CROSSED}[feed])
    for name, text in [("settings.toml", settings), ("edits.txt", edits), ("script", script)]:
        with open(os.path.join(folder, name), "w") as out:
            out.write(text)


FEEDS = ["one line", "shared", "crossed", "vienna"]

# Each command with its words and its outputs. `in.svg`, `in.cert` are a map that was made before, by the same settings, and
# `in.json` is the line graph of the feed.
COMMANDS = {
    "map": ("map feed out.svg out.cert", ["out.svg", "out.cert"]),
    "map, page": ("map feed out.svg out.cert --page out.html --set near=400", ["out.svg", "out.cert", "out.html"]),
    "make": ("make feed out.svg out.cert", ["out.svg", "out.cert"]),
    "make, settings, edits": ("make feed out.svg out.cert --settings settings.toml --edits edits.txt", ["out.svg", "out.cert"]),
    "improve": ("improve feed out.svg out.cert 5", ["out.svg", "out.cert"]),
    "check": ("check feed in.svg in.cert", []),
    "labels": ("labels feed in.cert out.svg", ["out.svg"]),
    "poster": ("poster feed in.cert out.svg", ["out.svg"]),
    "session": ("session feed script out --settings settings.toml", ["out"]),
    "graph": ("graph feed", []),
    "export": ("export feed out.json", ["out.json"]),
    "import": ("import in.json out.svg out.cert", ["out.svg", "out.cert"]),
    "stations": ("stations feed", []),
    "page": ("page in.svg out.html", ["out.html"]),
    "trial": ("trial 3", []),
    "help": ("help map", []),
}


class Program:
    """A program, and the folder that it is run in; the library that refuses calls is preloaded."""

    def __init__(self, program, work=None):
        self.program = os.path.abspath(program)
        base = work or ("/dev/shm" if os.path.isdir("/dev/shm") else None)
        self.top = tempfile.mkdtemp(prefix="octimap-trials-", dir=base)
        self.library = os.path.join(self.top, "refusing.so")
        source = os.path.join(os.path.dirname(os.path.abspath(__file__)), "refusing.c")
        subprocess.run([os.environ.get("CC", "cc"), "-O2", "-shared", "-fPIC", "-o", self.library, source], check=True)
        self.folder, self.count_file = os.path.join(self.top, "run"), os.path.join(self.top, "counts")
        self.said_file, self.call_file = os.path.join(self.top, "said"), os.path.join(self.top, "calls")
        with open(self.count_file, "wb") as out:
            out.write(bytes(8 * len(KINDS)))
        with open(self.count_file, "r+b") as file:
            self.shared = mmap.mmap(file.fileno(), 8 * len(KINDS))

    def begin(self, feed):
        """A fresh folder with the inputs of a feed."""
        os.chdir("/")
        shutil.rmtree(self.folder, ignore_errors=True)
        os.makedirs(self.folder)
        write_inputs(feed, self.folder)
        os.chdir(self.folder)
        if self.run("make feed in.svg in.cert")[0] != 0 or self.run("export feed in.json")[0] != 0:
            sys.exit(f"there is no map of the feed {feed}")
        self.inputs = set(os.listdir("."))

    def end(self):
        os.chdir("/")
        shutil.rmtree(self.top)

    def run(self, words, refuse=None, log=False):
        """Status (negative for a signal, None where it does not end) and standard output of a run."""
        self.shared[:] = bytes(len(self.shared))
        settings = {"OCTIMAP_COUNTS": self.count_file, "LD_PRELOAD": self.library}
        if refuse:
            settings["OCTIMAP_REFUSE"] = "%d %d %s %d" % refuse
        if log:
            settings["OCTIMAP_CALLS"] = self.call_file
        flags = os.O_WRONLY | os.O_CREAT | os.O_TRUNC
        child = os.posix_spawn(self.program, [self.program] + words.split(" "), settings, file_actions=[
            (os.POSIX_SPAWN_OPEN, 0, "/dev/null", os.O_RDONLY, 0),
            (os.POSIX_SPAWN_OPEN, 1, self.said_file, flags, 0o600),
            (os.POSIX_SPAWN_OPEN, 2, "/dev/null", os.O_WRONLY, 0),
        ])
        status = wait_for(child)
        with open(self.said_file, "rb") as said:
            return status, said.read()

    def counts(self):
        """How many calls of each kind the last run made."""
        return dict(zip(KINDS, struct.unpack(f"{len(KINDS)}Q", self.shared[:])))

    def calls(self, words):
        """The calls of a run: (kind, which one of its kind, descriptor or flags, result, path)."""
        if os.path.exists(self.call_file):
            os.remove(self.call_file)
        self.run(words, log=True)
        with open(self.call_file) as file:
            lines = [line.rstrip("\n").split(" ", 4) for line in file]
        return [(KINDS[int(kind)], int(count), int(number), int(result), path) for kind, count, number, result, path in lines]

    def set_outputs(self, outputs, stand):
        """Outputs as they are before a run: each holds its old text, or is not there."""
        for name in set(os.listdir(".")) - self.inputs:
            os.remove(name)
        for name in outputs if stand else []:
            with open(name, "wb") as out:
                out.write(OLD)

    def outputs(self, outputs):
        """What the outputs hold behind a run, and what else was left in the folder."""
        held = {}
        for name in outputs:
            if os.path.exists(name):
                with open(name, "rb") as file:
                    held[name] = file.read()
        left = sorted(set(os.listdir(".")) - self.inputs - set(outputs))
        return held, left


def wait_for(child):
    def late(_signal, _frame):
        os.kill(child, signal.SIGKILL)
        raise TimeoutError

    signal.signal(signal.SIGALRM, late)
    signal.alarm(SECONDS)
    try:
        _, status = os.waitpid(child, 0)
        return os.waitstatus_to_exitcode(status)
    except TimeoutError:
        os.waitpid(child, 0)
        return None
    finally:
        signal.alarm(0)


class Judge:
    """What a run of a command must come to, by the run in which nothing is refused."""

    def __init__(self, program, command):
        self.words, self.names = COMMANDS[command]
        self.program, self.is_session = program, command == "session"
        program.set_outputs(self.names, True)
        self.status, self.said = program.run(self.words)
        self.counts = program.counts()
        self.held, left = program.outputs(self.names)
        if left:
            sys.exit(f"{self.words}: it leaves {left}")

    def fault(self, status, said, stand, statuses, line_may_be_cut=False):
        """What is wrong of a run that may end with one of these statuses, or empty. The line that names a status other than 0
        is said behind the work, and the status stands where it can't be written."""
        held, left = self.program.outputs(self.names)
        old = {name: OLD for name in self.names} if stand else {}
        if status is None or status < 0:
            return f"ended by signal {status and -status}"
        if status not in statuses:
            return f"status {status}"
        if left:
            return f"left {left}"
        if status == self.status:
            is_said = said == self.said or (line_may_be_cut and self.said.startswith(said))
            return "" if held == self.held and is_said else "ordinary status and other bytes"
        if self.is_session and held != old:
            return "" if self.held["out"].startswith(held.get("out", OLD)) else "other bytes in OUT"
        return "" if held == old else "torn outputs"


def begins(said, *texts):
    """Whether a text is a beginning of the first one, followed by a beginning of the next, and so on."""
    rests = {said}
    for text in texts:
        rests = {rest[count:] for rest in rests for count in range(min(len(text), len(rest)) + 1) if text.startswith(rest[:count])}
    return b"" in rests
