#!/usr/bin/env python3
"""Refuses octimap's calls of the system: of opening, reading, writing, closing, renaming, syncing and the like.

    bench/faults.py [--feed NAME] [--command NAME] [--kind KIND] [--work FOLDER] [PROGRAM]

Over three small feeds and Vienna's underground, and for each command, notes the calls of a run, and then runs it with each
call refused in turn, by each errno that the manual names for it, and with short transfers; and with all calls of the
kind refused from this one on. Says which status each run has to have: 7 with the path where reading failed, 8 where
writing did, 9 at ENOMEM; that of a missing file at ENOENT; and the ordinary one, with the ordinary bytes, where a call was
interrupted or moved less. Where a run does not end with its ordinary status, the outputs hold what they held before, and
nothing is left beside them; OUT of a session may hold a beginning of its bytes. Prints the counts, and ends with 1 where
a run is wrong. PROGRAM is dist/octimap where none is given.
"""
import argparse
import errno
import os
import sys

from trials import COMMANDS, FEEDS, KINDS, OLD, TOP, Judge, Program, begins

SHORT, NOTHING = 0, -1
ERRORS = {
    "open": "EACCES EBADF EBUSY EDQUOT EEXIST EFAULT EFBIG EINTR EINVAL EISDIR ELOOP EMFILE ENAMETOOLONG ENFILE ENODEV "
            "ENOENT ENOMEM ENOSPC ENOTDIR ENXIO EOPNOTSUPP EOVERFLOW EPERM EROFS ETXTBSY EWOULDBLOCK",
    "read": "EAGAIN EBADF EFAULT EINTR EINVAL EIO EISDIR",
    "write": "EAGAIN EBADF EDESTADDRREQ EDQUOT EFAULT EFBIG EINTR EINVAL EIO ENOSPC EPERM EPIPE",
    "close": "EBADF EINTR EIO ENOSPC EDQUOT",
    "rename": "EACCES EBUSY EDQUOT EFAULT EINVAL EISDIR ELOOP EMLINK ENAMETOOLONG ENOENT ENOMEM ENOSPC ENOTDIR ENOTEMPTY "
              "EEXIST EPERM EROFS EXDEV",
    "sync": "EBADF EINTR EIO ENOSPC EROFS EINVAL EDQUOT",
    "link": "EACCES EDQUOT EEXIST EFAULT EIO ELOOP EMLINK ENAMETOOLONG ENOENT ENOMEM ENOSPC ENOTDIR EPERM EROFS EXDEV",
    "remove": "EACCES EBUSY EFAULT EIO EISDIR ELOOP ENAMETOOLONG ENOENT ENOMEM ENOTDIR EPERM EROFS",
    "stat": "EACCES EBADF EFAULT EINVAL ELOOP ENAMETOOLONG ENOENT ENOMEM ENOTDIR",
    "mode": "EACCES EBADF EFAULT EIO ELOOP ENAMETOOLONG ENOENT ENOMEM ENOTDIR EPERM EROFS",
    "resolve": "EACCES EFAULT EINVAL EIO ELOOP ENAMETOOLONG ENOENT ENOMEM ENOTDIR",
}
TRANSFERS = {"read": [SHORT], "write": [SHORT, NOTHING]}
# A file that can never be removed is left.
LASTING = {"open": "EACCES ENOENT", "read": "EIO", "write": "ENOSPC EIO", "remove": ""}
ABSENT = (errno.ENOENT, errno.ENOTDIR)


class Call:
    """A call of a run, and the file that it is about: an input, a draft of an output (or standard output), or another one.
    Its role is "message" where the run has ended, and it only looks up what standard error is to say."""

    def __init__(self, kind, number, path, role):
        self.kind, self.number, self.path, self.role = kind, number, path, role


def role_of(program, path, flags):
    if path.split("/")[0] in program.inputs and flags & os.O_ACCMODE == os.O_RDONLY and not os.path.isdir(path):
        return "input"
    return "draft" if flags & os.O_CREAT else "other"


def calls_of(program, judge, stand):
    """The calls of a run, each with its file."""
    program.set_outputs(judge.names, stand)
    program.run(f"{judge.words} --quiet")
    quiet = program.counts()
    program.set_outputs(judge.names, stand)
    opened, calls = {1: ("standard output", "draft")}, []
    for kind, number, about, result, path in program.calls(judge.words):
        if kind == "open":
            named = path, role_of(program, path, about)
            opened[result] = named
        else:
            named = (path, "other") if path else opened.get(about, ("", "other"))
        if number > quiet[kind]:
            named = named[0], "message"
        calls.append(Call(kind, number, *named))
    return calls


def status_without(program, judge, path):
    """The status and standard output of a run in which a file is not there."""
    if not os.path.exists(path):
        return judge.status, judge.said
    os.rename(path, "../away")
    program.set_outputs(judge.names, False)
    ended = program.run(judge.words)
    os.rename("../away", path)
    return ended


def is_line(judge, call):
    """Whether a call writes the line of a status other than 0."""
    return call.kind == "write" and call.path == "standard output" and judge.status != 0


def statuses(program, judge, call, code, lasts):
    """The statuses that a run may have, and what it has to print where that is known."""
    ordinary = judge.status
    is_input = call.role == "input"
    if code == SHORT or code == errno.EINTR or call.role == "message":
        return (ordinary,), None
    # All was synced before it is closed; and where no limits are told, there are none. What is refused from the limits on
    # is refused at the inputs too.
    if call.path == "/proc/self/limits" and lasts and call.kind != "close":
        return None, None
    if call.kind == "close" or call.path == "/proc/self/limits":
        return (ordinary,), None
    if code == errno.ENOMEM:
        return (9, ordinary) if call.kind in ("remove", "link", "mode", "stat") else (9,), None
    if is_input and call.kind == "open" and code in ABSENT:
        return (None, None) if lasts else ((lambda ended: ((ended[0],), ended[1]))(status_without(program, judge, call.path)))
    if is_input and call.kind in ("open", "read"):
        return (7,), b"read fault: " + call.path.encode() + b"\n"
    if call.kind == "write":
        return ((ordinary,) if is_line(judge, call) else (8,)), None
    # Where a run ends with another status than 0, its line was said before its outputs are put in place.
    if call.kind == "rename" or (call.kind == "sync" and call.role == "draft"):
        return ((8,) if ordinary == 0 else (8, ordinary)), None
    # What only prepares an output, or cleans up behind it, may be passed over.
    return (8, ordinary), None


def fault_of(program, judge, call, code, how, stand):
    """Runs once; answers the status and what is wrong."""
    allowed, line = statuses(program, judge, call, code, how == "on")
    program.set_outputs(judge.names, stand)
    status, said = program.run(judge.words, (KINDS.index(call.kind), call.number, how, code))
    fault = judge.fault(status, said, stand, allowed if allowed else (status,), is_line(judge, call))
    is_known = allowed is not None and line is None
    if line is not None and said != line:
        fault = fault or f"standard output {said[:60]!r}"
    elif not is_known and status == judge.status and program.outputs(judge.names) == ({name: OLD for name in judge.names} if stand else {}, []):
        # A file that is not there may be refused with the ordinary status; the outputs are what they were then.
        fault = ""
    if not fault and status in (8, 9) and not begins(said, judge.said, b"no memory\n"):
        fault = f"standard output {said[:60]!r}"
    return status, fault


def trials_of(calls):
    """Each call with each way to refuse it."""
    for call in calls:
        codes = [getattr(errno, name) for name in ERRORS[call.kind].split()] + TRANSFERS.get(call.kind, [])
        for code in codes:
            yield call, code, "once"
        for name in LASTING.get(call.kind, "EIO").split():
            yield call, getattr(errno, name), "on"
        if call.kind in ("read", "write"):
            yield call, SHORT, "on"


def name_of(code):
    return {SHORT: "short", NOTHING: "nothing"}.get(code) or errno.errorcode[code]


def main():
    parser = argparse.ArgumentParser(description=__doc__, formatter_class=argparse.RawDescriptionHelpFormatter)
    parser.add_argument("--feed", default="")
    parser.add_argument("--command", default="")
    parser.add_argument("--kind", default="")
    parser.add_argument("--work")
    parser.add_argument("program", nargs="?", default=str(TOP / "dist" / "octimap"))
    given = parser.parse_args()
    program = Program(given.program, given.work)
    runs, wrong, by_kind = 0, 0, {}
    for feed in FEEDS:
        if given.feed not in feed:
            continue
        program.begin(feed)
        for command in COMMANDS:
            if given.command not in command or (command in ("trial", "help") and feed != "one line"):
                continue
            judge = Judge(program, command)
            ended, faults = {}, []
            # The calls differ a little between outputs that stand and outputs that are new.
            for stand in [True, False]:
                for call, code, how in trials_of(calls_of(program, judge, stand)):
                    if given.kind not in call.kind:
                        continue
                    status, fault = fault_of(program, judge, call, code, how, stand)
                    ended[status] = ended.get(status, 0) + 1
                    by_kind[call.kind] = by_kind.get(call.kind, 0) + 1
                    if fault:
                        faults.append(f"{call.kind} {call.number} of {call.path} {how} {name_of(code)}: {fault}")
            runs, wrong = runs + sum(ended.values()), wrong + len(faults)
            print(f"{feed}: {command}: " + ", ".join(f"{count} with status {status}" for status, count in sorted(ended.items(), key=str))
                  + (f"; {len(faults)} WRONG: {faults[:6]}" if faults else ""), flush=True)
    program.end()
    print("faults: " + ", ".join(f"{count} of {kind}" for kind, count in by_kind.items()))
    print(f"{runs} runs with a fault, {wrong} wrong")
    sys.exit(1 if wrong else 0)


if __name__ == "__main__":
    main()
