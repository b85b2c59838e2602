#!/usr/bin/env python3
"""Measures what the largest valid inputs of each command cost, and prints them as a table for docs/LIMITS.md.

    tools/limits.py PROGRAM [SECONDS]     PROGRAM is the proved program, as `rt run` leaves it at crates/ras/out/ras;
                                          a run that takes longer than SECONDS (600) is stopped, and told so

It is outside the gate. Time is processor time of the program, memory its largest resident set. A kind of input is run at
half of its limit, where that can be made, and at its limit: the time of a kind that grows quadratically rises fourfold.
"""

import os
import subprocess
import sys
import tempfile
import threading

from hostile_files import DEN, region_of
from worked_rows import HEAD, LINES, UNBOUND, document, part, requests

YES = '[["bound",1,[]]]'


def servers(count):
    """Servers on 64 switchboards, a plan that bounds nothing."""
    return region_of(count, 64)


def names(count):
    """Servers whose names have 64 bytes."""
    files = region_of(count, 64)
    lines = [f"{'s' * 58}{at:06},t,{'k' * 58}{at:06},m{at % 64},d1\n" for at in range(count)]
    given = ",".join(f'"{"s" * 58}{at:06}":"a"' for at in (1, 2))
    region = f'{{"assignment":{{{given}}},"gap":4,"lower":0,"tree":{YES},"value":4}}'
    return {**files, "inventory": HEAD + "".join(lines), "plan": document(region, 4)}


def reservations(count):
    """So many reservations of which all but one value 1,000 types."""
    files = region_of(64, 64)
    values = ",".join(f'"u{at}":1' for at in range(999))
    more = [f'{{"name":"r{at}","need":0,"values":{{{values},"v":1}}}}' for at in range(count - 1)]
    files["requests"] = files["requests"].replace('"reservations":[', f'"reservations":[{",".join(more)},')
    return files


def bindings(count):
    """Each of so many servers is bound and down."""
    files = region_of(count, 64)
    lines = "".join(f"s{at},a,1,{int(at < 3)}\n" for at in range(1, count + 1))
    return {**files, "bindings": UNBOUND + lines, "plan": document(part((1, 2), 0, 0, YES, 0), 0)}


def nodes(count):
    """A plan whose tree is a chain of so many splits over 20,000 servers."""
    files = region_of(20_000, 3)
    pairs = [(2 * place, at) for place in range(3) for at in range(6_665, -1, -1)][:count]
    splits = [f'["split",{column},{at},{node + 1},{len(pairs) + 1 + node}]' for node, (column, at) in enumerate(pairs)]
    tree = "[" + ",".join(splits + ['["bound",1,[]]'] * (len(pairs) + 1)) + "]"
    return {**files, "plan": document(part((1, 2), 4, 0, tree, 4), 4)}


def columns(count):
    """A plan over so many servers one by one, whose leaf multiplies each row."""
    files = region_of(count, 2)
    rows = ",".join(f"{at},{DEN}" for at in range(2 * count))
    tree = f'[["bound",{DEN},[{rows}]]]'
    return {**files, "plan": files["plan"].replace('"class"', '"single"').replace(YES, tree)}


def long_plan(mebibytes):
    """A plan of so many MiB, most of them blanks."""
    files = region_of(64, 64)
    return {**files, "plan": files["plan"].replace(YES, " " * ((mebibytes << 20) - len(files["plan"])) + YES)}


def many_leaves(mebibytes):
    """A plan of so many MiB, of leaves that no node names: the second one is the first fault."""
    files = region_of(64, 64)
    leaf = '["bound",1,[0,1,1,1]],'
    count = ((mebibytes << 20) - len(files["plan"])) // len(leaf)
    return {**files, "plan": files["plan"].replace(YES, f'[{leaf * count}["bound",1,[]]]')}


def classes(count):
    """So many kinds of servers, each on one of two switchboards, and needs that part them: the program's columns."""
    lines = [f"s{at},t{at % (count // 2)},k{at},m{at * 2 // count},d1\n" for at in range(count)]
    values = ",".join(f'"t{at}":{500 + 37 * at % 401}' for at in range(count // 2))
    wanted = f'{{"name":"a","need":{60 * count},"values":{{{values}}}}}'
    return {"inventory": HEAD + "".join(lines), "requests": requests(1, wanted), "bindings": UNBOUND}


def alike(count):
    """So many servers of one type on 64 switchboards, half of them needed."""
    files = region_of(count, 64, count // 2)
    return {name: files[name] for name in ("inventory", "requests", "bindings")}


def clash(count):
    """So many reservations of which each wants most of 640 servers."""
    files = region_of(640, 64)
    wanted = ",".join(f'{{"name":"r{at}","need":{400 + at},"values":{{"t":1}}}}' for at in range(count))
    return {**files, "requests": requests(1, wanted)}


def events(count):
    """So many events over 20,000 servers, of which half go to `a`."""
    files = region_of(20_000, 64, 1)
    given = range(1, 10_001)
    files["plan"] = document(part(given, 20_000, 0, YES, 20_000), 20_000)
    lines = "".join(f"{at},joined,s{at % 10_000 + 1}\n" for at in range(count - 1))
    return {**files, "events": f"at,event,server\n0,tick,\n{lines}"}


def failures(count):
    """So many failures and repairs over 20,000 servers, of which half serve `a`."""
    files = {**events(1)}
    words = ("fail", "repair")
    lines = "".join(f"{at},{words[at // 10_000 % 2]},s{at % 10_000 + 1}\n" for at in range(count))
    return {**files, "failures": f"at,event,server\n{lines}"}


# The command, what grows, how many at half of the limit and at the limit, the files, and further words.
KINDS = [
    ("check", "servers", (10_000, 20_000), servers, ()),
    ("check", "names of 64 bytes", (10_000, 20_000), names, ()),
    ("check", "bindings", (10_000, 20_000), bindings, ()),
    ("check", "reservations of 1,000 values", (32, 64), reservations, ()),
    ("check", "splits, one below the other", (10_000, 19_998), nodes, ()),
    ("check", "servers in a program one by one", (511, 1_022), columns, ()),
    ("check", "MiB of a plan, blanks", (32, 64), long_plan, ()),
    ("check", "MiB of a plan, leaves", (16, 32), many_leaves, ()),
    ("solve", "servers that are alike", (10_000, 20_000), alike, ()),
    ("solve", "kinds of servers, 100 nodes", (340, 680), classes, ()),
    ("solve", "kinds of servers, 2,000 nodes", (340, 680), classes, ("--nodes", "2000")),
    ("core", "reservations that clash", (8, 16), clash, ()),
    ("core", "reservations that clash", (16, 64), clash, ("--nodes", "1")),
    ("move", "events", (50_000, 100_000), events, ()),
    ("spare", "failures", (50_000, 100_000), failures, ()),
    ("sample", "NUMBER, at 40 switchboards", (32_768, 65_536), None, ()),
]


def measured(program, line, folder, most):
    """The status, the seconds of processor time and the MiB of a run; a status of `over` where it was stopped."""
    with open(os.devnull, "wb") as none:
        child = subprocess.Popen([program, *line], cwd=folder, stdin=subprocess.DEVNULL, stdout=none, stderr=none)
        clock = threading.Timer(most, child.kill)
        clock.start()
        _, status, used = os.wait4(child.pid, 0)
        clock.cancel()
        child.returncode = os.waitstatus_to_exitcode(status)
    ended = "over" if child.returncode < 0 else str(child.returncode)
    return ended, used.ru_utime + used.ru_stime, used.ru_maxrss / 1024


def words_of(command, count, further):
    """The words of a run."""
    return ["sample", str(count), "40"] if command == "sample" else [*LINES[command], *further]


def main():
    if len(sys.argv) not in (2, 3):
        sys.exit(__doc__)
    program, most = os.path.abspath(sys.argv[1]), float((*sys.argv[2:], 600)[0])
    print("| Command | Input | How many | Status | Time, s | Memory, MiB |\n|---|---|---|---|---|---|")
    with tempfile.TemporaryDirectory() as folder:
        for command, kind, counts, files_of, further in KINDS:
            for count in counts:
                for name, text in (files_of(count) if files_of else {}).items():
                    with open(f"{folder}/{name}", "w") as file:
                        file.write(text)
                ended, seconds, mebibytes = measured(program, words_of(command, count, further), folder, most)
                print(f"| `{command}` | {kind} | {count:,} | {ended} | {seconds:.2f} | {mebibytes:.0f} |", flush=True)
    return 0


if __name__ == "__main__":
    sys.exit(main())
