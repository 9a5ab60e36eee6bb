"""Scripts on threads: runs `threads` many times, judges each log and each file, and tells the time beside `report` alone.

    python3 bench/threads.py [PROGRAM [RUNS [FIRST]]]

PROGRAM is the proved program, by default crates/plcr_tool/out/plcr_tool (`rt run` in crates/plcr_tool leaves it). RUNS is
how many times the scripts run, by default 20, and FIRST the number of the first run, by default 1: each number has scripts
of its own, so that parts of many runs can go side by side. The first twenty runs tell the time of `report` too.

Eight scripts of thousands of lines each load, unload, walk and report on a core of eight images, over a list of few nodes,
so that some loads find none free. The judge is plain Python and knows nothing of the program: it replays the journal as one
list, and then looks at each other line by what the journal allows.

It judges:
- the journal has each load and unload line of each script once, in the script's order;
- each line of the journal came to what the lines before it make of it; a full list has as many images as the journal says,
  and all its nodes are in use;
- the other lines stand script by script, one for each statement;
- each window lies within what the script's own changes allow, and its report has images of lists of that window alone, in
  the order of their loads, with all that were in each of these lists;
- each file has as many bytes and images as its line says.

A run opens all files of its reports before its workers start, so it needs as many open files as there are report lines.
"""
import bisect
import os
import random
import re
import resource
import subprocess
import sys
import tempfile
import time

from measuring import HERE, processor_seconds
from reference import fields, merged

SCRIPTS = 8
LINES = 3000
REPORTS = 200
TIMED = 20
NODES = 6
HEADERS = [0x100000000 + 0x4000 * k for k in range(8)]
COUNT_UNIT = 1 << 32


def words(*numbers, size):
    return b"".join(number.to_bytes(size, "little") for number in numbers)


def segment(start, size, at, length, protection):
    return words(0x19, 72, 0, 0, 0, 0, size=4) + words(start, size, at, length, size=8) + words(protection, protection, 0, 0, size=4)


def core_file():
    """A core of one stopped thread, with eight images that have a segment and a uuid each."""
    commands = [segment(header, 0x4000, 864 + 128 * k, 128, 5) for k, header in enumerate(HEADERS)]
    commands.append(segment(0x7000, 0x1000, 0, 0, 3))
    registers = [{7: 0x7000, 16: 0x100000F50}.get(k, 0) for k in range(21)]
    commands.append(words(4, 184, 4, 42, size=4) + words(*registers, size=8))
    head = words(0xFEEDFACF, 0x01000007, 3, 4, len(commands), sum(map(len, commands)), 0, 0, size=4)
    images = b""
    for k, header in enumerate(HEADERS):
        images += words(0xFEEDFACF, 0x01000007, 3, 6, 2, 96, 0, 0, size=4)
        images += b"\x19\0\0\0\x48\0\0\0__TEXT" + bytes(10) + words(header, 0x4000, 0, 0x4000, size=8) + words(5, 5, 0, 0, size=4)
        images += words(0x1B, 24, size=4) + bytes(15) + bytes([k])
    whole = head + b"".join(commands)
    return whole + images


def script(number, chance):
    """Lines of a script, and for each its words."""
    lines = ["table %d 1" % NODES] if number == 1 else []
    inside, reports = False, 0
    while len(lines) < LINES:
        header = chance.choice(HEADERS)
        kind = chance.random()
        if kind < 0.45:
            lines.append("load %#x n%d.%d" % (header, number, len(lines) + 1))
        elif kind < 0.85:
            lines.append("unload %#x" % header)
        elif kind < 0.9 and reports < REPORTS:
            reports += 1
            inside = False
            lines.append("report 0 f%d.%d" % (number, len(lines) + 1))
        elif inside:
            if chance.random() < 0.5:
                lines.append("walk 0 %d" % chance.randrange(4))
            else:
                lines.append("leave 0")
                inside = False
        else:
            lines.append("enter 0")
            inside = True
    return lines


class Wrong(Exception):
    pass


def need(holds, *what):
    if not holds:
        raise Wrong(" ".join(map(str, what)))


def replay(journal, scripts):
    """The lists after each change, and for each script its lines in order, each with the number of changes before and after it."""
    lists, loads, unloads = [[]], 0, 0
    changes = [[] for _ in scripts]
    asked = [iter([k for k, line in enumerate(own, 1) if line.split()[0] in ("load", "unload")]) for own in scripts]
    for number, line, said in journal:
        need(next(asked[number - 1], None) == line, "line out of order", number, line)
        parts, now, before = scripts[number - 1][line - 1].split(), lists[-1], len(lists) - 1
        header = int(parts[1], 0)
        if parts[0] == "load":
            if said[0] == "full":
                live, held, seen = map(int, said[1:])
                need(live == len(now) and live + held == NODES, "full", number, line)
                need(seen // COUNT_UNIT == before and seen % COUNT_UNIT <= len(scripts), "seen", number, line)
                need(held == 0 or seen % COUNT_UNIT > 0, "held without a reader", number, line)
                need(held <= unloads, "more held than unloaded", number, line)
            else:
                loads += 1
                need(said == ["load", str(loads)], "load", number, line, said)
                need(len(now) < NODES, "more images than nodes", number, line)
                lists.append(now + [(loads, header, parts[2])])
        else:
            found = [image for image in now if image[1] == header]
            if found:
                need(said == ["unload", str(found[0][0])], "unload", number, line, said)
                lists.append([image for image in now if image is not found[0]])
                unloads += 1
            else:
                need(said == ["notloaded"], "notloaded", number, line, said)
        changes[number - 1].append((line, before, len(lists) - 1))
    for number, rest in enumerate(asked, 1):
        need(next(rest, None) is None, "lines that are not in the journal", number)
    return lists, changes


def bounds(changes, enter, leave, last):
    """How many changes a hold saw at least as it went in, and at most as it came out."""
    below = bisect.bisect_left(changes, enter, key=lambda change: change[0])
    above = bisect.bisect_right(changes, leave, key=lambda change: change[0])
    return changes[below - 1][2] if below else 0, changes[above][1] if above < len(changes) else last


def images_in(data):
    """The headers and names of a report's images, in their order."""
    report = merged("root", fields("root", data, 8, len(data)))
    return [(image[1], image[3].decode()) for image in report[4]]


def walk_in(lists, low, high, found):
    """Whether the images are of lists of the window alone, in the order of their loads, with all that were in each of these."""
    window = [{(header, name): load for load, header, name in images} for images in lists[low:high + 1]]
    loads = {image: load for images in window for image, load in images.items()}
    numbers = [loads.get(image, 0) for image in found]
    rising = all(a < b for a, b in zip([0, *numbers], numbers))
    return rising and set.intersection(*map(set, window)) <= set(found)


def judge_others(number, own, others, lists, changes, files):
    """The other lines of a script."""
    wanted = [k + 1 for k, line in enumerate(own) if line.split()[0] in ("enter", "walk", "leave", "report")]
    need([line for line, _ in others] == wanted, "other lines of", number)
    enter, met, ended, last = None, 0, False, len(lists) - 1
    for line, said in others:
        parts = own[line - 1].split()
        need(said[0] == parts[0], "kind of line", number, line)
        if parts[0] == "enter":
            enter, met, ended = line, 0, False
        elif parts[0] == "walk":
            base, most = met, int(parts[2])
            met = int(said[2])
            if ended:
                need(said[3] == "end" and met == base, "walk after its end", number, line)
            elif said[3] == "more":
                need(met == base + most, "walk on", number, line)
            else:
                need(base <= met < base + most, "walk to its end", number, line)
            ended = said[3] == "end"
        else:
            low, high = int(said[-2]), int(said[-1])
            first, most = bounds(changes, enter or line, line, last)
            need(low <= high <= last, "window", number, line)
            need(low + 1 >= first and high <= most, "fresh", number, line, low, high, first, most)
            if parts[0] == "leave":
                need(int(said[2]) == met, "images of a leave", number, line)
            else:
                size, images = int(said[2]), int(said[3])
                need(images >= met and (not ended or images == met), "images of a report", number, line)
                need(said[1] in files, "no file", number, line)
                data = files[said[1]]
                found = images_in(data)
                need(len(data) == size and len(found) == images, "bytes", number, line)
                need(walk_in(lists, max(low, first), min(high + 1, most), found), "walk", number, line)
            enter, met, ended = None, 0, False


def judge(log, scripts, folder):
    """Raises `Wrong` where a log, or a file, is none that the rules allow."""
    rows = []
    for row in log.splitlines():
        place, *said = row.split()
        number, line = map(int, place.split(":"))
        rows.append((number, line, said))
    kinds = {"load", "unload", "full", "notloaded"}
    count = next((k for k, row in enumerate(rows) if row[2][0] not in kinds), len(rows))
    journal, rest = rows[:count], rows[count:]
    need(all(row[2][0] not in kinds for row in rest), "journal in parts")
    need([row[0] for row in rest] == sorted(row[0] for row in rest), "other lines out of order")
    lists, changes = replay(journal, scripts)
    files = {name: open(os.path.join(folder, name), "rb").read() for name in os.listdir(folder) if name.startswith("f")}
    for number, own in enumerate(scripts, 1):
        others = [(line, said) for k, line, said in rest if k == number]
        judge_others(number, own, others, lists, changes[number - 1], files)
    return len(journal), sum(1 for a, b in zip(journal, journal[1:]) if a[0] != b[0]), len(files)


def run(program, words, folder):
    def limit():
        hard = resource.getrlimit(resource.RLIMIT_NOFILE)[1]
        most = 4096 if hard == resource.RLIM_INFINITY else min(4096, hard)
        resource.setrlimit(resource.RLIMIT_NOFILE, (most, hard))
    begun, used = time.perf_counter(), processor_seconds()
    done = subprocess.run([program, *words], cwd=folder, stdout=subprocess.PIPE, preexec_fn=limit, check=False)
    return done.returncode, done.stdout.decode(), (time.perf_counter() - begun, processor_seconds() - used)


def main():
    program = os.path.abspath(sys.argv[1] if len(sys.argv) > 1 else os.path.join(HERE, "..", "crates", "plcr_tool", "out", "plcr_tool"))
    runs = int(sys.argv[2]) if len(sys.argv) > 2 else 20
    first = int(sys.argv[3]) - 1 if len(sys.argv) > 3 else 0
    wrong, threads, alone = 0, [], []
    for turn in range(first, first + runs):
        chance = random.Random(turn)
        scripts = [script(number, chance) for number in range(1, SCRIPTS + 1)]
        with tempfile.TemporaryDirectory() as folder:
            open(os.path.join(folder, "q"), "wb").write(core_file())
            names = []
            for number, lines in enumerate(scripts, 1):
                names.append("s%d" % number)
                open(os.path.join(folder, names[-1]), "w").write("".join(line + "\n" for line in lines))
            status, log, seconds = run(program, ["threads", "q", *names], folder)
            try:
                need(status == 0, "status", status, log[-200:])
                lines, changed, files = judge(log, scripts, folder)
                print("run %d: %d lines in the journal, which went %d times to another script; %d files; %.2f s" % (turn + 1, lines, changed, files, seconds[0]))
                threads.append(seconds)
            except Wrong as fault:
                wrong += 1
                print("run %d: WRONG: %s" % (turn + 1, fault))
            if len(alone) < TIMED:
                whole = [line for lines in scripts for line in lines]
                open(os.path.join(folder, "all"), "w").write("".join(line + "\n" for line in settle(whole)))
                status, _, seconds = run(program, ["report", "q", "all"], folder)
                if status == 0:
                    alone.append(seconds)
    print("%d runs, %d wrong" % (runs, wrong))
    if threads and alone:
        for name, took in (("threads", threads), ("report alone", alone)):
            wall, used = (sorted(t[k] for t in took)[len(took) // 2] for k in (0, 1))
            print("%s: %.2f s, %.2f s of processors (medians)" % (name, wall, used))
    return 1 if wrong else 0


def settle(lines):
    """The same lines as one script: a pass that one part leaves inside comes out before the next begins."""
    inside = False
    for line in lines:
        kind = line.split()[0]
        if kind == "enter" and inside:
            yield "leave 0"
        if kind in ("walk", "leave") and not inside:
            continue
        inside = {"enter": True, "leave": False, "report": False}.get(kind, inside)
        yield line


if __name__ == "__main__":
    sys.exit(main())
