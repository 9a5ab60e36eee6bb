#!/usr/bin/env python3
"""Runs the examples, and compares what they print and keep with what stands beside them.

    bench/examples.py [PROGRAM]

PROGRAM is the proved program, by default crates/plcr_tool/out/plcr_tool. The logs and the images of each report were
worked out by hand from docs/script-and-log.md. The cores of one thread and of eight images have to be those that
examples/cores.py writes. The frames of the core of real code have to be those of examples/signal.truth, which no
unwinder has a part in (examples/README.md); its report is read by bench/reference.py. Ends with status 1 at the first
difference.
"""
import os
import re
import subprocess
import sys
import tempfile

from measuring import HERE, program
from reference import shown

EXAMPLES = os.path.join(HERE, "..", "examples")
sys.path.insert(0, EXAMPLES)
from cores import CORES  # noqa: E402

PROGRAM = program()
SYSTEM = "app libsys.dylib libdelta.dylib libalpha.dylib libbeta.dylib libzeta.dylib"
# the core, the script, its log, and the names of the images of each report that is kept
RUNS = [
    ("one_thread.core", "one_thread.script", "1 report a.plcrash 271 0 0 0\n", {"a.plcrash": ""}),
    ("eight_images.core", "frozen.script", None,
     {"before.plcrash": "A B C", "linked.plcrash": "A B C D", "walked.plcrash": "B C D E", "last.plcrash": "C D E"}),
    ("signal.core", "signal.script", None, {"out.plcrash": SYSTEM}),
]


# scripts that run side by side, their log, and the images of the one report that no other script has a part in
SIDES = ("eight_images.core", ["side_one.script", "side_two.script"], "side_by_side.log", {"one.plcrash": "A B"})


def example(name, mode="r"):
    with open(os.path.join(EXAMPLES, name), mode) as file:
        return file.read()


def same(what, got, want):
    if got != want:
        sys.exit("%s: %r, and not %r" % (what, got, want))


def said(folder, *words):
    ended = subprocess.run([PROGRAM, *words], cwd=folder, capture_output=True, text=True)
    same(" ".join(words) + " ends", ended.returncode, 0)
    return ended.stdout


def with_lengths(folder, log):
    """The log with each `*` in the place of a report's length as the length that its file has."""
    return re.sub(r"report (\S+) \*", lambda found: "report %s %d" % (
        found.group(1), os.path.getsize(os.path.join(folder, found.group(1)))), log)


def fits(log, pattern):
    """Whether a log is as this one, which has `*` for each word that depends on how the threads ran."""
    return re.fullmatch(re.escape(pattern).replace(r"\*", r"\d+"), log) is not None


def images(folder, report):
    rows = [line.split() for line in said(folder, "show", report).splitlines()]
    return " ".join(os.path.basename(row[3]) for row in rows if row[0] == "image")


def frames_in(path):
    """The frames of each thread of a report, each as its pc and its symbol's name and address."""
    with open(path, "rb") as file:
        status, text = shown(file.read())
    same(path + " is read", status, 0)
    threads = []
    for words in (line.split(" ") for line in text.splitlines()):
        if words[0] == "thread":
            threads.append([])
        elif words[0] == "frame":
            symbol = (words[3], int(words[4], 16)) if len(words) > 3 else None
            threads[-1].append((int(words[2], 16), symbol))
    return threads


def truth(name):
    """The frames of each thread whose frames the rules can find whole, by its number."""
    threads, last = {}, None
    for line in example(name).splitlines():
        head = re.match(r"thread (\d+),", line)
        if head:
            last = threads.setdefault(int(head.group(1)), [])
        else:
            words = line.split()
            last.append((int(words[0], 16), (words[1], int(words[3], 16))))
    return threads


for name, content in CORES.items():
    same(name + " is another", example(name, "rb") == content, True)
for core, script, log, reports in RUNS:
    with tempfile.TemporaryDirectory() as folder:
        for name in (core, script):
            os.symlink(os.path.abspath(os.path.join(EXAMPLES, name)), os.path.join(folder, name))
        printed = said(folder, "report", core, script)
        kept = sorted(set(os.listdir(folder)) - {core, script})
        same(script + " keeps", kept, sorted(reports))
        want = log or example(script.replace(".script", ".log"))
        same(script + " prints", printed, with_lengths(folder, want))
        for report, names in reports.items():
            same(report + " has the images", images(folder, report), names)
        if core == "signal.core":
            found, wanted = frames_in(os.path.join(folder, "out.plcrash")), truth("signal.truth")
            for thread, frames in wanted.items():
                same("thread %d of signal.core has the frames" % thread, found[thread], frames)
            print("signal.core: %d threads with %d frames, as they were" % (len(wanted), sum(map(len, wanted.values()))))
core, scripts, log, reports = SIDES
with tempfile.TemporaryDirectory() as folder:
    for name in (core, *scripts):
        os.symlink(os.path.abspath(os.path.join(EXAMPLES, name)), os.path.join(folder, name))
    printed = said(folder, "threads", core, *scripts)
    if not fits(printed, example(log)):
        sys.exit("%s: %r, and not %r" % (log, printed, example(log)))
    for report, names in reports.items():
        same(report + " has the images", images(folder, report), names)
    found = images(folder, "two.plcrash").split()
    same("two.plcrash has images in the order of their loads", found in ([], ["A"], ["A", "B"]), True)
print("the examples print and keep what they are to")
