"""Writes that fail: a full device, a closed pipe, a limit on the size of files, a folder that can't be written.

    python3 bench/disk.py [PROGRAM]

PROGRAM is the proved program, by default crates/plcr_tool/out/plcr_tool. It runs through `./plcr`, which builds that
program first where it has to, and by itself, with the signal of too large a file ignored and not. Each run has to end with
status 5 and its line, with just the files before the one that failed, and with no `.part`; but for that signal, which ends
the program by itself and leaves `a.part`. Ends with status 1 at the first run that does anything else; what the machine has
no means for is told as skipped.
"""
import collections
import contextlib
import os
import resource
import signal
import struct
import subprocess
import sys
import tempfile

from measuring import HERE, program

PROGRAM = program()
LAUNCHER = os.path.abspath(os.path.join(HERE, "..", "plcr"))
NOBODY = 65534
SCRIPT = b"report 0 a\nreport 0 b\n"
REPORT = ["report", "core", "script"]
SHOW = ["show", "r"]
CLOSING = ["sh", "-c", 'exec "$@" >&-', "sh"]

Way = collections.namedtuple("Way", "name command ignores")
Ended = collections.namedtuple("Ended", "status said left")
# the signal is ignored by the launcher, by whoever starts the program, or not at all
WAYS = [Way("./plcr", [LAUNCHER], False), Way("the signal ignored", [PROGRAM], True), Way("the signal not ignored", [PROGRAM], False)]


def core(threads):
    state = struct.pack("<4I", 4, 184, 4, 42) + struct.pack("<21Q", *range(0x7000, 0x7015))
    segment = struct.pack("<II16xQQQQIIII", 0x19, 72, 0x7000, 0x1000, 0, 0, 3, 3, 0, 0)
    header = struct.pack("<8I", 0xFEEDFACF, 0x01000007, 3, 4, 1 + threads, 72 + 184 * threads, 0, 0)
    return header + segment + state * threads


def put(folder, things):
    """Makes these in the folder: of a name its bytes, None for a folder, or the path that a link leads to."""
    for name, thing in things.items():
        path = os.path.join(folder, name)
        if thing is None:
            os.mkdir(path)
        elif isinstance(thing, str):
            os.symlink(thing, path)
        else:
            with open(path, "wb") as file:
                file.write(thing)


def found(folder):
    """What stands in the folder, told as `put` takes it."""
    things = {}
    for item in os.scandir(folder):
        if item.is_symlink():
            things[item.name] = os.readlink(item.path)
        elif item.is_dir():
            things[item.name] = None
        else:
            with open(item.path, "rb") as file:
                things[item.name] = file.read()
    return things


def run(way, words, folder, room=None, output=subprocess.PIPE, user=None):
    """Runs in the folder, with so many bytes at most for a file, and gives status, what was printed and what is left."""
    def begin():
        if room is not None:
            resource.setrlimit(resource.RLIMIT_FSIZE, (room, room))
        if user is not None:
            os.setgroups([])
            os.setgid(user)
            os.setuid(user)
    ended = subprocess.run([*way.command, *words], cwd=folder, stdin=subprocess.DEVNULL, stdout=output,
                           stderr=subprocess.PIPE, restore_signals=not way.ignores, preexec_fn=begin)
    sys.stderr.buffer.write(ended.stderr)
    return Ended(ended.returncode, ended.stdout, found(folder))


def run_on(way, words, things, **how):
    """Runs in a new folder with these things."""
    with tempfile.TemporaryDirectory() as folder:
        put(folder, things)
        return run(way, words, folder, **how)


def brief(ended):
    sizes = {name: thing if thing is None or isinstance(thing, str) else len(thing) for name, thing in ended.left.items()}
    return "status %d, %r, files %s" % (ended.status, (ended.said or b"")[:200], sizes)


def same(what, got, want):
    if got != want:
        sys.exit("%s\n got %s\nwant %s" % (what, brief(got), brief(want)))


def line(number, name, report):
    return b"%d report %s %d 0 0 0\n" % (number, name, len(report))


def whole(threads):
    """The inputs, the report that is made of them, and its text, with ample room."""
    things = {"core": core(threads), "script": SCRIPT}
    made = run_on(WAYS[0], REPORT, things)
    report = made.left.get("a", b"")
    same("ample room", made, Ended(0, line(1, b"a", report) + line(2, b"b", report), {**things, "a": report, "b": report}))
    shown = run_on(WAYS[0], SHOW, {"r": report})
    same("ample room", shown, Ended(0, shown.said, {"r": report}))
    return things, report, shown.said


def closed_pipe():
    reading, writing = os.pipe()
    os.close(reading)
    return os.fdopen(writing, "wb")


def standard_output(things, report, _):
    """A standard output that is full, a closed pipe or none: the first line fails, behind the file that it tells of."""
    cases = [(REPORT, things, 5, {"a": report}), (SHOW, {"r": report}, 5, {}), (["show", "core"], things, 6, {}),
             (["show", "none"], {}, 2, {}), (["report", "script", "script"], things, 3, {}), ([], {}, 1, {})]
    full = lambda: open("/dev/full", "wb")
    for what, opened, front in [("full", full, []), ("a closed pipe", closed_pipe, []), ("closed", full, CLOSING)]:
        for way in WAYS:
            for words, before, status, made in cases:
                with opened() as output:
                    got = run_on(way._replace(command=front + way.command), words, before, output=output)
                same("standard output is %s, %s, %s" % (what, way.name, words), got, Ended(status, None, {**before, **made}))
    print("a standard output that is full, a closed pipe or closed: status 5, or that of the refusal")


def size_limits(things, report, text):
    """A limit on the size of files, from nothing to a byte less than the report."""
    near = [size + more for size in [1, 256, 4096, 16384] for more in [-1, 0, 1]]
    rooms = [room for room in [*near, *range(5003, len(report), 5003), len(report) - 1] if room < len(report)]
    ended = -signal.SIGXFSZ
    for way in WAYS:
        dies = way.command == [PROGRAM] and not way.ignores
        for room in rooms:
            got = run_on(way, REPORT, things, room=room)
            want = Ended(ended, b"", {**things, "a.part": report[:room]}) if dies else Ended(5, b"cannot write a\n", things)
            same("files of %d bytes, %s" % (room, way.name), got, want)
            with tempfile.TemporaryFile() as output:
                got = run_on(way, SHOW, {"r": report}, room=room, output=output)
                output.seek(0)
                want = Ended(ended if dies else 5, text[:room], {"r": report})
                same("a text of %d bytes, %s" % (room, way.name), got._replace(said=output.read()), want)
    print("%d limits below that: status 5; ended by the signal, with a.part, where it isn't ignored" % len(rooms))


def names_taken(things, report, _):
    """Outputs that can't be made, written or kept, since something else stands in their place."""
    first = line(1, b"a", report)
    cases = [("a.part is a folder", {"a.part": None}, b"cannot write a\n", {"a.part": None}),
             ("a is a folder", {"a": None}, b"cannot write a\n", {"a": None}),
             ("a.part is a full device", {"a.part": "/dev/full"}, b"cannot write a\n", {}),
             ("b.part is a full device", {"b.part": "/dev/full"}, first + b"cannot write b\n", {"a": report})]
    for way in WAYS:
        for what, more, said, left in cases:
            got = run_on(way, REPORT, {**things, **more})
            same("%s, %s" % (what, way.name), got, Ended(5, said, {**things, **left}))
    print("outputs that can't be made, written or kept: status 5")


def may_run(way, folder, user):
    with contextlib.suppress(OSError):
        return run(way, [], folder, user=user).status == 1


def closed_folder(things, _report, _text):
    """A folder that can't be written. No folder is closed to root, so the program runs as nobody then."""
    user = NOBODY if os.geteuid() == 0 else None
    with tempfile.TemporaryDirectory() as folder:
        put(folder, things)
        os.chmod(folder, 0o555)
        for way in WAYS:
            if not may_run(way, folder, user):
                print("skipped: a folder that can't be written, %s: nobody may not run it" % way.name)
                continue
            got = run(way, REPORT, folder, user=user)
            same("a folder that can't be written, %s" % way.name, got, Ended(5, b"cannot write a\n", things))
            print("a folder that can't be written, %s: status 5" % way.name)
        os.chmod(folder, 0o700)


def main():
    # with what it tells where it has to build
    if subprocess.run([LAUNCHER], stdout=subprocess.DEVNULL).returncode != 1:
        sys.exit("./plcr doesn't run")
    for threads in [1, 300]:
        given = whole(threads)
        print("reports of %d bytes:" % len(given[1]))
        for part in [standard_output, size_limits, names_taken, closed_folder]:
            part(*given)


if __name__ == "__main__":
    main()
