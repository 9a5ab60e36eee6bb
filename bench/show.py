"""Processor time and peak memory of `show` on large reports, beside `protoc --decode_raw` where that is installed.

    python3 bench/show.py [PROGRAM]

PROGRAM is the proved program, by default crates/plcr_tool/out/plcr_tool. Reports are made in a folder of their own,
run one by one, and removed; what is printed goes to the null device. Growth is the ratio to the line before of the
same kind, per doubling of the size. The room of a result is what its rows and texts take: a row of fixed size for each
thread, frame, register and image, and for each text what the C library's allocator gives it. Ends with status 1 where
the peak of a 64 MB file is above the file and its result, or growth from 8 MB on is above 2.1.
"""
import os
import shutil
import subprocess
import sys
import tempfile

from measuring import growth, measured, program, ratios

PROGRAM = program()
HEAD = b"plcrash\x01"
LIMIT = 67_108_864
MB = 1_048_576


def varint(number):
    groups = []
    while number > 127:
        groups.append(number % 128 + 128)
        number //= 128
    return bytes(groups + [number])


def field(number, value):
    if isinstance(value, int):
        return varint(number * 8) + varint(value)
    return varint(number * 8 + 2) + varint(len(value)) + value


SYSTEM = field(1, field(1, 0) + field(2, b"0") + field(3, 1) + field(4, 0))
APPLICATION = field(2, field(1, b"app") + field(2, b"1"))
SIGNAL = field(6, field(1, b"SIGABRT") + field(2, b"#0") + field(3, 0))
REGISTERS = b"".join(field(4, field(1, b"r%d" % i) + field(2, 0x100000F50 + i)) for i in range(21))
FRAME = field(2, field(3, 0x100000F50))
SYMBOL_FRAME = field(2, field(3, 0x100000F50) + field(6, field(1, b"_main") + field(2, 0x100000F00)))


# the rows of a result in memory
THREAD_ROOM, FRAME_ROOM, REGISTER_ROOM, IMAGE_ROOM = 64, 64, 32, 104
# what the program takes whatever it reads
OWN = 5_000_000
MOST_GROWTH = 2.1
# the best of so many runs counts
ROUNDS = 3


def text_room(count):
    """What the allocator takes for a text: a word beside it, in steps of 16 bytes, and 32 at least; none for none."""
    return max(32, (count + 8 + 15) // 16 * 16) if count else 0


REGISTERS_ROOM = sum(REGISTER_ROOM + text_room(len(b"r%d" % i)) for i in range(21))


def rows(row, size, room):
    """A report of so many bytes at most, of this row over and over, and the room of its result."""
    rest = APPLICATION + SIGNAL
    count = (size - len(HEAD + SYSTEM + rest)) // len(row)
    return HEAD + SYSTEM + row * count + rest, count * room


def threads(frames, frame, registers):
    return field(3, field(1, 0) + frame * frames + field(3, 0) + registers)


def of_threads(frame, frame_room):
    row, room = threads(512, frame, REGISTERS), THREAD_ROOM + 512 * frame_room + REGISTERS_ROOM
    return lambda size: rows(row, size, room)


def one_thread(size):
    room = size - len(HEAD + SYSTEM + APPLICATION + SIGNAL) - 20
    frame = field(2, field(3, 0))
    count = room // len(frame)
    return HEAD + SYSTEM + APPLICATION + threads(count, frame, b"") + SIGNAL, count * FRAME_ROOM


def last_lacks(size):
    """Threads of which the last lacks its fields, so that the report is refused."""
    whole, _ = rows(threads(0, b"", b""), size - 2, 0)
    end = APPLICATION + SIGNAL
    return whole[:-len(end)] + field(3, b"") + end, 0


# each kind: how a file of a size is made, and what its result takes
KINDS = {
    "threads of 512 frames": of_threads(FRAME, FRAME_ROOM),
    "threads of 512 frames with symbols": of_threads(SYMBOL_FRAME, FRAME_ROOM + text_room(len(b"_main"))),
    "shortest threads": lambda size: rows(threads(0, b"", b""), size, THREAD_ROOM),
    "one thread of shortest frames": one_thread,
    "shortest images": lambda size: rows(field(4, field(1, 0) + field(2, 0) + field(3, b"")), size, IMAGE_ROOM),
    "unknown fields": lambda size: rows(field(15, 0), size, 0),
    "parts of the system, each empty": lambda size: rows(field(1, b""), size, 0),
    "hostile: threads without a field": lambda size: rows(field(3, b""), size, 0),
    "hostile: the last thread without one": last_lacks,
}


def raw(folder):
    if not shutil.which("protoc"):
        return ""
    subprocess.run("tail -c +9 r > message", shell=True, cwd=folder, check=True)
    with open(os.path.join(folder, "message"), "rb") as source:
        seconds, peak, status, _ = measured(["protoc", "--decode_raw"], folder, source)
    return "; protoc --decode_raw %.3f s, %.1f MB, status %d" % (seconds, peak / 1e6, status)


def shown(kind, size, before, folder):
    """Runs one file, prints its line, and gives what the next line and the verdict need."""
    path = os.path.join(folder, "r")
    whole, room = KINDS[kind](size)
    with open(path, "wb") as file:
        file.write(whole)
    runs = [measured([PROGRAM, "show", "r"], folder) for _ in range(ROUNDS)]
    seconds, peak, status, _ = min(runs)
    print("%-35s %9d bytes %8.3f s %7.1f MB peak, x%.1f of the file, %.2f of file and result, status %d%s%s" % (
        kind, len(whole), seconds, peak / 1e6, peak / len(whole), peak / (len(whole) + room + OWN), status,
        growth(before, len(whole), seconds, peak), raw(folder)), flush=True)
    os.remove(path)
    return (len(whole), seconds, peak), peak <= len(whole) + room + OWN


def main():
    with tempfile.TemporaryDirectory() as folder:
        wrong = []
        for kind in KINDS:
            before, _ = shown(kind, MB, None, folder)
            before, _ = shown(kind, 8 * MB, before, folder)
            last, fits = shown(kind, LIMIT, before, folder)
            if not fits:
                wrong.append("the peak is above the file and its result: " + kind)
            if max(ratios(before, *last)) > MOST_GROWTH:
                wrong.append("growth is above %.1f: %s" % (MOST_GROWTH, kind))
        if wrong:
            sys.exit("\n".join(wrong))


if __name__ == "__main__":
    main()
