"""Processor time and peak memory of `report` on an image with a large table of symbols.

    python3 bench/symbols.py [PROGRAM]

PROGRAM is the proved program, by default crates/plcr_tool/out/plcr_tool. A core has 16 threads of
512 frames, all in one image, whose table has up to 1,000,000 rows in no order. Each line is the
best of three runs; growth is the ratio to the line before, per doubling of the rows. Then two
tables that were made to cost much are told beside a good one of their size: all rows at one
address, and names that have no end. Before the times, the symbols of small tables are held against
those that a search of sorted rows gives. Status 0 only where these agree.
"""
import bisect
import os
import struct
import sys
import tempfile

from measuring import growth, measured, program

PROGRAM = program()
SEGMENT = struct.Struct("<II16sQQQQIIII")
ROW = struct.Struct("<IBBHQ")
HEADER, CPU, EXECUTE, CORE = 0xFEEDFACF, 0x01000007, 2, 4
LC_SEGMENT, LC_SYMTAB, LC_THREAD = 0x19, 0x2, 0x4
BASE, TABLES, STACK = 0x100000000, 0x200000000, 0x7000000000
THREADS, FRAMES, STEP = 16, 512, 16
# each line is the best of so many runs
ROUNDS = 3
# a prime that divides none of the counts: it shuffles rows and return addresses
PRIME = 7919


def segment(name, start, size, offset, filesize):
    return SEGMENT.pack(LC_SEGMENT, 72, name, start, size, offset, filesize, 5, 5, 0, 0)


def macho(filetype, commands):
    body = b"".join(commands)
    return struct.pack("<8I", HEADER, CPU, 3, filetype, len(commands), len(body), 0, 0) + body


def image(count, strings):
    """The header and the commands of an image with so many rows and so many bytes of names."""
    text = segment(b"__TEXT", BASE, STEP * count, 0, STEP * count)
    size = 16 * count + strings
    linkedit = segment(b"__LINKEDIT", TABLES, size, 0, size)
    symtab = struct.pack("<6I", LC_SYMTAB, 24, 0, count, 16 * count, strings)
    return macho(EXECUTE, [text, linkedit, symtab])


def good(count):
    """A row for every 16 bytes of code, each with a name of its own."""
    names, places, length = [b"\0"], [], 1
    for index in range(count):
        name = b"_f%d\0" % index
        places.append(length)
        names.append(name)
        length += len(name)
    order = [(index * PRIME) % count for index in range(count)]
    rows = b"".join(ROW.pack(places[i], 0x0F, 1, 0, BASE + STEP * i) for i in order)
    return rows, b"".join(names)


def one_address(count):
    rows, names = good(count)
    fields = ROW.iter_unpack(rows)
    return b"".join(ROW.pack(place, *rest, BASE + STEP) for place, *rest, _ in fields), names


def without_end(count):
    rows, names = good(count)
    return rows, b"x" * len(names)


HOSTILE = (("one address", one_address), ("names without end", without_end))


def targets(count):
    """Where the frames of each thread go back to."""
    places = [(k * PRIME) % count for k in range(THREADS * FRAMES)]
    return [[BASE + 2 + STEP * place for place in places[t * FRAMES:(t + 1) * FRAMES]]
            for t in range(THREADS)]


def stack(goals):
    data = bytearray()
    for t, thread in enumerate(goals):
        for j, goal in enumerate(thread[1:], 1):
            here = STACK + 16 * (FRAMES * t + j)
            data += struct.pack("<2Q", here if j + 1 < FRAMES else 0, goal)
        data += bytes(16)
    return bytes(data)


def thread(number, pc):
    registers = [0] * 21
    registers[6], registers[16] = STACK + 16 * FRAMES * number, pc
    return struct.pack("<4I", LC_THREAD, 184, 4, 42) + struct.pack("<21Q", *registers)


def core(count, rows, names):
    goals = targets(count)
    pieces = [(BASE, STEP * count, image(count, len(names))),
              (TABLES, None, rows + names), (STACK, None, stack(goals))]
    offset = 32 + 72 * len(pieces) + 184 * THREADS
    commands = []
    for start, size, data in pieces:
        commands.append(segment(b"", start, size or len(data), offset, len(data)))
        offset += len(data)
    commands += [thread(t, goals[t][0]) for t in range(THREADS)]
    return macho(CORE, commands) + b"".join(data for _, _, data in pieces)


def report(folder, count, rows, names):
    with open(os.path.join(folder, "core"), "wb") as file:
        file.write(core(count, rows, names))
    with open(os.path.join(folder, "script"), "w") as file:
        file.write("load 0x%x image\nreport 0 a\n" % BASE)
    rounds = [measured([PROGRAM, "report", "core", "script"], folder, keeps=True)
              for _ in range(ROUNDS)]
    seconds, peak, status, said = min(rounds)
    if status:
        sys.exit("status %d, %s" % (status, said))
    return seconds, peak, said.split("\n")[-1]


def symbols_told(folder):
    """The address and the symbol of each frame, as `show` tells them."""
    said = measured([PROGRAM, "show", "a"], folder, keeps=True)[3]
    lines = [line.split() for line in said.split("\n") if line.startswith("frame")]
    return [(int(line[2], 16), line[3] if len(line) > 3 else None) for line in lines]


def symbols_wanted(count, rows, names):
    """The same, by the greatest address not above and the first row on a tie."""
    first = {}
    for place, _, _, _, value in ROW.iter_unpack(rows):
        end = names.find(b"\0", place)
        name = names[place:end].decode() if 0 <= end - place <= 1024 else None
        first.setdefault(value, name)
    addresses = sorted(first)
    wanted = []
    for goals in targets(count):
        for j, pc in enumerate(goals):
            below = bisect.bisect_right(addresses, pc - (j > 0))
            wanted.append((pc, first[addresses[below - 1]] if below else None))
    return wanted


def agree(folder):
    """Whether the symbols of small tables are right."""
    same = True
    for name, table in (("good", good),) + HOSTILE:
        rows, names = table(1000)
        report(folder, 1000, rows, names)
        told, wanted = symbols_told(folder), symbols_wanted(1000, rows, names)
        verdict = "%d frames right" % len(told) if told == wanted else "frames differ"
        print("%-24s %s" % (name, verdict), flush=True)
        same = same and told == wanted
    return same


def line(name, size, seconds, peak, said, more):
    print("%-24s %8d rows %8.3f s %7.1f MB peak, %s%s" % (
        name, size, seconds, peak / 1e6, said, more), flush=True)


def main():
    with tempfile.TemporaryDirectory() as folder:
        same = agree(folder)
        before = None
        for count in (125_000, 250_000, 500_000, 1_000_000):
            seconds, peak, said = report(folder, count, *good(count))
            line("good", count, seconds, peak, said, growth(before, count, seconds, peak))
            before = (count, seconds, peak)
        for name, table in HOSTILE:
            seconds, peak, said = report(folder, before[0], *table(before[0]))
            times = ", %.2f times the good one" % (seconds / before[1])
            line(name, before[0], seconds, peak, said, times)
    sys.exit(0 if same else 1)


if __name__ == "__main__":
    main()
