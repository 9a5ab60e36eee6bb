"""Processor time and peak memory of `report` on cores with many images, on scripts of many loads and unloads, and on
frames in many images, with and without one that lies over all of them.

    python3 bench/images.py [PROGRAM]

PROGRAM is the proved program, by default crates/plcr_tool/out/plcr_tool. Cores are made in a folder of their own, run
one by one, and removed. Growth is the ratio to the line before, per doubling of the size.
"""
import os
import struct
import tempfile

from measuring import growth, measured, program

PROGRAM = program()
SIZE = 0x4000
STACK = 0x10000
WIDE = 0x100000000 - SIZE
NAME = "/usr/lib/" + "n" * 60 + "%06d"


def place(k):
    return 0x100000000 + SIZE * k


def image(at, size, number):
    """The first bytes of an image: a header, a segment `__TEXT` and a uuid."""
    head = struct.pack("<8I", 0xFEEDFACF, 0x01000007, 3, 6, 2, 96, 0, 0)
    text = struct.pack("<II16s4Q4I", 0x19, 72, b"__TEXT", at, size, 0, size, 5, 5, 0, 0)
    return head + text + struct.pack("<II12xI", 0x1B, 24, number)


def images_of(count):
    return [(place(k), image(place(k), SIZE, k)) for k in range(count)]


def core_of(parts, stack=b"", threads=1):
    """A core of these pieces of memory, a stack, and threads that begin in the first image."""
    registers = [0] * 21
    registers[6], registers[7], registers[16] = STACK, STACK, place(0) + 0x100
    size, at = 72 * (len(parts) + 1) + 184 * threads, 0
    commands = [struct.pack("<8I", 0xFEEDFACF, 0x01000007, 3, 4, len(parts) + 1 + threads, size, 0, 0)]
    for address, held in parts + [(STACK, stack)]:
        room = SIZE if held is not stack else 0x4000
        commands.append(struct.pack("<II16x4Q4I", 0x19, 72, address, room, 32 + size + at, len(held), 5, 5, 0, 0))
        at += len(held)
    thread = struct.pack("<4I", 4, 184, 4, 42) + struct.pack("<21Q", *registers)
    return b"".join(commands + [thread] * threads + [held for _, held in parts] + [stack])


def core(images):
    return core_of(images_of(images))


def deep(images, is_under_one):
    """Threads of 512 frames, each in another of the images, over which one more lies where it is said."""
    parts = images_of(images)
    if is_under_one:
        parts.append((WIDE, image(WIDE, place(images) - WIDE, images)))
    stack = b"".join(struct.pack("<2Q", STACK + 16 * (i + 1), place(i * 1237 % images) + 0x100) for i in range(600))
    return core_of(parts, stack, 16)


def loads(count, step=1):
    lines = ["table 4096 1"] + ["load %#x %s" % (place(k * step), NAME % k) for k in range(count)]
    return lines + ["report 0 a"]


def changes(count, resident=0):
    lines = ["table 4096 1"] + ["load %#x %s" % (place(k), NAME % k) for k in range(resident)]
    for k in range(resident, resident + count // 2):
        at = place(resident + k % 90)
        lines += ["load %#x %s" % (at, NAME % k), "unload %#x" % at]
    return lines + ["report 0 a"]


def reports(count):
    return loads(count)[:-1] + ["report 0 r%d" % k for k in range(100)]


def under_one(count):
    return loads(count)[:-1] + ["load %#x wide" % WIDE, "report 0 a"]


CASES = [
    ("500 images", 500, lambda: core(500), lambda: loads(500)),
    ("1000 images", 1000, lambda: core(1000), lambda: loads(1000)),
    ("2000 images", 2000, lambda: core(2000), lambda: loads(2000)),
    ("4000 images", 4000, lambda: core(4000), lambda: loads(4000)),
    ("500 images, 100 reports", 500, lambda: core(500), lambda: reports(500)),
    ("1000 images, 100 reports", 1000, lambda: core(1000), lambda: reports(1000)),
    ("2000 images, 100 reports", 2000, lambda: core(2000), lambda: reports(2000)),
    ("4000 images, 100 reports", 4000, lambda: core(4000), lambda: reports(4000)),
    ("40000 images, 4096 of them loaded", 0, lambda: core(40_000), lambda: loads(4096, 9)),
    ("25000 loads and unloads", 25_000, lambda: core(1000), lambda: changes(25_000)),
    ("50000 loads and unloads", 50_000, lambda: core(1000), lambda: changes(50_000)),
    ("100000 loads and unloads", 100_000, lambda: core(1000), lambda: changes(100_000)),
    ("the same behind 4000 images", 0, lambda: core(4100), lambda: changes(100_000, 4000)),
    ("8192 frames in 4000 images", 0, lambda: deep(4000, False), lambda: loads(4000)),
    ("the same under one wide image", 0, lambda: deep(4000, True), lambda: under_one(4000)),
]


def write(folder, index):
    _, _, made, script = CASES[index]
    with open(os.path.join(folder, "core"), "wb") as file:
        file.write(made())
    with open(os.path.join(folder, "script"), "w") as file:
        file.write("\n".join(script()) + "\n")


def main():
    before = None
    with tempfile.TemporaryDirectory() as folder:
        for index, (name, count, _, _) in enumerate(CASES):
            write(folder, index)
            seconds, peak, status, said = measured([PROGRAM, "report", "core", "script"], folder, keeps=True)
            print("%-35s %8.3f s %7.1f MB peak, status %d, %s%s" % (
                name, seconds, peak / 1e6, status, said.splitlines()[-1], growth(before, count, seconds, peak)), flush=True)
            before = (count, seconds, peak) if count else None


if __name__ == "__main__":
    main()
