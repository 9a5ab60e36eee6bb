"""Processor time and peak memory of `report` on large cores.

    python3 bench/report.py [PROGRAM]

PROGRAM is the proved program, by default crates/plcr_tool/out/plcr_tool. Cores are made in a folder of their own, run
one by one, and removed. Growth is the ratio to the line before, per doubling of the size.
"""
import os
import struct
import tempfile

from measuring import growth, measured, program

PROGRAM = program()
SEGMENT = struct.Struct("<II16xQQQQIIII")
SCRIPT = b"report 0 a\n"


def header(commands, size):
    return struct.pack("<8I", 0xFEEDFACF, 0x01000007, 3, 4, commands, size, 0, 0)


def segment(start, size, offset=0, filesize=0):
    return SEGMENT.pack(0x19, 72, start, size, offset, filesize, 3, 3, 0, 0)


def thread():
    registers = [0] * 21
    registers[7], registers[16] = 0x7000, 0x100000F50
    return struct.pack("<4I", 4, 184, 4, 42) + struct.pack("<21Q", *registers)


def core(segments, threads, rest=b""):
    commands = segments + threads
    body = b"".join(commands)
    return header(len(commands), len(body)) + body + rest


def with_segments(count, overlap=False):
    # a fixed shuffle of the addresses: 7919 is a prime that divides none of the counts
    starts = [0x10000 + 0x1000 * ((i * 7919) % count) for i in range(count)]
    if overlap:
        starts[-1] = starts[-2]
    return core([segment(start, 0x1000) for start in starts], [thread()])


def with_threads(count):
    return core([segment(0x7000, 0x1000)], [thread()] * count)


def one_large(file):
    size = 1 << 30
    front = header(2, 72 + 184) + segment(1 << 32, size - 288, 288, size - 288) + thread()
    file.write(front)
    file.truncate(size)


CASES = {
    "10000 segments": (10_000, lambda file: file.write(with_segments(10_000))),
    "100000 segments": (100_000, lambda file: file.write(with_segments(100_000))),
    "1000000 segments": (1_000_000, lambda file: file.write(with_segments(1_000_000))),
    "1 thread": (1, lambda file: file.write(with_threads(1))),
    "4096 threads": (4096, lambda file: file.write(with_threads(4096))),
    "1000000 segments, the last two overlap": (0, lambda file: file.write(with_segments(1_000_000, True))),
    "1 GiB in one segment": (0, one_large),
}


def run(folder, name):
    path = os.path.join(folder, "core")
    with open(path, "wb") as file:
        CASES[name][1](file)
    size = os.path.getsize(path)
    with open(os.path.join(folder, "script"), "wb") as file:
        file.write(SCRIPT)
    seconds, peak, status, said = measured([PROGRAM, "report", "core", "script"], folder, keeps=True)
    os.remove(path)
    return size, seconds, peak, status, said


def main():
    before = None
    with tempfile.TemporaryDirectory() as folder:
        for name, (count, _) in CASES.items():
            size, seconds, peak, status, said = run(folder, name)
            print("%-40s %11d bytes %8.3f s %7.1f MB peak, status %d, %s%s" % (
                name, size, seconds, peak / 1e6, status, said, growth(before, count, seconds, peak)), flush=True)
            before = (count, seconds, peak) if count else None


if __name__ == "__main__":
    main()
