"""Writes the cores of the examples, byte for byte as they stand here.

    python3 examples/cores.py [FOLDER]

Both are x86-64 cores with one thread, stopped with rsp 0x7000 and rip 0x100000f50, all else 0, and with a stack segment at
0x7000 that has no bytes in the file (docs/core-file.md). eight_images.core has eight images besides (docs/images.md): they
stand 0x4000 apart from 0x100000000 on, each with a header, a `__TEXT` segment over all of it and a uuid that ends with its
number.
"""
import os
import struct
import sys

IMAGES = [0x100000000 + 0x4000 * k for k in range(8)]
MAGIC, CPU_X86_64, CORE, DYLIB = 0xFEEDFACF, 0x01000007, 4, 6
SEGMENT, THREAD, UUID = 0x19, 4, 0x1B
READ_WRITE, READ_EXECUTE = 3, 5


def header(filetype, commands):
    return struct.pack("<8I", MAGIC, CPU_X86_64, 3, filetype, len(commands), sum(map(len, commands)), 0, 0) + b"".join(commands)


def segment(name, address, size, place, length, protection):
    return struct.pack("<II16s4Q4I", SEGMENT, 72, name, address, size, place, length, protection, protection, 0, 0)


def image(k, address):
    text = segment(b"__TEXT", address, 0x4000, 0, 0x4000, READ_EXECUTE)
    return header(DYLIB, [text, struct.pack("<II12x", UUID, 24) + struct.pack(">I", k)])


def core(images):
    """The stack has no bytes in the file; those of the images stand behind the load commands."""
    registers = [0] * 21
    registers[7], registers[16] = 0x7000, 0x100000F50
    thread = struct.pack("<4I21Q", THREAD, 184, 4, 42, *registers)
    begin = 32 + 72 * (len(images) + 1) + len(thread)
    bytes_of = [image(k, address) for k, address in enumerate(images)]
    segments = [segment(b"", address, 0x4000, begin + 128 * k, 128, READ_EXECUTE) for k, address in enumerate(images)]
    return header(CORE, segments + [segment(b"", 0x7000, 0x1000, begin, 0, READ_WRITE), thread]) + b"".join(bytes_of)


CORES = {"one_thread.core": core([]), "eight_images.core": core(IMAGES)}

if __name__ == "__main__":
    folder = sys.argv[1] if len(sys.argv) > 1 else os.path.dirname(os.path.abspath(__file__))
    for name, content in CORES.items():
        with open(os.path.join(folder, name), "wb") as file:
            file.write(content)
