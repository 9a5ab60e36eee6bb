#!/usr/bin/env python3
"""Time of frames by call frame information as the section grows: for images of 1,000 to 256,000 functions, whose
descriptions stand in the order of their code and in none.

    bench/sections.py [PROGRAM]

PROGRAM is the proved program, by default crates/plcr_tool/out/plcr_tool. 100 threads have 500 frames each, whose pcs are
spread over all functions, so that few searches ask for an address that was asked for before.
"""
import os
import random
import struct
import tempfile

from measuring import growth, measured, program

PROGRAM = program()
IMAGE, TEXT, FUNCTION = 0x100000000, 0x1000, 64
STACK, THREADS, FRAMES, STEP = 0x700000000000, 100, 500, 32
COUNTS = [1000, 4000, 16000, 64000, 256000]
COMMON = b"\1zR\0\1\x78\x10\1\0\x0c\7\x08\x90\1"  # the canonical frame address is rsp + 8, and rip is saved below it
SAVES_RBP = b"\0\x41\x0e\x10\x86\2\x43\x0d\6"  # no augmentation data; from the 4th byte on the address is rbp + 16


def section(starts):
    data = struct.pack("<II", len(COMMON) + 4, 0) + COMMON
    parts, at = [data], len(data)
    for start in starts:
        body = struct.pack("<IQQ", at + 4, start, FUNCTION) + SAVES_RBP
        parts.append(struct.pack("<I", len(body)) + body)
        at += 4 + len(body)
    return b"".join(parts)


def segment(name, at, offset, size, sections=b""):
    return struct.pack("<II16sQQQQIIII", 0x19, 72 + len(sections), name, at, size, offset, size, 5, 5,
                       len(sections) // 80, 0) + sections


def image(count, data):
    """An image of so many functions, with the section behind them."""
    place = TEXT + FUNCTION * count
    part = struct.pack("<16s16sQQ8I", b"__eh_frame", b"__TEXT", IMAGE + place, len(data), *[0] * 8)
    command = segment(b"__TEXT", IMAGE, 0, place + len(data), part)
    head = struct.pack("<8I", 0xFEEDFACF, 0x01000007, 3, 6, 1, len(command), 0, 0) + command
    return head + bytes(place - len(head)) + data


def stack(pcs):
    """The saved frames of all threads, one chain for each."""
    data = bytearray()
    for i, pc in enumerate(pcs):
        last = i % FRAMES == FRAMES - 1
        data += struct.pack("<QQ16x", 0 if last else STACK + STEP * (i + 1), pc)
    return bytes(data)


def core(regions, pcs):
    """A core of these regions, and of a thread at the start of each chain."""
    commands = len(regions) * 72 + THREADS * (16 + 168)
    heads, data = b"", b""
    for at, content in regions:
        heads += segment(b"", at, 32 + commands + len(data), len(content))
        data += content
    for thread in range(THREADS):
        place = STACK + STEP * FRAMES * thread
        registers = [0] * 6 + [place, place] + [0] * 8 + [pcs[FRAMES * thread]] + [0] * 4
        heads += struct.pack("<4I21Q", 4, 16 + 168, 4, 42, *registers)
    head = struct.pack("<8I", 0xFEEDFACF, 0x01000007, 3, 4, len(regions) + THREADS, commands, 0, 0)
    return head + heads + data


def main():
    choices = random.Random(1)
    for order in ("in the order of their code", "in no order"):
        before = None
        for count in COUNTS:
            starts = [IMAGE + TEXT + FUNCTION * i for i in range(count)]
            pcs = [choices.choice(starts) + 20 for _ in range(THREADS * FRAMES)]
            if order == "in no order":
                choices.shuffle(starts)
            with tempfile.TemporaryDirectory() as folder:
                with open(os.path.join(folder, "core"), "wb") as file:
                    file.write(core([(IMAGE, image(count, section(starts))), (STACK, stack(pcs))], pcs))
                with open(os.path.join(folder, "script"), "wb") as file:
                    file.write(b"load %#x one\nreport 0 out\n" % IMAGE)
                seconds, peak, status, _ = measured([PROGRAM, "report", "core", "script"], folder)
            frames = THREADS * FRAMES
            print("%7d functions %s: %6.3f s for %d frames, %7.1f us each, status %d%s" % (
                count, order, seconds, frames, seconds / frames * 1e6, status, growth(before, count, seconds, peak)), flush=True)
            before = (count, seconds, peak)


main()
