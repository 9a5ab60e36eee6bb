"""`report`, `show`, `make` and `threads` under limits on memory, from too little to enough.

    python3 bench/memory.py [PROGRAM]

PROGRAM is the proved program, by default crates/plcr_tool/out/plcr_tool. Each run has a limit on its data (heap and
maps, not its stack), a little more than the run before. Below the first limit at which the program ends with status 0 it
has to answer 7, with nothing printed and nothing kept; from there on 0, with all of it. Ends with status 1 where a run does
anything else.
"""
import os
import resource
import struct
import subprocess
import sys
import tempfile

HERE = os.path.dirname(os.path.abspath(__file__))
PROGRAM = sys.argv[1] if len(sys.argv) > 1 else os.path.join(HERE, "..", "crates", "plcr_tool", "out", "plcr_tool")
PAGE = 4096


def core(threads):
    state = struct.pack("<4I", 4, 184, 4, 42) + struct.pack("<21Q", *range(21))
    segment = struct.pack("<II16xQQQQIIII", 0x19, 72, 0x7000, 0x1000, 0, 0, 3, 3, 0, 0)
    header = struct.pack("<8I", 0xFEEDFACF, 0x01000007, 3, 4, 1 + threads, 72 + 184 * threads, 0, 0)
    return header + segment + state * threads


def run(words, files, room):
    """Status, output and the files kept under this limit; None where the program can't even begin."""
    def limit():
        resource.setrlimit(resource.RLIMIT_DATA, (room, room))
    with tempfile.TemporaryDirectory() as folder:
        for name, data in files.items():
            with open(os.path.join(folder, name), "wb") as file:
                file.write(data)
        done = subprocess.run([PROGRAM, *words], cwd=folder, capture_output=True, preexec_fn=limit)
        kept = {}
        for name in set(os.listdir(folder)) - set(files):
            with open(os.path.join(folder, name), "rb") as file:
                kept[name] = file.read()
    return done.returncode, done.stdout, kept


def limits(words, files, step):
    """Runs under rising limits, and counts those that answered 7."""
    whole = run(words, files, resource.RLIM_INFINITY)
    if whole[0] != 0:
        sys.exit("%s: status %d with ample memory" % (words, whole[0]))
    wanted, enough, room, first = 0, 0, 0, None
    while enough < 50:
        room += step
        try:
            got = run(words, files, room)
        except OSError:
            continue
        if got == (7, b"", {}) and not enough:
            wanted += 1
        elif got == whole:
            enough += 1
            first = first or room
        elif wanted or enough or got[0] not in (-9, -11, 127) or got[2]:
            # only before that the loader may lack room for the program
            sys.exit("%s at %d bytes: status %d, %r, %s" % (words, room, got[0], got[1][:80], list(got[2])))
    return wanted, first


def main():
    script = b"report 0 a\nreport 0 b\n"
    for threads, step in [(1, PAGE), (300, 8 * PAGE), (4096, 64 * PAGE)]:
        files = {"core": core(threads), "script": script}
        wanted, first = limits(["report", "core", "script"], files, step)
        print("report of %4d threads: status 7 at %3d limits, then 0 from %.1f MB on" % (threads, wanted, first / 1e6))
        report = run(["report", "core", "script"], files, resource.RLIM_INFINITY)[2]["a"]
        wanted, first = limits(["show", "r"], {"r": report}, step)
        print("show of   %4d threads: status 7 at %3d limits, then 0 from %.1f MB on" % (threads, wanted, first / 1e6))
    for words in [["make", "3", "core", "script"], ["threads", "core", "script"]]:
        files = {} if words[0] == "make" else {"core": core(1), "script": script}
        wanted, first = limits(words, files, 8 * PAGE)
        print("%s: status 7 at %3d limits, then 0 from %.1f MB on" % (words[0], wanted, first / 1e6))


if __name__ == "__main__":
    main()
