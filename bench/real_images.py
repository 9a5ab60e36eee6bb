"""Real images: what clang and the Mach-O linker of LLVM make, put into a core at a slide, as the program reports them.

    python3 bench/real_images.py [PROGRAM]

PROGRAM is the proved program, by default crates/plcr_tool/out/plcr_tool. Base, size, uuid, type and subtype of each image
are compared with what llvm-objdump prints of the file. An arm64 pair in an x86-64 core is to be refused.
Where a tool is missing the script says so and ends with status 0.
"""
import os
import re
import shutil
import struct
import subprocess
import sys
import tempfile

HERE = os.path.dirname(os.path.abspath(__file__))
PROGRAM = os.path.abspath(sys.argv[1] if len(sys.argv) > 1 else os.path.join(HERE, "..", "crates", "plcr_tool", "out", "plcr_tool"))
SOURCES = {
    "main": "static const char text[] = \"a constant\";\nint main(void) { return text[0] == 'a' ? 0 : 1; }\n",
    "lib": "int table[64] = {1, 2, 3};\nint answer(int i) { return table[i & 63]; }\n",
}
SLIDES = {"main": 0x5000000, "lib": 0x7FFF00000000}


def tool(*names):
    for name in names:
        if shutil.which(name):
            return name
    print("skipped: none of %s is there" % ", ".join(names))
    sys.exit(0)


CLANG = tool("clang", "clang-14")
LINKER = tool("ld64.lld", "ld64.lld-14")
OBJDUMP = tool("llvm-objdump", "llvm-objdump-14")


def said(*words):
    return subprocess.run(words, check=True, capture_output=True, text=True).stdout


def make(folder, name, arch):
    """An image of this architecture, by its path."""
    source, thing, image = (os.path.join(folder, name + end) for end in (".c", ".%s.o" % arch, "." + arch))
    with open(source, "w") as file:
        file.write(SOURCES[name])
    said(CLANG, "-target", arch + "-apple-macos11", "-O1", "-c", source, "-o", thing)
    words = [LINKER, "-arch", arch, "-platform_version", "macos", "11.0", "11.0", "-o", image, thing]
    words += ["-e", "_main"] if name == "main" else ["-dylib", "-install_name", "/usr/lib/lib.dylib"]
    said(*words)
    return image


def told(image):
    """What LLVM prints of an image: the address and size of `__TEXT`, the uuid, the type and the subtype, whose highest
    byte are the capabilities."""
    commands = said(OBJDUMP, "--macho", "--private-headers", image)
    text = re.search(r"segname __TEXT\n\s+vmaddr (0x[0-9a-f]+)\n\s+vmsize (0x[0-9a-f]+)", commands)
    uuid = re.search(r"cmd LC_UUID\n.*\n\s+uuid ([0-9A-F-]+)", commands)
    head = said(OBJDUMP, "--macho", "--private-header", "--non-verbose", image)
    cpu, subtype, capabilities = re.search(r"0xfeedfacf\s+(\d+)\s+(\d+)\s+(0x[0-9a-f]+)", head).groups()
    return int(text[1], 16), int(text[2], 16), uuid[1].replace("-", "").lower(), int(cpu), int(capabilities, 16) * 2**24 + int(subtype)


def segments(image):
    """Each segment that is mapped: its address, size and bytes in the file."""
    with open(image, "rb") as file:
        data = file.read()
    at = 32
    for _ in range(struct.unpack_from("<I", data, 16)[0]):
        kind, size = struct.unpack_from("<2I", data, at)
        if kind == 0x19:
            address, length, offset, there = struct.unpack_from("<4Q", data, at + 24)
            if data[at + 8 : at + 24].rstrip(b"\0") != b"__PAGEZERO" and length > 0:
                yield address, length, data[offset : offset + there]
        at += size


def core(regions):
    registers = [0] * 21
    registers[7], registers[16] = 0x7000, 0x100000F50
    thread = struct.pack("<4I", 4, 184, 4, 42) + struct.pack("<21Q", *registers)
    size = 72 * len(regions) + len(thread)
    place, commands = 32 + size, b""
    for address, length, data in regions:
        commands += struct.pack("<II16x4Q4I", 0x19, 72, address, length, place, len(data), 5, 5, 0, 0)
        place += len(data)
    head = struct.pack("<8I", 0xFEEDFACF, 0x01000007, 3, 4, len(regions) + 1, size, 0, 0)
    return head + commands + thread + b"".join(data for _, _, data in regions)


def run(folder, *words):
    done = subprocess.run([PROGRAM, *words], cwd=folder, capture_output=True, text=True)
    return done.returncode, done.stdout.splitlines()


def check(what, got, wanted):
    print("%s: %s" % (what, "as LLVM prints it" if got == wanted else "WRONG: %s, wanted %s" % (got, wanted)))
    return got == wanted


def main():
    good = True
    with tempfile.TemporaryDirectory() as folder:
        images = {(name, arch): make(folder, name, arch) for name in SOURCES for arch in ("x86_64", "arm64")}
        for arch in ("x86_64", "arm64"):
            regions, script, wanted = [], "", []
            for name in SOURCES:
                image = images[name, arch]
                address, size, uuid, cpu, subtype = told(image)
                base = address + SLIDES[name]
                regions += [(at + SLIDES[name], length, data) for at, length, data in segments(image)]
                script += "load %#x /bin/%s\n" % (base, name)
                wanted.append("image 0x%016x %d /bin/%s %s %d %d" % (base, size, name, uuid, cpu, subtype))
            with open(os.path.join(folder, "c"), "wb") as file:
                file.write(core(regions))
            with open(os.path.join(folder, "s"), "w") as file:
                file.write(script + "report 0 r\n")
            status, log = run(folder, "report", "c", "s")
            if arch == "arm64":
                good &= check("arm64 in an x86-64 core", log[:2], ["1 notimage 3", "2 notimage 3"])
                continue
            good &= check("x86-64 loads", (status, log[:2]), (0, ["1 load 1", "2 load 2"]))
            shown = [line for line in run(folder, "show", "r")[1] if line.startswith("image ")]
            for line, want in zip(shown + ["nothing"] * len(wanted), wanted):
                good &= check(want.split()[3], line, want)
    sys.exit(0 if good else 1)


main()
