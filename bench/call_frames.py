#!/usr/bin/env python3
"""Call frame information: the proved program beside llvm-dwarfdump, on what clang makes of some C for both architectures.

    bench/call_frames.py [PROGRAM]

PROGRAM is the proved program, by default crates/plcr_tool/out/plcr_tool. clang and llvm-dwarfdump are taken from the system;
where one is missing the bench is skipped. Each object's section `.eh_frame` is laid into an image, with its pointers to code
relocated, and a core gets one thread for each row's address. Each word of the stack is its own address and a number, so the
caller's pc tells where its return address was read. These words lie in a second image, whose one function returns to the
address in a register: so the next pc tells what the caller has in that register. An opcode that isn't read is told and not
counted. It fails at the first row that the program reads otherwise.
"""
import collections
import os
import re
import shutil
import struct
import subprocess
import sys
import tempfile

from measuring import program

PROGRAM = program()

IMAGE, TEXT, SECTION, SIZE = 0x100000000, 0x10000, 0x40000, 0x80000  # an image, and what stands where in it
STACK, STACK_SIZE = 0x70000000, 0x40000
SECOND = 0x200000000  # the image in which the words of the stack lie
WORDS = SECOND + 0x1000 - STACK  # what a word is above its own address
SP, FP = STACK + 0x10000, STACK + 0x20000

Arch = collections.namedtuple("Arch", "name triple cpu flavor count column names numbers saved")
X86_64 = Arch(
    "x86-64", "x86_64-linux-gnu", 0x01000007, 4, 21, 16,
    "RAX RBX RCX RDX RDI RSI RBP RSP R8 R9 R10 R11 R12 R13 R14 R15 RIP".split(),
    "RAX RDX RCX RBX RSI RDI RBP RSP R8 R9 R10 R11 R12 R13 R14 R15 RIP".split(),
    "RBX RBP R12 R13 R14 R15".split())
ARM64 = Arch(
    "arm64", "aarch64-linux-gnu", 0x0100000C, 6, 34, 30,
    ["X%d" % n for n in range(31)] + ["SP", "PC"],
    ["X%d" % n for n in range(31)] + ["SP"],
    ["X%d" % n for n in range(19, 30)])

SOURCE = r"""
typedef unsigned long size;
int use(void *, ...);
void never(void) __attribute__((noreturn));
int leaf(int a, int b) { return a * b + 3; }
int loop(int n) { int s = 0; for (int i = 0; i < n; i++) s += use(&i, s, n - i); return s; }
int room(size n) { char a[n]; use(a, n); return a[0] + use(a); }
int large(int n) { char a[70000]; use(a, n); return use(a + n) + a[n]; }
int many(int a, int b, int c, int d, int e, int f) {
    int s = use(0, a), t = use(0, b), u = use(0, c), v = use(0, d), w = use(0, e), x = use(0, f);
    return use(0, s, t, u, v, w, x, a, b, c, d, e, f) + s * t + u * v + w * x;
}
struct big { long a[9]; };
struct big by_value(struct big s) { s.a[use(&s)] = use(0); return s; }
int ends(int n) { if (n > 3) never(); if (n == 2) return use(&n, n) + n; return leaf(n, use(0)); }
int aligned(int n) { _Alignas(64) char a[256]; use(a, n); return a[n & 3]; }
double numbers(double a, double b) { double s = use(&a) * b; return s + use(&b) * a + s; }
int tail(int n) { use(&n); return use(0, n); }
int sum(int n, ...) { __builtin_va_list l; __builtin_va_start(l, n); int s = 0; while (n--) s += __builtin_va_arg(l, int); __builtin_va_end(l); return s + use(&s); }
"""
WAYS = [["-O0"], ["-O1"], ["-O2"], ["-Os", "-fomit-frame-pointer"], ["-O2", "-fno-omit-frame-pointer"],
        ["-O3", "-fomit-frame-pointer", "-fno-asynchronous-unwind-tables", "-funwind-tables"]]
SIGNED = ["-O2", "-mbranch-protection=pac-ret"]  # only arm64 has such code


def tool(*names):
    return next((found for found in map(shutil.which, names) if found), None)


CLANG, DUMP = tool("clang", "clang-14", "clang-16", "clang-19"), tool("llvm-dwarfdump", "llvm-dwarfdump-14", "llvm-dwarfdump-16", "llvm-dwarfdump-19")


def section_of(path):
    """The bytes of `.eh_frame`, with its relative pointers to `.text` relocated to where both are laid."""
    with open(path, "rb") as file:
        elf = file.read()
    at, count, names = struct.unpack_from("<Q", elf, 40)[0], *struct.unpack_from("<HH", elf, 60)
    heads = [struct.unpack_from("<IIQQQQIIQQ", elf, at + 64 * i) for i in range(count)]
    named = lambda head: elf[heads[names][4] + head[0]:].split(b"\0", 1)[0].decode()
    found = {named(head): head for head in heads}
    frames = found[".eh_frame"]
    data = bytearray(elf[frames[4]:frames[4] + frames[5]])
    relocations = found.get(".rela.eh_frame")
    if relocations:
        symbols = heads[relocations[6]]
        for place in range(relocations[4], relocations[4] + relocations[5], 24):
            offset, info, addend = struct.unpack_from("<QQq", elf, place)
            value = struct.unpack_from("<Q", elf, symbols[4] + 24 * (info >> 32) + 8)[0]
            struct.pack_into("<i", data, offset, TEXT + value + addend - (SECTION + offset))
    return bytes(data)


Row = collections.namedtuple("Row", "address cfa saved")
CFA = re.compile(r"CFA=(\w+?)([+-]\d+)?")


def number(text):
    return int(text.replace("+", "") or "0", 0)


def register(arch, name):
    """A register by the standard's names, where it is a general one."""
    name = {"WSP": "SP", "W29": "X29", "W30": "X30"}.get(name, name)
    if arch is ARM64 and re.fullmatch(r"W\d+", name):
        name = "X" + name[1:]
    return name if name in arch.numbers else None


def rows_of(arch, path):
    """The rows that llvm-dwarfdump prints, and what it tells that isn't read here. Of such an entry no row counts."""
    text = subprocess.run([DUMP, "--eh-frame", path], check=True, capture_output=True, text=True).stdout
    rows, odd = [], set()
    for entry in re.split(r"^(?=[0-9a-f]{8} [0-9a-f]{8,16} [0-9a-f]{8} )", text, flags=re.M)[1:]:
        unknown = set(re.findall(r"DW_CFA_(?:AARCH64|LLVM|MIPS|unknown|Unknown)\w*|DW_CFA_GNU_window_save", entry))
        lines = [line.split(": ", 1) for line in re.findall(r"^  (0x[0-9a-f]+: CFA=.*)$", entry, re.M)]
        unknown.update(cfa for cfa in (rest.partition(": ")[0] for _, rest in lines) if not CFA.fullmatch(cfa))
        odd |= unknown
        if unknown:
            continue
        for address, rest in lines:
            cfa, _, saved = rest.partition(": ")
            told = CFA.fullmatch(cfa)
            places = {register(arch, name): number(offset) for name, offset in re.findall(r"(\w+)=\[CFA([+-]\d+)?\]", saved)}
            rows.append(Row(int(address, 16), (register(arch, told[1]), number(told[2] or "")), places))
    return rows, odd


def segment(name, at, size, offset=0, filesize=0, sections=b""):
    head = struct.pack("<II16sQQQQIIII", 0x19, 72 + len(sections), name, at, size, offset, filesize, 5, 5, len(sections) // 80, 0)
    return head + sections


def image(arch, at, size, section):
    """The front of an image with `__eh_frame` at its place, and the section's bytes."""
    part = struct.pack("<16s16sQQ8I", b"__eh_frame", b"__TEXT", at + SECTION, len(section), *[0] * 8)
    command = segment(b"__TEXT", at, size, 0, size, part)
    return struct.pack("<8I", 0xFEEDFACF, arch.cpu, 0, 6, 1, len(command), 0, 0) + command, section


def uleb(n):
    out = b""
    while True:
        out += bytes([n % 128 | (128 if n >= 128 else 0)])
        n //= 128
        if not n:
            return out


def second_section(arch, name):
    """One function, the whole second image, which returns to the address in a register."""
    stack, which = arch.numbers.index("RSP" if arch is X86_64 else "SP"), arch.numbers.index(name)
    made = b"\x0c" + uleb(stack) + uleb(0) + b"\x09" + uleb(arch.column) + uleb(which)
    common = bytes(4) + b"\1\0\1\x78" + bytes([arch.column]) + made
    described = struct.pack("<IQQ", len(common) + 8, SECOND, SIZE)
    return struct.pack("<I", len(common)) + common + struct.pack("<I", len(described)) + described


def core(arch, regions, states):
    """A core of these regions, each an address, a size and the bytes at its front, and of threads in these states."""
    size = 8 * arch.count
    commands = len(regions) * 72 + len(states) * (16 + size)
    data, heads = b"", b""
    for at, room, front in regions:
        heads += segment(b"", at, room, 32 + commands + len(data), len(front))
        data += front
    threads = b"".join(struct.pack("<4I", 4, 16 + size, arch.flavor, size // 4) + state for state in states)
    head = struct.pack("<8I", 0xFEEDFACF, arch.cpu, 3, 4, len(regions) + len(states), commands, 0, 0)
    return head + heads + threads + data


def state_of(arch, address):
    """A thread at an address: its registers, by their names."""
    values = {name: 0x5000 + 16 * i for i, name in enumerate(arch.names)}
    values.update({"RSP": SP, "RBP": FP, "RIP": address} if arch is X86_64 else {"SP": SP, "X29": FP, "X30": SECOND + 0x800, "PC": address})
    return values


def packed(arch, values):
    words = [values[name] for name in arch.names]
    return struct.pack("<%dQ" % arch.count, *words + [0] * (arch.count - len(words)))


def expected(arch, values, row, name):
    """The caller's pc, and what the caller has in a register."""
    base, offset = row.cfa
    cfa = values[base] + offset
    word = lambda place: WORDS + cfa + place
    back = "RIP" if arch is X86_64 else "X30"
    pc = word(row.saved[back]) if back in row.saved else values[back]
    kept = word(row.saved[name]) if name in row.saved else values[name]
    return pc, kept


def shown(folder):
    """The pcs of each thread's frames."""
    subprocess.run([PROGRAM, "report", "core", "script"], cwd=folder, check=True, stdout=subprocess.DEVNULL)
    text = subprocess.run([PROGRAM, "show", "out"], cwd=folder, check=True, capture_output=True).stdout.decode("latin1")
    threads = []
    for line in text.splitlines():
        words = line.split(" ")
        if words[0] == "thread":
            threads.append([])
        elif words[0] == "frame":
            threads[-1].append(int(words[2], 16))
    return threads


def compare(folder, arch, section, rows, name):
    """Reads all rows, with the second image's function that returns to the register."""
    stack = struct.pack("<%dQ" % (STACK_SIZE // 8), *(WORDS + STACK + 8 * i for i in range(STACK_SIZE // 8)))
    regions = [(STACK, STACK_SIZE, stack)]
    for at, bytes_of in ((IMAGE, section), (SECOND, second_section(arch, name))):
        front, data = image(arch, at, SIZE, bytes_of)
        regions.append((at, SIZE, front + bytes(SECTION - len(front)) + data))
    states = [state_of(arch, IMAGE + TEXT + row.address) for row in rows]
    with open(os.path.join(folder, "core"), "wb") as file:
        file.write(core(arch, regions, [packed(arch, values) for values in states]))
    with open(os.path.join(folder, "script"), "wb") as file:
        file.write(b"load %#x first\nload %#x second\nreport 0 out\n" % (IMAGE, SECOND))
    found = shown(folder)
    if len(found) != len(rows):
        sys.exit("%d threads of %d" % (len(found), len(rows)))
    for row, values, pcs in zip(rows, states, found):
        pc, kept = expected(arch, values, row, name)
        wanted = [IMAGE + TEXT + row.address, pc, kept]  # none is an address at which a walk ends
        if pcs[:3] != wanted:
            sys.exit("%s at %#x: %s of the row is %s, and the program has %s" % (
                arch.name, row.address, name, " ".join(map(hex, wanted)), " ".join(map(hex, pcs[:3]))))


def main():
    if not CLANG or not DUMP:
        print("skipped: clang or llvm-dwarfdump is missing")
        return
    with tempfile.TemporaryDirectory() as folder:
        source, made = os.path.join(folder, "a.c"), os.path.join(folder, "a.o")
        with open(source, "w") as file:
            file.write(SOURCE)
        for arch in (X86_64, ARM64):
            total = 0
            ways = WAYS + [SIGNED] if arch is ARM64 else WAYS
            for way in ways:
                command = [CLANG, "-c", "-target", arch.triple, "-ffreestanding", "-fasynchronous-unwind-tables", *way, "-o", made, source]
                subprocess.run(command, check=True)
                rows, odd = rows_of(arch, made)
                for told in sorted(odd):
                    print("%s %s: not read: %s" % (arch.name, " ".join(way), told))
                section = section_of(made)
                for name in arch.saved:
                    compare(folder, arch, section, rows, name)
                total += len(rows)
            print("%s: %d rows of %d ways, each with %d registers: no difference" % (arch.name, total, len(ways), len(arch.saved)))


main()
