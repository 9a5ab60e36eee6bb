"""Reports and `show` beside protoc, an independent reader and writer of the encoding, and beside a plain reader of ours.

    python3 bench/interop.py [PROGRAM]

PROGRAM is the proved program, by default crates/plcr_tool/out/plcr_tool. What takes protoc is skipped with a message
where it is missing (Debian: protobuf-compiler). Ends with status 1 at the first difference.
"""
import os
import random
import re
import shutil
import struct
import subprocess
import sys
import tempfile

import reference

HERE = os.path.dirname(os.path.abspath(__file__))
TOP = os.path.join(HERE, "..")
PROGRAM = sys.argv[1] if len(sys.argv) > 1 else os.path.join(TOP, "crates", "plcr_tool", "out", "plcr_tool")
HEAD = b"plcrash\x01"
LIMIT = 67_108_864
I64 = 1 << 63
PROTOC = shutil.which("protoc")


def protoc(action, file, message, data):
    """What protoc makes of the data; None where it refuses them."""
    command = ["protoc", "--proto_path=" + os.path.join(TOP, "docs"), "--%s=%s" % (action, message), file]
    done = subprocess.run(command, input=data, capture_output=True)
    return done.stdout if done.returncode == 0 else None


# protoc's text format, and the text of `show` of what stands in it

TOKEN = re.compile(rb'\s*(?:([A-Za-z_0-9.]+)\s*(:|\{)|(\}))')
STRING = re.compile(rb'\s*"((?:[^"\\]|\\.)*)"')
WORD = re.compile(rb'\s*(\S+)')
ESCAPE = re.compile(rb'\\([0-7]{1,3}|x[0-9a-fA-F]{1,2}|.)')
NAMED = {b"n": b"\n", b"r": b"\r", b"t": b"\t"}


def unescaped(text):
    def one(match):
        word = match.group(1)
        if word[:1].isdigit():
            return bytes([int(word, 8)])
        if word[:1] == b"x" and len(word) > 1:
            return bytes([int(word[1:], 16)])
        return NAMED.get(word, word)
    return ESCAPE.sub(one, text)


def tree(text, at=0):
    """The fields of a message in protoc's text format: a list of values for each name."""
    fields = {}
    while True:
        match = TOKEN.match(text, at)
        if not match or match.group(3):
            return fields, match.end() if match else len(text)
        name = match.group(1).decode()
        if match.group(2) == b"{":
            value, at = tree(text, match.end())
        elif string := STRING.match(text, match.end()):
            value, at = unescaped(string.group(1)), string.end()
        else:
            word = WORD.match(text, match.end())
            value, at = word.group(1), word.end()
        fields.setdefault(name, []).append(value)


def number(fields, name):
    return int(fields[name][0])


def flag(fields, name):
    return 1 if fields[name][0] == b"true" else 0


def address(fields, name):
    return "0x%016x" % number(fields, name)


def shown(text):
    plain = "".join(chr(b) if 0x21 <= b <= 0x7E and b != 0x5C else "\\x%02x" % b for b in text)
    return plain or "\\-"


def text_of(report):
    lines = ["report 1"]
    system = report["system_info"][0]
    lines.append("system %d %s %d %d" % (
        number(system, "operating_system"), shown(system["os_version"][0]), number(system, "architecture"),
        number(system, "timestamp")))
    application = report["application_info"][0]
    lines.append("application %s %s" % (shown(application["identifier"][0]), shown(application["version"][0])))
    for thread in report.get("threads", []):
        lines.append("thread %d%s" % (number(thread, "thread_number"), " crashed" if flag(thread, "crashed") else ""))
        for place, frame in enumerate(thread.get("frames", [])):
            line = "frame %d %s" % (place, address(frame, "pc"))
            for symbol in frame.get("symbol", []):
                line += " %s %s" % (shown(symbol["name"][0]), address(symbol, "start_address"))
            lines.append(line)
        for register in thread.get("registers", []):
            lines.append("register %s %s" % (shown(register["name"][0]), address(register, "value")))
    for image in report.get("binary_images", []):
        uuid = (image["uuid"][0].hex() or "\\-") if "uuid" in image else "-"
        code = ["%d %d" % (number(c, "cpu"), number(c, "subtype")) for c in image.get("code_type", [])] or ["- -"]
        lines.append("image %s %d %s %s %s" % (
            address(image, "base_address"), number(image, "size"), shown(image["name"][0]), uuid, code[0]))
    signal = report["signal"][0]
    lines.append("signal %s %s %s" % (shown(signal["name"][0]), shown(signal["code"][0]), address(signal, "address")))
    for process in report.get("process_info", []):
        name = shown(process["name"][0]) if "name" in process else "-"
        lines.append("process %s %d %d %d" % (
            name, number(process, "id"), number(process, "parent_id"), flag(process, "native")))
    for info in report.get("report_info", []):
        lines.append("info %d" % flag(info, "user_requested"))
    return "".join(line + "\n" for line in lines)


def run(folder, *words):
    done = subprocess.run([PROGRAM, *words], cwd=folder, capture_output=True)
    return done.returncode, done.stdout.decode("latin1")


def show(folder, data):
    with open(os.path.join(folder, "r"), "wb") as file:
        file.write(data)
    return run(folder, "show", "r")


def same(what, got, want):
    if got != want:
        sys.exit("%s\n got %r\nwant %r" % (what, got, want))


def shown_alike(folder, what, data):
    """`show` prints of the file what protoc decodes from it."""
    text = protoc("decode", "crash_report.proto", "plcr.CrashReport", data[len(HEAD):])
    if text is None:
        sys.exit("%s: protoc refuses %s" % (what, data.hex()))
    same(what, show(folder, data), (0, text_of(tree(text)[0])))


# what `report` writes

IMAGES = [0x100000000 + 0x4000 * k for k in range(8)]


def segment(address, size, offset, there):
    return struct.pack("<II16xQQQQIIII", 0x19, 72, address, size, offset, there, 5, 5, 0, 0)


def image(k):
    """The first bytes of image k: a header, a segment `__TEXT` and, but for each third, a uuid."""
    uuid = b"" if k % 3 == 2 else struct.pack("<II12xI", 0x1B, 24, k)
    text_command = struct.pack("<II16s4Q4I", 0x19, 72, b"__TEXT", IMAGES[k], 0x4000, 0, 0x4000, 5, 5, 0, 0)
    head = struct.pack("<8I", 0xFEEDFACF, 0x01000007, 3 + k, 6, 2 if uuid else 1, len(text_command + uuid), 0, 0)
    return (head + text_command + uuid).ljust(128, b"\0")


def core(chance, threads):
    states = b"".join(
        struct.pack("<4I", 4, 184, 4, 42) + struct.pack("<21Q", *(chance.getrandbits(chance.choice([1, 20, 64])) for _ in range(21)))
        for _ in range(threads))
    place = 32 + 72 * (len(IMAGES) + 1) + len(states)
    segments = segment(0x7000, 0x1000, 0, 0) + b"".join(
        segment(address, 0x4000, place + 128 * k, 128) for k, address in enumerate(IMAGES))
    header = struct.pack("<8I", 0xFEEDFACF, 0x01000007, 3, 4, len(IMAGES) + 1 + threads, len(segments) + len(states), 0, 0)
    return header + segments + states + b"".join(image(k) for k in range(len(IMAGES)))


def words(chance, length):
    return bytes(chance.choice([b for b in range(256) if b != 10]) for _ in range(length))


def script(chance):
    """Values, loads and unloads, and a report."""
    said = [b"set %s %s" % (key, words(chance, chance.choice([0, 1, 3, 40])))
            for key in (b"osversion", b"identifier", b"version", b"signal", b"code", b"process") if chance.random() < 0.6]
    numbers_set = [(b"os", 2), (b"timestamp", I64 - 1), (b"address", 2 * I64 - 1), (b"pid", 2**32 - 1), (b"crashed", 5), (b"user", 1)]
    said += [b"set %s %d" % (key, chance.choice([0, most])) for key, most in numbers_set]
    for _ in range(chance.randrange(12)):
        at = chance.choice(IMAGES)
        name = words(chance, chance.choice([0, 1, 5, 127, 128, 300, 1024]))
        said.append(b"load %#x %s" % (at, name) if chance.random() < 0.75 else b"unload %#x" % at)
    return b"\n".join(said + [b"report 0 a\n"])


def written(folder, chance):
    for threads in [1, 2, 7, 100, 4096] + [1, 3] * 30:
        for name, data in (("core", core(chance, threads)), ("script", script(chance))):
            with open(os.path.join(folder, name), "wb") as file:
                file.write(data)
        status, _ = run(folder, "report", "core", "script")
        same("report of %d threads" % threads, status, 0)
        with open(os.path.join(folder, "a"), "rb") as file:
            data = file.read()
        answered(folder, "show of %d threads" % threads, data)


# reports that protoc encodes piece by piece

def quoted(data):
    return '"%s"' % "".join("\\%03o" % b for b in data)


def text(chance):
    return quoted(bytes(chance.choice(b"ab \\\n\x00\x7f\x80\xff") for _ in range(chance.randrange(6))))


def numbers(bits):
    return lambda chance: str(chance.getrandbits(chance.choice([1, 7, 8, bits])))


def signed(chance):
    return str(chance.choice([0, -1, 1, I64 - 1, -I64, chance.randrange(-I64, I64)]))


def truth(chance):
    return chance.choice(["true", "false"])


def part(names, others):
    """A message with these fields. Pieces of a single one are merged, so a field may stand in any of them."""
    def made(chance, whole=True):
        fields = [(name, value) for name, value in names.items()]
        fields += [(name, value) for name, value in others.items() if chance.random() < 0.5]
        fields = fields if whole else [field for field in fields if chance.random() < 0.4]
        return " ".join("%s %s" % (name + ("" if isinstance(value, Inner) else ":"), value(chance)) for name, value in fields)
    return made


class Inner:
    def __init__(self, made):
        self.made = made

    def __call__(self, chance):
        return "{ %s }" % self.made(chance)


class Rows:
    """Rows of a repeated message, within one that stands in one place."""
    def __init__(self, name, row):
        self.name, self.row = name, row

    def __call__(self, chance):
        return " ".join("%s { %s }" % (self.name, self.row(chance)) for _ in range(chance.randrange(4)))


u32, u64 = numbers(32), numbers(64)
SYMBOL = part({"name": text, "start_address": u64}, {"end_address": u64})
FRAME = part({"pc": u64}, {"symbol": Inner(SYMBOL)})
REGISTER = part({"name": text, "value": u64}, {})
PROCESSOR = part({"encoding": u32, "cpu": u64, "subtype": u64}, {})
IMAGE = part({"base_address": u64, "size": u64, "name": text}, {"uuid": text, "code_type": Inner(PROCESSOR)})
SINGLE = {
    "system_info": part({"operating_system": u32, "os_version": text, "architecture": u32, "timestamp": signed}, {"os_build": text}),
    "application_info": part({"identifier": text, "version": text}, {}),
    "signal": part({"name": text, "code": text, "address": u64}, {}),
    "process_info": part({"id": u32, "parent_id": u32, "native": truth}, {"name": text, "path": text, "parent_name": text}),
    "report_info": part({"user_requested": truth}, {"uuid": text}),
}
UNKNOWN = {"unknown_number": u64, "unknown_bytes": text, "unknown_fixed64": u64, "unknown_fixed32": u32}


def thread(chance):
    head = part({"thread_number": u32, "crashed": truth}, {"unknown_fixed32": u32})(chance)
    return " ".join([head, Rows("frames", FRAME)(chance), Rows("registers", REGISTER)(chance)])


def pieces(chance):
    """Texts of messages that make a report together: each single message stands once whole, and in parts before and
    after that; rows and unknown fields stand between them."""
    texts = []
    for name, made in SINGLE.items():
        if name.endswith("process_info") and chance.random() < 0.3:
            continue
        texts.append("%s { %s }" % (name, made(chance)))
        texts += ["%s { %s }" % (name, made(chance, whole=False)) for _ in range(chance.randrange(3))]
    texts += ["threads { %s }" % thread(chance) for _ in range(chance.randrange(4))]
    texts += ["binary_images { %s }" % IMAGE(chance) for _ in range(chance.randrange(4))]
    texts += ["%s: %s" % (name, value(chance)) for name, value in UNKNOWN.items() if chance.random() < 0.5]
    chance.shuffle(texts)
    return texts


def in_pieces(folder, chance, times):
    for time in range(times):
        data = HEAD
        for piece in pieces(chance):
            encoded = protoc("encode", "crash_report_wide.proto", "plcr.wide.CrashReport", piece.encode())
            if encoded is None:
                sys.exit("protoc doesn't encode %s" % piece)
            data += encoded
        shown_alike(folder, "pieces %d" % time, data)


# files that are no reports

FAULTS = [
    (b"", "magic"),
    (b"plcrasx\x01", "magic"),
    (b"plcrash", "truncated 7"),
    (b"plcrash\x02", "version 2"),
    (HEAD, "missing root 1"),
    # a length of 2^64 - 1, of an unknown field and of a known one
    (HEAD + b"\x7a" + b"\xff" * 9 + b"\x01", "truncated 19"),
    (HEAD + b"\x0a" + b"\xff" * 9 + b"\x01", "truncated 19"),
    # a varint whose tenth byte is above 1, as a tag, as a number and as a length
    (HEAD + b"\xff" * 9 + b"\x02", "badvarint 8"),
    (HEAD + b"\x78" + b"\xff" * 9 + b"\x02", "badvarint 9"),
    (HEAD + b"\x7a" + b"\xff" * 9 + b"\x7f", "badvarint 9"),
    (HEAD + b"\x78" + b"\xff" * 9, "truncated 18"),
    # groups, and wire types that aren't in use
    (HEAD + b"\x7b", "badtag 8"),
    (HEAD + b"\x7c", "badtag 8"),
    (HEAD + b"\x7e", "badtag 8"),
    (HEAD + b"\x7f", "badtag 8"),
    # field 0, and one above 2^29 - 1
    (HEAD + b"\x00\x05", "badtag 8"),
    (HEAD + b"\x80\x80\x80\x80\x10\x05", "badtag 8"),
    # a known field of another wire type, and a fault within it that comes first
    (HEAD + b"\x08\x05", "wrongwire 1 8"),
    (HEAD + b"\x0d\x01\x02\x03\x04", "wrongwire 1 8"),
    (HEAD + b"\x0d\x01\x02\x03", "truncated 12"),
    # a field that passes the end of its own message
    (HEAD + b"\x0a\x02\x12\x05" + b"12345", "truncated 12"),
    # an unknown message isn't looked into
    (HEAD + b"\x7a\x02\x00\x00" + b"\x0a\x00", "missing root 2"),
]


def faults(folder):
    for data, fault in FAULTS:
        same("show of %s" % data.hex(), show(folder, data), (6, "report %s\n" % fault))


def limit(folder):
    same("a file of the limit", show(folder, b"0" * LIMIT), (6, "report magic\n"))
    same("a longer file", show(folder, b"0" * (LIMIT + 1)), (2, "too long r %d\n" % LIMIT))


def answered(folder, what, data):
    """The program answers as the plain reader does, and at 0 as protoc reads the file, where there is one."""
    status, said = show(folder, data)
    same(what, (status, said), reference.shown(data))
    if PROTOC and status == 0:
        shown_alike(folder, what, data)
    return status


def changed(folder, data):
    """Each byte of a report changed in ten ways."""
    accepted = 0
    for place in range(len(data)):
        for byte in {data[place] ^ (1 << bit) for bit in range(8)} | {0, 255}:
            one = data[:place] + bytes([byte]) + data[place + 1:]
            accepted += answered(folder, "byte %d as %d" % (place, byte), one) == 0
    return accepted


def random_bytes(folder, chance, times):
    for time in range(times):
        body = bytes(chance.choice([0, 1, 8, 10, 18, 26, 34, 50, 58, 74, chance.randrange(256)]) for _ in range(chance.randrange(200)))
        answered(folder, "random bytes %d" % time, (HEAD if time % 4 else b"") + body)


def beside_protoc(folder, chance):
    if not PROTOC:
        print("skipped: what takes protoc, which is missing")
        return
    in_pieces(folder, chance, 40)
    print("40 reports of pieces by protoc: shown right")


def main():
    readers = "protoc and a plain reader" if PROTOC else "a plain reader"
    chance = random.Random(1)
    with tempfile.TemporaryDirectory() as folder:
        written(folder, chance)
        print("reports of 1 to 4096 threads, with images and values: %s decode what show prints" % readers)
        beside_protoc(folder, chance)
        faults(folder)
        limit(folder)
        print("%d files with a known fault: each at its place; the limit" % len(FAULTS))
        for name in ["one_thread.core", "one_thread.script"]:
            shutil.copy(os.path.join(TOP, "examples", name), folder)
        same("the example", run(folder, "report", "one_thread.core", "one_thread.script")[0], 0)
        with open(os.path.join(folder, "a.plcrash"), "rb") as file:
            data = file.read()
        accepted = changed(folder, data)
        print("each byte of the example's report changed: answered as by the plain reader, the %d accepted ones as by %s" % (accepted, readers))
        random_bytes(folder, chance, 1000)
        print("1000 files of random bytes: answered as by the plain reader")


if __name__ == "__main__":
    main()
