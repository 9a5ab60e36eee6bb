"""A plain reader of report files, written from docs/report-file.md alone: what `show` is to answer for any bytes.

    status, printed = shown(data)
"""

VARINT, BYTES = "varint", "bytes"
REQUIRED, OPTIONAL, REPEATED = "required", "optional", "repeated"

# the fields of each message: number, what it holds, label
TABLE = {
    "root": {1: ("system", REQUIRED), 2: ("application", REQUIRED), 3: ("thread", REPEATED), 4: ("image", REPEATED),
             6: ("signal", REQUIRED), 7: ("process", OPTIONAL), 9: ("info", OPTIONAL)},
    "system": {1: (VARINT, REQUIRED), 2: (BYTES, REQUIRED), 3: (VARINT, REQUIRED), 4: (VARINT, REQUIRED), 5: (BYTES, OPTIONAL)},
    "application": {1: (BYTES, REQUIRED), 2: (BYTES, REQUIRED)},
    "thread": {1: (VARINT, REQUIRED), 2: ("frame", REPEATED), 3: (VARINT, REQUIRED), 4: ("register", REPEATED)},
    "frame": {3: (VARINT, REQUIRED), 6: ("symbol", OPTIONAL)},
    "symbol": {1: (BYTES, REQUIRED), 2: (VARINT, REQUIRED), 3: (VARINT, OPTIONAL)},
    "register": {1: (BYTES, REQUIRED), 2: (VARINT, REQUIRED)},
    "image": {1: (VARINT, REQUIRED), 2: (VARINT, REQUIRED), 3: (BYTES, REQUIRED), 4: (BYTES, OPTIONAL), 5: ("processor", OPTIONAL)},
    "processor": {1: (VARINT, REQUIRED), 2: (VARINT, REQUIRED), 3: (VARINT, REQUIRED)},
    "signal": {1: (BYTES, REQUIRED), 2: (BYTES, REQUIRED), 3: (VARINT, REQUIRED)},
    "process": {1: (BYTES, OPTIONAL), 2: (VARINT, REQUIRED), 3: (BYTES, OPTIONAL), 4: (BYTES, OPTIONAL), 5: (VARINT, REQUIRED),
                6: (VARINT, REQUIRED)},
    "info": {1: (VARINT, REQUIRED), 2: (BYTES, OPTIONAL)},
}


class Fault(Exception):
    pass


def varint(data, at, end):
    number = 0
    for place in range(10):
        if at + place >= end:
            raise Fault("truncated %d" % end)
        byte = data[at + place]
        if place == 9 and byte > 1:
            raise Fault("badvarint %d" % at)
        number |= (byte & 127) << (7 * place)
        if byte < 128:
            return number, at + place + 1
    raise AssertionError


def passed(data, wire, at, end):
    """A field's value, and where it ends; the value of bytes is where they begin and end."""
    if wire == 0:
        return varint(data, at, end)
    size = {1: 8, 5: 4}.get(wire)
    if size is None:
        size, at = varint(data, at, end)
    if size > end - at:
        raise Fault("truncated %d" % end)
    return (at, at + size), at + size


def fields(kind, data, at, end):
    """The fields of a message that the table knows, in their order, messages within it read where they stand."""
    found = []
    while at < end:
        place = at
        tag, at = varint(data, at, end)
        number, wire = tag >> 3, tag & 7
        if number == 0 or number >= 1 << 29 or wire in (3, 4, 6, 7):
            raise Fault("badtag %d" % place)
        value, at = passed(data, wire, at, end)
        if number not in TABLE[kind]:
            continue
        holds, _ = TABLE[kind][number]
        if wire != (0 if holds == VARINT else 2):
            raise Fault("wrongwire %d %d" % (number, place))
        if holds == BYTES:
            value = data[value[0]:value[1]]
        elif holds != VARINT:
            value = fields(holds, data, *value)
        found.append((number, value))
    return found


def merged(kind, found):
    """The message of some fields: the last value, one message of all its parts, or a message for each."""
    message = {}
    for number, (holds, label) in TABLE[kind].items():
        values = [value for n, value in found if n == number]
        if holds in (VARINT, BYTES):
            message[number] = values[-1] if values else None
        elif label == REPEATED:
            message[number] = [merged(holds, value) for value in values]
        else:
            message[number] = merged(holds, [field for value in values for field in value]) if values else None
    return message


def judged(kind, message):
    """A message's own fields first, then the messages in it by their field's number and place."""
    for number, (_, label) in TABLE[kind].items():
        if label == REQUIRED and message[number] is None:
            raise Fault("missing %s %d" % (kind, number))
    for number, (holds, label) in TABLE[kind].items():
        if holds not in (VARINT, BYTES):
            for inner in message[number] if label == REPEATED else [message[number]]:
                if inner is not None:
                    judged(holds, inner)


def text(data):
    plain = "".join(chr(b) if 0x21 <= b <= 0x7E and b != 0x5C else "\\x%02x" % b for b in data)
    return plain or "\\-"


def or_dash(value, words):
    return "-" if value is None else words(value)


def frame_line(place, frame):
    symbol = "" if frame[6] is None else " %s 0x%016x" % (text(frame[6][1]), frame[6][2])
    return "frame %d 0x%016x%s" % (place, frame[3], symbol)


def thread_lines(thread):
    yield "thread %d%s" % (thread[1] % 2**32, " crashed" if thread[3] else "")
    for place, frame in enumerate(thread[2]):
        yield frame_line(place, frame)
    for register in thread[4]:
        yield "register %s 0x%016x" % (text(register[1]), register[2])


def image_line(image):
    uuid = or_dash(image[4], lambda data: data.hex() or "\\-")
    code = "- -" if image[5] is None else "%d %d" % (image[5][2], image[5][3])
    return "image 0x%016x %d %s %s %s" % (image[1], image[2], text(image[3]), uuid, code)


def lines(report):
    yield "report 1"
    system, application, signal, process = report[1], report[2], report[6], report[7]
    time = system[4] - 2**64 if system[4] >= 2**63 else system[4]
    yield "system %d %s %d %d" % (system[1] % 2**32, text(system[2]), system[3] % 2**32, time)
    yield "application %s %s" % (text(application[1]), text(application[2]))
    for thread in report[3]:
        yield from thread_lines(thread)
    for image in report[4]:
        yield image_line(image)
    yield "signal %s %s 0x%016x" % (text(signal[1]), text(signal[2]), signal[3])
    if process is not None:
        yield "process %s %d %d %d" % (or_dash(process[1], text), process[2] % 2**32, process[5] % 2**32, 1 if process[6] else 0)
    if report[9] is not None:
        yield "info %d" % (1 if report[9][1] else 0)


def shown(data):
    try:
        if data[:7] != b"plcrash":
            raise Fault("magic")
        if len(data) == 7:
            raise Fault("truncated 7")
        if data[7] != 1:
            raise Fault("version %d" % data[7])
        report = merged("root", fields("root", data, 8, len(data)))
        judged("root", report)
        return 0, "".join(line + "\n" for line in lines(report))
    except Fault as fault:
        return 6, "report %s\n" % fault
