#!/usr/bin/env python3
"""Writes a trace for each shape of event records, into a folder of its own, and prints how many event records it has:
shapes.py FOLDER [EVENTS [SHAPE..]]. EVENTS is 200,000 where it is left out; of slow shapes there are fewer."""

import functools
import pathlib
import random
import string
import struct
import sys
import uuid
from typing import Callable, Iterator, NamedTuple, Optional

import packets

TYPES = """/* CTF 1.8 */
typealias integer { size = 5; align = 1; } := u5;
typealias integer { size = 8; } := u8;
typealias integer { size = 16; } := u16;
typealias integer { size = 32; } := u32;
typealias integer { size = 64; } := u64;
typealias integer { size = 8; signed = true; } := i8;
typealias integer { size = 16; signed = true; } := i16;
typealias integer { size = 32; signed = true; } := i32;
typealias integer { size = 64; signed = true; } := i64;
typealias integer { size = 32; base = 2; } := b32;
typealias integer { size = 32; base = 8; } := o32;
typealias integer { size = 32; base = 16; } := x32;
typealias integer { size = 64; base = 16; } := x64;
typealias integer { size = 32; byte_order = be; } := be32;
typealias integer { size = 16; byte_order = be; } := be16;
typealias integer { size = 4; align = 4; byte_order = be; } := be4;
typealias integer { size = 32; align = 32; } := wide32;
typealias integer { size = 8; encoding = UTF8; } := letter;
"""

CLOCK = """clock { name = m; freq = %d; offset_s = 1795422897; };
typealias integer { size = 27; align = 1; map = clock.m.value; } := stamp27;
typealias integer { size = 32; map = clock.m.value; } := stamp32;
typealias integer { size = 48; align = 8; map = clock.m.value; } := stamp48;
typealias integer { size = 64; map = clock.m.value; } := stamp64;
"""

MAGIC = 0xC1FC1FC1
UUID = uuid.UUID("2a6422d0-6cee-11e0-8c08-cb07d7b3a564")
LITTLE, BIG = "<", ">"
# So many different records there are of each shape.
RECORDS = 4096
EVENTS = 200_000


class Header(NamedTuple):
    """An event header: its class, its bytes by byte order, class number and cycles, and on how many bytes it is aligned."""

    text: str
    pack: Callable[[str, int, int], bytes]
    align: int = 1
    has_clock: bool = True


class Members(NamedTuple):
    """Members of a structure, and random bytes of them."""

    text: str
    pack: Callable[[random.Random], bytes]


class Shape(NamedTuple):
    """Event records of a few classes that differ by their names alone, in one stream. Where one is slow to print, there are
    `fewer` times fewer of them."""

    name: str
    fields: Members
    header: Header
    classes: int = 1
    order: str = LITTLE
    frequency: int = 1_000_000_000
    stream_context: Optional[Members] = None
    event_context: Optional[Members] = None
    has_uuid: bool = False
    in_packet: int = 4000
    fewer: int = 1


# Event headers.


def compact_bytes(order: str, number: int, cycles: int) -> bytes:
    stamp = cycles % 2**27
    return struct.pack(order + "I", number | stamp << 5 if order == LITTLE else number << 27 | stamp)


COMPACT = Header(
    "enum : u5 { compact = 0 ... 30, extended = 31 } id;"
    " variant <id> { struct { stamp27 timestamp; } compact; struct { u32 id; stamp64 timestamp; } extended; } v;",
    compact_bytes,
)
EXTENDED = Header(COMPACT.text, lambda order, number, cycles: struct.pack("<BIQ", 31, number, cycles))
LARGE = Header(
    "enum : u16 { compact = 0 ... 65534, extended = 65535 } id;"
    " variant <id> { struct { stamp32 timestamp; } compact; struct { u32 id; stamp64 timestamp; } extended; } v;",
    lambda order, number, cycles: struct.pack("<HI", number, cycles % 2**32),
)
LARGE_ALIGNED = Header(
    "enum : integer { size = 16; align = 16; } { compact = 0 ... 65534, extended = 65535 } id;"
    " variant <id> { struct { integer { size = 32; align = 32; map = clock.m.value; } timestamp; } compact;"
    " struct { wide32 id; integer { size = 64; align = 64; map = clock.m.value; } timestamp; } extended; } v;",
    lambda order, number, cycles: struct.pack("<HxxI", number, cycles % 2**32),
    2,
)
PLAIN = Header("u32 id; stamp64 timestamp;", lambda order, number, cycles: struct.pack("<IQ", number, cycles))
OF_64_BITS = Header("u64 id; stamp64 timestamp;", lambda order, number, cycles: struct.pack("<QQ", number, cycles))
STAMP_FIRST = Header("stamp48 timestamp; u16 id;", lambda order, number, cycles: struct.pack("<Q", cycles | number << 48), 8)
WITHOUT_ID = Header("stamp64 timestamp;", lambda order, number, cycles: struct.pack("<Q", cycles))
WITHOUT_CLOCK = Header("u32 id;", lambda order, number, cycles: struct.pack("<I", number), has_clock=False)
NO_HEADER = Header("", lambda order, number, cycles: b"", has_clock=False)


# Members.


def numbers(text: str, form: str, *limits: int) -> Members:
    """Integers from 0 on below their limits, or where a limit is below 0 from there to its opposite."""

    def pack(rng: random.Random) -> bytes:
        return struct.pack(form, *(rng.randrange(min(0, limit), abs(limit)) for limit in limits))

    return Members(text, pack)


def bits(members: list[tuple[str, int]]) -> Members:
    """Integers of so many bits, one after the other without padding, in little endian."""
    width = sum(size for _, size in members)
    text = " ".join(f"integer {{ size = {size}; align = 1; {more}}} b{number};" for number, (more, size) in enumerate(members))
    return Members(text, lambda rng: rng.getrandbits(width).to_bytes((width + 7) // 8, "little"))


def letters(rng: random.Random, count: int) -> bytes:
    return "".join(rng.choices(string.ascii_letters, k=count)).encode()


def text_of(count: int) -> Members:
    return Members("string s;", lambda rng: letters(rng, count) + b"\0")


def counted(text: str, form: str, most: int, element: Callable[[random.Random], bytes]) -> Members:
    """Members of the form, whose first is how many elements follow, from 1 to `most`, and the elements."""

    def pack(rng: random.Random) -> bytes:
        count = rng.randint(1, most)
        head = struct.pack(form, count, *(rng.randrange(100_000) for _ in form[2:]))
        return head + b"".join(element(rng) for _ in range(count))

    return Members(text, pack)


def labels(count: int, container: str, form: str, more: str = "") -> Members:
    text = ", ".join(f"LABEL_{number} = {number}" for number in range(count))
    return numbers(f"enum : {container} {{ {text}{more} }} e;", form, count)


def ranges(spans: list[range], container: str, form: str) -> Members:
    """An enumeration with a label for each of these ranges of numbers."""
    text = ", ".join(f"LABEL_{index} = {span[0]} ... {span[-1]}" for index, span in enumerate(spans))
    values = [number for span in spans for number in span]
    return Members(f"enum : {container} {{ {text} }} e;", lambda rng: struct.pack(form, rng.choice(values)))


def optional(rng: random.Random) -> bytes:
    """A tag and the option of its label."""
    tag = rng.randrange(4)
    options = (rng.randbytes(4), rng.randbytes(8), letters(rng, 9) + b"\0", rng.randbytes(8))
    return bytes([tag]) + options[tag]


def network_packet(rng: random.Random) -> bytes:
    """What the fields NETWORK of a packet by TCP or UDP over IPv4 are."""
    size, name = rng.randrange(60, 1500), rng.choice([b"lo", b"enp0s3"]) + b"\0"
    udp = rng.randrange(2)
    network = struct.pack(">BBHHHBBH", 0x45, 0, size, rng.randrange(65536), 0, 64, [6, 17][udp], rng.randrange(65536))
    ports = struct.pack(">HH", rng.randrange(1024, 65536), 443)
    transport = struct.pack(">HH", size, 0) if udp else rng.randbytes(8) + struct.pack(">HHHH", 0x5018, 501, 0, 0)
    begin = struct.pack("<QI", 2**64 - rng.randrange(2**40), size) + name + b"\1"
    return begin + network + rng.randbytes(8) + bytes([1 + udp]) + ports + transport


def word(rng: random.Random) -> bytes:
    return struct.pack("<I", rng.randrange(100_000))


def address(rng: random.Random) -> bytes:
    return struct.pack("<Q", rng.randrange(2**47))


def pair(rng: random.Random) -> bytes:
    return word(rng) + word(rng)


def short_text(rng: random.Random) -> bytes:
    return letters(rng, rng.randrange(3, 12)) + b"\0"


def named(rng: random.Random) -> bytes:
    return word(rng) + short_text(rng)


def name_of(room: int) -> Callable[[random.Random], bytes]:
    return lambda rng: letters(rng, rng.randrange(3, room)).ljust(room, b"\0")


def members_of(kind: str, count: int) -> str:
    return " ".join(f"{kind} f{number};" for number in range(count))


def words(count: int, kind: str = "u32", form: str = "I") -> Members:
    return numbers(members_of(kind, count), f"<{count}{form}", *[100_000] * count)


THREE = words(3)
NOTHING = Members("", lambda rng: b"")
PROCESS = Members(
    "i32 vpid; i32 vtid; letter procname[17];",
    lambda rng: struct.pack("<ii", 4711, 4711 + rng.randrange(8)) + name_of(17)(rng),
)
NETWORK = Members(
    "x64 skbaddr; u32 len; string name; enum : u8 { unknown, ipv4, ipv6 } network_type;"
    " variant <network_type> { struct { } unknown; struct {"
    " be4 version; be4 ihl; u8 tos; be16 tot_len; be16 id; be16 frag_off; u8 ttl;"
    " enum : u8 { other = 0 ... 5, tcp = 6, more = 7 ... 16, udp = 17 } protocol; be16 checksum; u8 saddr[4]; u8 daddr[4];"
    " enum : u8 { none, tcp, udp } transport_type; variant <transport_type> { struct { } none; struct { be16 source_port;"
    " be16 dest_port; be32 seq; be32 ack_seq; be4 data_offset; be4 reserved; u8 flags; be16 window_size; be16 checksum;"
    " be16 urg_ptr; } tcp; struct { be16 source_port; be16 dest_port; be16 len; be16 check; } udp; } transport;"
    " } ipv4; struct { u8 header[40]; } ipv6; } network;",
    network_packet,
)
LENGTH_IN_CONTEXT = Members("u8 n;", lambda rng: b"\4")

INTEGERS = [
    Shape("one integer", words(1), COMPACT),
    Shape("three integers", THREE, COMPACT),
    Shape("three integers, eight classes", THREE, COMPACT, classes=8),
    Shape("twelve integers", words(12), COMPACT),
    Shape("no fields", NOTHING, COMPACT),
    Shape(
        "integers of all sizes and signs",
        numbers(
            "i8 a; u8 b; i16 c; u16 d; i32 e; u32 f; i64 g; u64 h;",
            "<bBhHiIqQ", -100, 256, -30000, 65536, -(2**31), 2**32, -(2**50), 2**64,
        ),
        COMPACT,
    ),
    Shape("hexadecimal", words(3, "x32"), COMPACT),
    Shape("octal", words(3, "o32"), COMPACT),
    Shape("binary", words(3, "b32"), COMPACT),
    Shape("big endian in a little-endian trace", numbers(members_of("be32", 3), ">3I", *[100_000] * 3), COMPACT),
    Shape("a big-endian trace", numbers(members_of("u32", 3), ">3I", *[100_000] * 3), COMPACT, order=BIG),
    Shape(
        "integers aligned on 32 bits",
        numbers("u8 a; wide32 b; u8 c; wide32 d;", "<B3xIB3xI", 256, 100_000, 256, 100_000),
        COMPACT,
    ),
    Shape("integers aligned on 1 bit", bits([("", 1), ("", 32), ("", 32), ("", 7)]), COMPACT),
    Shape("bit fields", bits([("", 3), ("", 5), ("signed = true; ", 9), ("", 7), ("base = 16; ", 3), ("", 13)]), COMPACT),
]

TEXTS = [
    Shape("a string of 8 bytes", text_of(8), COMPACT),
    Shape("a string of 64 bytes", text_of(64), COMPACT),
    Shape("a string of 200 bytes", text_of(200), COMPACT),
    Shape("a text of 16 bytes", Members("letter s[16];", name_of(16)), COMPACT),
    Shape("a counted text", counted("u32 n; letter s[n];", "<I", 50, lambda rng: letters(rng, 1)), COMPACT),
    Shape("an array of strings", Members("string a[4];", lambda rng: b"".join(short_text(rng) for _ in range(4))), COMPACT),
]

ENUMERATIONS = [
    Shape("an enumeration of 4 labels", labels(4, "u8", "<B"), COMPACT),
    Shape("an enumeration of 64 labels", labels(64, "u8", "<B"), COMPACT),
    Shape("an enumeration of 1,000 labels", labels(1000, "u16", "<H"), COMPACT, fewer=5),
    Shape("labels that overlap", labels(8, "u8", "<B", ", LOW = 0 ... 3, HIGH = 4 ... 7, ANY = 0 ... 255"), COMPACT),
    Shape("error numbers, two labels of one", labels(131, "u8", "<B", ", AGAIN = 11"), COMPACT),
    Shape(
        "error numbers, two left out",
        ranges([range(number, number + 1) for number in range(1, 134) if number not in (41, 58)], "u8", "<B"),
        COMPACT,
    ),
    Shape(
        "labels of powers of two",
        ranges([range(1 << bit, (1 << bit) + 1) for bit in range(32)], "u32", "<I"),
        COMPACT,
    ),
    Shape(
        "labels of ten numbers each",
        ranges([range(first, first + 10) for first in range(0, 640, 10)], "u16", "<H"),
        COMPACT,
    ),
    Shape("numbers without a label", numbers("enum : u16 { A = 1, B = 2, C = 3 } e;", "<H", 65536), COMPACT),
]

COMPOUNDS = [
    Shape(
        "a variant of four options",
        Members(
            "enum : u8 { NUMBER, WORD, TEXT, PAIR } t;"
            " variant <t> { u32 NUMBER; u64 WORD; string TEXT; struct { u32 x; u32 y; } PAIR; } v;",
            optional,
        ),
        COMPACT,
    ),
    Shape("variants within one another, as the kernel's packets", NETWORK, COMPACT, event_context=PROCESS),
    Shape(
        "nested structures",
        words(4)._replace(text="struct { u32 a; struct { u32 b; struct { u32 c; } x; } y; } z; u32 d;"),
        COMPACT,
    ),
    Shape("a structure of integers", words(4)._replace(text="struct { u32 a; u32 b; } x; u32 c; u32 d;"), COMPACT),
    Shape("an empty structure", words(1)._replace(text="struct { } a; u32 b;"), COMPACT),
    Shape("an array", words(4)._replace(text="u32 a[4];"), COMPACT),
    Shape("an array of structures", words(8)._replace(text="struct { u32 x; u32 y; } a[4];"), COMPACT),
    Shape("an array of arrays", words(16)._replace(text="u32 a[4][4];"), COMPACT),
    Shape("a sequence", counted("u8 n; u32 a[n];", "<B", 8, word), COMPACT),
    Shape("a sequence of structures", counted("u8 n; struct { u32 x; u32 y; } a[n];", "<B", 8, pair), COMPACT),
    Shape("a length two fields before", counted("u8 n; u32 x; u32 a[n];", "<BI", 8, word), COMPACT),
    Shape(
        "a length in the context",
        words(4)._replace(text="u32 a[stream.event.context.n];"),
        COMPACT,
        stream_context=LENGTH_IN_CONTEXT,
    ),
    Shape("a length in the packet's context", words(3)._replace(text="u32 a[stream.packet.context.cpu_id];"), COMPACT),
    Shape("a chain of calls", counted("u64 n; x64 a[n];", "<Q", 16, address), COMPACT),
    Shape("a sequence of strings", counted("u8 n; string a[n];", "<B", 6, short_text), COMPACT),
    Shape("a sequence of structures with a string", counted("u8 n; struct { u32 x; string s; } a[n];", "<B", 6, named), COMPACT),
]

HEADERS = [
    Shape("the extended header of LTTng", THREE, EXTENDED),
    Shape("the large header of LTTng", THREE, LARGE),
    Shape("the same, aligned on its integers", THREE, LARGE_ALIGNED),
    Shape("a plain header", THREE, PLAIN),
    Shape("a plain header of 64 bits, a string", text_of(24), OF_64_BITS),
    Shape("a stamp of 48 bits, then an id", words(2, "u64", "Q"), STAMP_FIRST),
    Shape("a header without an id", THREE, WITHOUT_ID),
    Shape("a header without a clock", THREE, WITHOUT_CLOCK),
    Shape("no header", THREE, NO_HEADER),
    Shape("a clock of 24 MHz", THREE, COMPACT, frequency=24_000_000),
    Shape("the context of a stream", THREE, COMPACT, stream_context=PROCESS),
    Shape("the context of an event", THREE, COMPACT, event_context=numbers("x64 ip; u32 cookie;", "<QI", 2**47, 2**32)),
    Shape("the context of a stream, no fields", NOTHING, COMPACT, stream_context=PROCESS),
    Shape("packets of 1 event", THREE, COMPACT, in_packet=1, fewer=4),
    Shape("packets of 8 events", THREE, COMPACT, in_packet=8),
    Shape("packets of 64 events", THREE, COMPACT, in_packet=64),
    Shape("packets of 1 event, with a UUID", THREE, COMPACT, has_uuid=True, in_packet=1, fewer=4),
    Shape("packets of 8 events, with a UUID", THREE, COMPACT, has_uuid=True, in_packet=8),
]

SHAPES = INTEGERS + TEXTS + ENUMERATIONS + COMPOUNDS + HEADERS
# babeltrace2 2.0.4 writes no braces around several labels, and no name of an option.
WRITTEN_OTHERWISE = {"labels that overlap", "error numbers, two labels of one", "a variant of four options"}


# Traces.


def metadata_of(shape: Shape) -> str:
    order, has_clock = "le" if shape.order == LITTLE else "be", shape.header.has_clock
    of_trace, in_packets = (f'uuid = "{UUID}"; ', "u8 uuid[16]; ") if shape.has_uuid else ("", "")
    header = f"struct {{ u32 magic; {in_packets}u32 stream_id; }}"
    head = f"trace {{ major = 1; minor = 8; {of_trace}byte_order = {order}; packet.header := {header}; }};\n"
    stamps = "stamp64 timestamp_begin; stamp64 timestamp_end; " if has_clock else ""
    stream = f" packet.context := struct {{ {stamps}u64 content_size; u64 packet_size; u32 cpu_id; }};\n"
    if shape.header.text:
        stream += f" event.header := struct {{ {shape.header.text} }} align({8 * shape.header.align});\n"
    if shape.stream_context:
        stream += f" event.context := struct {{ {shape.stream_context.text} }};\n"
    context = f"context := struct {{ {shape.event_context.text} }}; " if shape.event_context else ""
    event = f'event {{ name = "event_%d"; id = %d; stream_id = 0; {context}fields := struct {{ {shape.fields.text} }}; }};\n'
    events = "".join(event % (number, number) for number in range(shape.classes))
    return TYPES + head + (CLOCK % shape.frequency if has_clock else "") + f"stream {{ id = 0;\n{stream}}};\n{events}"


def packet(shape: Shape, begin: int, end: int, records: bytes) -> bytes:
    """A packet of records, the first of which is aligned as their headers are."""
    of_trace = UUID.bytes if shape.has_uuid else b""
    sizes_at = (24 if shape.header.has_clock else 8) + len(of_trace)
    padding = bytes(-(sizes_at + 20) % shape.header.align)
    size = 8 * (sizes_at + 20 + len(padding) + len(records))
    stamps = struct.pack(shape.order + "QQ", begin, end) if shape.header.has_clock else b""
    head = struct.pack(shape.order + "I", MAGIC) + of_trace + struct.pack(shape.order + "I", 0)
    return head + stamps + struct.pack(shape.order + "QQI", size, size, 3) + padding + records


def bodies_of(shape: Shape) -> list[bytes]:
    """What stands after the header in each of the different records."""
    rng = random.Random(shape.name)
    parts = [it for it in (shape.stream_context, shape.event_context, shape.fields) if it]
    return [b"".join(part.pack(rng) for part in parts) for _ in range(RECORDS)]


def records_of(shape: Shape, count: int) -> Iterator[tuple[int, bytes]]:
    """The cycles and the bytes of each event record."""
    rng, bodies, cycles = random.Random(1), bodies_of(shape), 0
    for index in range(count):
        cycles += rng.randrange(100, 2000)
        number = rng.randrange(shape.classes)
        yield cycles, shape.header.pack(shape.order, number, cycles) + bodies[index % RECORDS]


def write_trace(folder: pathlib.Path, metadata: str, **streams: bytes) -> None:
    folder.mkdir(parents=True, exist_ok=True)
    (folder / "metadata").write_text(metadata)
    for name, data in streams.items():
        (folder / name).write_bytes(data)


def write(shape: Shape, folder: pathlib.Path, events: int) -> int:
    """Writes the trace of a shape, and gives how many event records it has."""
    count, written = max(1, events // shape.fewer), []
    records = records_of(shape, count)
    for first in range(0, count, shape.in_packet):
        held = [next(records) for _ in range(min(shape.in_packet, count - first))]
        written.append(packet(shape, held[0][0], held[-1][0], b"".join(data for _, data in held)))
    write_trace(folder, metadata_of(shape), s0=b"".join(written))
    return count


def write_recording(streams: int, folder: pathlib.Path, events: int) -> int:
    """Writes streams in the manner of LTTng, a block of events in each packet, and gives how many event records they have."""
    write_trace(folder, packets.METADATA)
    count = max(1, events // streams // packets.EVENTS_IN_A_BLOCK)
    return sum(packets.write_stream(folder / f"s{number}", number, count, 65536) for number in range(streams))


# Each trace by its name: a call that writes it, given the folder and about how many event records it is to have.
TRACES: dict[str, Callable[[pathlib.Path, int], int]] = {
    "as LTTng, 1 stream": functools.partial(write_recording, 1),
    "as LTTng, 8 streams": functools.partial(write_recording, 8),
    **{shape.name: functools.partial(write, shape) for shape in SHAPES},
}


def main(folder: str, events: int = EVENTS, *names: str) -> None:
    for number, name in enumerate(TRACES):
        if not names or name in names:
            print(f"{number:02} {name}: events {TRACES[name](pathlib.Path(folder) / f'{number:02}', events)}", flush=True)


if __name__ == "__main__":
    main(sys.argv[1], *map(int, sys.argv[2:3]), *sys.argv[3:])
