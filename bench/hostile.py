#!/usr/bin/env python3
"""Runs a program over traces that are made to cost it time or memory, each in three sizes, and prints a table of what it
takes: hostile.py PROGRAM [BEFORE] [--babeltrace2 PATH]"""

import argparse
import itertools
import math
import pathlib
import string
import struct
import tempfile
from typing import Callable, NamedTuple

import measure
import metadata
import packets
import shapes
from measure import GIBIBYTE, KIBIBYTE, MEBIBYTE, Run

# Times below are not told apart from none.
TELLABLE = 0.002

TRACE = shapes.TYPES + "trace { major = 1; minor = 8; byte_order = le; %s};\n"
STREAM = "stream { %s};\n"
EVENT = "event { name = e; fields := struct { %s }; };\n"
# With a letter for a name, for texts of many small declarations.
SHORT = "/* CTF 1.8 */\ntrace { major = 1; minor = 8; byte_order = le; };\ntypealias integer { size = 8; } := u;\n"


class Case(NamedTuple):
    """A trace that is written into a folder at a size, what a size counts, and the sizes."""

    name: str
    counted: str
    write: Callable[[pathlib.Path, int], None]
    sizes: tuple[int, ...]


# A packet's header or context: the members of so many bytes, and the bytes.
Scope = Callable[[int], tuple[str, bytes]]
SCOPE_SIZES = 4 * KIBIBYTE, 64 * KIBIBYTE, MEBIBYTE
SEQUENCES = 256


def length(number: int) -> bytes:
    return struct.pack("<I", number)


def many_sequences(size: int) -> tuple[str, bytes]:
    members = "".join(f" u8 a{number}[n];" for number in range(SEQUENCES))
    return "u32 n;" + members, length(size // SEQUENCES) + bytes(size)


SCOPES: dict[str, Scope] = {
    "array": lambda size: (f"u8 a[{size}];", bytes(size)),
    "sequence": lambda size: ("u32 n; u8 a[n];", length(size) + bytes(size)),
    "sequence of structures": lambda size: ("u32 n; struct { u16 x; u8 y; u8 z; } a[n];", length(size // 4) + bytes(size)),
    "string": lambda size: ("string s;", b"x" * size + b"\0"),
    "array of strings": lambda size: (f"string a[{size // 8}];", b"element\0" * (size // 8)),
    "sequence of sequences": lambda size: (
        "u32 n; struct { u8 m; u8 a[m]; } s[n];",
        length(size // 16) + (b"\x0F" + bytes(15)) * (size // 16),
    ),
    f"{SEQUENCES} sequences": many_sequences,
}


def in_header(scope: Scope, folder: pathlib.Path, size: int) -> None:
    members, data = scope(size)
    text = TRACE % f"packet.header := struct {{ {members} }}; " + STREAM % "packet.context := struct { u32 packet_size; }; "
    shapes.write_trace(folder, text + EVENT % "u8 a;", s0=data + length(8 * (len(data) + 5)) + b"\1")


def in_context(scope: Scope, folder: pathlib.Path, size: int) -> None:
    members, data = scope(size)
    text = TRACE % "" + STREAM % f"packet.context := struct {{ u32 packet_size; {members} }}; "
    shapes.write_trace(folder, text + EVENT % "u8 a;", s0=length(8 * (len(data) + 5)) + data + b"\1")


def scope_cases() -> list[Case]:
    def case(name: str, write: Callable[[Scope, pathlib.Path, int], None], scope: Scope) -> Case:
        return Case(name, "bytes", lambda folder, size: write(scope, folder, size), SCOPE_SIZES)

    headers = [case(f"packet header: {name}", in_header, scope) for name, scope in SCOPES.items()]
    return headers + [case(f"packet context: {name}", in_context, scope) for name, scope in SCOPES.items()]


# Packets.


def context_of_each_packet(folder: pathlib.Path, count: int) -> None:
    text = TRACE % "" + STREAM % "packet.context := struct { u32 packet_size; u8 a[1024]; }; " + EVENT % "u8 a;"
    shapes.write_trace(folder, text, s0=(length(8 * 1029) + bytes(1025)) * count)


def long_uuid(folder: pathlib.Path, size: int) -> None:
    """A recording, in whose metadata a number has changed."""
    text = packets.METADATA.replace("uint32_t magic;", f"uint32_t magic; uint8_t uuid[{size}];")
    shapes.write_trace(folder, text)
    packets.write_stream(folder / "s0", 0, 2 * size // 4096, 4096)


def small_packets(name: str) -> Callable[[pathlib.Path, int], None]:
    shape = next(shape for shape in shapes.SHAPES if shape.name == name)

    def write(folder: pathlib.Path, count: int) -> None:
        shapes.write(shape._replace(fewer=1), folder, count * shape.in_packet)

    return write


# Labels and options.


def write_labels(folder: pathlib.Path, labels: str, values: list[int]) -> None:
    data = struct.pack(f"<{len(values)}H", *values)
    shapes.write_trace(folder, TRACE % "" + EVENT % f"enum : u16 {{ {labels} }} e;", s0=data)


def labels_apart(folder: pathlib.Path, count: int) -> None:
    values = [index * 7919 % count for index in range(count)]
    write_labels(folder, ", ".join(f"l{number}" for number in range(count)), values)


def labels_of_one_number(folder: pathlib.Path, count: int) -> None:
    write_labels(folder, ", ".join(f"l{number} = 7" for number in range(count)), [7] * 10)


def labels_of_one_name(folder: pathlib.Path, count: int) -> None:
    write_labels(folder, ", ".join(["l = 7"] * count), [7] * count)


def options(folder: pathlib.Path, count: int) -> None:
    labels = f"enum tag : u16 {{ {'a, ' * count}}};\n"
    places = " ".join(f"variant v <t> p{number};" for number in range(count))
    text = TRACE % "" + labels + "variant v { u8 a; };\n" + EVENT % f"enum tag t; {places}"
    shapes.write_trace(folder, text, s0=b"\0\0" + bytes(count))


def last_option_of_each_event(folder: pathlib.Path, count: int) -> None:
    labels = ", ".join(f"l{number}" for number in range(count))
    members = " ".join(f"u8 l{number};" for number in range(count))
    text = TRACE % "" + EVENT % f"enum : u16 {{ {labels} }} t; variant <t> {{ {members} }} v;"
    shapes.write_trace(folder, text, s0=struct.pack("<HB", count - 1, 1) * count)


def streams_of_a_header_with_labels(folder: pathlib.Path, count: int) -> None:
    labels = ", ".join(f"l{number}" for number in range(count))
    tag = f"enum : u16 {{ {labels} }} id; variant <id> {{ struct {{ u8 a; }} l{count - 1}; }} v;"
    streams = "".join(f"stream {{ id = {number}; event.header := struct h; }};\n" for number in range(count))
    shapes.write_trace(folder, TRACE % "" + f"struct h {{ {tag} }};\n{streams}")


# Streams and values.


def short_streams(folder: pathlib.Path, count: int) -> None:
    text = TRACE % "" + EVENT % "u8 a; u16 b;"
    shapes.write_trace(folder, text, **{f"s{number}": struct.pack("<BHBH", 1, number, 2, number) for number in range(count)})


def streams_of_packets(folder: pathlib.Path, count: int) -> None:
    shapes.write_trace(folder, packets.METADATA)
    for number in range(count):
        packets.write_stream(folder / f"s{number}", number, 1, 512)


def streams_of_a_long_host(folder: pathlib.Path, count: int) -> None:
    clock = "clock { name = m; };\ntypealias integer { size = 8; map = clock.m.value; } := t;\n"
    text = f'{SHORT}env {{ hostname = "{"h" * 1024 * 16}"; }};\n{clock}stream {{ event.header := struct {{ t timestamp; }}; }};\n'
    shapes.write_trace(folder, text + EVENT % "u a;", **{f"s{number}": b"\1\2" for number in range(count)})


def streams_of_a_long_label(folder: pathlib.Path, count: int) -> None:
    text = TRACE % "" + EVENT % f'enum : u8 {{ "{"l" * 2048 * count}" = 1 }} a;'
    shapes.write_trace(folder, text, **{f"s{number}": b"\1" for number in range(count)})


def packets_without_events(folder: pathlib.Path, count: int) -> None:
    text = TRACE % "" + STREAM % f"packet.context := struct {{ u8 packet_size; u8 {'n' * count}; }}; " + EVENT % "u8 a;"
    shapes.write_trace(folder, text, s0=b"\x10\0" * count)


def elements_that_are_not_there(folder: pathlib.Path, count: int) -> None:
    members = "".join(f"u8 m{number};" for number in range(count))
    context = f"u8 packet_size; u8 n; struct {{ {members} }} e[n];"
    text = TRACE % "" + STREAM % f"packet.context := struct {{ {context} }}; " + EVENT % "u8 a;"
    shapes.write_trace(folder, text, s0=b"\x18\0\1" * count)


def headers_of_no_bits(folder: pathlib.Path, count: int) -> None:
    members = "".join(f" n m{number};" for number in range(count))
    header = f"typealias struct {{ }} := n;\nstream {{ event.header := struct {{ u8 a;{members} }}; }};\n"
    shapes.write_trace(folder, TRACE % "" + header + EVENT % "", s0=bytes(count))


def values_of_no_bits(folder: pathlib.Path, count: int) -> None:
    shapes.write_trace(folder, TRACE % "" + EVENT % "u32 n; struct { } e[n];", s0=length(count))


# Metadata.


def repeated(head: str, piece: str, tail: str) -> Callable[[pathlib.Path, int], None]:
    return lambda folder, size: shapes.write_trace(folder, head + piece * (size // len(piece)) + tail)


def strings_as_fields(folder: pathlib.Path, size: int) -> None:
    names = map("".join, itertools.product(string.ascii_uppercase, repeat=4))
    fields = ",".join(itertools.islice(names, size // 5))
    shapes.write_trace(folder, SHORT + f"event {{ name = e; fields := struct {{ string {fields}; }}; }};\n")


def short_strings_of_events(folder: pathlib.Path, size: int) -> None:
    """Each event has each name of one letter, so that no text has more fields for its length."""
    fields = ",".join(string.ascii_letters + "_")
    events, length = [], 0
    while length < size:
        events.append(f"event{{id={len(events)};name=a;fields:=struct{{string {fields};}};}};")
        length += len(events[-1])
    header = "stream { event.header := struct { integer { size = 32; } id; }; };\n"
    shapes.write_trace(folder, SHORT + header + "".join(events) + "\n")


def events_of_a_long_context(folder: pathlib.Path, count: int) -> None:
    members = ",".join(f"s{number}" for number in range(count))
    header = f"event.header := struct {{ integer {{ size = 32; }} id; }}; event.context := struct {{ string {members}; }};"
    events = "".join(f"event{{id={number};name=a;fields:=struct{{u a;}};}};" for number in range(count))
    shapes.write_trace(folder, f"{SHORT}stream {{ {header} }};\n{events}\n")


def events_of_a_long_name(folder: pathlib.Path, count: int) -> None:
    member = f"u {'n' * 16 * count};"
    header = f"event.header := struct {{ integer {{ size = 32; }} id; }}; event.context := struct {{ {member} }};"
    events = "".join(f"event{{id={number};name=a;fields:=struct{{u a;}};}};" for number in range(count))
    shapes.write_trace(folder, f"{SHORT}stream {{ {header} }};\n{events}\n")


def events_of_a_long_host(folder: pathlib.Path, count: int) -> None:
    host = "h" * 16 * count
    events = "".join(f"event{{id={number};name=a;fields:=struct{{u a;}};}};" for number in range(count))
    header = "stream { event.header := struct { integer { size = 32; } id; }; };"
    shapes.write_trace(folder, f'{SHORT}env {{ hostname = "{host}"; }};\n{header}\n{events}\n')


def streams_of_a_long_clock(folder: pathlib.Path, count: int) -> None:
    name = "c" * 16 * count
    streams = "".join(f"stream{{id={number};event.header:=struct{{u timestamp;}};}};" for number in range(count))
    shapes.write_trace(folder, f"{SHORT}clock {{ name = {name}; }};\n{streams}\n")


def enumerations_of_a_long_clock(folder: pathlib.Path, count: int) -> None:
    name = "c" * 16 * count
    clock = f"clock {{ name = {name}; }};\ntypealias integer {{ size = 8; map = clock.{name}.value; }} := t;\n"
    members = "".join(f"enum:t{{A}}m{number};" for number in range(count))
    shapes.write_trace(folder, f"{SHORT}{clock}stream {{ }};\nevent {{ name = e; fields := struct {{ {members} }}; }};\n")


def mapped_to_a_long_clock(folder: pathlib.Path, count: int) -> None:
    name = "c" * 16 * count
    clock = f"clock {{ name = {name}; }};\ntypealias integer {{ size = 8; map = clock.{name}.value; }} := t;\n"
    members = "".join(f"t m{number};" for number in range(count))
    shapes.write_trace(folder, f"{SHORT}{clock}stream {{ }};\nevent {{ name = e; fields := struct {{ {members} }}; }};\n")


def lengths_of_a_long_name(folder: pathlib.Path, count: int) -> None:
    name = "n" * 16 * count
    members = "".join(f"t m{number};" for number in range(count))
    shapes.write_trace(folder, f"{SHORT}typealias struct {{ u {name}; u a[{name}]; }} := t;\n{EVENT % members}")


def events_of_metadata(folder: pathlib.Path, size: int) -> None:
    shapes.write_trace(folder, "")
    metadata.main(size, str(folder / "metadata"))


TEXT_SIZES = 512 * KIBIBYTE, MEBIBYTE, 2 * MEBIBYTE

CASES = scope_cases() + [
    Case("a context of 1,024 bytes", "packets", context_of_each_packet, (64, 512, 4096)),
    Case("`uuid[N]` in place of `uuid[16]`", "N", long_uuid, (4096, 65535, 1048575)),
    Case("packets of 1 event", "packets", small_packets("packets of 1 event"), (6250, 25_000, 100_000)),
    Case("packets of 8 events", "packets", small_packets("packets of 8 events"), (1250, 5000, 20_000)),
    Case("labels of a number each", "labels and events", labels_apart, (5000, 10_000, 20_000)),
    Case("labels of one number, ten events", "labels", labels_of_one_number, (5000, 10_000, 20_000)),
    Case("labels of one name and one number", "labels and events", labels_of_one_name, (5000, 10_000, 20_000)),
    Case("the last option of a variant", "options and events", last_option_of_each_event, (2500, 5000, 10_000)),
    Case("headers with labels", "labels and stream classes", streams_of_a_header_with_labels, (1250, 2500, 5000)),
    Case("variants of one enumeration", "labels and places", options, (1000, 2000, 4000)),
    Case("streams of 6 bytes", "streams", short_streams, (5000, 10_000, 20_000)),
    Case("streams of a packet of 512 bytes", "streams", streams_of_packets, (1024, 2048, 4096)),
    Case("streams of a host of 16 KiB", "streams", streams_of_a_long_host, (512, 1024, 2048)),
    Case("streams of a long label", "streams, and 2,048 bytes of a label each", streams_of_a_long_label, (64, 128, 256)),
    Case("packets without events", "packets, and bytes of a name in their context", packets_without_events, (12_500, 25_000, 50_000)),
    Case("packets with elements that are not there", "packets, and members of an element", elements_that_are_not_there, (2500, 5000, 10_000)),
    Case("event headers of no bits", "members and events", headers_of_no_bits, (1250, 2500, 5000)),
    Case("`u32 n; struct { } e[n];`", "n", values_of_no_bits, (2**16, 2**18, 2**20)),
    Case("the same, n nearly as large as it may be", "n", values_of_no_bits, (16_777_000,)),
    Case("metadata: `u a;` in a structure", "bytes", repeated(SHORT + "struct s { ", "u a;", " };\n"), TEXT_SIZES),
    Case("metadata: `a,` in an enumeration", "bytes", repeated(SHORT + "enum s : u { ", "a,", " };\n"), TEXT_SIZES),
    Case("metadata: `a=1;` in `env`", "bytes", repeated(SHORT + "env { ", "a=1;", " };\n"), TEXT_SIZES),
    Case("metadata: `;`", "bytes", repeated(SHORT, ";", "\n"), TEXT_SIZES),
    Case("metadata: `ABCD,` after `string`, as fields", "bytes", strings_as_fields, TEXT_SIZES),
    Case("metadata: `a,` after `string`, 53 fields an event", "bytes", short_strings_of_events, TEXT_SIZES),
    Case("metadata: events of a long context", "members and events", events_of_a_long_context, (1000, 2000, 4000)),
    Case("metadata: events of a long name", "events, and 16 bytes of a name each", events_of_a_long_name, (1000, 2000, 4000)),
    Case("metadata: events of a long host", "events, and 16 bytes of a host each", events_of_a_long_host, (1000, 2000, 4000)),
    Case("metadata: streams of a long clock", "streams, and 16 bytes of its name each", streams_of_a_long_clock, (1000, 2000, 4000)),
    Case("metadata: enumerations of a long clock", "enumerations, and 16 bytes of its name each", enumerations_of_a_long_clock, (1000, 2000, 4000)),
    Case("metadata: integers of a long clock", "integers, and 16 bytes of its name each", mapped_to_a_long_clock, (2500, 5000, 10_000)),
    Case("metadata: lengths of a long name", "lengths, and 16 bytes of the name each", lengths_of_a_long_name, (2500, 5000, 10_000)),
    Case("metadata: events as LTTng's", "bytes", events_of_metadata, TEXT_SIZES),
]


class Program:
    """A program with its limits, the least that a run of it takes, and its runs over the sizes of a case."""

    def __init__(self, path: str, seconds: int, memory: int, nothing: pathlib.Path) -> None:
        self.path, self.limits = path, (seconds, memory)
        self.runs: list[Run] = []
        starts = [measure.run([path, str(nothing)]) for _ in range(5)]
        self.start = Run(min(it.seconds for it in starts), min(it.memory for it in starts), "")

    def run(self, folder: pathlib.Path) -> None:
        """Runs over a trace, unless a smaller one took it over its time."""
        if not any(it.end == "over" for it in self.runs):
            self.runs.append(measure.run([self.path, str(folder)], *self.limits))

    def slope(self, sizes: tuple[int, ...]) -> str:
        """How many times the time doubles where the size doubles; at the least, where one run was not over its time."""
        points = [(size, it.seconds - self.start.seconds) for size, it in zip(sizes, self.runs)]
        points = [(size, seconds) for size, seconds in points if seconds >= TELLABLE]
        is_over = self.runs[-1].end == "over"
        if is_over and len(points) > 2:
            points.pop()
        if len(points) < 2:
            return ""
        (small, short), (large, long) = points[0], points[-1]
        mark = "> " if is_over and len(points) == 2 and large == sizes[len(self.runs) - 1] else ""
        return f"{mark}{max(0.0, math.log(long / short) / math.log(large / small)):.1f}"

    def cells(self, sizes: tuple[int, ...], given: int) -> list[str]:
        """The cells of the case, of which so many bytes were given at the largest size."""
        whole = [it for it in self.runs if it.end != "over"]
        times = [f"{it.seconds:.3f}" for it in whole] + ["over"] * (len(sizes) - len(whole))
        ends = [f"({end})" for end, _ in itertools.groupby(it.end for it in whole) if end]
        memory = [f"{it.memory / MEBIBYTE:.1f}" for it in whole]
        each = f"{max(0, whole[-1].memory - self.start.memory) / given:,.0f}" if len(whole) == len(sizes) else ""
        return [" ".join([" / ".join(times), *ends]), self.slope(sizes), " / ".join(memory), each]


def measure_case(case: Case, programs: list[Program]) -> None:
    given = 0
    for it in programs:
        it.runs = []
    for size in case.sizes:
        with tempfile.TemporaryDirectory() as folder:
            case.write(pathlib.Path(folder), size)
            given = measure.input_bytes(pathlib.Path(folder))
            for it in programs:
                it.run(pathlib.Path(folder))
    sizes = f"{' / '.join(f'{size:,}' for size in case.sizes)} {case.counted}"
    measure.row([case.name, sizes, f"{given:,}", *(cell for it in programs for cell in it.cells(case.sizes, given))])


def arguments() -> argparse.Namespace:
    parser = argparse.ArgumentParser(description=__doc__)
    parser.add_argument("program", metavar="PROGRAM")
    parser.add_argument("before", metavar="BEFORE", nargs="?", help="a version before it")
    parser.add_argument("--babeltrace2", metavar="PATH", help="another reader, run over the same traces")
    parser.add_argument("--seconds", type=int, default=5, help="of processor time for a run (5)")
    parser.add_argument("--memory", type=int, default=4, help="in GiB, for a run (4)")
    parser.add_argument("--only", metavar="WORDS", default="", help="the cases whose names have these words in them")
    return parser.parse_args()


def main() -> None:
    given = arguments()
    paths = {"": given.program, "before: ": given.before, "babeltrace2: ": given.babeltrace2}
    with tempfile.TemporaryDirectory() as folder:
        nothing = pathlib.Path(folder)
        shapes.write_trace(nothing, TRACE % "" + EVENT % "u8 a;")
        programs = {name: Program(path, given.seconds, given.memory * GIBIBYTE, nothing) for name, path in paths.items() if path}
    columns = [name + cell for name in programs for cell in ("seconds", "slope", "MiB", "bytes a byte")]
    measure.heading(["Case", "Sizes", "Bytes of the largest", *columns])
    for case in CASES:
        if given.only in case.name:
            measure_case(case, list(programs.values()))


if __name__ == "__main__":
    main()
