#!/usr/bin/env python3
"""Writes a trace of STREAMS streams, one where the number is left out, of COUNT packets of SIZE bytes each, in the manner
of LTTng, and prints how many event records they have: packets.py COUNT SIZE FOLDER [STREAMS]."""

import pathlib
import random
import struct
import sys

METADATA = """/* CTF 1.8 */
typealias integer { size = 5; align = 1; signed = false; } := uint5_t;
typealias integer { size = 8; align = 8; signed = false; } := uint8_t;
typealias integer { size = 32; align = 8; signed = false; } := uint32_t;
typealias integer { size = 32; align = 8; signed = true; } := int32_t;
typealias integer { size = 64; align = 8; signed = false; } := uint64_t;
typealias integer { size = 64; align = 8; signed = true; } := int64_t;
typealias integer { size = 64; align = 8; signed = false; base = 16; } := pointer_t;
typealias integer { size = 8; align = 8; signed = true; encoding = UTF8; } := char_t;
trace { major = 1; minor = 8; byte_order = le; packet.header := struct { uint32_t magic; uint32_t stream_id; }; };
clock { name = "monotonic"; freq = 1000000000; offset = 1351530929945824323; };
typealias integer { size = 27; align = 1; signed = false; map = clock.monotonic.value; } := uint27_clock_monotonic_t;
typealias integer { size = 64; align = 8; signed = false; map = clock.monotonic.value; } := uint64_clock_monotonic_t;
struct event_header_compact {
 enum : uint5_t { compact = 0 ... 30, extended = 31 } id;
 variant <id> {
  struct { uint27_clock_monotonic_t timestamp; } compact;
  struct { uint32_t id; uint64_clock_monotonic_t timestamp; } extended;
 } v;
} align(8);
stream {
 id = 0;
 event.header := struct event_header_compact;
 event.context := struct { int32_t _vpid; int32_t _vtid; };
 packet.context := struct { uint64_clock_monotonic_t timestamp_begin; uint64_clock_monotonic_t timestamp_end;
  uint64_t content_size; uint64_t packet_size; uint64_t packet_seq_num; uint64_t events_discarded; uint32_t cpu_id; };
};
event { name = "irq_entry"; id = 0; stream_id = 0; fields := struct { int32_t _irq; string _name; }; };
event { name = "irq_exit"; id = 1; stream_id = 0; fields := struct { int32_t _irq; int32_t _ret; }; };
event { name = "sched_switch"; id = 2; stream_id = 0;
 fields := struct { char_t _prev_comm[16]; int32_t _prev_tid; int32_t _prev_prio; int64_t _prev_state;
  char_t _next_comm[16]; int32_t _next_tid; int32_t _next_prio; }; };
event { name = "sched_wakeup"; id = 3; stream_id = 0;
 fields := struct { char_t _comm[16]; int32_t _tid; int32_t _prio; int32_t _target_cpu; }; };
event { name = "syscall_entry_read"; id = 4; stream_id = 0; fields := struct { uint32_t _fd; uint64_t _count; }; };
event { name = "syscall_exit_read"; id = 5; stream_id = 0; fields := struct { int64_t _ret; pointer_t _buf; }; };
event { name = "file_read"; id = 6; stream_id = 0;
 fields := struct { int32_t _fd; uint64_t _offset; uint32_t _count; int32_t _result; string _path; }; };
event { name = "net_dev_xmit"; id = 7; stream_id = 0;
 fields := struct { pointer_t _skbaddr; int32_t _rc; uint8_t __flags_length; uint8_t _flags[__flags_length]; string _name; }; };
"""

# The bytes of a packet's header and context.
HEAD = 4 + 4 + 6 * 8 + 4
# The events of a block, and the cycles from one block to the next: in so many a short stamp comes back.
EVENTS_IN_A_BLOCK = 1000
CYCLES_OF_A_BLOCK = 1 << 27
# How often each class comes.
WEIGHTS = (1, 1, 3, 1, 1, 1, 2, 1)
TASKS = [b"swapper/1", b"bash", b"kworker/u16:1", b"main"]
PATHS = [b"cache/libraries.bin", b"status", b"null", b"project/src/main.c"]


def comm(rng: random.Random) -> bytes:
    return rng.choice(TASKS).ljust(16, b"\0")


def fields(rng: random.Random, number: int) -> bytes:
    """The fields of an event of a class."""
    tid = rng.randrange(1, 32768)
    if number == 0:
        return struct.pack("<i", rng.randrange(64)) + rng.choice((b"eth0", b"ahci[0000:00:1f.2]")) + b"\0"
    if number == 1:
        return struct.pack("<ii", rng.randrange(64), 1)
    if number == 2:
        return comm(rng) + struct.pack("<iiq", tid, 20, 1) + comm(rng) + struct.pack("<ii", tid + 1, 20)
    if number == 3:
        return comm(rng) + struct.pack("<iii", tid, 120, rng.randrange(8))
    if number == 4:
        return struct.pack("<IQ", rng.randrange(3, 500), 4096)
    if number == 5:
        return struct.pack("<qQ", rng.choice((4096, 17, -11)), 0x7F0000000000 + rng.randrange(1 << 30))
    if number == 6:
        numbers = (rng.randrange(3, 500), rng.randrange(1 << 40), 4096, rng.choice((4096, 17, -11)))
        return struct.pack("<iQIi", *numbers) + rng.choice(PATHS) + b"\0"
    flags = rng.randbytes(rng.randrange(5))
    return struct.pack("<QiB", 0xFFFF880000000000 + tid, 0, len(flags)) + flags + b"eth0\0"


class Block:
    """Events of short stamps, but each fiftieth. A block differs from the one before by the whole stamps alone."""

    def __init__(self, room: int, seed: int) -> None:
        rng = random.Random(seed)
        self.data = bytearray()
        self.stamps: list[int] = []
        self.whole: list[tuple[int, int]] = []
        now = 0
        while len(self.stamps) < EVENTS_IN_A_BLOCK:
            now += rng.randrange(100, 2000)
            (number,) = rng.choices(range(8), WEIGHTS)
            body = struct.pack("<ii", 4711, 4711 + rng.randrange(8)) + fields(rng, number)
            if len(self.data) + 13 + len(body) > room:
                break
            if len(self.stamps) % 50 == 49:
                self.whole.append((len(self.data) + 5, now))
                self.data += struct.pack("<BIQ", 31, number, now)
            else:
                self.data += struct.pack("<I", number | now << 5)
            self.data += body
            self.stamps.append(now)

    def at(self, cycles: int) -> bytes:
        """The block when the clock began it at so many cycles."""
        for place, stamp in self.whole:
            struct.pack_into("<Q", self.data, place, cycles + stamp)
        return bytes(self.data)


def write_stream(path: pathlib.Path, number: int, count: int, size: int) -> int:
    """Writes the stream of a number, and gives how many event records it has."""
    block = Block(size - HEAD, number + 1)
    blocks = (size - HEAD) // len(block.data)
    used = HEAD + blocks * len(block.data)
    cycles = 0
    with open(path, "wb") as file:
        for packet in range(count):
            last = cycles + (blocks - 1) * CYCLES_OF_A_BLOCK
            begin, end = cycles + block.stamps[0], last + block.stamps[-1]
            file.write(struct.pack("<IIQQQQQQI", 0xC1FC1FC1, 0, begin, end, 8 * used, 8 * size, packet, 0, number))
            for _ in range(blocks):
                file.write(block.at(cycles))
                cycles += CYCLES_OF_A_BLOCK
            file.write(bytes(size - used))
    return count * blocks * len(block.stamps)


def main(count: int, size: int, folder: str, streams: int = 1) -> None:
    to = pathlib.Path(folder)
    to.mkdir(parents=True, exist_ok=True)
    (to / "metadata").write_text(METADATA)
    print(f"events {sum(write_stream(to / f's{number}', number, count, size) for number in range(streams))}")


if __name__ == "__main__":
    main(int(sys.argv[1]), int(sys.argv[2]), sys.argv[3], *map(int, sys.argv[4:]))
