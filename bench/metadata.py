#!/usr/bin/env python3
"""Writes a metadata text of about SIZE bytes, in the manner of LTTng: metadata.py SIZE FILE."""

import sys

HEAD = """/* CTF 1.8 */
typealias integer { size = 8; align = 8; signed = false; } := uint8_t;
typealias integer { size = 32; align = 8; signed = false; } := uint32_t;
typealias integer { size = 64; align = 8; signed = false; } := uint64_t;
trace { major = 1; minor = 8; byte_order = le; packet.header := struct { uint32_t magic; uint32_t stream_id; }; };
stream { id = 0; event.header := struct { uint32_t id; uint64_t timestamp; };
 packet.context := struct { uint64_t content_size; uint64_t packet_size; }; };
"""

EVENT = """event { name = "event_%d"; id = %d; stream_id = 0; loglevel = 13;
 fields := struct {
  integer { size = 32; align = 8; signed = 1; encoding = none; base = 10; } _number;
  integer { size = 8; align = 8; signed = 1; encoding = UTF8; base = 10; } _name[16];
  uint64_t _place; string _text; // where it happened
 };
};
"""


def main(size: int, path: str) -> None:
    with open(path, "w") as file:
        written = file.write(HEAD)
        number = 0
        while written + len(event := EVENT % (number, number)) <= size:
            written += file.write(event)
            number += 1


if __name__ == "__main__":
    main(int(sys.argv[1]), sys.argv[2])
