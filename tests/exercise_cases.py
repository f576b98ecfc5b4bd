#!/usr/bin/env python3
"""Writes crates/exercise/stdin, a script of cases (docs/SCRIPT.md), and crates/exercise/stdout, the answers that
document 01 asks for:

    (cd tests/second && cargo build --offline --release)
    python3 tests/exercise_cases.py tests/second/target/release/second

First come elements that are laid out here field by field, or copied from document 01 with its answers, rows and hunts.
Nothing here reads an element: the place, width and count of each item are known because it was laid out here, and the
second program must answer the same. Then come cases that the second program makes from fixed seeds, with its answers.
"""
import pathlib
import subprocess
import sys

from expected import figures
from layout import Audio, Element, Hz, Index, Layer, Mux, held_element, sent_element

RECORD_WORDS = 250
HELD_BYTES = 1 + 4 * RECORD_WORDS  # whether one is held, and its words


def accepted(items, count, sent):
    head = f"accepted, items {len(items)}, fields {count}, configuration {'sent' if sent else 'held'}\n"
    return head + "".join("  " + " ".join(map(str, item)) + "\n" for item in items)


def refused(number, place, count):
    return f"refused, {number} at bit {place}, fields {count}\n"


cases = []


def read(data, room=4368):
    return b"R" + room.to_bytes(2, "big") + len(data).to_bytes(2, "big") + data


def hunt(start, capture):
    return b"S" + start.to_bytes(4, "big") + len(capture).to_bytes(3, "big") + capture


def case(data, answer, room=4368):
    cases.append((read(data, room), answer + "map kept\n"))


def good(element, sent):
    case(element.data(), accepted(element.items, element.count, sent))


def record(layers, fixed, subframes, index=3, channels=2, other=None, crc=None):
    """layers: streams of each program; fixed: for each stream None for frameLengthType 0, else the frameLength of 1."""
    audio = Audio(frequency=Index(index), channels=channels)
    streams = iter([Layer(audio) if length is None else Layer(audio, 1, length) for length in fixed])
    programs = tuple(tuple(next(streams) for _ in range(count)) for count in layers)
    return Mux(programs, subframes=subframes, other=other, crc=crc)


def held(fixed, *subframes):
    return held_element(record([1] * len(fixed), fixed, len(subframes)), subframes)


def sent(layers, fixed, subframes, **more):
    return sent_element(record(layers, fixed, len(subframes), **more), subframes)


def rows(mux):
    """The configuration is sent, and the rows of what is then held."""
    good(sent_element(mux, [[1] * len(mux.streams)]), True)
    cases.append((b"W", "".join("row " + " ".join(map(str, row)) + "\n" for row in figures(mux))))


def no_room(*parts, size=0):
    """With a configuration held: length bytes (a list) and payloads (so many bytes), and at least `size` bytes in all,
    in which what comes next has no room."""
    e = Element()
    e.flag(1)
    for part in parts:
        if isinstance(part, list):
            for byte in part:
                e.part("length byte", 8, byte)
        else:
            e.part("payload", 8 * part, 0)
    case(e.data().ljust(size, b"\0"), refused(3, e.at(), e.count))


def seventeen():
    """Three programs of 8, 8 and 1 layers: the third numLayer is one stream too many, and zeros follow it."""
    e = Element()
    e.flag(0)
    e.config(record([8, 8, 1], [None] * 17, 1))
    number, place, count = e.refused_by(7, "numLayer", 2)
    del e.bits[place + 3 :]
    return e.data() + bytes(40), refused(number, place, count)


ONE = [None]
SIXTEEN = [None] * 16
LISTED = bytes.fromhex("20 00 11 90 1F E0 15 5E 68")

# nothing held; the two elements of the listing, as 01 prints them; and the cases that hold the first's configuration
case(bytes.fromhex("80 00"), refused(4, 0, 1))
case(LISTED, accepted([(1, 0, 0, 1), (2, 0, 1, 44), (3, 0, 45, 8), (4, 0, 53, 16), (6, 0, 69, 3)], 17, True))
case(bytes.fromhex("80 00"), accepted([(1, 0, 0, 1), (3, 0, 1, 8), (4, 0, 9, 0), (6, 0, 9, 7)], 2, False))
case(bytes.fromhex("80"), refused(3, 1, 1))
case(bytes.fromhex("80 00 00"), refused(15, 16, 2))

# elements of no byte, and of one byte that sends a configuration
case(b"", refused(2, 0, 0))
case(bytes.fromhex("00"), refused(6, 2, 3))
case(bytes.fromhex("20"), refused(3, 3, 3))

# slots of 254 and 255 bytes, and of 255 where a byte is missing
good(held(ONE, [254]), False)
good(held(ONE, [255]), False)
good(held(ONE, [256]), False)
good(held(ONE, [510]), False)
case(held(ONE, [255]).data()[:257], refused(3, 17, 3))

# the longest slot that 8,191 bytes hold, and slots of 8,159 and 8,160 bytes
fullest = held(ONE, [8158])
assert len(fullest.data()) == 8191
good(fullest, False)
no_room([255] * 31 + [254], size=8191)
no_room([255] * 32 + [0], size=8191)

# runs of 255: the byte behind the run is missing; it is there, and the payload is not, or not whole
for run in (34, 256, 8190):
    no_room([255] * run)
for run in (34, 256, 8189):
    no_room([255] * run + [0])
    no_room([255] * run + [254], size=8191)

# slots of 65,536 bits and of 65,536 bytes
no_room([255] * 32 + [32])
no_room([255] * 257 + [1])

# two streams: the run is the second's, the first's, and both have one
good(sent([1, 1], [None, None], [[3, 255]]), True)
for run in (34, 256, 8189):
    no_room([3] + [255] * run)
    no_room([255] * run + [0])
for run in (34, 256):
    no_room([3] + [255] * run + [0], 3)
    no_room([255] * run + [0] + [255] * run + [254], size=8191)

# the run of the second of two streams, the first having a fixed slot, in the second of two subframes
good(sent([1, 1], [0, None], [[0, 255], [0, 1]]), True)
for run in (34, 256):
    no_room([2], 20, 2, [255] * run)
    no_room([2], 20, 2, [255] * run + [0])
    no_room([2], 20, 2, [255] * run + [0], 20)

# two programs, one of fixed slots, with other data and a checksum
good(sent([1, 1], [None, 0], [[3, 0]], other=12, crc=77), True)
good(sent([1, 2], [511, None, 7], [[0, 1, 0], [0, 300, 0]], other=300, index=7, channels=1), True)
good(sent([1], ONE, [[9]], other=0), True)

# 16 streams, in two programs and in sixteen; 17
good(sent([8, 8], SIXTEEN, [range(16)]), True)
good(sent([1] * 16, SIXTEEN, [range(240, 256)]), True)
case(*seventeen())

# the 16 streams are still held; an element refused behind its own configuration changes nothing
good(held(SIXTEEN, [2] * 16), False)
late = sent([1], ONE, [[40]])
case(late.data()[:-1], refused(3, 53, 17))
case(late.data() + b"\0", refused(15, len(late.bits), 17))
good(held(SIXTEEN, [0] * 16), False)

# 64 subframes of 16 streams
good(sent([8, 8], SIXTEEN, [[(7 * s + 3 * i) % 6 for i in range(16)] for s in range(64)]), True)
good(sent([4] * 4, SIXTEEN, [[0] * 16 for s in range(64)], other=1), True)

# 8,191 bytes, and one more
longest = sent([1], ONE, [[8153]])
assert len(longest.data()) == 8191
good(longest, True)
case(longest.data() + b"\0", refused(2, 0, 0))
case(longest.data()[:-1], refused(3, 45 + 8 * 32, 16 + 32))

# a map one number too short, before anything else is looked at, and one longer than need be
case(LISTED, refused(1, 0, 0), room=4367)
case(b"", refused(1, 0, 0), room=0)
case(bytes.fromhex("80 00"), accepted([(1, 0, 0, 1), (3, 0, 1, 8), (4, 0, 9, 0), (6, 0, 9, 7)], 2, False), room=4400)

# rows: each form over one channel, and PS over more
OVER_ONE = [Layer(Audio(2, Index(6), 1, form, Index(3))) for form in ("type 29", "type 5", "flag 1 with PS 1")]
OVER_ONE += [Layer(Audio(2, Hz(24001), 1, form, Hz(48002))) for form in ("flag 1 with PS 0", "flag 1")]
OVER_ONE += [Layer(Audio(2, Index(6), 1, form)) for form in ("flag 0", "none")]
OVER_MORE = [Layer(Audio(2, Index(6), 1 + i, "type 29", Index(3))) for i in range(1, 7)]
FLAGGED = [Layer(Audio(2, Index(6), i, "flag 1 with PS 1", Index(3))) for i in (2, 4, 7)]
rows(Mux((tuple(OVER_ONE), tuple(OVER_MORE), tuple(FLAGGED)), version=1))
rows(Mux((tuple(OVER_ONE[:2]), tuple(OVER_ONE[-1:] + OVER_MORE))))

# a PS flag of 2 over one channel, which 16 refuses, counts as 1 (docs/SCRIPT.md)
WORDS = [1, 0, 0, 1] + [0] * 22 + [2, 0, 6, 1, 0, 0, 0, 5, 0, 3, 2, 0, 255, 0]
WORDS += [0] * (RECORD_WORDS - len(WORDS))
cases.append((b"H\1" + b"".join(word.to_bytes(4, "big") for word in WORDS), ""))
cases.append((b"W", "row 0 0 2 24000 48000 1 1 2\n"))

# a frame at the very end of the longest capture, and one byte more
FRAME = bytes.fromhex("56 E0 02 80 00")
cases.append((hunt(0, bytes(65531) + FRAME), "found 65531 2\n"))
cases.append((hunt(0, FRAME + FRAME + bytes(65527)), refused(20, 0, 0)))


def size(script, at):
    """The bytes of the case at a place."""

    def number(place, width):
        return int.from_bytes(script[at + place : at + place + width], "big")

    def sized(place):
        return place + 3 + number(place, 3)

    kind = script[at : at + 1]
    if kind == b"P":
        return sized(sized(6 + 4 * number(4, 2)))
    return {b"H": 1 + HELD_BYTES, b"R": 5 + number(3, 2), b"W": 1, b"S": sized(5), b"F": sized(3)}[kind]


def made(second, seed, kinds, most):
    """The cases of a seed that are of these kinds and not too long, with nothing held before them."""
    script = subprocess.run([second, "script", str(seed)], check=True, stdout=subprocess.PIPE).stdout
    yield b"H" + bytes(HELD_BYTES)
    at = 0
    while at < len(script):
        end = at + size(script, at)
        if script[at : at + 1] in kinds and end - at <= most:
            yield script[at:end]
        at = end


def main(second):
    script = b"".join(data for data, _ in cases)
    laid = "".join(answer for _, answer in cases)
    for seed in (1, 2):
        script += b"".join(made(second, seed, b"HRWSPF", 9000))
    for seed in range(3, 9):
        script += b"".join(made(second, seed, b"RW", 400))
    answers = subprocess.run([second, "answers"], check=True, input=script, stdout=subprocess.PIPE).stdout.decode()
    assert answers.startswith(laid), "the second program does not answer what was laid out here"
    home = pathlib.Path(__file__).resolve().parent.parent / "crates" / "exercise"
    (home / "stdin").write_bytes(script)
    (home / "stdout").write_text(laid + answers[len(laid) :])


if __name__ == "__main__":
    if len(sys.argv) != 2 or sys.argv[1].startswith("-"):
        sys.exit(__doc__)
    main(sys.argv[1])
