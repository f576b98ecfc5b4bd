#!/usr/bin/env python3
"""Lays out the sample captures and writes them as samples/NAME.loas, with the listing and the summary that 01 asks for.

Also writes what the programs listing and summary are run on by the gate. Nothing here hunts for a frame or reads an
element: which frames stand, and what is in them, is known because they were put there.
"""
import pathlib
from dataclasses import replace

from expected import Frame, capture, listing, summary
from layout import FREQUENCIES, Audio, Hz, Index, Layer, Mux, held_element, sent_element


def sent(record, *subframes, **ways):
    e = sent_element(record, subframes, **ways)
    return Frame(e.data(), e.items, sent=record)


def held(record, *subframes):
    e = held_element(record, subframes)
    return Frame(e.data(), e.items, held=record)


def one(audio=Audio(), **more):
    """A record of one stream, of frameLengthType 0."""
    return Mux(((Layer(audio),),), **more)


def v1(audio=Audio(), **more):
    return one(audio, version=1, **more)


ONE = one()

# 01's own 17 bytes and nine lines. The items are those of a payload of two bytes, and of none.
WORKED = [
    Frame(bytes.fromhex("20 00 11 90 1F E0 15 5E 68"), sent(ONE, [2]).items, sent=ONE),
    Frame(bytes.fromhex("80 00"), held(ONE, [0]).items, held=ONE),
]
WORKED_LISTING = """\
000000 U 00 00000 00001
000000 C 00 00001 00044
000000 L 00 00045 00008
000000 P 00 00053 00016
000000 A 00 00069 00003
000001 U 00 00000 00001
000001 L 00 00001 00008
000001 P 00 00009 00000
000001 A 00 00009 00007
"""
assert capture(WORKED) == bytes.fromhex("56 E0 09 20 00 11 90 1F E0 15 5E 68 56 E0 02 80 00")
assert listing(WORKED) == WORKED_LISTING


def two_programmes():
    first = Layer(Audio(2, Index(3), 2))
    second = Layer(Audio(2, Index(6), 1, "type 5", Index(3)), 1, 11)
    a = Mux(((first,), (second,)))
    yield sent(a, [40, 0])
    yield from (held(a, [size, 0]) for size in (41, 0, 7, 255))
    yield sent(a, [12, 0])
    yield held(a, [13, 0])
    # only program 1 changes
    b = Mux(((first,), (replace(second, audio=Audio(2, Index(7), 1, "type 5", Index(4))),)))
    yield sent(b, [14, 0])
    yield held(b, [15, 0])
    # two layers in each program; layer 0 of program 1 is told to be as the stream before it, which is not program 0's
    # first
    spoken = Layer(Audio(2, Index(8), 1))
    c = Mux(((first, spoken), (replace(spoken, type=1, value=0), second)))
    yield sent(c, [16, 5, 0, 0])
    yield held(c, [17, 6, 0, 0])
    # the same record, though the configuration of stream 2 is sent anew
    yield sent(c, [18, 7, 0, 0], anew=(2,))
    yield held(c, [19, 8, 0, 0])
    # only one latmBufferFullness changes, and with it the record
    yield sent(Mux(((replace(first, value=30), spoken), c.programs[1])), [20, 9, 0, 0])


def signalling():
    # version 0
    for audio in (
        Audio(1, Index(0), 1),
        Audio(2, Index(1), 2),
        Audio(3, Index(2), 3),
        Audio(4, Index(4), 4, frame_length_flag=1),
        Audio(1, Index(9), 5, "type 5", Index(6)),
        Audio(2, Index(7), 1, "type 29", Index(4)),
        Audio(4, Index(8), 2, "type 29", Index(5)),
        Audio(3, Hz(11111), 6, "type 5", Hz(22222)),
        Audio(2, Hz(50000), 7),
        Audio(2, Hz(16777215), 7),
    ):
        yield sent(one(audio), [3])
        yield held(one(audio), [4])
    # the same row, sent as an index and in 24 bits: two records
    yield sent(one(Audio(2, Index(3), 7)), [5])
    yield sent(one(Audio(2, Hz(48000), 7)), [5])

    # version 1, nothing signalled: no fill; too little fill to be looked at; fill that is looked at and says nothing.
    # One record.
    plain = v1(Audio(2, Index(5), 2), tara=255)
    yield sent(plain, [6])
    yield sent(plain, [7], tails={0: ((), (15, 0x2B7 << 4 | 2))})
    yield sent(plain, [8], tails={0: ([(11, 0x2B6)], (5, 5))})
    yield sent(plain, [9], tails={0: ([(11, 0x2B7), (5, 29)], (300, 1))})
    yield sent(plain, [10], tails={0: ([(11, 0x2B7), (5, 31), (6, 5)], (1, 1))})
    yield sent(plain, [11], size=4)
    yield held(plain, [12])
    yield sent(replace(plain, tara=256), [13])

    # version 1, after 0x2B7
    core = Audio(2, Index(6), 1, "flag 1", Index(3))
    yield sent(v1(replace(core, form="flag 0", extension=None)), [14])
    yield sent(v1(replace(core, form="flag 0", extension=None)), [15], tails={0: ((), (40, 0x548))})
    yield sent(v1(core), [16])
    yield sent(v1(core), [17], tails={0: ((), (11, 0x548))})
    yield sent(v1(core), [18], tails={0: ([(11, 0x549)], (1, 1))})
    yield sent(v1(replace(core, form="flag 1 with PS 1")), [19])
    yield sent(v1(replace(core, form="flag 1 with PS 1")), [20], tails={0: ((), (3, 7))})
    yield sent(v1(replace(core, form="flag 1 with PS 0")), [21])
    yield sent(v1(Audio(4, Hz(12345), 2, "flag 1 with PS 0", Hz(24690))), [22])

    # version 1, type 5 and 29: what follows is fill, even where it looks like 0x2B7, type 5 and flag 0
    over = ((), (40, (0x2B7 << 6 | 5 << 1) << 23))
    yield sent(v1(Audio(2, Index(6), 2, "type 5", Index(3))), [23])
    yield sent(v1(Audio(2, Index(6), 2, "type 5", Index(3))), [24], tails={0: over})
    yield sent(v1(Audio(1, Index(11), 1, "type 29", Index(8))), [25], tails={0: over})

    # every frequency index, and every channel configuration
    yield sent(Mux(tuple((Layer(Audio(2, Index(i), 1)),) for i in range(len(FREQUENCIES)))), range(13))
    yield sent(Mux((tuple(Layer(Audio(2, Index(3), i)) for i in range(1, 8)),), version=1), range(7))

    # three programs; the configuration is that of the stream before across programs too
    a = Layer(replace(core, form="flag 1 with PS 1"))
    b = Layer(replace(core, form="flag 0", extension=None), 1, 3)
    c = Layer(Audio(2, Index(6), 1))
    mixed = Mux(((a, b), (b, c), (c, a, a)), version=1, tara=70000)
    yield sent(mixed, range(1, 8))
    yield held(mixed, range(2, 9))


def type_29_mono():
    radio = Audio(2, Index(6), 1, "type 29", Index(3))
    yield sent(one(radio), [57])
    yield from (held(one(radio), [size]) for size in (61, 54, 0, 255))
    yield sent(one(radio), [58])
    # type 5 in front says nothing of PS, so the one channel stays; over configuration 2 there are two anyway
    yield sent(one(replace(radio, form="type 5")), [59])
    yield held(one(replace(radio, form="type 5")), [60])
    yield sent(one(replace(radio, channels=2)), [62])
    # in version 1, over another core and 24 bits; in two programs, the second as the stream before
    yield sent(v1(radio), [63])
    yield sent(v1(Audio(4, Hz(24001), 1, "type 29", Hz(48002))), [64])
    both = Mux(((Layer(radio),), (Layer(radio, 1, 5), Layer(replace(radio, form="type 5")))))
    yield sent(both, [65, 0, 66])
    yield held(both, [67, 0, 68])


def ps_flag_mono():
    flagged = Audio(2, Index(6), 1, "flag 1 with PS 1", Index(3))
    yield sent(v1(flagged), [57])
    yield from (held(v1(flagged), [size]) for size in (61, 54, 0, 255))
    yield sent(v1(flagged), [58], tails={0: ((), (9, 1))})
    # PS denied, PS not signalled, SBR denied, neither signalled: the one channel stays
    yield sent(v1(replace(flagged, form="flag 1 with PS 0")), [59])
    yield sent(v1(replace(flagged, form="flag 1")), [60])
    yield sent(v1(replace(flagged, form="flag 0", extension=None)), [61])
    yield sent(v1(replace(flagged, form="none", extension=None)), [62])
    # 11 bits are left behind the extension frequency: 0x548 is not looked for
    yield sent(v1(replace(flagged, form="flag 1")), [63], tails={0: ((), (11, 0x548))})
    # over each other configuration: its own channels
    yield sent(Mux((tuple(Layer(replace(flagged, channels=i)) for i in range(1, 8)),), version=1), range(7))
    # in two programs, the second as the stream before
    both = Mux(((Layer(flagged),), (Layer(flagged, 1, 5), Layer(replace(flagged, form="flag 1")))), version=1)
    yield sent(both, [64, 0, 65])
    yield held(both, [66, 0, 67])


def subframes():
    def sizes(count, seed, streams):
        return [[(seed + 5 * s + 3 * i) % 11 for i in range(streams)] for s in range(count)]

    base = Layer(Audio(2, Index(3), 2))
    more = Layer(Audio(2, Index(6), 1))
    programs = ((base, replace(base, type=1, value=2)), (more, more, replace(more, type=1, value=0)))
    a = Mux(programs, subframes=4, other=12, crc=0x5A)
    yield sent(a, *sizes(4, 1, 5))
    yield held(a, *sizes(4, 2, 5))
    yield held(a, *[[0] * 5] * 4)
    # only the checksum changes, and with it the record
    yield sent(replace(a, crc=0xA5), *sizes(4, 3, 5))

    # other data: of no bit, and of 300 bits whose length is sent in two groups and in four
    none = replace(a, subframes=1, other=0, crc=None)
    yield sent(none, *sizes(1, 4, 5))
    yield held(none, *sizes(1, 5, 5))
    much = replace(a, subframes=2, other=300, crc=None)
    yield sent(much, *sizes(2, 6, 5))
    yield sent(much, *sizes(2, 7, 5), groups=4)
    yield held(much, *sizes(2, 8, 5))
    late = Mux(a.programs, version=1, tara=3, subframes=3, other=300, crc=0)
    yield sent(late, *sizes(3, 9, 5))
    yield sent(late, *sizes(3, 10, 5), size=4, anew=range(5))
    yield held(late, *sizes(3, 0, 5))

    # payloads about 255 bytes
    pair = Mux(((base,), (more,)))
    yield sent(pair, [254, 255])
    yield held(pair, [256, 510])

    # 64 subframes; 16 streams in sixteen programs, and in two with no length at all
    yield sent(one(subframes=64), *sizes(64, 2, 1))
    yield held(one(subframes=64), *sizes(64, 3, 1))
    yield sent(Mux(((more,),) * 16), range(16))
    fixed = Mux(((replace(base, type=1, value=0),) * 8,) * 2)
    yield sent(fixed, [0] * 16)
    yield held(fixed, [0] * 16)


def blocks():
    """More text than one block of 65,536 bytes has room for, of records and of rows."""
    full = Mux(((Layer(),) * 8,) * 2, subframes=64)
    yield sent(full, *[[0] * 16] * 64)
    yield from (held(full, *[[size] * 16] * 64) for size in (0, 1))
    for i in range(32):
        yield sent(Mux(((Layer(Audio(2, Index(i % 13), 1 + i % 7)),) * 8,) * 2), [i] * 16)


def refused(record, number, field, nth=0, more=0, **ways):
    """An element whose nth field of that name is refused for its value."""
    e = sent_element(record, [[9] * len(record.streams)] * record.subframes, **ways)
    return Frame(e.data(), refusal=e.refused_by(number, field, nth, more))


def past_asc_len(audio, asc_len, tail=(), size=None):
    """An element of one stream with an ascLen that is too small; of its bytes only the first `size` stand."""
    e = sent_element(v1(audio), [[9]], tails={0: tail}, asc_len={0: asc_len})
    start = [first for name, first, _ in e.parts if name == "audioObjectType"][0]
    return Frame(e.data()[:size], refusal=e.refused_past(10, start + asc_len))


def cut(e, size, held=None):
    """Only the first `size` bytes of an element; below 0: all but so many."""
    data = e.data()[:size]
    return Frame(data, refusal=e.refused_past(3, 8 * len(data)), held=held)


def too_long(e, more, held=None):
    return Frame(e.data() + bytes(more), refusal=(15, len(e.bits), e.count), held=held)


# No frame stands in these, whatever follows: a sync of L = 0; two at whose end stand other bytes (99 99, and 56 C0); a
# 56 without the three ones.
FALSE_SYNCS = bytes.fromhex("56 E0 00 47 56 E0 04 01 02 03 04 99 99 56 1F 22 56 E0 03 A1 A2 A3 56 C0 10 11")


def unfollowed(frame):
    """A frame with other bytes than a sync behind it; with no 56 in its element, nothing else can stand there."""
    assert 0x56 not in frame.element
    return frame.data() + bytes.fromhex("00 FF 17")


def damaged():
    # a 56 right before a frame is no sync, since a second 56 has not the three ones
    yield bytes.fromhex("00 47 1F 10 FF E0 20") + FALSE_SYNCS + b"\x56"

    # nothing is held, nor after an element refused behind its own configuration
    yield held(ONE, [5])
    yield held(ONE, [0])
    yield too_long(sent_element(ONE, [[2]]), 1)
    yield held(ONE, [6])

    # a frame of one byte in the junk: a sync follows it, so it stands
    yield Frame(b"\0", refusal=(6, 2, 3))

    yield refused(v1(version_a=1), 5, "audioMuxVersionA")
    yield refused(one(same_framing=0), 6, "allStreamsSameTimeFraming")
    yield refused(v1(same_framing=0, tara=256), 6, "allStreamsSameTimeFraming")
    yield refused(Mux(((Layer(),) * 8, (Layer(),) * 8, (Layer(),))), 7, "numLayer", 2)
    yield refused(Mux(((Layer(),) * 8, (Layer(),) * 7, (Layer(),) * 2), version=1), 7, "numLayer", 2)

    yield refused(one(Audio(core=0)), 8, "audioObjectType")
    yield refused(one(Audio(core=22)), 8, "audioObjectType")
    yield refused(one(Audio(core=42)), 8, "audioObjectType", more=1)
    yield refused(one(Audio(5, Index(6), 1, "type 29", Index(3))), 8, "audioObjectType", 1)
    yield refused(v1(Audio(36, Index(6), 1, "type 5", Index(3))), 8, "audioObjectType", 1, more=1)
    yield refused(v1(), 8, "looked at", 1, tails={0: ([(11, 0x2B7), (5, 22)], (30, 0))})
    yield refused(Mux(((Layer(), Layer(Audio(core=17))),)), 8, "audioObjectType", 1)

    yield refused(one(Audio(frequency=Index(13))), 9, "frequency index")
    yield refused(v1(Audio(frequency=Index(14))), 9, "frequency index")
    yield refused(one(Audio(frequency=Hz(0))), 9, "frequency")
    yield refused(one(Audio(2, Index(6), 1, "type 5", Index(13))), 9, "frequency index", 1)
    yield refused(v1(Audio(2, Hz(24000), 1, "flag 1", Hz(0))), 9, "frequency", 1)

    # 01's cases of ascLen 36 and 32; the bits after type 31; the first field; and where the element ends as well, 10
    # comes before 3
    yield past_asc_len(Audio(2, Index(6), 1, "flag 1", Index(3)), 36)
    yield past_asc_len(Audio(2, Index(6), 1, "flag 1", Index(3)), 32)
    yield past_asc_len(Audio(), 32, ([(11, 0x2B7), (5, 31), (6, 1)],))
    yield past_asc_len(Audio(core=42), 10)
    yield past_asc_len(Audio(), 15)
    yield past_asc_len(Audio(), 0)
    yield past_asc_len(Audio(frequency=Hz(48000)), 20, size=8)

    for channels in (0, 8, 15):
        yield refused(one(Audio(channels=channels)), 11, "channelConfiguration")
    yield refused(one(Audio(depends=1)), 12, "dependsOnCoreCoder")
    yield refused(v1(Audio(extension_flag=1, frame_length_flag=1)), 12, "extensionFlag")
    for type in range(2, 8):
        yield refused(Mux(((Layer(), Layer(type=type)),)), 13, "frameLengthType", 1)
    yield refused(one(other=5), 14, "otherDataLenEsc", 3, groups=5)

    # cut in StreamMuxConfig, in AudioSpecificConfig, in the lengths, the payload, the other data, the fill, and in a
    # variable value
    whole = sent_element(one(other=300), [[300]])
    yield cut(whole, 1)
    yield cut(whole, 3)
    yield cut(whole, 8)
    yield cut(whole, 300)
    yield cut(whole, -1)
    yield cut(sent_element(v1(), [[9]], tails={0: ([(11, 1)], (5000, 0))}), 200)
    yield cut(sent_element(v1(tara=1 << 31), [[9]]), 4)

    # at last a configuration; none of the refused ones after it changes what is held
    signalled = Layer(Audio(2, Index(6), 1, "type 5", Index(3)), 1, 4)
    good = Mux(((Layer(Audio(2, Index(3), 2)),), (signalled,)), subframes=2)
    yield sent(good, [3, 0], [4, 0])
    yield held(good, [5, 0], [6, 0])
    yield cut(held_element(good, [[7, 0], [8, 0]]), -1, good)
    yield cut(held_element(good, [[7, 0], [8, 0]]), 40, good)
    yield too_long(held_element(good, [[1, 0], [2, 0]]), 2, good)
    yield too_long(whole, 1)
    yield refused(one(Audio(channels=12)), 11, "channelConfiguration")
    yield held(good, [9, 0], [10, 0])

    # the junk begins with a sync, so the frame before it stands; the frame in it does not
    yield FALSE_SYNCS + unfollowed(sent(one(Audio(2, Index(4), 2)), [1]))
    yield held(good, [11, 0], [12, 0])
    yield sent(ONE, [20])
    yield held(ONE, [21])


def lost_byte():
    """Elements framed without their last byte, between whole ones."""
    yield sent(ONE, [40])
    # of a payload: 1 bit, 5, and all 8, where nothing is aligned behind it
    yield cut(held_element(ONE, [[41]]), -1, ONE)
    yield cut(sent_element(ONE, [[42]]), -1)
    yield held(ONE, [43])
    fixed = Mux(((Layer(Audio(2, Index(6), 1, "flag 1", Index(3)), 1, 20),),), version=1)
    yield cut(sent_element(fixed, [[0]]), -1)
    yield sent(fixed, [0])
    yield cut(held_element(fixed, [[0]]), -1, fixed)
    # of other data, and of a length byte
    extra = one(other=20)
    yield sent(extra, [44])
    yield cut(held_element(extra, [[45]]), -1, extra)
    yield cut(held_element(ONE, [[0]]), -1, extra)
    yield held(extra, [46])


def wrong_length():
    """Lengths that were never meant, between elements that are whole."""
    yield sent(ONE, [40])
    # of a slot, of other data in groups and as a value, and of a configuration, up to which there would be fill
    yield cut(held_element(ONE, [[4080]]), 60, ONE)
    yield cut(held_element(ONE, [[1001]]), 61, ONE)
    yield cut(sent_element(one(other=40000), [[41]]), 62)
    yield cut(sent_element(v1(other=400000), [[42]]), 63)
    yield cut(sent_element(v1(), [[43]], tails={0: ([(11, 1)], (30000, 0))}), 64)
    yield held(ONE, [44])
    # an ascLen too small: for the type, an index, 24 bits of Hz, and in an element that ends before ascLen does
    yield past_asc_len(Audio(), 3)
    yield past_asc_len(Audio(), 8)
    yield past_asc_len(Audio(frequency=Hz(48000)), 9)
    yield past_asc_len(Audio(frequency=Hz(48000)), 20, size=6)
    yield held(ONE, [45])


def no_configuration():
    yield from (held(ONE, [size]) for size in (0, 1, 30, 255))


# A frame that the end of the capture cuts short, after which no other 56 comes.
CUT_FRAME = sent(ONE, [60]).data()[:50]
assert 0x56 not in CUT_FRAME[1:]

# The last frame without its last byte: the capture ends in it, so that none stands there.
LAST_BYTE_LOST = held(one(other=20), [47]).data()[:-1]
assert 0x56 not in LAST_BYTE_LOST[1:]

# L = 8191 passes the end. The last frame ends one byte before the capture does, and one byte is no sync.
NO_FRAME = FALSE_SYNCS + bytes.fromhex("56 FF FF 00 01") + CUT_FRAME + unfollowed(sent(ONE, [1]))[:-2]

samples = {
    "worked": WORKED,
    "two-programmes": list(two_programmes()),
    "signalling": list(signalling()),
    "type-29-mono": list(type_29_mono()),
    "ps-flag-mono": list(ps_flag_mono()),
    "subframes": list(subframes()),
    "blocks": list(blocks()),
    "damaged": list(damaged()) + [CUT_FRAME],
    "lost-byte": list(lost_byte()) + [LAST_BYTE_LOST],
    "wrong-length": list(wrong_length()),
    "no-frame": [NO_FRAME],
    "no-configuration": list(no_configuration()),
}

# The frames of no-configuration meet here what the last of damaged holds.
together = [*damaged(), *no_configuration(), *two_programmes(), *signalling(), *subframes(), NO_FRAME]


def main():
    home = pathlib.Path(__file__).resolve().parent.parent
    (home / "samples").mkdir(exist_ok=True)
    for name, pieces in samples.items():
        (home / "samples" / f"{name}.loas").write_bytes(capture(pieces))
        (home / "samples" / f"{name}.listing").write_text(listing(pieces))
        (home / "samples" / f"{name}.summary").write_text(summary(pieces))

    for name, print_of, pieces in (("listing", listing, WORKED), ("summary", summary, together)):
        folder = home / "crates" / name
        folder.mkdir(exist_ok=True)
        (folder / "stdin").write_bytes(capture(pieces))
        (folder / "stdout").write_text(print_of(pieces))


if __name__ == "__main__":
    main()
