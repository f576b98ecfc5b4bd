#!/usr/bin/env python3
"""Lays out a capture and what `rewrite` must write for it, as crates/rewrite/stdin and stdout.

Each accepted element is laid out twice from one record, its payloads and its other data: as it is sent, and as 01's
writer sends it. Nothing here hunts for a frame or reads an element: which frames stand and are accepted is known
because they were put there.
"""
import pathlib
from dataclasses import replace
from hashlib import shake_128

from expected import Frame, capture
from layout import FREQUENCIES, Audio, Element, Hz, Index, Layer, Mux, sent_element

ONES = 0x7F  # alignment, of however many bits, is all ones
pieces, written = [], []
held = None


def laid(flag, record, payloads, other, align, **ways):
    e = Element()
    e.flag(flag)
    if flag == 0:
        e.config(record, **ways)
    for subframe in payloads:
        e.payloads(record.streams, subframe)
    return Frame(e.end(record.other, other, align).data())


def accepted(flag, record, sizes, align, ways):
    """sizes: for each subframe, of each payload, or the payload itself; of no meaning for a stream of fixed slots.

    Payloads and other data differ from frame to frame, and from slot to slot.
    """
    assert len(sizes) == record.subframes and all(len(subframe) == len(record.streams) for subframe in sizes)
    name = f"{len(pieces)}"
    payloads = [
        [
            size
            if isinstance(size, bytes)
            else shake_128(f"{name} {i} {stream}".encode()).digest(layer.value + 20 if layer.type else size)
            for stream, (layer, size) in enumerate(zip(record.streams, subframe))
        ]
        for i, subframe in enumerate(sizes)
    ]
    bits = record.other or 0
    other = int.from_bytes(shake_128(name.encode()).digest(bits // 8 + 1), "big") >> (8 - bits % 8)
    frame = laid(flag, record, payloads, other, align, **ways)
    anew = laid(flag, record, payloads, other, 0)
    assert len(anew.element) <= len(frame.element) <= 8191
    pieces.append(frame)
    written.append(anew)


def sends(record, *sizes, align=ONES, **ways):
    """An element that sends the configuration, in these ways (see layout.Element.config)."""
    global held
    accepted(0, record, sizes, align, ways)
    held = record


def applies(*sizes, align=ONES):
    """An element to which the held configuration applies."""
    accepted(1, held, sizes, align, {})


def refused(element):
    pieces.append(Frame(element))


def refused_for(record, **ways):
    """An element refused for a value in its record, or for the way it is sent."""
    refused(sent_element(record, [[9] * len(record.streams)] * record.subframes, **ways).data())


def junk(data):
    pieces.append(data)


def one(audio=Audio(), **more):
    return Mux(((Layer(audio),),), **more)


def v1(audio=Audio(), **more):
    return one(audio, version=1, **more)


def divided(layers, streams):
    """The streams divided into programs of so many layers."""
    assert sum(layers) == len(streams)
    streams = iter(streams)
    return tuple(tuple(next(streams) for _ in range(count)) for count in layers)


# As in tests/sample_captures.py: no frame stands in these, whatever follows. The first is a sync, so a frame before
# them stands.
FALSE_SYNCS = bytes.fromhex("56 E0 00 47 56 E0 04 01 02 03 04 99 99 56 1F 22 56 E0 03 A1 A2 A3 56 C0 10 11")


def unfollowed(element):
    """A frame that does not stand, since other bytes than a sync are behind it; nor does another stand in it."""
    assert 0x56 not in element
    return Frame(element).data() + bytes.fromhex("00 FF 17")


def good_element():
    return sent_element(one(Audio(2, Index(4), 1)), [[5]]).data()


# junk; elements to which no held configuration can apply, also after one refused behind its own configuration; a frame
# of one byte
junk(bytes.fromhex("00 47 1F 10 FF E0 20") + FALSE_SYNCS + b"\x56")
refused(bytes.fromhex("80 00"))
refused(bytes.fromhex("82 AA AA AA AA"))
refused(good_element() + b"\0")
refused(bytes.fromhex("80 00"))
refused(b"\0")

# the two elements that 01 prints: alignment of zeros, and of other bits; these four are given as bytes, on both sides
for element, anew in (
    ("20 00 11 90 1F E0 15 5E 68", "20 00 11 90 1F E0 15 5E 68"),
    ("80 00", "80 00"),
    ("20 00 11 90 1F E0 15 5E 6D", "20 00 11 90 1F E0 15 5E 68"),
    ("80 7F", "80 00"),
):
    # 80 7F: flag 1, length byte 0, and seven bits of ones
    pieces.append(Frame(bytes.fromhex(element)))
    written.append(Frame(bytes.fromhex(anew)))
held = one()

# slots
SLOTS = (0, 1, 2, 253, 254, 255, 256, 509, 510, 511)
for size in SLOTS:
    applies([size], align=ONES if size % 2 else 0)
for size in (0, 1, 254, 255, 256, 510, 511):
    sends(one(), [size], align=size % 3 * 0x2A)

# version 0: each core, form, frequency index, channel configuration; frequencies in 24 bits
CORES = [(1, 0), (2, 1), (3, 0), (4, 1)]
EXTENSIONS = {"none": None, "type 5": Index(3), "type 29": Index(0)}
for form, extension in EXTENSIONS.items():
    for core, flag in CORES:
        sends(one(Audio(core, Index(6), 1 + core, form, extension, frame_length_flag=flag)), [core])
for i in range(len(FREQUENCIES)):
    sends(one(Audio(2, Index(i), 1 + i % 7)), [i])
    sends(one(Audio(1, Index(12 - i), 7 - i % 7, "type 5", Index(i))), [i])
for a, b in ((1, 16777215), (48000, 96000), (0x2B7, 0x548), (24000, 24000)):
    sends(one(Audio(2, Hz(a), 2)), [7])
    sends(one(Audio(3, Hz(a), 2, "type 5", Hz(b))), [8])
    applies([9])
    sends(one(Audio(4, Hz(a), 2, "type 29", Index(5))), [10])
    sends(one(Audio(4, Index(5), 2, "type 29", Hz(a))), [11])

# version 1: each form, with the shortest values and no fill; the same with fill, and with tails that say nothing
TAILS = {
    "none": [
        ((), (1, 1)),
        ((), (15, 0x2B7 << 4 | 2)),
        ([(11, 0x2B6)], (5, 5)),
        ([(11, 0x548)], (13, 0x1FFF)),
        ([(11, 0)], (4000, 0x2B7 << 7 | 5 << 2 | 2)),
        ([(11, 0x2B7), (5, 2)], (0, 0)),
        ([(11, 0x2B7), (5, 29)], (300, 1)),
        ([(11, 0x2B7), (5, 31), (6, 5)], (1, 1)),
        ([(11, 0x2B7), (5, 31), (6, 22)], (0, 0)),
    ],
    "type 5": [((), (1, 1)), ((), (40, (0x2B7 << 6 | 5 << 1) << 23)), ((), (12, 0x548 << 1 | 1))],
    "type 29": [((), (3, 5)), ((), (40, (0x2B7 << 6 | 5 << 1) << 23))],
    "flag 0": [((), (7, 0x55)), ((), (12, 0x548 << 1 | 1)), ((), (400, 1))],
    "flag 1": [((), (1, 1)), ((), (11, 0x548)), ([(11, 0x549)], (1, 1)), ([(11, 0x2B7)], (90, 1))],
    "flag 1 with PS 0": [((), (1, 1)), ((), (12, 0x548 << 1 | 1))],
    "flag 1 with PS 1": [((), (3, 7)), ((), (200, 1))],
}
for number, (form, tails) in enumerate(TAILS.items()):
    for core, frequency, extension in ((2, Index(6), Index(3)), (4, Hz(22050), Hz(44100)), (1, Hz(1), Index(12))):
        audio = Audio(core, frequency, 1 + number, form, None if form in ("none", "flag 0") else extension)
        record = v1(audio, tara=number)
        sends(record, [3], align=0)
        for i, tail in enumerate(tails if core == 2 else tails[-1:]):
            sends(record, [4], tails={0: tail}, size=1 + i % 4)
        applies([5])

# taraBufferFullness, and variable values longer than needed
for tara in (0, 1, 255, 256, 65535, 65536, (1 << 24) - 1, 1 << 24, (1 << 32) - 1):
    for size in range(1, 5):
        sends(v1(Audio(frame_length_flag=1), tara=tara), [size], size=size)

# other data, its length in more groups or bytes than needed, with and without a checksum, and held
for bits in (0, 1, 7, 8, 9, 12, 255, 256, 300, 3000):
    for groups in (1, 2, 3, 4) if bits != 3000 else (1, 4):
        crc = (None, 0, 77, 255)[(groups + bits) % 4]
        sends(one(other=bits, crc=crc), [groups], groups=groups)
        sends(v1(other=bits, crc=crc), [groups], size=groups)
    applies([0])
    applies([1], align=0)
sends(one(crc=0x56), [3])
applies([4])

# alignment of each width, of zeros and of other bits: the bits of other data move it
for bits in range(8):
    for align in (0, 1, 0x40 >> bits % 7, ONES):
        sends(one(other=bits), [2], align=align)

# 1 to 16 streams, all with one configuration: by useSameConfig, or sent anew for some, or for all
PLAIN = Audio(2, Index(3), 2)
DIVISIONS = [
    [1],
    [1, 1],
    [2, 1],
    [1, 3],
    [5],
    [1, 2, 3],
    [7],
    [8],
    [1] * 9,
    [2, 8],
    [8, 3],
    [3, 1, 2, 6],
    [1] * 6 + [7],
    [7, 7],
    [5, 5, 5],
    [8, 8],
    [1] * 16,
    [4] * 4,
    [2] * 8,
    [1, 8, 1, 6],
]
for number, layers in enumerate(DIVISIONS):
    count = sum(layers)
    streams = [Layer(PLAIN, value=(40 * i + number) % 256) for i in range(count)]
    record = Mux(divided(layers, streams), version=number % 2, tara=number % 2 * 300)
    sends(record, [i % 4 for i in range(count)])
    sends(record, [1] * count, anew=range(0, count, 2))
    sends(record, [0] * count, anew=range(count), size=2)
    applies([(i * i + number) % 7 for i in range(count)])

# configurations that change from stream to stream: one that comes back after another is not that of the stream just
# before; an index and 24 bits of the same frequency are not equal; useSameConfig across programs; only fill differs, so
# the configurations are equal
BACK = Audio(2, Index(6), 1)
CODED = {
    0: [PLAIN, BACK, PLAIN, PLAIN, BACK, BACK, Audio(2, Hz(48000), 2), PLAIN, PLAIN, Audio(2, Hz(48000), 2)],
    1: [
        BACK,
        replace(BACK, form="flag 0"),
        replace(BACK, form="flag 0"),
        replace(BACK, form="flag 1", extension=Index(3)),
        replace(BACK, form="flag 1", extension=Hz(48000)),
        replace(BACK, form="flag 1 with PS 0", extension=Hz(48000)),
        replace(BACK, form="flag 1 with PS 1", extension=Hz(48000)),
        replace(BACK, form="flag 1 with PS 1", extension=Hz(48000)),
        replace(BACK, form="type 29", extension=Hz(48000)),
        replace(BACK, form="type 5", extension=Hz(48000)),
        replace(BACK, form="type 5", extension=Hz(48000), frame_length_flag=1),
        BACK,
        BACK,
        BACK,
    ],
}
for version, audios in CODED.items():
    count = len(audios)
    streams = [Layer(audio, i % 3 // 2, i if i % 3 == 2 else 255 - 9 * i) for i, audio in enumerate(audios)]
    for layers in ([4, count - 4], [1] * count, [2] * (count // 2), [count - 8, 8]):
        if max(layers) > 8:
            continue
        record = Mux(divided(layers, streams), version=version, other=5, crc=0xA5)
        sends(record, [i % 5 for i in range(count)])
        sends(record, [i % 3 for i in range(count)], anew=range(count), groups=3, size=3)
        sends(record, [1] * count, anew=(3, 7, 12))
        applies([i % 6 for i in range(count)])
    if version == 1:
        fills = {0: TAILS["none"][3], 1: TAILS["flag 0"][1], 2: TAILS["flag 0"][0], 7: TAILS["flag 1 with PS 1"][0]}
        fills |= {9: TAILS["type 5"][1], 11: TAILS["none"][1], 12: TAILS["none"][7], 13: TAILS["none"][5]}
        sends(record, [2] * count, anew=range(count), tails=fills)
        sends(record, [3] * count, anew=(2, 12), tails=fills, size=4, align=0x15)

# fixed slots, alone and beside others
for value in (0, 1, 107, 235, 236, 511):
    sends(Mux(((Layer(PLAIN, 1, value),),)), [0])
    applies([0])
beside = ((Layer(PLAIN, 1, 3), Layer(PLAIN)), (Layer(BACK, 1, 0),), (Layer(BACK), Layer(PLAIN, 0, 0)))
mixed = Mux(beside, other=12, crc=1)
sends(mixed, [0, 255, 0, 0, 256], anew=(1, 3), groups=2)
applies([0, 1, 0, 254, 0])
sends(replace(mixed, version=1, tara=65536), [0, 255, 0, 0, 256], anew=(1, 3), size=4)
sends(Mux(((Layer(PLAIN, 1, 0),) * 8,) * 2), [0] * 16, anew=range(16))

# the held configuration still applies after refused elements and junk; refused: 3 and 15 behind a configuration, 3 and
# 15 behind a flag
state = Mux(((Layer(PLAIN),), (Layer(BACK, 1, 4), Layer(BACK))), subframes=2, other=9)
sends(state, [3, 0, 4], [5, 0, 0], anew=(2,), groups=4)
refused(good_element()[:-1])
applies([1, 0, 1], [0, 0, 0])
refused(good_element() + b"\0\0")
refused(sent_element(one(other=300), [[300]]).data()[:-1])
refused(bytes.fromhex("80"))
applies([2, 0, 255], [0, 0, 1])
refused(b"\x80" + bytes(199))
refused_for(v1(version_a=1))  # 5
refused_for(one(same_framing=0))  # 6
refused_for(Mux(((Layer(),) * 8, (Layer(),) * 8, (Layer(),))))  # 7
refused_for(one(Audio(core=22)))  # 8
refused_for(one(Audio(core=42)))
refused_for(one(Audio(5, Index(6), 1, "type 29", Index(3))))
refused_for(v1(), tails={0: ([(11, 0x2B7), (5, 22)], (30, 0))})
applies([3, 0, 2], [1, 0, 1])
refused_for(one(Audio(frequency=Index(13))))  # 9
refused_for(v1(Audio(2, Hz(24000), 1, "flag 1", Hz(0))))
refused_for(v1(Audio(2, Index(6), 1, "flag 1", Index(3))), asc_len={0: 36})  # 10
refused_for(v1(Audio(2, Index(6), 1, "flag 1", Index(3))), asc_len={0: 32})
refused_for(one(Audio(channels=0)))  # 11
refused_for(v1(Audio(channels=8)))
refused_for(one(Audio(depends=1)))  # 12
refused_for(v1(Audio(extension_flag=1)))
for kind in range(2, 8):
    refused_for(Mux(((Layer(), Layer(type=kind)),)))  # 13
refused_for(one(other=5), groups=5)  # 14
applies([4, 0, 3], [2, 0, 2])
junk(FALSE_SYNCS + unfollowed(good_element()))
applies([5, 0, 4], [3, 0, 3])
junk(FALSE_SYNCS + b"\x56\x56")
sends(state, [6, 0, 5], [4, 0, 4])
junk(FALSE_SYNCS)
refused(b"\xFF")
junk(FALSE_SYNCS)
applies([7, 0, 6], [5, 0, 5])

# frames inside of an element, with a sync behind the first of them, are its bytes and nothing else, whether it is
# refused or accepted
inside = Frame(good_element()).data() * 2
refused(b"\0" + inside)
applies([8, 0, 7], [6, 0, 6])
sends(one(), [(int.from_bytes(inside, "big") << 5).to_bytes(len(inside) + 1, "big")])
assert pieces[-1].element[7:].startswith(inside)
refused(b"\0" + inside)
applies([9])

# 1 to 64 subframes
for count in (1, 2, 3, 31, 32, 63, 64):
    programs = ((Layer(PLAIN), Layer(BACK, 1, 0)), (Layer(BACK),)) if count < 5 else ((Layer(BACK),),)
    record = Mux(programs, subframes=count, other=count)
    sizes = [[(7 * i + 3 * j + count) % 6 for j in range(len(record.streams))] for i in range(count)]
    sends(record, *sizes, anew=(2,))
    sends(replace(record, version=1), *sizes, size=2)
    applies(*reversed(sizes))
sixteen = Mux(divided([8, 8], [Layer(PLAIN)] * 16), subframes=64)
sends(sixteen, *[[(5 * i + j) % 11 % 3 for j in range(16)] for i in range(64)], anew=range(1, 16, 2))
applies(*[[0] * 16] * 64)
eight = Mux(divided([3, 5], [Layer(PLAIN)] * 8), version=1, subframes=4, crc=3)
sends(eight, *[[254, 0, 1, 255, 0, 2, 0, 3]] * 4, anew=(4,), size=3)

# a configuration that gets much shorter; elements of 8,191 bytes, one that stays so long and one that gets shorter
wide = Mux(divided([8, 8], [Layer(Audio(4, Hz(44100), 2, "type 5", Hz(88200)))] * 16), version=1, other=7)
sends(wide, range(16), anew=range(16), size=4, tails={i: ((), (10 * i + 1, 1)) for i in range(16)})
sends(one(), [8153])
assert len(pieces[-1].element) == len(written[-1].element) == 8191
sends(v1(Audio(frame_length_flag=1), other=3), [100], tails={0: ([(11, 0x2B5)], (64554, 1))}, size=4)
assert len(pieces[-1].element) == 8191 and len(written[-1].element) < 200
applies([2])

# the end cuts a frame short, and no other 56 comes
cut_frame = Frame(sent_element(one(), [[60]]).data()).data()[:50]
assert 0x56 not in cut_frame[1:]
junk(cut_frame)

given = capture(pieces)
assert len(given) <= 60000
home = pathlib.Path(__file__).resolve().parent.parent / "crates" / "rewrite"
home.mkdir(exist_ok=True)
(home / "stdin").write_bytes(given)
(home / "stdout").write_bytes(capture(written))
