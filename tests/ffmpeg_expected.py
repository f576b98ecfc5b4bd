#!/usr/bin/env python3
"""Writes the listing and the summary expected of each capture that samples/make-ffmpeg made.

Places and sizes of the frames are those that FFmpeg's own reader gives (.frames), rate and channels those of the
command. FFmpeg's multiplexer sends a configuration in every so many elements: version 0, one program and layer, AAC LC,
frameLengthType 0, latmBufferFullness 255, no other data, no checksum: 44 bits. A payload of P bytes and its P // 255 +
1 length bytes fill the rest up to the alignment, and so the size of the element gives P; it must be the size that the
encoder handed over (.packets). From that the element is laid out here, and all of it outside payload and alignment must
stand in the capture; of a configuration that is refused, what stands up to the end of the field that is.
"""
import pathlib
import shlex

from expected import Frame, capture, listing, summary
from layout import FREQUENCIES, Audio, Index, Layer, Mux, held_element, sent_element

CONFIGURATIONS = {"mono": 1, "stereo": 2, "3.0": 3, "4.0": 4, "5.0": 5, "5.1": 6, "7.1(wide)": 0}

home = pathlib.Path(__file__).resolve().parent.parent / "samples"


def payload_size(size, sent):
    # 1 + 44 bits and 3 of alignment are 6 bytes; 1 and 7 are one
    rest = size - (6 if sent else 1) - 1
    assert rest % 256 != 255
    return rest - rest // 256


def begins_as(element, laid, bits):
    return int.from_bytes(element, "big") >> 8 * len(element) - bits == int("".join(map(str, laid.bits[:bits])), 2)


def frames_of(name, rate, layout, interval):
    data = (home / f"{name}.loas").read_bytes()
    frames = [tuple(map(int, line.split(","))) for line in (home / f"{name}.frames").read_text().split()]
    packets = [line.split(",") for line in (home / f"{name}.packets").read_text().splitlines() if line[0] != "#"]
    assert len(frames) == len(packets)
    record = Mux(((Layer(Audio(2, Index(FREQUENCIES.index(rate)), CONFIGURATIONS[layout])),),))
    for number, ((size, place), packet) in enumerate(zip(frames, packets)):
        element = data[place + 3 : place + size]
        payload = int(packet[4])
        sends = number % interval == 0
        laid = sent_element(record, [[payload]]) if sends else held_element(record, [[payload]])
        if sends and CONFIGURATIONS[layout] == 0:
            # a program_config_element comes after the configuration, so nothing behind it is as laid out here
            refusal = laid.refused_by(11, "channelConfiguration")
            assert begins_as(element, laid, refusal[1] + 4)
            yield Frame(element, refusal=refusal)
        else:
            assert payload == payload_size(len(element), sends) and len(element) == len(laid.data())
            first_of_payload = laid.items[-2][2]
            assert begins_as(element, laid, first_of_payload)
            yield Frame(element, laid.items, sent=record if sends else None, held=None if sends else record)


for line in (home / "make-ffmpeg").read_text().splitlines():
    if line.startswith("capture ffmpeg-"):
        _, name, rate, layout, _, interval = shlex.split(line)
        pieces = list(frames_of(name, int(rate), layout, int(interval)))
        assert capture(pieces) == (home / f"{name}.loas").read_bytes()
        (home / f"{name}.listing").write_text(listing(pieces))
        (home / f"{name}.summary").write_text(summary(pieces))
