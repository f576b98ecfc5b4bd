#!/usr/bin/env python3
"""Lays out, field by field, the elements of crates/worked/specs/Edges.antt and the whole elements of Worked.antt behind
01's own two, and sees that they stand there with the verdict, the map and the rows that the layout gives:

    python3 tests/edge_cases.py            # 'N cases stand in the definitions'
    python3 tests/edge_cases.py --print    # prints the cases as they stand there

Nothing here reads an element (tests/layout.py)."""
import pathlib
import re
import sys

from expected import figures
from layout import Audio, Element, Hz, Index, Layer, Mux

SPECS = pathlib.Path(__file__).resolve().parent.parent / "crates" / "worked" / "specs"
cases = []


def listed(numbers):
    return " ∷ ".join([*numbers, "[]"])


def data_of(element):
    return listed(f"0x{byte:02X}" for byte in element.data())


def accepted(e):
    cases.append(data_of(e))
    cases.append(f"accepts {len(e.items)} {e.count} true")
    cases.append(listed(str(number) for item in e.items for number in item))


def rows(name, mux):
    said = {1: "(pos 1)", 0: "(pos 0)", -1: "minus_one"}
    for program, layer, core, hz, output, sbr, ps, channels in figures(mux):
        row = f"{program} {layer} {core} {hz} {output} {said[sbr]} {said[ps]} {channels}"
        cases.append(f"row {name} {program} {layer} (figures {row})")


def stopped(e, number, place, count, bits=None):
    if bits is not None:
        del e.bits[bits:]
    cases.append(f"{data_of(e)}) 4368 (at {number} {place} {count})")


def laid(mux, **ways):
    e = Element()
    e.flag(0)
    e.config(mux, **ways)
    return e


def whole(mux, payloads, other=None, **ways):
    e = laid(mux, **ways)
    for _ in range(mux.subframes):
        e.payloads(mux.streams, payloads)
    return e.end(mux.other, other, align=0)


def one(audio, type=0, value=255, **more):
    return Mux(((Layer(audio, type, value),),), **more)


def of_form(channels, form, extension):
    return one(Audio(frequency=Index(6), channels=channels, form=form, extension=extension), version=1)


def mono(form="none", extension=None):
    return of_form(1, form, extension)


def stereo(form, extension):
    return of_form(2, form, extension)


def refused(number, name, mux, nth=0, more=0, **ways):
    e = laid(mux, **ways)
    stopped(e, *e.refused_by(number, name, nth, more))


# 01's ascLen cases: the bits of 0x2B7, type 5, flag 1, index 3 (and 0x548, 1) in windows of several lengths
FLAG, PS = mono("flag 1", Index(3)), mono("flag 1 with PS 1", Index(3))
for length, mux, ways in [
    (37, FLAG, {}),
    (36, FLAG, {"asc_len": {0: 36}}),
    (31, mono(), {"tails": {0: ((), (15, 0x2B7 << 4 | 5 >> 1))}}),
    (32, FLAG, {"asc_len": {0: 32}}),
    (49, PS, {}),
    (48, FLAG, {"tails": {0: ((), (11, 0x548))}}),
]:
    e = whole(mux, [b"\xab"], **ways)
    if "asc_len" in ways:
        start = next(first for name, first, _ in e.parts if name == "audioObjectType")
        number, place, count = e.refused_past(10, start + length)
        cases += [data_of(e), f"Err (at {number} {place} {count})"]
    else:
        accepted(e)

# a stream of each form
forms = [(3, 2, "none", None), (6, 1, "type 5", 3), (7, 1, "type 29", 4), (6, 1, "flag 0", None), (6, 1, "flag 1", 3)]
streams = [
    Layer(Audio(frequency=Index(i), channels=c, form=f, extension=None if x is None else Index(x)))
    for i, c, f, x in forms
]
streams.append(Layer(Audio(frequency=Index(8), channels=1, form="flag 1 with PS 0", extension=Hz(32001))))
streams.append(Layer(Audio(frequency=Hz(24001), channels=1, form="flag 1 with PS 1", extension=Index(3))))
mux = Mux((tuple(streams[:3]), tuple(streams[3:])), version=1)
accepted(whole(mux, [b""] * 7))
rows("forms", mux)

# PS over one channel, and over two
rows("(mono (Flag1 (Index 3)))", FLAG)
rows("(mono None)", mono())
rows("(mono (FlagPs (Index 3) 1))", PS)
rows("(stereo (FlagPs (Index 3) 1))", stereo("flag 1 with PS 1", Index(3)))
rows("(stereo (Type29 (Index 3)))", stereo("type 29", Index(3)))

# 16 streams and two subframes: every core type, frequency and channel configuration; the last has slots of 20 bytes
rates = [Index(i) for i in range(13)] + [Hz(1), Hz(0xFFFFFF), Index(0)]
audios = [Audio(core=i % 4 + 1, frequency=rates[i], channels=i % 7 + 1, frame_length_flag=i % 2) for i in range(16)]
streams = [Layer(audio, 0, 17 * i) for i, audio in enumerate(audios[:15])] + [Layer(audios[15], 1, 0)]
mux = Mux((tuple(streams[:8]), tuple(streams[8:])), subframes=2)
accepted(whole(mux, [b""] * 15 + [bytes(range(20))]))
rows("wide", mux)

# other data in two groups, and in values of two bytes; an extension type that says nothing
STEREO = Audio()
accepted(whole(one(STEREO, other=3, crc=0x5A), [b"\xab"], 5, groups=2))
accepted(whole(one(STEREO, version=1, other=5, tara=7), [b"\xab"], 9, size=2))
accepted(whole(mono(), [b""], tails={0: (((11, 0x2B7), (5, 6)), (0, 0))}))

# a refusal for each value that 01 refuses
refused(5, "audioMuxVersionA", one(STEREO, version=1, version_a=1))
refused(6, "allStreamsSameTimeFraming", one(STEREO, same_framing=0))
e = laid(Mux(((Layer(STEREO),) * 8, (Layer(STEREO),) * 8, (Layer(STEREO),))))
number, place, count = e.refused_by(7, "numLayer", 2)
stopped(e, number, place, count, (place + 10) // 8 * 8)
for core in (0, 6, 30):
    refused(8, "audioObjectType", one(Audio(core=core)))
refused(8, "audioObjectType", one(Audio(core=32)), more=1)
refused(8, "audioObjectType", one(Audio(core=5, form="type 5", extension=Index(3))), nth=1)
refused(8, "looked at", mono(), nth=1, tails={0: (((11, 0x2B7), (5, 22)), (0, 0))})
for index in (13, 14):
    refused(9, "frequency index", one(Audio(frequency=Index(index))))
refused(9, "frequency", one(Audio(frequency=Hz(0))))
for channels in (0, 8):
    refused(11, "channelConfiguration", one(Audio(channels=channels)))
refused(12, "dependsOnCoreCoder", one(Audio(depends=1)))
refused(12, "extensionFlag", one(Audio(extension_flag=1)))
for type in (2, 7):
    refused(13, "frameLengthType", one(STEREO, type, 0))
e = laid(one(STEREO, other=3), groups=4)
number, place, count = e.refused_by(14, "otherDataLenEsc", 3)
e.bits[place] = 1
stopped(e, number, place, count)


def main():
    if sys.argv[1:] == ["--print"]:
        print("\n".join(cases))
        return
    text = re.sub(r"\s+", " ", (SPECS / "Worked.antt").read_text() + (SPECS / "Edges.antt").read_text())
    missing = [case for case in cases if case not in text]
    for case in missing:
        print("not in the definitions:", case)
    stand = f"{len(cases) - len(missing)} cases stand in the definitions"
    print(stand + (f", {len(missing)} do not" if missing else ""))
    sys.exit(1 if missing else 0)


main()
