"""From frames whose answers are known: the bytes of a capture, its listing and its summary."""
from dataclasses import dataclass

from layout import Mux

CORES = {1: "AAC Main", 2: "AAC LC", 3: "AAC SSR", 4: "AAC LTP"}
CHANNELS = {1: 1, 2: 2, 3: 3, 4: 4, 5: 5, 6: 6, 7: 8}
SIGNALLED = {
    "none": (-1, -1),
    "type 5": (1, -1),
    "type 29": (1, 1),
    "flag 0": (0, -1),
    "flag 1": (1, -1),
    "flag 1 with PS 0": (1, 0),
    "flag 1 with PS 1": (1, 1),
}
SIGNS = {1: "yes", 0: "no", -1: "not signalled"}
WORDS = {
    1: "the map has room for fewer than 4368 numbers",
    2: "the element has no byte, or more than 8191",
    3: "the element ends before this field, fill, payload or other data does",
    4: "the held configuration is to apply, and none is held",
    5: "audioMuxVersionA is 1",
    6: "the streams are not framed together",
    7: "more than 16 streams",
    8: "audio object type not carried",
    9: "frequency index 13 or 14, or a frequency of 0 Hz",
    10: "a field of the configuration passes ascLen",
    11: "channelConfiguration not carried",
    12: "dependsOnCoreCoder or extensionFlag is 1",
    13: "frameLengthType not carried",
    14: "the length of other data has more than four groups",
    15: "whole bytes are left after the alignment",
}
NO_CONFIGURATION = "no configuration yet: elements cannot be read until one is sent"
NO_FRAME = "no frame in this capture (refusal 20)"
COLUMNS = {
    "element": ">7",
    "program": ">7",
    "layer": ">5",
    "stream": ">6",
    "core type": "<10",
    "core Hz": ">8",
    "output Hz": ">9",
    "SBR": "<13",
    "PS": "<13",
    "output channels": ">15",
}


@dataclass
class Frame:
    """A frame that stands.

    Its element is accepted with these items, or refused; it sends a record, or is laid out for a held one.
    """

    element: bytes
    items: tuple = ()
    refusal: tuple = None
    sent: Mux = None
    held: Mux = None

    def data(self):
        return (0x2B7 << 13 | len(self.element)).to_bytes(3, "big") + self.element


def capture(pieces):
    """Pieces are frames, and between them bytes in which no frame stands.

    Right behind a frame these must begin with a sync, or the frame would not stand.
    """
    for before, piece in zip(pieces, pieces[1:]):
        assert isinstance(before, bytes) or isinstance(piece, Frame) or (piece[0] == 0x56 and piece[1] >= 0xE0)
    return b"".join(piece if isinstance(piece, bytes) else piece.data() for piece in pieces)


def answers(pieces):
    """For each frame: its items, its refusal or None, and the record by which it changes the held one or None."""
    held = None
    for frame in pieces:
        if isinstance(frame, bytes):
            continue
        assert held is None or frame.held in (None, held)
        if frame.held and held is None:
            yield (), (4, 0, 1), None
        elif frame.refusal:
            yield (), frame.refusal, None
        else:
            changed = frame.sent if frame.sent != held else None
            held = frame.sent or held
            yield frame.items, None, changed


def listing(pieces):
    lines = []
    for element, (items, refusal, _) in enumerate(answers(pieces)):
        if refusal:
            items = [("X", *refusal)]
        else:
            items = [("?UCLPOA"[kind], *numbers) for kind, *numbers in items]
        lines += [f"{element:06} {kind} {a:02} {b:05} {c:05}\n" for kind, a, b, c in items]
    assert all(len(line) == 24 for line in lines)
    return "".join(lines)


def line(*columns):
    return "  ".join(format(column, form) for column, form in zip(columns, COLUMNS.values()))


def figures(record):
    """The row of each stream: program, layer, core type, core and output Hz, SBR, PS, output channels."""
    for program, layers in enumerate(record.programs):
        for layer in range(len(layers)):
            audio = layers[layer].audio
            sbr, ps = SIGNALLED[audio.form]
            output = audio.extension if sbr == 1 else audio.frequency
            channels = 2 if ps == 1 and audio.channels == 1 else CHANNELS[audio.channels]
            yield program, layer, audio.core, audio.frequency.hz, output.hz, sbr, ps, channels


def rows(element, record):
    for stream, (program, layer, core, hz, output, sbr, ps, channels) in enumerate(figures(record)):
        core = f"{core} {CORES[core]}"
        yield line(element, program, layer, stream, core, hz, output, SIGNS[sbr], SIGNS[ps], channels)


def summary(pieces):
    lines = [line(*COLUMNS)]
    for element, (_, refusal, changed) in enumerate(answers(pieces)):
        if refusal:
            number, place, count = refusal
            if number == 4 and NO_CONFIGURATION not in lines:
                lines.append(NO_CONFIGURATION)
            where = f"at bit {place:>5}  fields read {count:>5}"
            lines.append(f"{element:>7}  refused {number:>2}  {where}  {WORDS[number]}")
        elif changed:
            lines += rows(element, changed)
    if all(isinstance(piece, bytes) for piece in pieces):
        lines.append(NO_FRAME)
    return "".join(text + "\n" for text in lines)
