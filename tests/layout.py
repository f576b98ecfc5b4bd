"""Lays out elements field by field, and so knows what document 01 asks of them: items, fields read, place of a refusal.

Nothing here reads an element: each place and width is known because it was laid out here.
"""
from dataclasses import dataclass

KINDS = {"U": 1, "C": 2, "L": 3, "P": 4, "O": 5, "A": 6}
FREQUENCIES = (96000, 88200, 64000, 48000, 44100, 32000, 24000, 22050, 16000, 12000, 11025, 8000, 7350)
NOT_FIELDS = ("fill", "payload", "other data")


@dataclass(frozen=True)
class Index:
    """A frequency sent as an index. It is not equal to the same one sent in 24 bits: the record tells them apart."""

    index: int

    @property
    def hz(self):
        return FREQUENCIES[self.index]


@dataclass(frozen=True)
class Hz:
    """A frequency sent in 24 bits."""

    hz: int


@dataclass(frozen=True)
class Audio:
    """An AudioSpecificConfig.

    Forms: none, type 5, type 29; after 0x2B7: flag 0, flag 1, flag 1 with PS 0, flag 1 with PS 1.
    """

    core: int = 2
    frequency: object = Index(3)
    channels: int = 2
    form: str = "none"
    extension: object = None
    frame_length_flag: int = 0
    depends: int = 0
    extension_flag: int = 0


@dataclass(frozen=True)
class Layer:
    """The value is latmBufferFullness for frameLengthType 0 and frameLength for 1; others are refused and have none."""

    audio: Audio = Audio()
    type: int = 0
    value: int = 255


@dataclass(frozen=True)
class Mux:
    """The record of a configuration: two are equal exactly when all values of the record are."""

    programs: tuple
    version: int = 0
    version_a: int = 0
    tara: int = 0
    same_framing: int = 1
    subframes: int = 1
    other: int = None
    crc: int = None

    @property
    def streams(self):
        return [layer for program in self.programs for layer in program]


class Element:
    def __init__(self):
        self.bits = []
        self.parts = []
        self.items = []

    def at(self):
        return len(self.bits)

    def raw(self, width, value=0):
        self.bits += [value >> (width - 1 - i) & 1 for i in range(width)]

    def part(self, name, width, value):
        self.parts.append((name, self.at(), width))
        self.raw(width, value)

    def fields(self):
        return [part for part in self.parts if part[0] not in NOT_FIELDS]

    @property
    def count(self):
        return len(self.fields())

    def item(self, kind, stream, first):
        self.items.append((KINDS[kind], stream, first, self.at() - first))

    def flag(self, value):
        self.part("useSameStreamMux", 1, value)
        self.item("U", 0, 0)

    def value(self, name, number, size=1):
        """A variable value, in at least `size` bytes."""
        size = max(size, (number.bit_length() + 7) // 8)
        self.part(name, 2, size - 1)
        for byte in range(size - 1, -1, -1):
            self.part(name + " byte", 8, number >> 8 * byte & 255)

    def object_type(self, number):
        if number < 32:
            self.part("audioObjectType", 5, number)
        else:
            self.part("audioObjectType", 5, 31)
            self.part("audioObjectTypeExt", 6, number - 32)

    def frequency(self, frequency):
        if isinstance(frequency, Index):
            self.part("frequency index", 4, frequency.index)
        else:
            self.part("frequency index", 4, 15)
            self.part("frequency", 24, frequency.hz)

    def audio(self, audio, looked_at=(), fill=(0, 0)):
        """looked_at: width and value of fields that are read but signal nothing; fill: width and value of the rest."""
        outer = {"type 5": 5, "type 29": 29}.get(audio.form)
        self.object_type(outer or audio.core)
        self.frequency(audio.frequency)
        self.part("channelConfiguration", 4, audio.channels)
        if outer:
            self.frequency(audio.extension)
            self.object_type(audio.core)
        self.part("frameLengthFlag", 1, audio.frame_length_flag)
        self.part("dependsOnCoreCoder", 1, audio.depends)
        self.part("extensionFlag", 1, audio.extension_flag)
        if audio.form.startswith("flag"):
            self.part("syncExtensionType", 11, 0x2B7)
            self.object_type(5)
            self.part("sbrPresentFlag", 1, 0 if audio.form == "flag 0" else 1)
            if audio.form != "flag 0":
                self.frequency(audio.extension)
            if "PS" in audio.form:
                self.part("syncExtensionType", 11, 0x548)
                self.part("psPresentFlag", 1, int(audio.form[-1]))
        # with as many bits of fill as this, a reader would look at them
        assert looked_at or fill[0] < {"none": 16, "flag 1": 12}.get(audio.form, fill[0] + 1)
        for width, value in looked_at:
            self.part("looked at", width, value)
        if fill[0]:
            self.part("fill", *fill)

    def config(self, mux, anew=(), tails={}, asc_len={}, size=1, groups=1):
        """How the record is sent, which is not part of it.

        anew: streams whose configuration is sent although it equals the one before; tails: looked_at and fill by stream
        (version 1); asc_len: by stream, where it is not to fit; size: bytes of a variable value, groups: of the length
        of other data, at least.
        """
        first = self.at()
        self.part("audioMuxVersion", 1, mux.version)
        if mux.version == 1:
            self.part("audioMuxVersionA", 1, mux.version_a)
            self.value("taraBufferFullness", mux.tara, size)
        self.part("allStreamsSameTimeFraming", 1, mux.same_framing)
        self.part("numSubFrames", 6, mux.subframes - 1)
        self.part("numProgram", 4, len(mux.programs) - 1)
        before, stream = None, 0
        for program in mux.programs:
            self.part("numLayer", 3, len(program) - 1)
            for layer in program:
                same = layer.audio == before and stream not in anew
                if stream > 0:
                    self.part("useSameConfig", 1, int(same))
                if not same:
                    tail = tails.get(stream, ())
                    if mux.version == 1:
                        alone = Element()
                        alone.audio(layer.audio, *tail)
                        self.value("ascLen", asc_len.get(stream, alone.at()), size)
                    self.audio(layer.audio, *tail)
                self.part("frameLengthType", 3, layer.type)
                if layer.type == 0:
                    self.part("latmBufferFullness", 8, layer.value)
                elif layer.type == 1:
                    self.part("frameLength", 9, layer.value)
                before = layer.audio
                stream += 1
        self.part("otherDataPresent", 1, int(mux.other is not None))
        if mux.other is not None and mux.version == 1:
            self.value("otherDataLenBits", mux.other, size)
        elif mux.other is not None:
            groups = max(groups, (mux.other.bit_length() + 7) // 8)
            for byte in range(groups - 1, -1, -1):
                self.part("otherDataLenEsc", 1, int(byte > 0))
                self.part("otherDataLenTmp", 8, mux.other >> 8 * byte & 255)
        self.part("crcCheckPresent", 1, int(mux.crc is not None))
        if mux.crc is not None:
            self.part("crcCheckSum", 8, mux.crc)
        self.item("C", 0, first)

    def subframe(self, streams, sizes):
        """sizes: bytes of each payload; of no meaning for a stream of frameLengthType 1."""
        sizes = [layer.value + 20 if layer.type == 1 else size for layer, size in zip(streams, sizes)]
        payloads = [bytes((37 * i + stream) % 256 for i in range(size)) for stream, size in enumerate(sizes)]
        self.payloads(streams, payloads)

    def payloads(self, streams, payloads):
        """A subframe of these payloads; for a stream of frameLengthType 1 they have the size it says."""
        first = self.at()
        for layer, data in zip(streams, payloads):
            if layer.type == 0:
                for byte in [255] * (len(data) // 255) + [len(data) % 255]:
                    self.part("length byte", 8, byte)
        self.item("L", 0, first)
        for stream, data in enumerate(payloads):
            first = self.at()
            self.part("payload", 8 * len(data), int.from_bytes(data, "big"))
            self.item("P", stream, first)

    def end(self, other=None, value=1, align=1):
        """other: bits of other data, and their value; align: the alignment takes as many of its low bits as it has."""
        if other is not None:
            first = self.at()
            self.part("other data", other, value)
            self.item("O", 0, first)
        first = self.at()
        self.raw(-first % 8, align)
        self.item("A", 0, first)
        return self

    def data(self):
        return bytes(int("".join(map(str, self.bits[i : i + 8])).ljust(8, "0"), 2) for i in range(0, len(self.bits), 8))

    def refused_by(self, number, name, nth=0, more=0):
        """The refusal of the nth field of that name for its value; `more` fields behind it are read first."""
        fields = self.fields()
        i = [i for i, field in enumerate(fields) if field[0] == name][nth]
        return number, fields[i][1], i + 1 + more

    def refused_past(self, number, end):
        """The refusal of the first part that passes bit `end`, be it the end of the element (3) or of ascLen (10)."""
        i = [i for i, (_, first, width) in enumerate(self.parts) if first + width > end][0]
        return number, self.parts[i][1], sum(name not in NOT_FIELDS for name, _, _ in self.parts[:i])


def sent_element(mux, subframes, **ways):
    """An element that sends the configuration; subframes: the sizes of the payloads, for each subframe."""
    assert len(subframes) == mux.subframes
    e = Element()
    e.flag(0)
    e.config(mux, **ways)
    for sizes in subframes:
        e.subframe(mux.streams, sizes)
    return e.end(mux.other)


def held_element(mux, subframes):
    """An element for which the configuration is held."""
    assert len(subframes) == mux.subframes
    e = Element()
    e.flag(1)
    for sizes in subframes:
        e.subframe(mux.streams, sizes)
    return e.end(mux.other)
