"""Payloads made at random by fixed seeds: valid channel streams and runs of stereo payloads, and damaged copies of them."""
import csv
import os

TOP = os.path.dirname(os.path.dirname(os.path.abspath(__file__)))

LONG_BANDS = {
    3: [0, 4, 8, 12, 16, 20, 24, 28, 32, 36, 40, 48, 56, 64, 72, 80, 88, 96, 108, 120, 132, 144, 160, 176, 196, 216, 240, 264, 292, 320]
    + list(range(352, 929, 32)) + [1024],
    6: list(range(0, 45, 4)) + list(range(52, 125, 8)) + [136, 148, 160, 172, 188, 204, 220, 240, 260, 284, 308, 336, 364, 396]
    + [432, 468, 508, 552, 600, 652, 704, 768, 832, 896, 960, 1024],
}
SHORT_BANDS = {
    3: [0, 4, 8, 12, 16, 20, 28, 36, 44, 56, 68, 80, 96, 112, 128],
    6: [0, 4, 8, 12, 16, 20, 24, 28, 36, 44, 52, 64, 76, 92, 108, 128],
}
# Of each spectral book: values in a word, numbers that each can be, whether they are signed.
SHAPES = {1: (4, 3, True), 2: (4, 3, True), 3: (4, 3, False), 4: (4, 3, False), 5: (2, 9, True), 6: (2, 9, True),
          7: (2, 8, False), 8: (2, 8, False), 9: (2, 13, False), 10: (2, 13, False), 11: (2, 17, False)}


def words():
    """The words of each table, as strings of bits, by entry."""
    tables = {}
    with open(os.path.join(TOP, "tables", "words.tsv")) as f:
        for row in csv.DictReader(f, delimiter="\t"):
            tables.setdefault(row["table"], []).append(row["word"])
    return tables


WORDS = words()


def bits(value, size):
    return format(value, f"0{size}b") if size else ""


def any_bits(rng, size):
    """So many bits at random."""
    return "".join(rng.choice("01") for _ in range(size))


def packed(text):
    """A string of bits as bytes, the last filled up with zero bits."""
    text += "0" * (-len(text) % 8)
    return bytes(int(text[k:k + 8], 2) for k in range(0, len(text), 8))


# ---- channel streams

def sections(rng, max_sfb, width):
    """The books of a group's bands, and the bits of its sections."""
    books, text, most = [], "", 2 ** width - 1
    while len(books) < max_sfb:
        book = rng.choice([0, rng.randint(1, 11), rng.randint(1, 11)])
        length = rng.randint(1, max_sfb - len(books)) if rng.random() < 0.5 else min(max_sfb - len(books), rng.randint(1, 4))
        text += bits(book, 4) + bits(most, width) * (length // most) + bits(length % most, width)
        books += [book] * length
    return books, text


def scale_factors(rng, books, gain):
    text, last = "", gain
    for book in books:
        if book:
            step = rng.randint(-60, 60) if rng.random() < 0.1 else rng.randint(-3, 3)
            step = min(max(step, -last, -60), 255 - last, 60)
            last += step
            text += WORDS["scale_factor"][step + 60]
    return text


def pulse_data(rng, edges):
    count, start = rng.randint(1, 4), rng.randint(0, len(edges) - 2)
    line, text = edges[start], bits(count - 1, 2) + bits(start, 6)
    for _ in range(count):
        offset = min(rng.randint(0, 31), 1023 - line)
        line += offset
        text += bits(offset, 5) + bits(rng.randint(0, 15), 4)
    return text


def escape(rng):
    ones = rng.choice([0, 0, 0, 1, 2, 3, rng.randint(0, 8)])
    return "1" * ones + "0" + bits(rng.getrandbits(ones + 4), ones + 4)


def spectral_word(rng, book):
    count, base, signed = SHAPES[book]
    entry = rng.randrange(base ** count)
    text = WORDS[f"book_{book}"][entry]
    if signed:
        return text
    digits = [entry // base ** (count - 1 - j) % base for j in range(count)]
    text += "".join(bits(rng.getrandbits(1), 1) for digit in digits if digit)
    return text + "".join(escape(rng) for digit in digits if book == 11 and digit == 16)


def channel(rng, index):
    """A channel stream that keeps every rule, but that a pulse may pass 8191."""
    return packed(channel_bits(rng, index))


def channel_bits(rng, index):
    """The bits that such a stream uses."""
    grid = 3 if index <= 4 else 6
    sequence, gain = rng.choice([0, 1, 2, 2, 3]), rng.randint(0, 255)
    short = sequence == 2
    edges = (SHORT_BANDS if short else LONG_BANDS)[grid]
    max_sfb = rng.randint(0, len(edges) - 1) if rng.random() < 0.5 else rng.randint(0, 6)
    grouping = bits(rng.getrandbits(7), 7)
    groups = [1]
    for bit in grouping if short else "":
        if bit == "1":
            groups[-1] += 1
        else:
            groups.append(1)
    text = bits(gain, 8) + "0" + bits(sequence, 2) + bits(rng.getrandbits(1), 1)
    text += bits(max_sfb, 4) + grouping if short else bits(max_sfb, 6) + "0"
    books = []
    for _ in groups:
        more, sent = sections(rng, max_sfb, 3 if short else 5)
        books += more
        text += sent
    text += scale_factors(rng, books, gain)
    pulses = not short and rng.random() < 0.3
    text += "1" + pulse_data(rng, LONG_BANDS[grid]) if pulses else "0"
    text += "00"
    for group, windows in enumerate(groups):
        for band in range(max_sfb):
            book = books[group * max_sfb + band]
            if book:
                count = windows * (edges[band + 1] - edges[band]) // SHAPES[book][0]
                text += "".join(spectral_word(rng, book) for _ in range(count))
    return text


# ---- escapes and pulses at fault, which damage seldom hits

LARGEST, TOO_LARGE = "1" * 8 + "0" + "1" * 12, "1" * 9
# Of a sampling index, offsets of pulses from the first line of the last band: to the last line, and past it.
LAST_OFFSETS = {3: [(31, 31, 31, 2), (31, 31, 31, 3), (31, 31, 31, 31)], 6: [(31, 31, 1), (31, 31, 2), (31, 31, 1, 0), (31, 31, 1, 1)]}


def escape_band(escapes, pulses="0", signs="00"):
    """A stream of a single band, whose four lines are escapes."""
    pair = WORDS["book_11"][288] + signs
    side = bits(100, 8) + "0000" + bits(1, 6) + "0" + bits(11, 4) + bits(1, 5) + WORDS["scale_factor"][60] + pulses + "00"
    return side + pair + escapes[0] + escapes[1] + pair + escapes[2] + escapes[3]


def pulses(start, sent):
    """The pulse flag and pulse data: the start band, and of each pulse its offset and amplitude."""
    return "1" + bits(len(sent) - 1, 2) + bits(start, 6) + "".join(bits(offset, 5) + bits(amplitude, 4) for offset, amplitude in sent)


def faulty_streams(index):
    """Streams in which each pulse is the first to pass 8191, on a line of its own and on the line of one before; start bands and offsets
    up to the last that stand and past them; each escape the first that is too large."""
    grid = 3 if index <= 4 else 6
    near, last = "1" * 8 + "0" + bits(8191 - 20 - 4096, 12), len(LONG_BANDS[grid]) - 2
    streams = [escape_band([LARGEST] * 4, pulses(0, [(min(j, 1), 15 * (j >= k)) for j in range(4)])) for k in range(5)]
    streams += [escape_band([near] * 4, pulses(0, [(0, amplitude)] * 4), signs) for amplitude in (5, 6, 7, 15) for signs in ("00", "11")]
    streams += [escape_band([LARGEST] * 4, pulses(start, [(0, 15)])) for start in (last, last + 1, 63)]
    streams += [escape_band([LARGEST] * 4, pulses(last, [(offset, 15) for offset in offsets])) for offsets in LAST_OFFSETS[grid]]
    return streams + [escape_band([LARGEST] * k + [TOO_LARGE] + [LARGEST] * (3 - k)) for k in range(4)]


# ---- stereo payloads

def announced(body):
    """An extension: whole bytes of contents, and their size before them."""
    size = len(body) // 8
    return (bits(size, 4) if size < 15 else bits(15, 4) + bits(size - 15, 8)) + body


class Stereo:
    """A run of valid stereo payloads: what a payload may hold goes by those before it."""

    def __init__(self):
        self.on = {"iid": False, "icc": False, "ext": False}
        self.mode = {"iid": None, "icc": None}
        self.record = {}

    def coded(self, rng, kind, mode, time=None):
        """The bits of a kind in one envelope: across time or frequency, as it is told, or as it may be."""
        held = self.record.get(kind)
        if time is None:
            time = rng.random() < 0.5 and (held is None or held[0] == mode)
        phase = kind in ("ipd", "opd")
        bands = ([5, 11, 17] if phase else [10, 20, 34])[mode % 3]
        low, high, middle = {"iid": (-15, 15, 30) if mode >= 3 else (-7, 7, 14), "icc": (0, 7, 7)}.get(kind, (0, 7, 0))
        name = {"iid": "level_fine" if mode >= 3 else "level_default", "icc": "coherence", "ipd": "phase", "opd": "overall_phase"}[kind]
        table = WORDS[f"{name}_{'time' if time else 'frequency'}"]
        before = held[1] if held else [0] * 34
        text, indices, last = bits(int(time), 1), [], 0
        for band in range(bands):
            base = before[band] if time else last
            wild = rng.random() < 0.2
            index = rng.randint(low, high) if wild else min(max(base + rng.randint(-1, 1), low), high)
            text += table[(index - base) % 8 if phase else index - base + middle]
            indices.append(index)
            last = index
        self.record[kind] = (mode, indices + [0] * (34 - bands))
        return text

    def extension(self, rng, count):
        """The extension's bits; enable_ipdopd only where an IID mode was sent."""
        phase = self.mode["iid"] is not None and rng.random() < 0.6
        if not phase and rng.random() < 0.3:
            self.forget_phases()
            return bits(0, 4)
        body = "00" + bits(int(phase), 1)
        for _ in range(count if phase else 0):
            body += self.coded(rng, "ipd", self.mode["iid"]) + self.coded(rng, "opd", self.mode["iid"])
        if not phase:
            self.forget_phases()
        body += "0"
        return announced(body + any_bits(rng, -len(body) % 8))

    def phases(self, rng, count, ipd=False, opd=False):
        """What an extension holds of phases; the first envelope's are across time where it is told."""
        text = "001"
        for e in range(count):
            text += self.coded(rng, "ipd", self.mode["iid"], ipd and e == 0) + self.coded(rng, "opd", self.mode["iid"], opd and e == 0)
        return text + "0"

    def forget_phases(self):
        self.record.pop("ipd", None)
        self.record.pop("opd", None)

    def header(self, rng, restart):
        text = "1"
        for kind in ("iid", "icc"):
            self.on[kind] = restart or rng.random() < 0.8
            text += bits(int(self.on[kind]), 1)
            if self.on[kind]:
                self.mode[kind] = rng.randint(0, 5)
                text += bits(self.mode[kind], 3)
        self.on["ext"] = rng.random() < 0.6
        return text + bits(int(self.on["ext"]), 1)

    def restart(self, rng, mode, count):
        """A restart up to its extension: all is on, in one mode, and coded across frequency."""
        self.on, self.mode = dict.fromkeys(self.on, True), dict.fromkeys(self.mode, mode)
        text = "11" + bits(mode, 3) + "1" + bits(mode, 3) + "10" + bits((0, 1, 2, 4).index(count), 2)
        return text + "".join(self.coded(rng, kind, mode, False) for kind in ("iid", "icc") for _ in range(count))

    def payload(self, rng):
        restart = rng.random() < 0.2
        text = self.header(rng, restart) if restart or rng.random() < 0.3 else "0"
        variable, which = rng.getrandbits(1), rng.randint(0, 3)
        count = which + 1 if variable else (0, 1, 2, 4)[which]
        text += bits(variable, 1) + bits(which, 2)
        text += "".join(bits(rng.getrandbits(5), 5) for _ in range(count if variable else 0))
        for kind in ("iid", "icc"):
            if not self.on[kind]:
                self.record.pop(kind, None)
                continue
            for _ in range(count):
                text += self.coded(rng, kind, self.mode[kind])
        if self.on["ext"]:
            text += self.extension(rng, count)
        else:
            self.forget_phases()
        return packed(text)


# ---- damage

def damaged(rng, payload):
    """A copy with bits flipped, cut, filled with zeros after a cut, longer, or noise of its length."""
    how, changed = rng.randint(0, 5), bytearray(payload)
    cut = rng.randint(0, len(changed))
    if how <= 1:
        for _ in range(rng.choice([1, 1, 1, 2, 5])):
            if changed:
                changed[rng.randrange(len(changed))] ^= 1 << rng.randint(0, 7)
    elif how == 2:
        changed = changed[:cut]
    elif how == 3:
        changed[cut:] = bytes(len(changed) - cut)
    elif how == 4:
        changed += rng.choice([b"\0", b"\xff", rng.randbytes(rng.randint(1, 4))])
    else:
        changed = bytearray(rng.randbytes(rng.randint(0, 60)))
    return bytes(changed)
