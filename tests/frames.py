"""ADTS files made by fixed seeds: sound ones, each judged field at fault, cut, flipped, with other elements; bytes that are no frames."""
import functools
import os
import random

from generate import (LARGEST, SHORT_BANDS, TOO_LARGE, TOP, WORDS, bits, channel_bits, damaged, escape_band, faulty_streams, packed,
                      pulses)

INDICES = (3, 4, 6, 7)
# The header's fields, in order, with their bits; those that are not judged; and of the others, but for the length, the numbers that stand.
FIELDS = (("sync", 12), ("version", 1), ("layer", 2), ("protection_absent", 1), ("profile", 2), ("index", 4), ("private", 1),
          ("channels", 3), ("original", 1), ("home", 1), ("copyright_id", 1), ("copyright_start", 1), ("length", 13), ("fullness", 11),
          ("more_blocks", 2))
FREE = ("version", "private", "original", "home", "copyright_id", "copyright_start", "fullness")
JUDGED = {"sync": (4095,), "layer": (0,), "protection_absent": (1,), "profile": (1,), "index": INDICES, "channels": (1,),
          "more_blocks": (0,)}
SIZES = dict(FIELDS)
HEADER, LONGEST_FRAME, IMAGE_HEADER, LONGEST_IMAGE = 7, 8191, 6, 65535
CHANNEL_ID, END_ID = "000", "111"
SILENCE = bits(100, 8) + "0" * 14


def header(**fields):
    """A header with these fields, its length among them; what is judged and not given stands, what is free and not given is 0."""
    values = {**{name: stand[0] for name, stand in JUDGED.items()}, **fields}
    return packed("".join(bits(values.get(name, 0), size) for name, size in FIELDS))


def framed(data, **fields):
    """The frame of a raw block's bytes."""
    return header(**{"length": HEADER + len(data), **fields}) + data


def block(stream, tag=0):
    """The bits of a raw block with a channel stream's bits in it."""
    return CHANNEL_ID + bits(tag, 4) + stream + END_ID


def free_fields(rng):
    """Any numbers for the fields that are not judged."""
    return {name: rng.getrandbits(SIZES[name]) for name in FREE}


def filled(rng, text):
    """Bits as bytes, the last filled up with any bits."""
    return packed(text + "".join(rng.choice("01") for _ in range(-len(text) % 8)))


def free_frame(rng, index, stream):
    """A frame that is accepted where its stream is, with all that is free at random."""
    return framed(filled(rng, block(stream, rng.getrandbits(4))), index=index, **free_fields(rng))


def short_stream(rng, index, least=0, most=400):
    """A channel stream of few bits."""
    while True:
        stream = channel_bits(rng, index)
        if least <= len(stream) <= most:
            return stream


def published_streams(index):
    """The bits of the published channel streams of a sampling index."""
    with open(os.path.join(TOP, "tests", "streams", "channel.txt")) as f:
        rows = [dict(item.split("=", 1) for item in line.split(" ", 5)[:5]) for line in f]
    kept = [row for row in rows if int(row["sfi"]) == index]
    return [bits(int(row["hex"], 16), 4 * len(row["hex"]))[:int(row["bits"])] for row in kept]


def longest_stream(index):
    """Short windows, each a group, every value an escape of twelve bits, every scale factor's word the longest that stands."""
    bands = len(SHORT_BANDS[3 if index <= 4 else 6]) - 1
    section = bits(11, 4) + bits(7, 3) * (bands // 7) + bits(bands % 7, 3)
    words = [WORDS["scale_factor"][entry] for entry in (120, 0)]
    pair = WORDS["book_11"][288] + "11" + ("1" * 8 + "0" + "1" * 12) * 2
    factors = "".join(words[k % 2] for k in range(8 * bands))
    return bits(100, 8) + "0" + bits(2, 2) + "0" + bits(bands, 4) + "0" * 7 + section * 8 + factors + "000" + pair * 512


# ---- sound files, and streams at fault in them

def sound_files(rng):
    """Files of some frames at each sampling index, and of several indices."""
    for number in range(24):
        index = INDICES[number % 4]
        yield b"".join(free_frame(rng, index, channel_bits(rng, index)) for _ in range(rng.randint(1, 40)))
    for _ in range(6):
        yield b"".join(free_frame(rng, index, short_stream(rng, index)) for index in rng.choices(INDICES, k=30))


def published_files(rng):
    """The published streams of each sampling index."""
    for index in INDICES:
        streams = published_streams(index)
        yield b"".join(free_frame(rng, index, stream) for stream in streams)
        yield b"".join(framed(packed(block(stream)), index=index) for stream in streams[:12])


def long_files(rng):
    """As many frames as an image takes, and one more; streams that fill one, and one byte more; the longest stream; half a mebibyte."""
    for count in (511, 512, 513, 1500):
        yield framed(packed(block(SILENCE))) * count
    published = b"".join(free_frame(rng, 4, stream) for stream in published_streams(4))
    yield published * (524288 // len(published))
    for index in INDICES:
        yield framed(packed(block(longest_stream(index))), index=index) * 3
        for more in (0, 1):
            yield b"".join(full_image_frames(rng, index, LONGEST_IMAGE + more))


def full_image_frames(rng, index, size):
    """Frames whose image has just so many bytes: the longest ones, silent ones, and one that fills up."""
    longest, least = longest_stream(index), 9
    count, left = divmod(size - IMAGE_HEADER, image_cost(longest))
    silent = (left - least - 5) // image_cost(SILENCE)
    last = sized_stream(left - silent * image_cost(SILENCE) - 5)
    return [free_frame(rng, index, stream) for stream in [longest] * count + [SILENCE] * silent + [last]]


def image_cost(stream):
    """The bytes that a stream takes in an image: its own, its stereo payload, an offset of each."""
    return len(packed(stream)) + 5


def sized_stream(size):
    """A stream of so many bytes, 9 to 16: one band of four escapes, as long as that takes."""
    ones = (8 * size - 66) // 2
    return escape_band(["1" * n + "0" * (n + 5) for n in (min(8, max(0, ones - 8 * k)) for k in range(4))])


def loud_blocks(rng):
    """Lines of 8191 with pulses on them, and escapes that pass it, before end elements that are there, at fault, and cut off."""
    sent = [pulses(0, [(line, amplitude)]) for line in (0, 3) for amplitude in (0, 1, 15)]
    streams = [escape_band([LARGEST] * 4, pulse, signs) for pulse in sent for signs in ("00", "11")]
    streams += [escape_band([LARGEST] * k + [TOO_LARGE] + [LARGEST] * (3 - k)) for k in range(4)]
    for index in INDICES:
        frames = []
        for stream in streams:
            frames += [packed(block(stream)[:-3] + bits(element, 3)) for element in range(8)] + [packed(block(stream)) + rng.randbytes(2)]
        yield b"".join(framed(data, index=index) for data in frames)
        for stream in rng.sample(streams, 5):
            whole = packed(block(stream))
            yield b"".join(framed(data, index=index) for data in (whole, whole[:-1], whole))


def damaged_block(rng, index):
    """A block with bits flipped, or damaged in another way and with some bytes after it, in which what is still asked for may be found."""
    data = packed(block(channel_bits(rng, index)))
    if rng.random() < 0.4:
        for _ in range(rng.choice([1, 1, 2, 5])):
            data = flipped(data, rng.randrange(8 * len(data)))
        return data
    return (damaged(rng, data) + rng.randbytes(rng.randint(0, 300)))[:LONGEST_FRAME - HEADER]


def damaged_files(rng):
    """Damaged blocks, each in a frame of its own that has its length. A listing ends where bits run out."""
    for number in range(120):
        index = INDICES[number % 4]
        yield b"".join(framed(damaged_block(rng, index), index=index, **free_fields(rng)) for _ in range(30))


def noise_blocks(rng):
    """Accepted headers before any bytes, some with a channel element's id first."""
    for number in range(40):
        frames = []
        for _ in range(60):
            data = rng.randbytes(rng.randint(20, 80))
            frames.append(framed(bytes([data[0] & 31]) + data[1:] if rng.random() < 0.8 else data, index=INDICES[number % 4]))
        yield b"".join(frames)


def cut_blocks(rng):
    """A block cut at each byte, in a frame that ends there and before another frame; a block with some bytes after it."""
    for index in INDICES:
        whole = filled(rng, block(short_stream(rng, index, 150, 300)))
        good = framed(whole, index=index)
        for size in range(len(whole)):
            yield framed(whole[:size], index=index, **free_fields(rng)) + good
        parts = [whole + rng.randbytes(k) for k in range(1, 6)] + [whole + bytes(9), whole]
        yield b"".join(framed(part, index=index, **free_fields(rng)) for part in parts)


def left_bits(rng):
    """From 0 to 20 bits after the end element, zeros, ones and any, of streams of every length modulo 8."""
    for index in INDICES:
        streams = {}
        while len(streams) < 8:
            stream = short_stream(rng, index)
            streams.setdefault(len(stream) % 8, stream)
        frames = []
        for _, stream in sorted(streams.items()):
            for left in (left for left in range(21) if (7 + len(stream) + 3 + left) % 8 == 0):
                fills = ("0" * left, "1" * left, bits(rng.getrandbits(left), left) if left else "")
                frames += [framed(packed(block(stream) + fill), index=index) for fill in fills]
        yield b"".join(frames)


# ---- other elements

def fill_element(rng):
    """A fill element: its id, a count of bytes, and these."""
    count = rng.randint(0, 14)
    return "110" + bits(count, 4) + "".join(rng.choice("01") for _ in range(8 * count))


def other_elements(rng):
    """Every id before the channel element, in its place, and after it; fill elements before and after; no element, and no end."""
    for index in INDICES:
        stream, after = short_stream(rng, index), "".join(rng.choice("01") for _ in range(400))
        texts = [bits(element, 3) + bits(rng.getrandbits(4), 4) + stream + END_ID for element in range(8)]
        texts += [bits(element, 3) + bits(rng.getrandbits(4), 4) + block(stream) for element in range(1, 8)]
        texts += [CHANNEL_ID + bits(rng.getrandbits(4), 4) + stream + bits(element, 3) for element in range(8)]
        texts += [block(stream)[:-3] + bits(element, 3) + bits(rng.getrandbits(4), 4) + END_ID for element in range(7)]
        texts += [fill_element(rng) + block(stream) for _ in range(6)] + [block(stream)[:-3] + fill_element(rng) + END_ID for _ in range(6)]
        texts += [END_ID, block(stream) + block(stream), block(block(stream)) + after]
        texts += [block(stream, tag) for tag in range(16)]
        yield b"".join(framed(packed(text), index=index, **free_fields(rng)) for text in texts)
        for text in ("", block(stream)[:-3], block("")):
            yield framed(packed(text), index=index) + framed(packed(block(stream)), index=index)


# ---- headers at fault

def between(rng, bad):
    """A frame at fault between two that are sound."""
    good = [free_frame(rng, 4, short_stream(rng, 4)) for _ in range(2)]
    return good[0] + bad + good[1]


def wrong(rng, name):
    """A number that a judged field must not have."""
    return rng.choice([value for value in range(2 ** SIZES[name]) if value not in JUDGED[name]])


def faulty_fields(rng):
    """Each judged field alone at fault, in every number that it must not have; of the sync word, each bit."""
    for name, stand in JUDGED.items():
        values = [4095 ^ 1 << k for k in range(12)] if name == "sync" else [k for k in range(2 ** SIZES[name]) if k not in stand]
        for value in values:
            yield between(rng, framed(packed(block(SILENCE)), **{**free_fields(rng), name: value}))


def faulty_together(rng):
    """Several judged fields at fault at once, the length among them."""
    names = sorted(JUDGED)
    for _ in range(60):
        fields = {name: wrong(rng, name) for name in rng.sample(names, rng.randint(1, 4))}
        if rng.random() < 0.5:
            fields["length"] = rng.choice([*range(HEADER), LONGEST_FRAME])
        yield between(rng, framed(packed(block(SILENCE)), **free_fields(rng), **fields))
        yield framed(packed(block(SILENCE)), **free_fields(rng), **fields)[:rng.randint(0, 11)]


def lengths(rng):
    """Every length about the least, about the frame's own, and about the file's end; and the greatest."""
    good, data = free_frame(rng, 3, short_stream(rng, 3)), packed(block(SILENCE))
    for length in (*range(20), 22, 23, 255, 256, 1024, 4096, LONGEST_FRAME):
        bad = header(length=length, index=3, **free_fields(rng)) + data
        yield good + bad
        yield bad + good
    for size in (LONGEST_FRAME - 1, LONGEST_FRAME, LONGEST_FRAME + 1):
        whole = header(length=LONGEST_FRAME, index=3) + data
        yield good + whole + bytes(size - len(whole))


# ---- files at fault

def cut_files(rng):
    """A small file cut at each byte."""
    whole = free_frame(rng, 6, SILENCE) + free_frame(rng, 6, short_stream(rng, 6, 150, 300)) + free_frame(rng, 6, SILENCE)
    for size in range(len(whole)):
        yield whole[:size]


def flipped_files(rng):
    """Two small frames with each bit flipped in turn; longer files with some bits flipped."""
    small = free_frame(rng, 7, SILENCE) * 2
    for place in range(8 * len(small)):
        yield flipped(small, place)
    for number in range(24):
        index = INDICES[number % 4]
        data = b"".join(free_frame(rng, index, channel_bits(rng, index)) for _ in range(12))
        for _ in range(rng.randint(1, 6)):
            data = flipped(data, rng.randrange(8 * len(data)))
        yield data


def flipped(data, place):
    """A copy with one bit flipped."""
    changed = bytearray(data)
    changed[place // 8] ^= 128 >> place % 8
    return bytes(changed)


def noisy_files(rng):
    """Noise between frames and after the last, some of it with a sync word; noise alone; bytes that are no file."""
    for number in range(20):
        noise = rng.randbytes(rng.randint(1, 12))
        sync = rng.choice([b"", b"\xff\xf1", b"\xff\xf9\x50\x40"])
        frames = [free_frame(rng, 4, short_stream(rng, 4)) for _ in range(4)]
        frames.insert(number % 5, sync + noise)
        yield b"".join(frames)
        yield sync + rng.randbytes(rng.randint(0, 40))
    yield b""
    yield bytes(8)
    yield b"\xff" * 5000


def faulty_blocks(rng):
    """Each pulse and each escape at fault in its turn."""
    for index in INDICES:
        yield b"".join(free_frame(rng, index, stream) for stream in faulty_streams(index))


@functools.lru_cache
def real_files():
    """The files of real encoders."""
    found, folder = [], os.path.join(TOP, "tests", "adts")
    for name in sorted(os.listdir(folder)):
        if name.endswith(".adts"):
            with open(os.path.join(folder, name), "rb") as f:
                found.append(f.read())
    return found


@functools.lru_cache
def made_files():
    """Every made file."""
    rng = random.Random(20270109)
    makers = (sound_files, published_files, long_files, loud_blocks, damaged_files, noise_blocks, cut_blocks, left_bits, other_elements,
              faulty_fields, faulty_together, lengths, cut_files, flipped_files, noisy_files, faulty_blocks)
    return [data for maker in makers for data in maker(rng)]
