"""Tag images made by fixed seeds: valid, damaged, cut and odd ones, and bytes that are no image."""
import random

from generate import Stereo, announced, any_bits, channel, damaged, faulty_streams, packed
from images import KEEP_STEREO, SILENT_CHANNEL, image


def fitted(payloads, room):
    """As many pairs of payloads as fit an image."""
    kept, size = [], 6
    for k in range(0, len(payloads) - 1, 2):
        size += 4 + len(payloads[k]) + len(payloads[k + 1])
        if size > room or len(kept) >= 1024:
            break
        kept += payloads[k:k + 2]
    return kept


def valid_images(rng):
    """Valid streams and runs of payloads at each sampling index."""
    for number in range(40):
        run_of = Stereo()
        payloads = []
        for _ in range(512):
            payloads += [channel(rng, (3, 4, 6, 7)[number % 4]) if rng.random() < 0.3 else SILENT_CHANNEL, run_of.payload(rng)]
        yield (3, 4, 6, 7)[number % 4], fitted(payloads, 65535)


def damaged_images(rng):
    """The same with about a third of the payloads damaged."""
    for index, payloads in valid_images(rng):
        yield index, fitted([damaged(rng, part) if rng.random() < 0.35 else part for part in payloads], 65535)


def cut_images(rng):
    """One stream or payload, cut at each byte."""
    for number in range(8):
        index = (3, 4, 6, 7)[number % 4]
        stream = channel(rng, index)[:300]
        yield index, fitted([part for k in range(len(stream) + 1) for part in (stream[:k], KEEP_STEREO)], 65535)
        run_of = Stereo()
        for _ in range(6):
            whole = run_of.payload(rng)
            cuts = [part for k in range(len(whole) + 1) for part in (SILENT_CHANNEL, whole[:k])]
            yield index, fitted(cuts, 65535)


def odd_images(rng):
    """Empty payloads, zeros, ones; and bytes that are no image."""
    for fill in (0, 255):
        yield 4, [bytes([fill]) * k for k in range(200)]
    yield 3, []


def faulty_channels(rng):
    """Each pulse and each escape at fault in its turn; a stream with pulses and escapes, cut at each byte."""
    for index in (3, 4, 6, 7):
        streams = [packed(stream) for stream in faulty_streams(index)]
        streams += [streams[0][:k] for k in range(len(streams[0]))]
        yield index, [part for stream in streams for part in (stream, KEEP_STEREO)]


def sized_extensions(rng):
    """Phases in extensions of every size: none, too small at one of their fields after another, their own, and up to two bytes more."""
    for mode in (0, 2, 4):
        payloads = []
        for count in (1, 2, 4):
            run_of = Stereo()
            front, body = run_of.restart(rng, mode, count), run_of.phases(rng, count)
            for size in range((len(body) + 7) // 8 + 3):
                held = (body + any_bits(rng, 24))[:8 * size]
                payloads += [SILENT_CHANNEL, packed(front + announced(held))]
        yield 4, payloads


def phases_in_other_modes(rng):
    """Phases in one mode, then in another, the first or the second kind of them across time."""
    payloads = []
    for mode in range(6):
        for other in ((mode + 1) % 6, (mode + 3) % 6):
            for ipd in (True, False):
                run_of = Stereo()
                for now, across in ((mode, (False, False)), (other, (ipd, not ipd))):
                    front, body = run_of.restart(rng, now, 1), run_of.phases(rng, 1, *across)
                    payloads += [SILENT_CHANNEL, packed(front + announced(body + any_bits(rng, -len(body) % 8)))]
    yield 4, payloads


def broken_headers(rng):
    good = image(4, [SILENT_CHANNEL, KEEP_STEREO])
    yield b""
    yield bytes(70000)
    for k in range(len(good)):
        yield good[:k]
        for bit in range(8):
            yield good[:k] + bytes([good[k] ^ 1 << bit]) + good[k + 1:]
    yield image(4, [SILENT_CHANNEL])


def made_images():
    """Every image, each with the number of its payloads."""
    rng = random.Random(20261115)
    makers = (valid_images, damaged_images, cut_images, odd_images, faulty_channels, sized_extensions, phases_in_other_modes)
    images = [(image(index, parts), len(parts)) for maker in makers for index, parts in maker(rng)]
    return images + [(data, 0) for data in broken_headers(rng)]
