"""Tag images, made of payloads; and what a program prints of them."""
import subprocess

# The least payloads that are accepted: they stand where a test has nothing of its own to say.
SILENT_CHANNEL = bytes.fromhex("640000")
KEEP_STEREO = bytes.fromhex("00")


def image(index, payloads):
    """The tag image of an even number of payloads, channel and stereo in turn."""
    start = 6 + 2 * len(payloads)
    offsets = [start + sum(len(payload) for payload in payloads[:k]) for k in range(len(payloads) + 1)]
    pairs = [len(payloads), index] + offsets
    return b"".join(pair.to_bytes(2, "big") for pair in pairs) + b"".join(payloads)


def run(command, data):
    """What a program prints of an image."""
    done = subprocess.run(command, input=data, capture_output=True)
    if done.returncode != 0:
        raise SystemExit(f"{' '.join(command)}: exit status {done.returncode}: {done.stderr.decode(errors='replace')[:400]}")
    return done.stdout.decode()


def blocks(text):
    """The lines of a dump, payload by payload: a line of the listing and the indented ones under it."""
    found = []
    for line in text.rstrip("\n").split("\n")[1:]:
        if line.startswith("  "):
            found[-1].append(line[2:])
        else:
            found.append([line])
    return found
