"""Inputs that cannot be read and outputs that cannot be written: what a command does with them."""
import fcntl
import os
import signal
import subprocess
import sys
import tempfile
import time

sys.path.insert(0, os.path.dirname(os.path.dirname(os.path.abspath(__file__))))
from frames import SILENCE, block, framed  # noqa: E402
from generate import packed  # noqa: E402
from images import KEEP_STEREO, SILENT_CHANNEL, image  # noqa: E402

NOT_READ = "standard input cannot be read"
NOT_WRITTEN = "standard output cannot be written"
LINES_MISSING = NOT_WRITTEN + ": lines are missing"
SHORT_IMAGE = image(4, [SILENT_CHANNEL, KEEP_STEREO])
LONG_IMAGE = image(4, [SILENT_CHANNEL, KEEP_STEREO] * 512)
# One frame, as many as an image takes, and many more.
SHORT_FILE = framed(packed(block(SILENCE)))
FULL_FILE = SHORT_FILE * 512
LONG_FILE = FULL_FILE * 4
PIPE_ROOM = 4096
LONGEST = 60


def call(command, data=None, **words):
    """A command, run to its end: on some bytes, or on what the words say its input is."""
    words.setdefault("stdout", subprocess.PIPE)
    if data is not None:
        words["stdin"] = subprocess.PIPE
    running = subprocess.Popen(command, stderr=subprocess.PIPE, start_new_session=True, **words)
    try:
        out, said = running.communicate(data, timeout=LONGEST)
    except subprocess.TimeoutExpired:
        os.killpg(running.pid, signal.SIGKILL)
        running.communicate()
        raise
    return subprocess.CompletedProcess(command, running.returncode, out, said)


def fault(what, done, status, sentence):
    """What is wrong with how a command ended, if anything: its status, and that it says this one sentence."""
    said = done.stderr.decode(errors="replace")
    if done.returncode != status:
        return [f"{what}: status {done.returncode}, not {status}: {said[:200]!r}"]
    if sentence not in said or said.count("\n") != 1:
        return [f"{what}: not told in one line as {sentence!r}: {said[:300]!r}"]
    return []


def unreadable(command, folder):
    """Faults with input that is closed, a folder, or open for writing alone. None of it has any bytes, so nothing is printed."""
    faults = []
    closed = call(command, preexec_fn=lambda: os.close(0))
    with open(os.path.join(folder, "written"), "wb") as only_written:
        written = call(command, stdin=only_written)
    above = os.open(folder, os.O_RDONLY)
    listed = call(command, stdin=above)
    os.close(above)
    for what, done in (("closed input", closed), ("input open for writing alone", written), ("a folder as input", listed)):
        faults += fault(what, done, 1, NOT_READ)
        if done.stdout:
            faults.append(f"{what}: printed {done.stdout[:100]!r}")
    return faults


def full_pipe():
    """A pipe with no room left, whose writer is not made to wait."""
    reader, writer = os.pipe()
    fcntl.fcntl(writer, fcntl.F_SETPIPE_SZ, PIPE_ROOM)
    fcntl.fcntl(writer, fcntl.F_SETFL, os.O_NONBLOCK)
    os.write(writer, bytes(PIPE_ROOM))
    return reader, writer


def into_full_pipe(command, data):
    """A command whose output has no room from its first byte on."""
    reader, writer = full_pipe()
    done = call(command, data, stdout=writer)
    os.close(writer)
    os.close(reader)
    return done


def into_slow_pipe(command, data):
    """A command whose output is read more slowly than it comes, and which is not made to wait: what arrived, and how it ended."""
    reader, writer = full_pipe()
    os.read(reader, PIPE_ROOM)
    with tempfile.TemporaryFile() as held:
        held.write(data)
        held.seek(0)
        running = subprocess.Popen(command, stdin=held, stdout=writer, stderr=subprocess.PIPE)
    os.close(writer)
    arrived = b""
    while True:
        time.sleep(0.005)
        more = os.read(reader, 1024)
        arrived += more
        if not more:
            break
    os.close(reader)
    said = running.stderr.read()
    running.stderr.close()
    return arrived, subprocess.CompletedProcess(command, running.wait(), b"", said)


def into_broken_pipe(command, data, ignored):
    """A command whose output nobody reads, with the signal of that ignored or not."""
    reader, writer = os.pipe()
    os.close(reader)
    handling = signal.SIG_IGN if ignored else signal.SIG_DFL
    done = call(command, data, stdout=writer, restore_signals=False, preexec_fn=lambda: signal.signal(signal.SIGPIPE, handling))
    os.close(writer)
    return done


def lost(command, data=LONG_IMAGE, sentence=LINES_MISSING):
    """Faults with output that cannot be written at all: it is told."""
    faults = []
    with open("/dev/full", "wb") as full:
        faults += fault("a full device as output", call(command, data, stdout=full), 1, sentence)
    faults += fault("closed output", call(command, data, preexec_fn=lambda: os.close(1)), 1, sentence)
    faults += fault("a full pipe that does not wait as output", into_full_pipe(command, data), 1, sentence)
    faults += fault("a broken pipe as output, its signal ignored", into_broken_pipe(command, data, True), 1, sentence)
    if into_broken_pipe(command, data, False).returncode == 0:
        faults.append("a broken pipe as output: status 0")
    return faults


def lines_lost(command, data=LONG_IMAGE):
    """Faults with lines that cannot be written, all or some: it is told, and nothing is printed after what is missing."""
    whole = call(command, data).stdout
    faults = [] if whole.count(b"\n") > 1024 else [f"the whole output has {len(whole)} bytes: this test has no input to lose lines of"]
    arrived, done = into_slow_pipe(command, data)
    faults += fault("a slow pipe that does not wait as output", done, 1, LINES_MISSING)
    if not whole.startswith(arrived):
        faults.append("a slow pipe that does not wait as output: lines are missing from the middle")
    return faults + lost(command, data)
