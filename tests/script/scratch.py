"""Copies of the checkout to try faults in, and folders of commands with some left out or replaced."""
import os
import shutil
import subprocess

HERE = os.path.dirname(os.path.abspath(__file__))
TOP = os.path.dirname(os.path.dirname(HERE))
NOBODY = 65534


def environment(**words):
    """The environment of a run in a copy: not what the test itself was run in with regard to locks and folders."""
    left_out = ("OARCRADLER_LOCKED", "CDPATH")
    return {**{name: value for name, value in os.environ.items() if name not in left_out}, **words}


def copy_sources(room, name):
    """A copy of the checkout as it is fetched: nothing that git or a test makes."""
    copy = os.path.join(room, name)
    shutil.copytree(TOP, copy, symlinks=True, ignore=shutil.ignore_patterns(".git", "target", "out", "__pycache__"))
    return copy


def copy_built(room, name):
    """A copy in which list is proved and built: the libraries that it is made of, and its record."""
    copy = copy_sources(room, name)
    for crate in os.listdir(os.path.join(TOP, "crates")):
        library = os.path.join("crates", crate, "out", "rlib")
        if os.path.isdir(os.path.join(TOP, library)):
            shutil.copytree(os.path.join(TOP, library), os.path.join(copy, library))
    for part in ("bin", "built"):
        shutil.copytree(os.path.join(TOP, "target", part), os.path.join(copy, "target", part))
    return copy


def commands(room, name, left_out=(), replaced=None):
    """A PATH with every command of the present one, but for some left out and some replaced by a script's text."""
    folder = os.path.join(room, name)
    os.mkdir(folder)
    for place in os.environ["PATH"].split(os.pathsep):
        for command in os.listdir(place) if os.path.isdir(place) else ():
            link = os.path.join(folder, command)
            if command not in left_out and command not in (replaced or {}) and not os.path.lexists(link):
                os.symlink(os.path.join(os.path.abspath(place), command), link)
    for command, text in (replaced or {}).items():
        with open(os.path.join(folder, command), "w") as f:
            f.write(f"#!/bin/sh\n{text}\n")
        os.chmod(os.path.join(folder, command), 0o755)
    return folder


def open_to_all(folder):
    """A folder and all in it, for every user to read and for none but its owner to write."""
    subprocess.run(["chmod", "-R", "a+rX,go-w", folder], check=True)


def without_leave(folder):
    """The words before a command by which it may not write in a folder: another user's; root is made nobody, who owns nothing."""
    if os.geteuid() == 0:
        return ["setpriv", f"--reuid={NOBODY}", f"--regid={NOBODY}", "--clear-groups"]
    subprocess.run(["chmod", "-R", "a-w", folder], check=True)
    return []
