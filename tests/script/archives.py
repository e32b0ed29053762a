"""tools/archive and tools/portable, with a kit that does as it is told: what they refuse, in which words, and that an old archive stays."""
import os
import shutil
import subprocess

from scratch import TOP, commands, copy_sources, environment

MODULE = """define i32 @first(ptr %r0, i64 %r1) #0 {
  %r2 = alloca ptr, align 8
  %r3 = alloca [16 x i8], align 8
  store ptr %r0, ptr %r2, align 8
  %r4 = load ptr, ptr %r2, align 8, !noundef !2
  %r5 = getelementptr inbounds i8, ptr %r4, i64 %r1
  ret i32 0
}
"""
# What a module must not have, with the words that tell it.
UNPORTABLE = {
    "@table = constant i8 0": "a global",
    "%pair = type { ptr, i64 }": "a named type",
    "  %r6 = ptrtoint ptr %r0 to i64": "a pointer made a number",
    "  %r6 = inttoptr i64 %r1 to ptr": "a pointer made a number",
    "  %r6 = insertvalue { ptr, i64 } poison, ptr %r0, 0": "a value of parts",
    "  %r6 = insertvalue [2 x ptr] poison, ptr %r0, 0": "a value of parts",
    "  %r6 = load { i64, ptr }, ptr %r3, align 8": "a value of parts",
    "  %r6 = load { i64, i128 }, ptr %r3, align 8": "a value of parts",
    "  %r6 = load <2 x i64>, ptr %r3, align 8": "a value of parts",
    "  %r6 = bitcast i64 %r1 to double": "a cast, or an element",
    "  %r6 = alloca { ptr, i64 }, align 8": "room for more than one pointer",
    "  %r6 = getelementptr inbounds ptr, ptr %r0, i64 1": "a step that is not counted in bytes",
    "  %r6 = load i64, ptr %r2, align 8": "a pointer's slot used as something else",
    '  call void asm "nop", ""() #1 ; x86_64': "x86-64 is named",
}
# What a module may have.
PORTABLE = ("", "  %r6 = load { i64, i32 }, ptr %r3, align 8", '  %r6 = call { i64, i8 } @"one<two>::{three}"(ptr %r3)')
RT = """case $1 in
doc) echo "$FAKE_KIT/START-HERE.md" ;;
lib)
    [ -z "${NOT_TODAY:-}" ] || { echo "rt: not today"; exit 1; }
    crate=$(basename "$PWD") && mkdir -p out && echo "module of $crate" >out/given.bc
    printf '%s\\n' "crate $crate: modules loaded=0 checked=1" "logic=proved functions=1"
    "$(dirname "$0")/../toolchain/bin/clang" out/given.bc -c -o out/given.o && echo "$crate" >"out/lib$crate.a" ;;
esac"""
CLANG = """#!/bin/sh
all=$*
while [ "$1" != -o ]; do shift; done
case $all in
*-emit-llvm*) cp "$FAKE_TEXT" "$2" ;;
*scanlimit*x86_64*) echo "object in less stack" >"$2" && : >"${2%.o}.su" ;;
*x86_64*) echo "${OTHER_OBJECT:-object}" >"$2" && : >"${2%.o}.su" ;;
*) echo "object for another" >"$2" && : >"${2%.o}.su" ;;
esac"""
ARCHIVER = """#!/bin/sh
case $1 in
x) echo object >"$(cat "$2").o" ;;
*) shift; out=$1; shift; cat "$@" >"$out" ;;
esac"""


def fake_kit(room):
    """A kit whose clang gives a fixed text and fixed objects, and the PATH on which its rt stands first."""
    kit = os.path.join(room, "fake-kit")
    for name, text in (("bin/rt", f"#!/bin/sh\n{RT}"), ("toolchain/bin/clang", CLANG), ("toolchain/bin/llvm-ar", ARCHIVER)):
        path = os.path.join(kit, name)
        os.makedirs(os.path.dirname(path), exist_ok=True)
        with open(path, "w") as f:
            f.write(text + "\n")
        os.chmod(path, 0o755)
    return kit, commands(room, "fake-rt", (), {"rt": f'exec {kit}/bin/rt "$@"'})


def archive(copy, *words, **given):
    """tools/archive in a copy."""
    return subprocess.run(["tools/archive", *words], cwd=copy, env=environment(**given), capture_output=True, text=True)


def told(what, done, status, *sentences):
    """Faults of a run that had to end so and say so."""
    good = done.returncode == status and all(sentence in done.stderr for sentence in sentences)
    return [] if good else [f"{what}: status {done.returncode}, {done.stderr[-400:]!r}"]


def contents(path):
    """A file's text; nothing where there is none."""
    return open(path).read() if os.path.exists(path) else ""


def portable(room):
    """A module in which a pointer's width could show is refused with the words for it; one without a function, too."""
    faults = []
    for line, sentence in {**dict.fromkeys(PORTABLE), **UNPORTABLE}.items():
        path = os.path.join(room, "module.ll")
        with open(path, "w") as f:
            f.write(MODULE.replace("  ret i32 0\n", f"{line}\n  ret i32 0\n") if line.startswith(" ") else f"{line}\n{MODULE}")
        done = subprocess.run([os.path.join(TOP, "tools", "portable"), path], capture_output=True, text=True)
        faults += told(f"portable with {line!r}", done, 1 if sentence else 0, sentence or "")
    done = subprocess.run([os.path.join(TOP, "tools", "portable"), "/dev/null"], capture_output=True, text=True)
    return faults + told("portable with no function", done, 1, "no function in it")


def refused_archives(room, copy, given):
    """What falls short is told by crate and check, and an old archive stays."""
    old = os.path.join(copy, "target", "armv7", "liboarcradler.a")
    before = contents(old)
    bad = os.path.join(room, "bad.ll")
    with open(bad, "w") as f:
        f.write("@table = constant i8 0\n" + MODULE)
    os.remove(old + ".made")
    os.remove(os.path.join(copy, "target", "module", "c_channel_c.checked"))
    faults = told("a module with a global", archive(copy, "armv7", **{**given, "FAKE_TEXT": bad}), 1, "a global", "c_channel_c: the width")
    done = archive(copy, "armv7", **given, OTHER_OBJECT="another")
    faults += told("another object for x86-64", done, 1,
        "c_channel_c: for x86-64 the text of its module gives another object than rattle's")
    with open(os.path.join(copy, "target", "module", "c_writer_c.o"), "a") as f:
        f.write("altered")
    done = archive(copy, "armv7", **given, NOT_TODAY="1")
    faults += told("an altered object", done, 1, "rt: not today", "c_writer_c is not in the archive")
    return faults + ([] if before and contents(old) == before else ["the old archive is gone"])


def archives(room):
    """The processors are a closed list; each has its archive; what is unchanged is not proved again; no view of the kit is left."""
    kit, bin_ = fake_kit(room)
    copy, text = copy_sources(room, "archives"), os.path.join(room, "good.ll")
    with open(text, "w") as f:
        f.write(MODULE)
    given = {"PATH": bin_, "FAKE_KIT": kit, "FAKE_TEXT": text}
    faults = []
    for words in (["riscv64"], [""], ["x86_64"], ["armv7", "aarch64"]):
        done = archive(copy, *words, **given)
        faults += told(f"tools/archive {words}", done, 2, "the processors are: x86-64 aarch64 armv7 thumbv7em thumbv7emhf")
    faults += told("tools/archive", archive(copy, **given), 0, "proving the functions for C", "c_version_c is in the archive for x86-64")
    faults += told("tools/archive armv7", archive(copy, "armv7", **given, NOT_TODAY="1"), 0, "c_version_c is in the archive for armv7")
    made = [contents(os.path.join(copy, "target", place, "liboarcradler.a")) for place in ("", "armv7")]
    if made != ["object in less stack\n" * 6, "object for another\n" * 6]:
        faults.append(f"the archives hold {made}")
    faults += refused_archives(room, copy, given)
    if os.path.exists(os.path.join(copy, "target", "view")):
        faults.append("the view of the kit is left in target/")
    shutil.rmtree(copy)
    return faults
