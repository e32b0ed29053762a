# target.sh: what the scripts share about target/: the kit that fills it, the lock on it, the prover's account, the processors, and whether
# a program in it is made of the sources as they are. It is read in (. tools/target.sh) at the top of the checkout, where $me is the
# script's name.

top=$(pwd -P)
processors='x86-64 aarch64 armv7 thumbv7em thumbv7emhf'

# archive_of PROCESSOR: its archive of the functions for C.
archive_of() {
    case $1 in
    x86-64) echo target/liboarcradler.a ;;
    *) echo "target/$1/liboarcradler.a" ;;
    esac
}

# bench_archive_of PROCESSOR: its archive of the functions that the bench alone calls.
bench_archive_of() {
    echo "$(dirname "$(archive_of "$1")")/libbench_words.a"
}

# say WORDS: a line on standard error.
say() {
    printf '%s\n' "$me: $*" >&2
}

# need_kit: proving takes the kit.
need_kit() {
    command -v rt >/dev/null 2>&1 && return 0
    say "rt is missing: install the Rattle kit and put its command rt on PATH"
    exit 2
}

# need_room: proving takes a target/ that can be written.
need_room() {
    mkdir -p target 2>/dev/null && [ -w target ] && return 0
    say "target/ cannot be written in this checkout, so nothing can be proved and built in it: copy the checkout to where you may write"
    exit 2
}

# lock: target/ is this run's alone until the shell that asked ends; a second run waits. What the run itself calls is let in.
lock() {
    [ "${OARCRADLER_LOCKED:-}" = "$top" ] && return 0
    lock_by_flock || lock_by_link
    export OARCRADLER_LOCKED="$top"
}

# lock_by_flock: a lock on the checkout's folder, which the system takes back when the run ends, however it ends.
lock_by_flock() {
    command -v flock >/dev/null 2>&1 || return 1
    exec 9<.
    flock -n 9 && return 0
    [ $? = 1 ] || return 1
    say "another run is proving in target/: waiting until it ends"
    flock 9
}

# lock_by_link: where there is no flock, a link beside target/ that names the run; one that a killed run left is taken away.
lock_by_link() {
    told=''
    [ -w . ] || return 0
    until ln -s "$$" .target.lock 2>/dev/null; do
        owner=$(readlink .target.lock)
        [ -n "$owner" ] && [ ! -d "/proc/$owner" ] && rm -f .target.lock && continue
        [ -n "$told" ] || say "another run is proving in target/: waiting until it ends (process $owner, by the link .target.lock)"
        told=yes
        sleep 1
    done
    trap 'rm -f "$top/.target.lock"' EXIT
    trap 'exit 130' HUP INT TERM
}

# clean_commit: the commit that this checkout is; nothing where it is none, or where it is not clean.
clean_commit() {
    [ -e .git ] && command -v git >/dev/null 2>&1 || return 0
    changed=$(git status --porcelain 2>&1) && [ -z "$changed" ] && git rev-parse HEAD 2>/dev/null
}

# crates_of NAME..: these crates and all that they are made of, a line each, as crates.txt has it.
crates_of() {
    WANTED="$*" awk '
        function visit(name, k, n, below) {
            if (!(name in needs) || name in seen) return
            seen[name] = 1
            n = split(needs[name], below, " ")
            for (k = 1; k <= n; k++) visit(below[k])
            print name
        }
        { sub(/#.*/, ""); colon = index($0, ":") }
        colon { split(substr($0, 1, colon - 1), named, " "); needs[named[1]] = substr($0, colon + 1) }
        END { n = split(ENVIRON["WANTED"], wanted, " "); for (k = 1; k <= n; k++) visit(wanted[k]) }' crates.txt
}

# sum: one number for what is on standard input.
sum() {
    sha256sum | cut -d ' ' -f 1
}

# sources_of NAME: one number for all that a program or an archive is made of.
sources_of() {
    crates=$(crates_of "$1")
    {
        for crate in $crates; do grep "^[[:space:]]*$crate[[:space:]:]" crates.txt; done
        # shellcheck disable=SC2086
        (cd crates && find $crates -type f ! -path '*/must-fail/*' ! -path '*/out/*' -exec sha256sum {} + 2>/dev/null) | LC_ALL=C sort
    } | sum
}

# kit_home: the kit's folder.
kit_home() {
    dirname "$(rt doc)"
}

# kit_command: where rt is.
kit_command() {
    readlink -f "$(command -v rt)"
}

# kit_name HOME: which kit it is.
kit_name() {
    cat "$1/KIT-ID" 2>/dev/null || echo unknown
}

# recorded NAME WORD: what the record of a built program, target/built/NAME, has under a word.
recorded() {
    sed -n "s/^$2 //p" "target/built/$1" 2>/dev/null
}

# is_fresh NAME: whether a program stands in target/ as it was built, of the sources and by the kit as they are now. No rt is asked for.
is_fresh() {
    [ -x "target/bin/$1" ] && [ -f "target/built/$1" ] && [ -f "$(recorded "$1" loader)" ] || return 1
    [ "$(recorded "$1" sources)" = "$(sources_of "$1")" ] && [ "$(recorded "$1" program)" = "$(sum <"target/bin/$1")" ] || return 1
    command -v rt >/dev/null 2>&1 || return 0
    [ "$(recorded "$1" rt)" = "$(kit_command)" ] && [ "$(recorded "$1" kit)" = "$(kit_name "$(recorded "$1" home)")" ]
}

# record NAME SOURCES: what a program was built of, and what it takes to run it. On another machine than x86-64 an emulator runs it.
record() {
    home=$(kit_home)
    libraries=$home/toolchain/lib
    mkdir -p target/built || return 1
    {
        echo "sources $2"
        echo "program $(sum <"target/bin/$1")"
        echo "rt $(kit_command)"
        echo "home $home"
        echo "kit $(kit_name "$home")"
        [ "$(uname -m)" = x86_64 ] || echo "emulator $(command -v qemu-x86_64)"
        echo "loader $libraries/ld-linux-x86-64.so.2"
        echo "libraries $libraries"
    } >"target/built/$1.new" && mv "target/built/$1.new" "target/built/$1"
}

# tell NAME: the prover's account on standard input, as a line for each crate that it proved, with how many come after it; the answer is
# the prover's status. What is unchanged is not in the account.
tell() {
    crates=$(crates_of "$1") proved='' told='' ended=2 began=$(date +%s)
    while IFS= read -r line; do
        case $line in
        'status '*) ended=${line#status } ;;
        'crate '*': modules '*) proved=${line#crate } proved=${proved%%:*} ;;
        'logic=proved '*)
            [ "$proved" != "$told" ] || continue
            now=$(date +%s)
            say "$proved proved ($((now - began)) s), $(echo "$crates" | sed "1,/^$proved\$/d" | wc -l) left"
            began=$now told=$proved
            ;;
        esac
    done
    return "$ended"
}

# prove NAME COMMAND..: a command that proves a crate; its account goes to target/NAME.log, and the end of that is told where it fails.
prove() {
    crate=$1
    shift
    { "$@" </dev/null 2>&1; echo "status $?"; } | tee "target/$crate.log" | tell "$crate" && return 0
    tail -n 20 "target/$crate.log" >&2
    say "$crate is not proved: target/$crate.log has the whole account"
    return 1
}

# make_program NAME: the kit proves and builds a program for every x86-64, and runs it, on nothing here. How that run ends says nothing
# of the proof: the program is there then, or it is not.
make_program() {
    rm -f "crates/$1/out/$1"
    (cd "crates/$1" && rt run --cpu x86-64 >/dev/null)
    [ -x "crates/$1/out/$1" ] && mkdir -p target/bin && cp "crates/$1/out/$1" "target/bin/$1.new" && mv "target/bin/$1.new" "target/bin/$1"
}

# build NAME: a proved program, where it is not fresh; in a shell of its own, which holds the lock.
build() (
    need_kit
    need_room
    lock
    is_fresh "$1" && exit 0
    sources=$(sources_of "$1")
    say "proving and building $1, of $(crates_of "$1" | wc -l) crates: five to ten minutes in a new checkout; later only what has changed"
    prove "$1" make_program "$1" || exit 1
    [ "$sources" = "$(sources_of "$1")" ] || { say "the sources of $1 changed while they were proved: run this again"; exit 1; }
    record "$1" "$sources"
)
