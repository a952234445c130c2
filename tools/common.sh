# What the repository's scripts share. Each sources it as its first step, those of compare/, bench/, oracle/ and tools/ by
#     . "$(dirname "$0")/../tools/common.sh"
# POSIX sh. It sets root, the folder of the repository.

# Numbers have a point, whatever the locale; `cd` goes where it is told and says nothing.
LC_ALL=C
export LC_ALL
unset CDPATH
here=$(dirname "$(readlink -f "$0" 2>/dev/null || echo "$0")")
[ -f "$here/crates.txt" ] || here=$here/..
root=$(cd "$here" && pwd)

# However the script ends, by itself, a signal or a closed pipe: no prover, lock or temporary folder is left.
prover='' lock='' room='' beside='' work=''
ended() {
    [ -z "$prover" ] || kill -s TERM -- "-$prover" 2>/dev/null || :
    [ -z "$lock" ] || rm -f "$lock"
    [ -z "$room" ] || rm -rf "$room"
    [ -z "$beside" ] || rm -rf "$beside"
    [ -z "$work" ] || rm -rf "$work"
}
trap ended EXIT
trap 'exit 129' HUP
trap 'exit 130' INT
trap 'exit 141' PIPE
trap 'exit 143' TERM

# scratch: sets work, a temporary folder that goes when the script ends.
scratch() { work=$(mktemp -d); }

# Prints the script's first comment and ends: as an answer, or since it was called in another way.
helped() {
    sed -n -e '2s/^# /usage: /p' -e '3,/^[^#]/s/^# //p' "$0"
    exit 0
}
usage() {
    (helped) >&2
    exit 2
}

# every script takes it
case ${1-} in --help | -h) helped ;; esac

# absolute PATH: as seen from the folder that the script is called in.
absolute() {
    case $1 in
        /*) echo "$1" ;;
        *) echo "$PWD/$1" ;;
    esac
}

# legible FILE: a file that can be read.
legible() {
    if [ ! -f "$1" ] || [ ! -r "$1" ]; then
        echo "$0: there is no file $1 that can be read" >&2
        exit 2
    fi
}

# problem FOLDER: a folder that can be read, with one of a problem's four files or more in it.
problem() {
    if [ ! -d "$1" ]; then
        echo "$0: there is no folder $1" >&2
        exit 2
    fi
    if [ ! -r "$1" ] || [ ! -x "$1" ]; then
        echo "$0: the folder $1 cannot be read" >&2
        exit 2
    fi
    for name in receptions clock altitude reference; do
        [ ! -e "$1/$name.bin" ] || return 0
    done
    echo "$0: $1 has none of receptions.bin, clock.bin, altitude.bin and reference.bin" >&2
    exit 2
}

# need COMMAND..: the commands, and the kit's, are on the PATH, and target/ and the crates' folders can be written.
# shellcheck disable=SC2120
need() {
    for command in rt "$@"; do
        if ! command -v "$command" >/dev/null 2>&1; then
            [ "$command" != rt ] || command="the Rattle kit's command rt"
            echo "$0: $command is not on the PATH" >&2
            exit 2
        fi
    done
    if ! mkdir -p "$root/target/log" 2>/dev/null || [ ! -w "$root/target/log" ]; then
        echo "$0: $root/target cannot be written, and what is built goes there" >&2
        exit 2
    fi
    for path in "$root"/crates/*; do
        if [ ! -w "$path" ]; then
            echo "$0: $path cannot be written, and what is proved there goes into its out/" >&2
            exit 2
        fi
    done
}

# numbers MOST WORD..: whole numbers above 0, of up to twelve digits, MOST of them at most, or the usage.
numbers() {
    [ $# -le $(($1 + 1)) ] || usage
    shift
    for word in "$@"; do
        case $word in '' | *[!0-9]* | ?????????????*) usage ;; esac
        case $word in *[1-9]*) ;; *) usage ;; esac
    done
}

# original SRC FILE..: sets src, the folder SRC of the original, where the files have to be; an option gets the usage.
original() {
    folder=$1
    shift
    case $folder in -*) usage ;; esac
    for file in "$@"; do
        if [ ! -f "$folder/$file" ]; then
            echo "$0: there is no $folder/$file: SRC is the folder of the original, with $* in it" >&2
            exit 2
        fi
    done
    src=$(cd "$folder" && pwd)
}

# taken FIRST [LAST]: the lines of solve.rs from the one that begins with FIRST to the next that is LAST, or that one line alone; there is one such.
taken() {
    awk -v by="$0" -v first="$1" -v last="${2-}" '
        index($0, first) == 1 { found++; inside = 1 }
        inside { print }
        inside && (last == "" || $0 == last) { inside = 0; whole++ }
        END { if (found != 1 || whole != 1) { print by ": solve.rs has " found + 0 " times: " first >"/dev/stderr"; exit 1 } }
    ' "$src/solve.rs"
}

# The functions below are called in the folder of the repository.

# soname: the shared library's name for the loader, with the major version.
soname() {
    IFS=. read -r major _ <version.txt
    echo "libmlat_solver.so.$major"
}

# library NAME: proves the crate NAME and builds it as a static library, target/staticlib/libNAME.a, where that is older than its files. What C sees of
# mlat_solver is a crate of its own, mlat_solver_c.
library() {
    crate=$1
    [ "$crate" != mlat_solver ] || crate=mlat_solver_c
    # shellcheck disable=SC2046
    stale "target/staticlib/lib$1.a" crates.txt $(uses . "$crate") || return 0
    # shellcheck disable=SC2119
    need
    proving . lib "$crate"
    archived . "$crate" "target/staticlib/lib$1.a"
}

# archived FOLDER CRATE ARCHIVE: puts the static library that rt built of FOLDER's crate where ARCHIVE says, whole or not at all.
archived() {
    if [ ! -f "$1/crates/$2/out/lib$2.a" ]; then
        echo "$0: rt lib gave no $1/crates/$2/out/lib$2.a" >&2
        exit 1
    fi
    mkdir -p "${3%/*}"
    cp "$1/crates/$2/out/lib$2.a" "$3.$$"
    mv "$3.$$" "$3"
}

# program NAME: proves and builds the program NAME, crates/NAME/out/NAME, where it is older than its files.
program() {
    # shellcheck disable=SC2046
    stale "crates/$1/out/$1" crates.txt $(uses . "$1") || return 0
    # shellcheck disable=SC2119
    need
    proving . run "$1"
    # rt goes by what files hold: one that only looks newer needs no proof the next time
    touch "crates/$1/out/$1"
}

# alone FOLDER: has FOLDER's target/ to this script, once no other has it. The lock is a file with the number of its process (no link: rt ci refuses a
# repository with one).
alone() {
    waits=
    mkdir -p "$1/target/log"
    own=$1/target/log/proving.$$
    echo "$$" >"$own"
    while ! ln "$own" "$1/target/proving" 2>/dev/null; do
        other=$(cat "$1/target/proving" 2>/dev/null) || continue
        if [ -n "$other" ] && [ ! -d "/proc/$other" ] && ! kill -0 "$other" 2>/dev/null; then
            rm -f "$1/target/proving"
            continue
        fi
        [ -n "$waits" ] || echo "$0: waiting for process $other, which proves or builds here" >&2
        waits=yes
        sleep 1
    done
    rm -f "$own"
    lock=$1/target/proving
}

# shared: gives up what `alone` took.
shared() {
    rm -f "$lock"
    lock=
}

# proving FOLDER COMMAND CRATE: `rt COMMAND` in the folder of FOLDER's crate. Each crate that is proved anew is said on standard error, as 'proved: geo, 13 s';
# where rt fails, all that it said is. What a program says that `rt run` runs once it is built, on no input, is not heard.
proving() {
    where=$1 command=$2 built=$3
    echo "$0: proving and building $built" >&2
    alone "$where"
    said=$(cd "$where" && pwd)/target/log/proving
    : >"$said"
    # rt's own temporary folders go here; it runs programs as nobody, who has to get in
    room=$(mktemp -d)
    chmod 755 "$room"
    (cd "$where/crates/$built" && TMPDIR=$room exec setsid rt "$command") >"$said" 2>&1 </dev/null &
    prover=$!
    told=0 since=$(date +%s)
    while kill -0 "$prover" 2>/dev/null; do
        tell
        sleep 1
    done
    status=0
    wait "$prover" || status=$?
    prover=
    tell
    rm -rf "$room"
    room=
    # the status under `rt run` is the program's own, and the stamp says that it was proved and built
    [ "$command" != run ] || [ ! -f "$where/crates/$built/out/$built.stamp" ] || status=0
    if [ "$status" -ne 0 ]; then
        cat "$said" >&2
        exit 1
    fi
    shared
}

# tell: what `proving` has to say since it last did.
tell() {
    heard=$(LC_ALL=C grep -a -c '^logic=proved' "$said" || :)
    [ "$heard" -gt "$told" ] || return 0
    now=$(date +%s)
    LC_ALL=C grep -a -E '^(crate [a-z0-9_]+: |logic=proved)' "$said" |
        awk -v told="$told" -v heard="$heard" -v seconds=$((now - since)) '
            /^crate / { name = $2; sub(/:$/, "", name) }
            /^logic=/ && ++k > told && k <= heard { printf "proved: %s, %d s\n", name, seconds }
        ' >&2
    told=$heard since=$now
}

# c_names FOLDER FILES NAME DEP..: inner functions under C names, as the static library FOLDER/target/staticlib/libNAME.a. It is the crate NAME, whose files are those below FILES/NAME
# with .txt at their ends, in a repository outside this one beside copies of the crates that it uses. What is proved here of those is not proved again.
c_names() {
    to=$1 files=$2 name=$3
    shift 3
    # shellcheck disable=SC2046
    stale "$to/target/staticlib/lib$name.a" crates.txt "$files/$name" $(uses . "$@") || return 0
    # shellcheck disable=SC2119
    need
    for crate in "$@"; do
        proving . lib "$crate"
    done
    beside=$(mktemp -d)
    for path in $(uses . "$@"); do
        crate=${path##*/}
        mkdir -p "$beside/crates/$crate/out"
        for part in src specs proofs out/rlib; do
            [ ! -d "$path/$part" ] || cp -R "$path/$part" "$beside/crates/$crate/$part"
        done
        grep "^$crate:" crates.txt
    done >"$beside/crates.txt"
    (cd "$files" && find "$name" -name '*.txt') | while read -r file; do
        mkdir -p "$beside/crates/$(dirname "$file")"
        cp "$files/$file" "$beside/crates/${file%.txt}"
    done
    echo "$name staticlib: $*" >>"$beside/crates.txt"
    proving "$beside" lib "$name"
    archived "$beside" "$name" "$to/target/staticlib/lib$name.a"
    rm -rf "$beside"
    beside=
}

# stale ARCHIVE PATH..: whether it is not there, or a file below a path is newer.
stale() {
    archive=$1
    shift
    [ ! -f "$archive" ] || [ -n "$(find "$@" -type f -newer "$archive")" ]
}

# uses FOLDER CRATE..: the folders of these crates and of all that they depend on, by FOLDER's crates.txt.
uses() {
    awk -v folder="$1" -v wanted="$*" '
        { sub(/#.*/, "") }
        # NAME: DEP .., or NAME staticlib: DEP ..
        match($0, /:/) { name = $1; sub(/:.*/, "", name); deps[name] = substr($0, RSTART + 1) }
        END {
            n = split(wanted, todo, " ")
            for (i = 2; i <= n; i++) {
                if (!(todo[i] in deps) || todo[i] in seen) continue
                seen[todo[i]] = 1
                print folder "/crates/" todo[i]
                m = split(deps[todo[i]], more, " ")
                for (k = 1; k <= m; k++) todo[++n] = more[k]
            }
        }
    ' "$1/crates.txt"
}

# copied TO FOLDER..: copies the folders, as they are named here, below TO, without what rt made of crates in their out/.
copied() {
    into=$1
    shift
    for path in "$@"; do
        path=${path#./}
        mkdir -p "$into/$path"
        for entry in "$path"/*; do
            case $entry in
                crates/*/out) ;;
                crates/*/*) cp -R "$entry" "$into/$entry" ;;
                crates/*) copied "$into" "$entry" ;;
                *) cp -R "$entry" "$into/$entry" ;;
            esac
        done
    done
}

# mutants SUBJECT KEPT [NAME..]: builds each mutant of oracle/mutants_SUBJECT.txt (or those named), runs oracle/SUBJECT_replay.rs with it on the recorded cases
# KEPT and says how many of them tell it from the oracle. Fails where the oracle itself differs, or a mutant is not seen.
mutants() {
    subject=$1 kept=$2
    shift 2
    list=oracle/mutants_$subject.txt
    out=target/oracle/mutants_$subject
    mkdir -p "$out/from"
    cp oracle/*.rs "$out/from/"
    rustc --edition 2021 -O -o "$out/mutate" oracle/mutate.rs
    found=$(replayed "$out/from")
    echo "the oracle: $found"
    case $found in '0 of '*) ;; *) exit 1 ;; esac
    # shellcheck disable=SC2046
    [ $# -gt 0 ] || set -- $("$out/mutate" "$list")
    missed=0
    for name in "$@"; do
        rm -rf "$out/src"
        "$out/mutate" "$list" "$name" "$out/from" "$out/src"
        found=$(replayed "$out/src")
        echo "$name: $found"
        case $found in '0 of '*) missed=$((missed + 1)) ;; esac
    done
    echo "$# mutants, $missed missed"
    [ "$missed" -eq 0 ]
}

# replayed FOLDER: what its sources give on the recorded cases of `mutants`.
replayed() {
    rustc --edition 2021 -C debug-assertions=off -A warnings -o "$out/replay" "$1/${subject}_replay.rs"
    "$out/replay" "$kept"
}
