# shellcheck shell=bash disable=SC2015,SC2034,SC2154
# What ./cabin and the scripts beside this one stand on: words for people, the kit, the crates, the programs.
# It is sourced, with `home` set to the folder of the checkout.
#
# Exit status everywhere: 0 all is well, 1 something was refused, 2 it could not do its work. 1 comes from `refuse`
# alone; whatever else goes wrong, foreseen or not, ends in 2.
set -euo pipefail
shopt -s inherit_errexit extglob
export LC_ALL=C
keep=$home/.cabin # proved programs, each under a name of its own, their logs, and the lock
failure=2
clean=()     # what goes away at the end
at_end=true # what is still done then
trap 'status=$?; "$at_end" || status=2; rm -rf "${clean[@]}"; [ "$status" -eq 0 ] || exit "$failure"' EXIT
# A write that fails is then an error like any other, and told as such.
trap '' PIPE XFSZ

say() { printf 'cabin: %s\n' "$*" >&2 || true; }
fail() { say "$*"; exit 2; }
refuse() { say "$*"; failure=1; exit 1; }

# Writes a text on standard output, at once, so that a reader may stop early. Where that fails, what was done is said first.
put_out() { # TEXT [DONE]
    hear cat <<<"$1" || fail "${2-}$(in_our_words)"
}

# Says what is waited for, where that comes from a keyboard.
await() { # WORDS
    [ ! -t 0 ] || say "$1; end with Ctrl-D"
}

# A closed stream would be given to the next file that is opened, so none stays closed. (Bash itself puts the script in
# the place of a closed standard error.)
open_streams() {
    has_input=1
    { true 3>&2; } && [ ! /dev/fd/2 -ef "$0" ] || exec 2>/dev/null
    { true 3<&0; } 2>/dev/null || { has_input=0; exec </dev/null; }
    { true 3>&1; } 2>/dev/null || fail "standard output is closed: there is nowhere to write"
}

# ---- what a machine needs

# Sees to it that a command is there, and installs nothing without a word.
need() { # COMMAND PACKAGE..
    command -v "$1" >/dev/null && return
    say "there is no command '$1' on this machine: installing ${*:2} by apt-get"
    { apt-get update && apt-get install -y "${@:2}"; } >&2 </dev/null ||
        fail "it could not be installed: install ${*:2} by hand, then try again"
}

# The kit, which proves and builds; what it builds runs by itself.
need_kit() {
    command -v rt >/dev/null || fail "the Rattle kit is not on this machine (no command 'rt'): install it, then try again"
}

# A C compiler.
need_cc() { need gcc gcc libc6-dev; }

# ---- crates

# The crates that NAME.. stand on (below) or that stand on them (above), themselves among them.
related() { # below|above NAME..
    awk -v way="$1" -v names="${*:2}" '
        { sub(/#.*/, ""); sub(/:/, " "); ours[$1] }
        { for (k = 2; k <= NF; k++) if (way == "below") next_to[$1] = next_to[$1] " " $k; else next_to[$k] = next_to[$k] " " $1 }
        function visit(name,    k, n, list) {
            if (name in seen || !(name in ours)) return
            seen[name]
            print name
            n = split(next_to[name], list, " ")
            for (k = 1; k <= n; k++) visit(list[k])
        }
        END { n = split(names, list, " "); for (k = 1; k <= n; k++) visit(list[k]) }' "$home/crates.txt"
}

# A digest of all that a crate's proof, and what is built of it, are made of.
digest() { # NAME
    local crates
    crates=$(related below "$1")
    [ -n "$crates" ] || fail "there is no crate '$1' in crates.txt"
    # shellcheck disable=SC2086
    (
        cd "$home/crates"
        rt version </dev/null
        cat ../crates.txt
        find $crates \( -name must-fail -o -name out \) -prune -o -type f -print0 | sort -z | xargs -0 sha256sum
    ) | sha256sum | cut -c 1-16
}

# ---- programs, and the library for C, which is the crate `cabin`

# One proof at a time in a checkout: who comes second waits. Held to the end of the shell that takes it, and by all that
# it starts.
lock() {
    [ -z "${CABIN_LOCKED:-}" ] || return 0
    { mkdir -p "$keep" && exec {lock}>>"$keep/lock"; } 2>/dev/null ||
        fail "$keep cannot be written: prove and build where you may write"
    flock -n "$lock" || { say "waiting for another cabin command that proves in this checkout"; flock "$lock"; }
    export CABIN_LOCKED=yes
}

# Tells each crate whose proof begins; those that were proved before have none.
progress() {
    local line
    while IFS= read -r line; do
        [[ ! $line =~ ^rt:\ chose\ --jobs\ [0-9]+\ for\ (.*) ]] || say "proving ${BASH_REMATCH[1]}"
    done
}

# What is built of a crate, in its out/.
built_of() { # CRATE
    if [ -f "$home/crates/$1/src/main.rt" ]; then echo "$1"; else echo "lib$1.a"; fi
}

# Proves and builds a crate. `rt run` then runs the program, with no input, and has the program's status: that it runs says
# that it is built.
build() { # CRATE
    cd "$home/crates/$1" || return
    if [ -f src/main.rt ]; then
        { rt run "$1" 2>&1 >/dev/null || true; } | tee "$keep/$1.log" | progress
        grep -q "^rt: running out/$1;" "$keep/$1.log"
    else
        rt lib "$1" 2>&1 | tee "$keep/$1.log" | progress
    fi
}

# Moves what was built of a crate in whole, under a name of its own.
keep_built() { # CRATE DIGEST
    local file
    file=$(built_of "$1")
    find "$keep" -name "$file-*" -mmin +60 -delete
    cp "$home/crates/$1/out/$file" "$keep/$file.new" && mv "$keep/$file.new" "$keep/$file-$2" || fail "'$1' could not be put into $keep"
}

# Proves and builds a crate and keeps what comes out, unless that was done while this waited, or its files have changed since
# it began.
prove() { # CRATE
    local made
    lock
    made=$(digest "$1") || exit 2
    [ ! -f "$keep/$(built_of "$1")-$made" ] || return 0
    say "proving and building '$1' (once; a few minutes)"
    (build "$1") </dev/null || fail "'$1' could not be built: the end of $keep/$1.log says why"
    [ "$(digest "$1")" = "$made" ] || { say "a file of '$1' changed meanwhile"; return 0; }
    keep_built "$1" "$made"
}

# Sees to it that what is built of a crate is there, made of its files as they are now: `built`. Under CABIN_BUILD=no nothing
# is built: the gate builds once.
ready_crate() { # CRATE
    need_kit
    while built=$keep/$(built_of "$1")-$(digest "$1"); [ ! -f "$built" ]; do
        [ "${CABIN_BUILD:-yes}" = yes ] || fail "'$1' is not built as its files are now"
        (prove "$1") || exit 2
    done
}

declare -A program # NAME: the path of its proved program

# The same for a program.
ready() { # NAME
    local built
    [ -f "$home/crates/$1/src/main.rt" ] || fail "'$1' is no program of crates/: those are$(cd "$home/crates" && printf ' %s' */src/main.rt | sed 's|/src/main.rt||g')"
    ready_crate "$1"
    program[$1]=$built
}

# Builds FOLDER/by_library: the second program's own programs over the routines of FOLDER's library. What both have is put
# out of the way by another name.
build_driver() { # FOLDER FLAG..
    local to=$1 from=$home/second flags
    flags=(-std=c11 -D_POSIX_C_SOURCE=200809L -ffp-contract=off -fno-math-errno -Wall -Wextra -I"$to" -I"$from" "${@:2}")
    need_cc
    gcc "${flags[@]}" -c -o "$to/session.o" -Dread_record=own_read_record -Dappend_record=own_append_record -Dtake_part=own_take_part "$from/session.c" &&
        gcc "${flags[@]}" -c -o "$to/listing.o" -Dlisting_line=own_listing_line -Dlisting=own_listing "$from/listing.c" &&
        gcc "${flags[@]}" -c -o "$to/settings.o" -Dversion_of=own_version_of -Dtake_fractions=own_take_fractions -Dstore_version=own_store_version -Dgo_back=own_go_back "$from/settings.c" &&
        gcc "${flags[@]}" -static -o "$to/by_library" "$home/library/by_library.c" \
            "$from"/{words,pen,desk,files,bench,records,text,versions,replays,tests}.c "$to"/{session,listing,settings}.o \
            "$to/libcabin.a" || fail "the library's driver could not be built"
}

# Runs a program that is ready.
run() { # NAME [WORD..]
    "${program[$1]}" "${@:2}" || { say "'$1' ended with status $?"; return 2; }
}

# A path by which a program can open a file: `path`. The programs take names as UTF-8 alone, so that a file with another
# name is opened here and handed on by its descriptor.
named() { # FILE
    local held
    path=$1
    iconv -f UTF-8 -t UTF-8 <<<"$1" >/dev/null 2>&1 || { exec {held}<"$1" && path=/dev/fd/$held; }
}

# Runs a program that is ready and passes its lines on as they come. Answers 1 where the last one is a refusal.
run_lines() { # NAME [WORD..]
    run "$@" | {
        line='' last=''
        while IFS= read -r line; do
            printf '%s\n' "$line" || exit 2
            last=$line
        done
        [ -z "$line" ] || { say "the last line was cut: $line"; exit 2; }
        case $last in 'refused '* | '# refused '*) exit 1 ;; esac
    }
}

# Runs a program that is ready with its output as ours, each line at once, and keeps no more of it than the last line,
# however long it is. Answers 1 where that is a refusal.
run_stream() { # NAME [WORD..]
    local last to
    exec {to}>&1
    last=$(run "$@" | tee --output-error=exit /dev/fd/3 3>&1 >&"$to" | tail -n 1) || return 2
    exec {to}>&-
    case $last in 'refused '*) return 1 ;; esac
}

# Flies a session again and passes its lines on as they come. Where they go to a file and someone watches standard error,
# which is then open as `watch`, every hundredth line is told there. Answers 1 where the reader refused a record.
run_replay() { # FILE [EARTH MOON]
    local watched=0
    [ -t 1 ] || [ ! -t "$watch" ] || watched=1
    run refly "$@" | {
        line='' refused=0 k=0
        while IFS= read -r line; do
            printf '%s\n' "$line" || exit 2
            case $line in 'refused '*) refused=1 ;; esac
            k=$((k + 1))
            [ "$watched" -eq 0 ] || [ $((k % 100)) -ne 0 ] || printf 'cabin: %d lines\n' "$k" >&"$watch"
        done
        [ -z "$line" ] || { say "the last line was cut: $line"; exit 2; }
        [ "$refused" -eq 0 ] || exit 1
    }
}

# Does what COMMAND does, with its output as ours, and answers its status; what it says on standard error is in `said`.
hear() { # COMMAND..
    local status=0 out
    exec {out}>&1
    said=$("$@" 2>&1 >&"$out") || status=$?
    exec {out}>&-
    return "$status"
}

# What is in `said`; where it is that standard output failed, whoever says so, in our words.
in_our_words() {
    if [[ $said =~ (write error|standard output\'?):\ ([^$'\n']*) ]]; then
        printf 'standard output could not be written: %s' "${BASH_REMATCH[2]}"
    else
        printf '%s' "$said"
    fi
}

# Ends in 2 where something is in `said`, and else answers the status. A Rattle program has none: where one cannot read or
# write it says so on standard error.
nothing_said() { # STATUS
    [ -z "$said" ] || fail "$(in_our_words)"
    [ "$1" -le 1 ] || fail "it ended with status $1"
    return "$1"
}

# The same as `hear`, for what should say nothing.
heard() { # COMMAND..
    local status=0
    hear "$@" || status=$?
    nothing_said "$status"
}

# ---- a file that appears whole or not at all

# Sees to it that a folder is there.
need_folder() { # FOLDER
    [ ! -d "$1" ] || return 0
    [ ! -e "$1" ] || fail "$1 is no folder: give another path"
    fail "there is no folder $1: make it, or give another path"
}

# Sees to it that a file may be made, or replaced.
need_place() { # FILE REPLACE
    [ -n "$1" ] || fail "the file's name is empty: give the path of the session to be written"
    need_folder "$(dirname -- "$1")"
    [ ! -e "$1" ] && [ ! -L "$1" ] && return
    [ "$2" = yes ] || fail "$1 exists and stays as it is: give another path, or say --replace before it"
    [ -f "$1" ] || fail "$1 is no plain file: give another path"
}

# A new file beside FILE, which goes away at the end: `made`.
beside() { # FILE
    local folder
    folder=$(dirname -- "$1")
    made=$(mktemp -- "$folder/.cabin-XXXXXXXX" 2>/dev/null) || fail "nothing can be written in the folder $folder: give a path where you may write"
    clean+=("$made")
}

# Gives `made` the name FILE, with its bytes on the disk first. A link fails where FILE exists, so that what another put
# there meanwhile stays; where the disk has no links, mv looks before it moves.
put_in_place() { # FILE REPLACE
    sync -- "$made" || fail "what was written did not reach the disk: $1 is as it was"
    if [ "$2" = yes ] && [ -e "$1" ]; then
        chmod --reference="$1" -- "$made" || fail "$1 cannot be replaced: it is as it was"
    else
        chmod =rw -- "$made"
    fi
    if [ "$2" = yes ]; then
        mv -fT -- "$made" "$1" 2>/dev/null || fail "$1 cannot be replaced: it is as it was"
    elif ! ln -T -- "$made" "$1" 2>/dev/null; then
        [ ! -e "$1" ] && mv -nT -- "$made" "$1" 2>/dev/null && [ ! -e "$made" ] ||
            fail "$1 cannot be made: it exists by now, or it may not be written"
    fi
    sync -- "$(dirname -- "$1")" 2>/dev/null || true
}
