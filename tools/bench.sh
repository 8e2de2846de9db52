#!/usr/bin/env bash
# ./cabin bench: the speed of each routine as a ratio to the same work in C. Both programs do the same
# series of solves (second/README.md) and run in turn, five times each.
# A run of the same series with nothing solved is taken off each time, so that a figure is of the solves alone.
# It fails where their checksums differ. The library's routines, called from C, are held to the second program's, called the
# same way: from another file, and not laid out at the call.
home=$(cd "$(dirname "${BASH_SOURCE[0]}")/.." && pwd -P)
. "$home/tools/front.sh"

runs=5
# the Rattle side's series, the C side's, and how many solves
benches=(root:root-by-steps:4000000 root:root:4000000 advance:advance:100000 lambert:lambert:20000 theta:theta:200000 list:list:1000)

# At -O3 and over all files at once, C at its best; static, so that it needs no loader; without libm, whose one function is an instruction.
build_c() {
    need_cc
    need make make
    make -s -C "$home/second" CC=gcc OPT='-O3 -flto=auto' OUT="$keep/second-o3" LDFLAGS=-static LDLIBS= >&2 ||
        fail "the second program could not be built"
}

# The same series over the library's routines, and over the second program's own as functions of other files.
build_callers() {
    mkdir -p "$keep/callers"
    "$home/cabin" library "$keep/callers"
    build_driver "$keep/callers" -O3 -DTIMED
    make -s -C "$home/second" CC=gcc OPT=-O3 OUT="$keep/callers" LDFLAGS=-static LDLIBS= >&2 ||
        fail "the second program could not be built"
}

# Runs a program and adds its seconds of processor time, which a busy machine disturbs least, to the file.
timed() { # FILE WORD..
    local file=$1 TIMEFORMAT=%U
    shift
    { time "$@" 2>&3; } 3>&2 2>>"$file"
}

# The least of the runs: what disturbs a run only adds to it.
least() { sort -n "$1" | head -n 1; }

# One run of a series in each program, which must print the same checksum.
both() { # RATTLE-SERIES C-SERIES COUNT RATTLE-FILE C-FILE
    local a b
    a=$(timed "$4" "${rattle[@]}" "$1" "$3")
    b=$(timed "$5" "${c[@]}" "$2" "$3")
    [ "$a" = "$b" ] || fail "$2: the answers differ: checksum $a in Rattle, $b in C"
}

compare() { # RATTLE-SERIES C-SERIES COUNT
    local k
    say "$2, $3 times: $runs runs of each program, and as many with nothing solved"
    rm -f "$times"/*
    for ((k = 0; k < runs; k++)); do
        both "$1" "$2" "$3" "$times/r" "$times/c"
        both "$1-inputs" "$2-inputs" "$3" "$times/r0" "$times/c0"
    done
    awk -v calls="${calls:-}" -v name="$2" -v count="$3" -v r="$(least "$times/r")" -v c="$(least "$times/c")" \
        -v r0="$(least "$times/r0")" -v c0="$(least "$times/c0")" 'BEGIN {
            r = (r - r0) / count * 1e9; c = (c - c0) / count * 1e9
            if (calls) { printf "%-14s %10d %12.0f %12.0f %8.2f\n", name, count, 1e9 / r, 1e9 / c, r / c; exit }
            printf "%-14s %10d %12.0f %12.0f %8.2f\n", name, count, r, c, r / c
        }'
}

ready bench
build_c
rattle=("${program[bench]}")
c=("$keep/second-o3/second" bench)
times=$(mktemp -d)
clean+=("$times")

printf '%-14s %10s %12s %12s %8s\n' bench count 'Rattle ns' 'C ns' ratio
for one in "${benches[@]}"; do
    IFS=: read -r ours theirs count <<<"$one"
    compare "$ours" "$theirs" "$count"
done

build_callers
rattle=("$keep/callers/by_library" bench)
c=("$keep/callers/second" bench)
calls=yes
printf '\n%-14s %10s %12s %12s %8s\n' 'calls from C' count 'library /s' 'C /s' ratio
for one in root:4000000 advance:100000 lambert:20000 theta:200000; do
    compare "${one%:*}" "${one%:*}" "${one#*:}"
done
