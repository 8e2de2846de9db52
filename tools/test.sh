#!/usr/bin/env bash
# ./cabin test: what the pages promise, the proofs, the programs, and the comparison with the second program. Every part
# is made, whatever became of those ahead of it. The last line is the count: what the prover passed and refused, and a
# part for each of the others. A part that lacks something of the machine ends with 77: it is named and counts as neither.
home=$(cd "$(dirname "${BASH_SOURCE[0]}")/.." && pwd -P)
. "$home/tools/front.sh"
cd "$home"

passed=0 failed=0 whole=no ends='' beside=''
declare -A digests # of the crates that programs and the library are built of
at_end=verdict

# What became of a part, as a line of the file that the verdict is made of.
ended() { printf '%s: %s\n' "$1" "$2" >>"$ends"; }

part() { # NAME COMMAND..
    local status=0 began=$SECONDS
    printf '\n== %s\n' "$1"
    "${@:2}" || status=$?
    printf -- '-- %d s\n' $((SECONDS - began))
    case $status in
    0) ended passed "$1" ;;
    77) ended 'NOT RUN' "$1" ;;
    *) ended FAILED "$1" ;;
    esac
}

# Installs what later parts need of the machine, beside the proofs. Where a command cannot be had that one part alone
# needs, that part says that it was not run.
fetch() {
    (need chromium chromium) || true
    (need parallel parallel) || true
    (need_cc) || true
}

# The kit's own gate, over the checkout as it stands, with its own count: its lines are printed as they come, and the count is
# kept for the end. What it built is made ready, and from then on nothing is built: a part that lacks its program fails at
# once. The library for C `rt ci` proves and does not build. Where the checkout had no libraries of earlier runs, those that
# `rt ci` left are of the files as they are, and it is built over them.
proofs() {
    local log=$keep/gate.log began=$SECONDS status=0 builds=no
    compgen -G 'crates/*/out/rlib' >/dev/null && builds=yes
    for one in crates/*/src/main.rt crates/cabin/src/lib.rt; do
        one=$(basename "${one%/src/*}")
        digests[$one]=$(digest "$one") || true
    done
    printf '\n== proofs, programs, wrong builds\n'
    touch "$keep/began"
    PYTHONUNBUFFERED=1 rt ci 2>&1 | tee "$log" | sed -u '/^[0-9]* passed, [0-9]* failed$/d' || status=$?
    if [[ $(tail -n 1 "$log") =~ ^([0-9]+)\ passed,\ ([0-9]+)\ failed$ ]]; then
        passed=${BASH_REMATCH[1]} failed=${BASH_REMATCH[2]}
        [ "$status" -eq 0 ] || [ "$failed" -gt 0 ] || ended FAILED "proofs, which ended with status $status"
    else
        ended FAILED "proofs, which gave no count"
    fi
    printf -- '-- %d s\n' $((SECONDS - began))
    part "wrong builds, each refused for a fact" refused_for_facts "$log"
    printf '\n== programs, the library and the second program made ready\n'
    began=$SECONDS
    wait "$fetching" || true
    [ "$builds" = yes ] || python3 tools/archive.py cabin >"$keep/cabin.log" 2>&1 || tail -n 20 "$keep/cabin.log"
    for one in "${!digests[@]}"; do make_ready "$one"; done
    mkdir -p target/library && CABIN_BUILD=$builds ./cabin library target/library || true
    make -s -C second || true
    printf -- '-- %d s\n' $((SECONDS - began))
    export CABIN_BUILD=no
}

# Puts what was just built of a crate in its place, unless a file of it has changed meanwhile.
make_ready() { # CRATE
    if [ "crates/$1/out/$(built_of "$1")" -nt "$keep/began" ] && [ "$(digest "$1")" = "${digests[$1]}" ]; then
        (keep_built "$1" "${digests[$1]}") || true
    fi
}

# Whether `rt ci` tried each wrong build, and refused it because a fact fails: it passes over one that it cannot apply, compile or
# read, which it calls bad, and refuses one also where a proof only names what is no longer there.
refused_for_facts() { # LOG
    ! grep -E '^rt: .*: BAD EDIT: |^rt: must-fail .*\(only because a proof file names |^rt: ok;.*, [1-9][0-9]* bad' "$1"
}

# The programs against the second program. They go on beside the other parts, since each of the two keeps little more than one
# processor busy; what they print is kept for its place.
comparisons() {
    part "stored requests" bash tools/compare.sh stored
    part "fresh requests" bash tools/compare.sh requests
    part "solves stopped and gone on with" bash tools/compare.sh stops
    part "the height behind the burn" bash tools/compare.sh heights
    part "fresh sessions" bash tools/compare.sh sessions
    part "fresh sessions as text" bash tools/compare.sh texts
    part "fresh sessions in parts" bash tools/compare.sh parts
    part "settings" bash tools/compare.sh settings
    part "solves graded by settings" bash tools/compare.sh grades
    part "sessions flown again" bash tools/compare.sh flights
}

# How many parts ended so.
count() { { grep "^$1: " "$ends" 2>/dev/null || true; } | wc -l; }

# Printed at the end, wherever that is.
verdict() {
    local faults
    [ -z "$beside" ] || kill "$beside" 2>/dev/null || true
    printf '\n'
    sed -n '/^NOT RUN: /p' "$ends" 2>/dev/null || true
    [ "$failed" -eq 0 ] || printf 'FAILED: proofs\n'
    sed -n '/^FAILED: /p' "$ends" 2>/dev/null || true
    faults=$((failed + $(count FAILED)))
    [ "$whole" = yes ] || { faults=$((faults + 1)) && printf 'FAILED: the gate itself, which was cut off\n'; }
    printf 'in %d min %d s\n' $((SECONDS / 60)) $((SECONDS % 60))
    printf '%s passed, %s failed\n' $((passed + $(count passed))) "$faults"
}

need_kit
need python3 python3
lock
ends=$keep/ends
: >"$ends"
fetch >"$keep/fetch.log" 2>&1 </dev/null &
fetching=$!
part "promises" python3 tools/promises.py
part "rules" python3 tools/rules.py
part "table of sines" python3 tools/sines.py --check
proofs
comparisons >"$keep/beside.log" 2>&1 </dev/null &
beside=$!
part "pages" python3 tools/pages.py
part "published cases" python3 tools/published.py
part "sample" python3 tools/make_sample.py --check
part "the listing, on whole, cut, damaged and over-long sessions" python3 tools/listing_runs.py
part "sessions as text, there and back, and text with faults" python3 tools/text_runs.py
part "the listing of a session as it comes" python3 tools/watch_runs.py
part "the front, where things go wrong" python3 tools/front_runs.py
part "the night run" python3 tools/night_runs.py --with nothing
for one in chromium parallel systemd-analyze mount; do
    part "the night run, with $one" python3 tools/night_runs.py --with "$one"
done
part "the library: its header" bash tools/library.sh header
part "the library: the example" bash tools/library.sh example
part "the library: requests by a C driver" bash tools/library.sh requests
part "the library: sessions by a C driver" bash tools/library.sh records
part "the library: settings by a C driver" bash tools/library.sh versions
wait "$beside"
cat "$keep/beside.log"
whole=yes
[ "$failed" -eq 0 ] && [ "$(count FAILED)" -eq 0 ]
