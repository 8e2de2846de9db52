#!/usr/bin/env bash
# compare.sh PART: the linked programs against the second program (second/). Parts: stored, requests (the stored requests and
# fresh ones), stops (solves stopped by a limit and gone on with), sessions, texts, parts (fresh sessions listed, as text, and in
# parts), settings, grades (solves graded by settings), flights (sessions flown again); heights holds the constant-height burn
# to its sense. The seed of the fresh ones is printed; CABIN_SEED=N makes the same again.
home=$(cd "$(dirname "${BASH_SOURCE[0]}")/.." && pwd -P)
. "$home/tools/front.sh"
cd "$home"

requests=100000
sessions=1000
seed=${CABIN_SEED:-$(date +%s)}
room=target/compare/$1
second=target/second/second

stored() {
    python3 tools/stored.py --check
    python3 tools/why.py --all crates/desk/stdin crates/desk/stdout
    "$second" desk <crates/desk/stdin >"$room/stored"
    python3 second/compare.py crates/desk/stdout "$room/stored" crates/desk/stdin
}

# The lines of $room/requests, asked of both.
ask_both() {
    ready desk
    "$second" desk <"$room/requests" >"$room/second"
    run desk <"$room/requests" >"$room/desk"
    python3 second/compare.py "$room/desk" "$room/second" "$room/requests"
}

requests() {
    echo "hard roots"
    python3 tools/root_cases.py >"$room/requests"
    ask_both
    echo "$requests fresh requests, seed $seed"
    "$second" requests "$seed" "$requests" >"$room/requests"
    ask_both
    python3 tools/why.py "$room/requests" "$room/desk"
}

# Solves that a limit stops, and what they come to.
stops() {
    echo "2000 solves stopped and gone on with, seed $seed"
    ready desk
    python3 tools/continue.py "${program[desk]}" "$second desk" 2000 "$seed"
}

# Lists every OF-th session by both programs, from the K-th on.
list_some() { # K OF
    local all=("$room"/sessions/*) k name
    for ((k = $1; k < ${#all[@]}; k += $2)); do
        name=${all[k]##*/}
        "$second" list "${all[k]}" >"$room/second/$name" || [ $? -eq 1 ]
        run listing "${all[k]}" >"$room/listing/$name"
    done
}

sessions() {
    local jobs running=() k session name wrong=0
    echo "$sessions fresh sessions, seed $seed"
    ready listing
    mkdir "$room/sessions" "$room/second" "$room/listing"
    "$second" sessions "$seed" "$sessions" "$room/sessions"
    jobs=$(nproc)
    for ((k = 0; k < jobs; k++)); do
        list_some "$k" "$jobs" &
        running+=($!)
    done
    for k in "${running[@]}"; do wait "$k"; done
    for session in "$room"/sessions/*; do
        name=${session##*/}
        cmp -s "$room/second/$name" "$room/listing/$name" && continue
        wrong=$((wrong + 1))
        echo "$session: the listing ends '$(tail -n 1 "$room/listing/$name")', the second program's '$(tail -n 1 "$room/second/$name")'"
    done
    echo "$sessions sessions, $wrong differences"
    [ "$wrong" -eq 0 ]
}

# Sessions shown, and texts written.
texts() {
    echo "60 fresh sessions shown and 60 texts written, seed $seed"
    ready show
    ready write
    python3 tools/records.py --texts ./cabin "$second" 60 "$seed"
}

# Sessions in parts.
parts() {
    echo "60 fresh sessions in parts, seed $seed"
    ready watch
    python3 tools/records.py --watch ./cabin "$second" 60 "$seed"
}

# That the burn makes two orbits coelliptic, which no rule asks for.
heights() {
    ready desk
    python3 tools/coelliptic.py "${program[desk]}" 1000 "$seed"
}

# Settings stored, shown and gone back to, on whole and damaged files.
settings() {
    ready history
    python3 tools/settings.py ./cabin "$second" 12 "$seed"
}

# Solves graded by versions of settings, whole and damaged.
grades() {
    ready desk
    python3 tools/grades.py ./cabin "$second" 1000 "$seed"
}

# Sessions flown again, with the usual constants, with others, and by settings.
flights() {
    echo "40 flights and 20 sessions flown again, seed $seed"
    ready refly
    ready history
    python3 tools/replay.py ./cabin "$second" 40 "$seed"
}

need make make
need gcc gcc libc6-dev
need python3 python3
rm -rf "$room"
mkdir -p "$room"
make -s -C second
"$1"
