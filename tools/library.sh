#!/usr/bin/env bash
# library.sh PART: the library as its callers have it. Parts: header (cabin.h as C11 and as C++17, with all warnings, and what
# the archive needs from outside), example (examples/rendezvous.c, held to its stored output), requests (the stored requests
# and fresh ones by a C driver, whose answers are the desk's to the byte), records and versions (fresh sessions, texts and
# settings by the driver and by ./cabin).
home=$(cd "$(dirname "${BASH_SOURCE[0]}")/.." && pwd -P)
. "$home/tools/front.sh"
cd "$home"

room=target/library
seed=${CABIN_SEED:-$(date +%s)}
warnings=(-Wall -Wextra -Wpedantic -Wconversion -Wshadow -Werror)

# cabin.h alone, and what is read of it by a caller.
header() {
    need gcc gcc libc6-dev
    need g++ g++
    gcc -std=c11 "${warnings[@]}" -Wstrict-prototypes -fsyntax-only -x c library/cabin.h
    g++ -std=c++17 "${warnings[@]}" -fsyntax-only -x c++ library/cabin.h
    echo "cabin.h: C11 and C++17, no warning"
    needs "$room/libcabin.a"
}

# What the archive needs from outside: docs/pages/library.md promises that it is one name.
needs() { # ARCHIVE
    local names
    names=$(nm -u "$1" | awk 'NF == 2 && $1 == "U" { print $2 }' | sort -u)
    [ "$names" = memcpy ] || fail "the archive needs ${names//$'\n'/, } from outside, and docs/pages/library.md says memcpy alone"
    echo "libcabin.a: needs memcpy alone"
}

example() {
    need_cc
    gcc -std=c11 "${warnings[@]}" -O2 -I"$room" -static -o "$room/rendezvous" examples/rendezvous.c "$room/libcabin.a"
    "$room/rendezvous" >"$room/rendezvous.txt"
    diff examples/rendezvous.txt "$room/rendezvous.txt"
    echo "examples/rendezvous.c: $(wc -l <"$room/rendezvous.txt") lines as stored"
}

ask_both() {
    "$room/by_library" desk <"$room/requests" >"$room/answers"
    run desk <"$room/requests" >"$room/desk"
    python3 second/compare.py "$room/desk" "$room/answers" "$room/requests"
    "$room/by_library" ask <"$room/requests" >"$room/answers"
    python3 second/compare.py "$room/desk" "$room/answers" "$room/requests"
}

requests() {
    need make make
    need python3 python3
    build_driver "$room" -O2
    ready desk
    echo "stored requests"
    cp crates/desk/stdin "$room/requests"
    ask_both
    echo "20000 fresh requests, seed $seed"
    make -s -C second
    target/second/second requests "$seed" 20000 >"$room/requests"
    ask_both
    stand_in
    echo "500 solves stopped and gone on with, seed $seed"
    python3 tools/continue.py "${program[desk]}" "$home/$room/stand_in desk" 500 "$seed"
}

# What stands in the second program's place where ./cabin is compared: the driver, and the second program where it makes
# requests, sessions, texts and flights.
stand_in() {
    build_driver "$room" -O2
    make -s -C second
    cat >"$room/stand_in" <<END
#!/bin/sh
case \$1 in
requests | sessions | texts | flights) exec "$home/target/second/second" "\$@" ;;
*) exec "$home/$room/by_library" "\$@" ;;
esac
END
    chmod +x "$room/stand_in"
}

# Sessions shown, listed and flown again, and texts written.
records() {
    local session wrong=0 name
    stand_in
    ready show
    ready write
    ready listing
    echo "60 fresh sessions shown and 60 texts written, seed $seed"
    python3 tools/records.py --texts ./cabin "$home/$room/stand_in" 60 "$seed"
    ready watch
    echo "60 fresh sessions in parts, seed $seed"
    python3 tools/records.py --watch ./cabin "$home/$room/stand_in" 60 "$seed"
    rm -rf "$room/sessions"
    mkdir -p "$room/sessions"
    target/second/second sessions "$seed" 60 "$room/sessions"
    for session in "$room"/sessions/* samples/*.bin; do
        name=$(basename "$session")
        "$room/stand_in" list "$session" >"$room/listed" || [ $? -eq 1 ]
        run listing "$session" >"$room/wanted"
        cmp -s "$room/listed" "$room/wanted" || { wrong=$((wrong + 1)) && echo "$name: the listings differ"; }
    done
    echo "$(ls "$room"/sessions/* samples/*.bin | wc -l) sessions listed, $wrong differences"
    [ "$wrong" -eq 0 ]
    ready refly
    ready history
    echo "20 flights and 10 sessions flown again, seed $seed"
    python3 tools/replay.py ./cabin "$home/$room/stand_in" 20 "$seed"
}

versions() {
    stand_in
    ready history
    python3 tools/settings.py ./cabin "$home/$room/stand_in" 12 "$seed"
    ready desk
    echo "200 solves graded by settings, seed $seed"
    python3 tools/grades.py ./cabin "$home/$room/stand_in" 200 "$seed"
}

mkdir -p "$room"
./cabin library "$room"
need_kit
"$1"
