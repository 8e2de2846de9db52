#!/usr/bin/env bash
# ./cabin check [CRATE..]: for the one who edits. Lays out and proves the crates named, or those that differ from the main
# branch, and proves what stands on them, and runs the tests that these have; tries the must-fail edits of the changed ones
# alone; and holds the stored requests to the second program where the desk stands on a change. The gate for landing is
# ./cabin test.
home=$(cd "$(dirname "${BASH_SOURCE[0]}")/.." && pwd -P)
. "$home/tools/front.sh"
cd "$home"

# Files that differ from where this branch left the main one (from each such place, where the two were joined both ways),
# and those that git does not know yet.
changed_files() {
    local bases
    bases=$(git merge-base --all HEAD main 2>/dev/null) || bases=HEAD
    for base in $bases; do git diff --name-only "$base"; done | sort | uniq -c |
        awk -v n="$(wc -w <<<"$bases")" '$1 == n { print $2 }'
    git ls-files --others --exclude-standard
}

changed_crates() { sed -n 's|^crates/\([^/]*\)/.*|\1|p' | sort -u | while read -r crate; do related above "$crate" | head -n 1; done; }

# Proves a crate, and what it stands on where that is not proved.
prove_crate() { # CRATE
    (cd "crates/$1" && rt check) >"$keep/$1.check" 2>&1 </dev/null && return
    grep -E ': error|^fn .*: (not proved|no proof)' "$keep/$1.check" || true
    fail "'$1' is not proved: $keep/$1.check says why"
}

# The tests that a crate has of its own, proved and run.
pass_tests() { # CRATE
    grep -rqF '#[test]' "crates/$1/src" || return 0
    (cd "crates/$1" && rt test) >"$keep/$1.tests" 2>&1 </dev/null && return
    grep -E ': error|^fn .*: (not proved|no proof)|^test .*FAILED' "$keep/$1.tests" || true
    fail "a test of '$1' fails: $keep/$1.tests says why"
}

# A program writes what its file stdout has and ends as its file status says, run as by `rt ci`.
writes_as_stored() { # PROGRAM
    local folder=$home/crates/$1 room given=/dev/null words=() status=0 wanted=0
    ready "$1"
    room=$(mktemp -d)
    clean+=("$room")
    mkdir "$room/data"
    [ ! -d "$folder/data" ] || cp -r "$folder/data/." "$room/data"
    [ ! -f "$folder/args" ] || mapfile -t words <"$folder/args"
    [ ! -f "$folder/stdin" ] || given=$folder/stdin
    [ ! -f "$folder/status" ] || wanted=$(cat "$folder/status")
    (cd "$room/data" && "${program[$1]}" "${words[@]}") <"$given" >"$room/wrote" || status=$?
    [ "$status" -eq "$wanted" ] && cmp "$folder/stdout" "$room/wrote" || fail "'$1' does not write what crates/$1/stdout has"
}

need_kit
need python3 python3
files=$(changed_files)
if [ $# -gt 0 ]; then
    crates=("$@")
    for crate in "$@"; do [ -n "$(related above "$crate")" ] || fail "there is no crate '$crate' in crates.txt"; done
else
    mapfile -t crates < <(changed_crates <<<"$files")
fi
above=()
[ ${#crates[@]} -eq 0 ] || mapfile -t above < <(related above "${crates[@]}")

python3 tools/promises.py
python3 tools/rules.py
if [ ${#crates[@]} -gt 0 ]; then
    say "changed: ${crates[*]}; on them stand ${#above[@]} crates, themselves among them"
    lock
    for crate in "${crates[@]}"; do (cd "crates/$crate" && rt fmt); done
    for crate in "${above[@]}"; do
        prove_crate "$crate"
        pass_tests "$crate"
        [ ! -f "crates/$crate/src/main.rt" ] || writes_as_stored "$crate"
        say "$crate is proved"
    done
    rt must-fail "${crates[@]}"
else
    say "no crate is changed"
fi
if [[ " ${above[*]} " == *" desk "* ]] || grep -q '^second/' <<<"$files"; then
    bash tools/compare.sh stored
    python3 tools/published.py
fi
python3 tools/pages.py
say "all of it holds; the gate for landing is ./cabin test"
