#!/usr/bin/env bash
# Processor minutes of the gate, a crate at a time and lowest first: of the proof (with the stored run of a program), of the tests and of
# the must-fail edits. Prints a table for docs/PERFORMANCE.md.
#   bench/gate.sh [CRATE ..]     all crates, where none is named
#   bench/gate.sh --once         runs the gate once, as it is, and puts before each line of it the seconds since the start and since the
#                                line before: how long each crate took, side by side with others and over what earlier runs kept
# Works on a copy. Each crate is timed with what it stands on already passed: a comment at the end of its root file has `rt ci` prove it
# anew, first without tests and edits, then with its tests, then whole. So it takes some three times as long as a gate from nothing.
cd "$(dirname "$0")/.." || exit 1
if [ "${1-}" = --once ]; then
    set -o pipefail
    SECONDS=0
    before=0
    bash .ci/run 2>&1 | while IFS= read -r line; do
        printf '%6d %5d  %s\n' $SECONDS $((SECONDS - before)) "$line"
        before=$SECONDS
    done
    exit
fi
top=$PWD
work=$(mktemp -d)
trap 'rm -rf "$work"' EXIT
cp crates.txt HANDLES "$work"
(cd crates && tar -c --exclude=out .) | (mkdir "$work/crates" && cd "$work/crates" && tar -x)
cd "$work" || exit 1
git init -q .

root_of() { # crate
    ls "crates/$1/src/lib.rt" "crates/$1/src/main.rt" 2>/dev/null | head -n 1
}

without_tests() { # crate
    sed -i '/^#\[cfg(test)\]$/{N;/\nmod tests;$/d}' "$(root_of "$1")"
    rm -rf "crates/$1/src/tests.rt" "crates/$1/src/tests" "crates/$1/proofs/tests"
}

turn=0
minutes() { # crate: of a run of the gate over it, proved anew
    local seconds
    turn=$((turn + 1))
    echo "// Turn $turn of $$." >>"$(root_of "$1")"
    seconds=$({ TIMEFORMAT='%U %S'; time rt ci "$1" >"$work/log" 2>&1; } 2>&1)
    tail -n 1 "$work/log" | grep -q ', 0 failed' || echo "gate: $1 did not pass; see below" >&2
    tail -n 1 "$work/log" | grep -q ', 0 failed' || tail -n 3 "$work/log" >&2
    awk '{ printf "%.2f\n", ($1 + $2) / 60 }' <<<"$seconds"
}

restored() { # crate: as it stands in the repository
    rm -rf "crates/$1"
    (cd "$top/crates" && tar -c --exclude=out "$1") | tar -x -C crates
}

echo "| Crate | Lines | Proof | Tests | Edits | Together, a 1,000 lines |"
echo "|---|---|---|---|---|---|"
for name in $(sed 's/#.*//' crates.txt | grep -oE '^[a-z0-9_]+' | grep -xE "$(if [ $# -eq 0 ]; then echo '.*'; else IFS='|'; echo "$*"; fi)"); do
    below=$(sed -n "s/^$name\( [^:]*\)\?://p" crates.txt | tr ' ' '\n' | while read -r used; do grep -qE "^$used( [^:]*)?:" crates.txt && echo "$used"; done)
    [ -z "$below" ] || rt ci $below >"$work/log" 2>&1
    lines=$(find "crates/$name/src" "crates/$name/specs" "crates/$name/proofs" -type f 2>/dev/null | tr '\n' '\0' | xargs -0 cat | wc -l)
    without_tests "$name"
    rm -rf "crates/$name/must-fail"
    proof=$(minutes "$name")
    restored "$name"
    rm -rf "crates/$name/must-fail"
    tested=$(minutes "$name")
    restored "$name"
    whole=$(minutes "$name")
    awk -v name="$name" -v lines="$lines" -v proof="$proof" -v tested="$tested" -v whole="$whole" 'BEGIN {
        tests = tested > proof ? tested - proof : 0
        edits = whole > tested ? whole - tested : 0
        printf "| `%s` | %d | %.1f | %.1f | %.1f | %.1f |\n", name, lines, proof, tests, edits, 1000 * (proof + tests + edits) / lines }'
done
