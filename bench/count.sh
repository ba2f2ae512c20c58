# For the scripts beside it, which source it with PROGRAM as their first argument, or none: kdc_bench as `rt run` builds it, a
# folder for its input, and the instructions of a run. Needs valgrind.
here=$(cd "$(dirname "$0")/.." && pwd)
program=${1:-$here/crates/kdc_bench/out/kdc_bench}
work=$(mktemp -d)
trap 'rm -rf "$work"' EXIT

# instructions KERNEL NUMBER COUNT: of a whole run, counted by callgrind
instructions() {
    echo "$1 $2 $3" >"$work/in"
    valgrind --tool=callgrind --callgrind-out-file="$work/out" "$program" <"$work/in" >/dev/null 2>"$work/log"
    sed -n 's/^summary: \([0-9]*\).*/\1/p; s/^totals: \([0-9]*\).*/\1/p' "$work/out" | head -n 1
}

# each KERNEL NUMBER COUNT: of one turn, as the difference of two runs divided by the difference of their counts
each() {
    one=$(instructions "$1" "$2" "$3")
    two=$(instructions "$1" "$2" $((2 * $3)))
    echo $(((two - one) / $3))
}
