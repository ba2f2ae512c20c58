#!/usr/bin/env bash
# The examples print what the README shows, and a device that fails is told by its status. Runs the proved program where it is built
# from the sources as they are (./mubjarde prove); else these sources, compiled with checks and unproved.
cd "$(dirname "$0")/../.." || exit 1
top=$PWD
program=crates/kdc_cli/out/kdc_cli
work=$(mktemp -d)
trap 'rm -rf "$work"' EXIT
mkdir "$work/cases"
status=0

case_of() { # name, wanted status, words ..: its input and what it is to print are given in the files NAME and NAME.stdout
    echo "$2" >"$work/$1.status"
    printf '%s\n' "${@:3}" >"$work/cases/$1.args"
    [ -f "$work/cases/$1" ] || : >"$work/cases/$1"
    [ -f "$work/cases/$1.stdout" ] || : >"$work/cases/$1.stdout"
}

tell() { # name, what is wrong
    echo "examples: $1: $2"
    status=1
}

cd "$work/cases" || exit 1
cp "$top/examples/questions.txt" one_realm
cp "$top/examples/answers.txt" one_realm.stdout
cp "$top/examples/partner-questions.txt" two_realms
cp "$top/examples/partner-answers.txt" two_realms.stdout
cp "$top/examples/ticket.txt" ticket
cp "$top/examples/ticket-in-words.txt" ticket.stdout
echo 61373035a003020105a1031b0152a2163014a003020102a10d300b1b04687474701b03776562a311300fa003020112a103020101a203040100 >ticket_of_nobody
echo "refused P2" >ticket_of_nobody.stdout
echo 42263c6e89f4fc28b8df68ee09799f15 >password.stdout
for kind in service ticket-granting trust; do
    cp "$top/examples/tickets/$kind.txt" "${kind}_ticket"
    cp "$top/examples/tickets/$kind-in-words.txt" "${kind}_ticket.stdout"
    case_of "${kind}_ticket" 0 explain "$top/examples/tickets/directory.json"
done
cp one_realm no_directory
case_of one_realm 0 ask "$top/examples/one-realm.json"
case_of two_realms 0 ask "$top/examples/two-realms.json"
case_of ticket 0 explain "$top/examples/one-realm.json"
case_of ticket_of_nobody 10 explain "$top/examples/one-realm.json"
case_of password 0 derive 17 1 ATHENA.MIT.EDUraeburn password
case_of no_directory 5 ask "$top/examples/no-such-file.json"
cd "$top" || exit 1

if [ -x "$program" ] && [ "$(cat "$program.sources" 2>/dev/null)" = "$(.ci/sources)" ]; then
    how="proved"
    for args in "$work"/cases/*.args; do
        name=$(basename "$args" .args)
        mapfile -t words <"$args"
        "$program" "${words[@]}" <"$work/cases/$name" >"$work/printed"
        got=$?
        [ $got -eq "$(cat "$work/$name.status")" ] || tell "$name" "status $got"
        cmp -s "$work/printed" "$work/cases/$name.stdout" || tell "$name" "printed $(cat "$work/printed")"
    done
    "$program" ask examples/one-realm.json <"$work" >/dev/null 2>&1
    [ $? -eq 5 ] || tell "an input that can't be read" "not status 5"
    "$program" ask examples/one-realm.json <examples/questions.txt >/dev/full
    [ $? -eq 6 ] || tell "an output that can't be written" "not status 6"
else
    how="unproved"
    (cd crates/kdc_cli && rt try --seconds 600 --cases "$work/cases") >"$work/told" 2>&1 || tell "rt try" "$(cat "$work/told")"
    for args in "$work"/cases/*.args; do
        name=$(basename "$args" .args)
        grep -q "^case=$name run=ended status=$(cat "$work/$name.status") .*output=expected" "$work/told" || tell "$name" "$(grep "case=$name " "$work/told")"
    done
fi
[ $status -eq 0 ] && echo "examples: all print what the README shows ($how), and a directory that can't be read is told by status 5"
exit $status
