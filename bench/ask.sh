#!/usr/bin/env bash
# Instructions a question and questions a second of `ask`, over 10 and over 10,000 accounts. Needs valgrind and a built program (./mubjarde).
cd "$(dirname "$0")/.." || exit 1
program=${PROGRAM:-crates/kdc_cli/out/kdc_cli}
[ -x "$program" ] || { echo "ask: build the program first, by ./mubjarde"; exit 1; }
command -v valgrind >/dev/null || { echo "ask: valgrind is missing"; exit 1; }
folder=$(mktemp -d)
trap 'rm -rf "$folder"' EXIT
directory() { # accounts
    printf '{"realms":[{"name":"R","sid":"S-1-5-21-1","krbtgt":{"etype":17,"kvno":1,"key":"%032x"},"accounts":[' 1
    for ((i = 0; i < $1; i++)); do
        [ "$i" -eq 0 ] || printf ','
        printf '{"name":"u%d","number":%d,"key":{"etype":17,"kvno":1,"key":"%032x"},"spns":["s/%d"]}\n' "$i" $((i + 1)) $((i + 2)) "$i"
    done
    printf ']}]}\n'
}
questions() { # accounts, lines: spread over the accounts
    for ((i = 0; i < $2; i++)); do printf 'self u%d@R u%d@R\n' $((i * 7919 % $1)) $((i * 104729 % $1)); done
}
count() { valgrind --tool=callgrind --callgrind-out-file=/dev/null "$program" ask "$1" < "$2" 2>&1 >/dev/null | sed -n 's/.*Collected : //p'; }
nanoseconds() { local start; start=$(date +%s%N); "$program" ask "$1" < "$2" >/dev/null; echo $(($(date +%s%N) - start)); }
for accounts in 10 10000; do
    directory $accounts > "$folder/dir.json"
    questions $accounts 200 > "$folder/few"
    questions $accounts 400 > "$folder/many"
    few=$(count "$folder/dir.json" "$folder/few")
    many=$(count "$folder/dir.json" "$folder/many")
    questions $accounts 40000 > "$folder/all"
    all=$(nanoseconds "$folder/dir.json" "$folder/all")
    none=$(nanoseconds "$folder/dir.json" /dev/null)
    echo "$accounts accounts: $(((many - few) / 200)) instructions a question, $((40000 * 1000000000 / (all - none))) questions a second, $((few - (many - few))) instructions to read the directory"
done
