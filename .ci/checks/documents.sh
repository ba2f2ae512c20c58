#!/usr/bin/env bash
# README.md and docs/ARCHITECTURE.md tell of the crates of crates.txt, in its order, and each file that a document links to is there.
cd "$(dirname "$0")/../.." || exit 1
status=0
fault() { echo "documents: $*"; status=1; }
crates=$(sed 's/#.*//' crates.txt | grep -oE '^[a-z0-9_]+' | grep -vE '^(cipher_vectors|kdc_bench|kdc_replay|[a-z]+_tests)$')
for document in README.md docs/ARCHITECTURE.md; do
    # the first cells of the tables whose head is "Crate"
    told=$(awk -F'|' '/^\| Crate \|/ { inside = 1; next } !/^\|/ { inside = 0 } inside && !/^\|---/ { print $2 }' "$document" | grep -oE '`[a-z0-9_]+`' | tr -d '`')
    [ "$document" = README.md ] && told=$(grep -vE '^kdc_(commands|cli)$' <<<"$told"; echo kdc_commands; echo kdc_cli) # the program is told first
    difference=$(diff <(echo "$crates") <(echo "$told")) || fault "$document tells of other crates than crates.txt, or in another order:" "$difference"
done
for document in *.md docs/*.md; do
    while read -r target; do
        [ -e "$(dirname "$document")/$target" ] || fault "$document links to $target, which is not there"
    done < <(grep -oE '\]\([^)#:]+' "$document" | cut -c3-)
done
[ $status -eq 0 ] && echo "documents: the crates in one order, and all links lead somewhere"
exit $status
