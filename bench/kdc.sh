#!/bin/sh
# Instructions of one request through `answer`: of an AS-REQ with pre-authentication, an ordinary TGS-REQ, S4U2self and S4U2proxy,
# each over a directory of so many accounts. `requests.txt` has them a line each: kind, moment, and the directory and the request in hex;
# accounts with an SPN each are put before those of the directory. Last that of a request of 131,072 bytes, which dearest.py makes.
#   bench/kdc.sh [PROGRAM [ACCOUNTS ..]]     10, 1000 and 100000 accounts, where none are given
set -eu
. "$(dirname "$0")/count.sh"
[ $# -gt 0 ] && shift
[ $# -gt 0 ] || set -- 10 1000 100000
mark=226163636f756e7473223a205b # "accounts": [

# total MOMENT COUNT DIRECTORY REQUEST: instructions of a whole run
total() {
    {
        printf 'answer %s %s %s%s' "$1" "$2" "${3%%"$mark"*}" "$mark"
        cat "$work/accounts"
        printf '%s %s\n' "${3#*"$mark"}" "$4"
    } >"$work/in"
    valgrind --tool=callgrind --callgrind-out-file="$work/out" "$program" <"$work/in" >"$work/printed" 2>"$work/log"
    ! grep -q none "$work/printed" || { echo "kdc: the directory or the request does not read" >&2; exit 1; }
    sed -n 's/^summary: \([0-9]*\).*/\1/p; s/^totals: \([0-9]*\).*/\1/p' "$work/out" | head -n 1
}

for accounts in "$@"; do
    awk -v more=$((accounts > 8 ? accounts - 8 : 0)) 'BEGIN {
        for (i = 0; i < more; i++) printf "{\"name\":\"u%d\",\"number\":%d,\"key\":{\"etype\":17,\"kvno\":1,\"key\":\"ffffffff%024x\"},\"spns\":[\"s/%d\"]},", i, 1000000000 + i, i, i
    }' | od -An -v -tx1 | tr -d ' \n' >"$work/accounts"
    while read -r kind moment directory request; do
        one=$(total "$moment" 20 "$directory" "$request")
        two=$(total "$moment" 40 "$directory" "$request")
        echo "$kind, $accounts accounts: $(((two - one) / 20))"
    done <"$here/bench/requests.txt"
done

: >"$work/accounts"
dearest=$("$here/bench/dearest.py")
grep '^proxy ' "$here/bench/requests.txt" | while read -r kind moment directory request; do
    echo "the dearest request of 131,072 bytes: $((($(total "$moment" 4 "$directory" "$dearest") - $(total "$moment" 2 "$directory" "$dearest")) / 2))"
done
