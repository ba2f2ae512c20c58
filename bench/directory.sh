#!/bin/sh
# Instructions and peak memory of reading a directory of 1,000 and 10,000 accounts, and of one change line over it, with the
# wall time of 1,000 change lines. Needs /usr/bin/time too.
#   bench/directory.sh [PROGRAM]
set -eu
. "$(dirname "$0")/count.sh"

for accounts in 1000 10000; do
    none=$(instructions directory $accounts 0)
    some=$(instructions directory $accounts 4)
    echo "directory $accounts 0" >"$work/in"
    memory=$(/usr/bin/time -f %M "$program" <"$work/in" 2>&1 >/dev/null)
    echo "directory $accounts 1000" >"$work/in"
    seconds=$(/usr/bin/time -f %e "$program" <"$work/in" 2>&1 >/dev/null)
    echo "$accounts accounts: made and read in $none instructions and $memory kB at the peak, $(((some - none) / 4)) instructions a change line, $seconds seconds with 1000 change lines"
done
