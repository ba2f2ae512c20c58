#!/bin/sh
# Instructions of reading and of verifying a PAC of 800 bytes.
#   bench/pac.sh [PROGRAM]
set -eu
. "$(dirname "$0")/count.sh"

echo "read a PAC of 800 bytes and its logon information: $(each read-pac 17 50)"
for etype in 17 18; do
    echo "etype $etype: verify its server, KDC and ticket signatures, the last over 400 bytes: $(each verify-pac $etype 50)"
done
