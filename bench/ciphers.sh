#!/bin/sh
# Instructions of the ciphers.
#   bench/ciphers.sh [PROGRAM]
set -eu
. "$(dirname "$0")/count.sh"

for etype in 17 18; do
    block=$(each aes-encrypt $etype 2000)
    schedule=$(each key-schedule $etype 500)
    open=$(each open $etype 50)
    echo "etype $etype: encrypt a block $block"
    echo "etype $etype: decrypt a block $(each aes-decrypt $etype 2000)"
    echo "etype $etype: key schedule $((schedule - block))"
    echo "etype $etype: derive a key $(each derive $etype 100)"
    echo "etype $etype: open 1000 bytes $open, $((open / 1000)) a byte"
    echo "etype $etype: a round of PBKDF2 $(each string-to-key $etype 100)"
done
echo "HMAC-SHA1 of 1000 bytes: $(each hmac 17 50)"
