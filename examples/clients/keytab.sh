#!/usr/bin/env bash
# Writes a keytab of MIT Kerberos (version 2) with one key to standard output: of a principal, its key's version, and the key in hex as
# the directory has it or `./mubjarde derive` prints it.
#   examples/clients/keytab.sh NAME@REALM KVNO HEX > FILE.keytab
# Of two such files `tail -c +3` of the second may be appended to the first.
[ $# -eq 3 ] && [[ $1 == ?*@?* && $2 =~ ^[0-9]+$ && $3 =~ ^([0-9a-f]{32}|[0-9a-f]{64})$ ]] || { echo "usage: keytab.sh NAME@REALM KVNO HEX" >&2; exit 2; }
name=${1%@*} realm=${1##*@} kvno=$2 key=$3
hex() { printf %s "$1" | od -An -v -tx1 | tr -d ' \n'; }
sized() { local LC_ALL=C; printf '%04x%s' ${#1} "$(hex "$1")"; }
IFS=/ read -ra parts <<<"$name"
entry=$(printf '%04x' ${#parts[@]})$(sized "$realm")
for part in "${parts[@]}"; do entry+=$(sized "$part"); done
# name type 1, no time, the version in one byte, the key with its type and length, the version in four bytes
entry+=$(printf '%08x%08x%02x%04x%04x%s%08x' 1 0 $((kvno % 256)) $((${#key} == 32 ? 17 : 18)) $((${#key} / 2)) "$key" "$kvno")
printf "$(printf '0502%08x%s' $((${#entry} / 2)) "$entry" | sed 's/../\\x&/g')"
