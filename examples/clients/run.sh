#!/usr/bin/env bash
# Serves the two realms of examples/two-realms.json on loopback, and asks for tickets by MIT Kerberos' kinit and kvno. Each step tells
# what came, and whether that was wanted: what the tool ends with, and the notes of the KDC. A step whose tool is missing is skipped.
#   examples/clients/run.sh [PORT]     8888, where none is given
# Ends with counts, and with status 1 where a step came otherwise. docs/CLIENTS.md has what it prints.
top=$(cd "$(dirname "$0")/../.." && pwd)
port=${1:-8888}
callers=400 # that the KDC serves; what no step needs is used up at the end, so that the KDC ends by itself
work=$(mktemp -d)
directory=$work/directory.json
right=0 wrong=0 skipped=0
late= # the sources run unproved, which prints the notes when the KDC ends
all=() # the notes that are wanted, step by step
cp "$top/examples/two-realms.json" "$directory"
sed "s/127\.0\.0\.1:8888/127.0.0.1:$port/" "$top/examples/clients/krb5.conf" >"$work/krb5.conf"
export KRB5_CONFIG=$work/krb5.conf KRB5CCNAME=FILE:$work/tickets KRB5_CLIENT_KTNAME=FILE:$work/keys KRB5_KTNAME=FILE:$work/keys LC_ALL=C

# --- the KDC

call() { (exec 3<>"/dev/tcp/127.0.0.1/$port") 2>/dev/null; } # a caller that says nothing and goes

finish() { # the rest of the callers
    local left=$((callers + 1))
    while ((left-- > 0)) && kill -0 "$kdc" 2>/dev/null && call; do :; done
    wait "$kdc"
}

call && { echo "run.sh: something listens at port $port; give another one"; exit 2; }
echo "The KDC of SHOP.EXAMPLE and PARTNER.EXAMPLE starts: ./mubjarde serve two-realms.json $port $callers"
"$top/mubjarde" serve "$directory" "$port" "$callers" >"$work/notes" 2>"$work/told" </dev/null &
kdc=$!
trap 'finish; rm -rf "$work"' EXIT
for ((i = 0; i < 600; i++)); do
    call && break
    kill -0 $kdc 2>/dev/null || { echo "run.sh: the KDC does not run:"; cat "$work/told" "$work/notes"; exit 2; }
    sleep 1
done

# --- a keytab with the keys of the directory

add_key() { # name@REALM, version, key of type 18 in hex
    if [ -s "$work/keys" ]; then "$top/examples/clients/keytab.sh" "$@" | tail -c +3; else "$top/examples/clients/keytab.sh" "$@"; fi >>"$work/keys"
}

key_of() { sed -n "s/.*{\"name\": \"$1\",.*\"key\": \"\([0-9a-f]*\)\".*/\1/p" "$directory"; } # an account's

for name in ana ben admin storefront invoices; do add_key "$name@SHOP.EXAMPLE" 1 "$(key_of $name)"; done
for name in carla orders; do add_key "$name@PARTNER.EXAMPLE" 1 "$(key_of $name)"; done
add_key zoe@SHOP.EXAMPLE 1 "$(key_of ana)" # no account has this name
add_key postgres/db1.shop.example@SHOP.EXAMPLE 1 "$(key_of database)"
add_key nfs/archive.shop.example@SHOP.EXAMPLE 1 "$(key_of archive)"
add_key postgres/stock.partner.example@PARTNER.EXAMPLE 1 "$(key_of stock)"

# --- steps

step() { # what it shows, granted or refused, the notes, words ..
    local what=$1 wanted=$2 notes=$3 before came i
    shift 3
    echo
    echo "$what"
    if ! command -v "$1" >/dev/null; then
        echo "  skipped: there is no $1 here (on Debian, apt-get install krb5-user)"
        skipped=$((skipped + 1))
        return
    fi
    [ "$1" = kinit ] || cp "$work/logon" "$work/tickets" 2>/dev/null # the ticket-granting ticket alone, so that nothing is had from the cache
    echo "  \$ $* ${input:+< $input}" | sed "s#$work/##g; s/ $//"
    before=$(wc -l <"$work/notes")
    came=granted
    "$@" <"${input:-/dev/null}" >"$work/printed" 2>&1 || came=refused
    sed "s#$work/##g; s/^Password for [^:]*: //; /^$/d; s/^/  | /" "$work/printed"
    all+=("$notes")
    for ((i = 0; i < 20; i++)); do # a note is written behind its reply
        [ -z "$late" ] || break
        got=$(tail -n +$((before + 1)) "$work/notes" | paste -sd, | sed 's/,/, /g')
        [ "$got" = "$notes" ] && break
        sleep 0.1
    done
    [ -s "$work/notes" ] || { late=yes; got="to come when it ends"; }
    if [ "$came" = "$wanted" ] && { [ -n "$late" ] || [ "$got" = "$notes" ]; }; then
        echo "  $came, as wanted; the KDC's notes: $got"
        right=$((right + 1))
    else
        echo "  $came with the notes: $got. THIS IS OTHERWISE: wanted is $wanted with the notes: $notes"
        wrong=$((wrong + 1))
    fi
}

logon() { # name@REALM
    step "$1 logs on, by its key in the keytab" granted "as A7, as ok" kinit -k "$1"
    cp "$work/tickets" "$work/logon" 2>/dev/null
}

change() { # what for, a line for DIR.changes
    echo
    echo "$1"
    echo "  + $2"
    echo "$2" >>"$directory.changes"
}

title() { echo; echo "== $1"; }

title "A user of the shop"
step "Who has no account is not known" refused "as A1" kinit -k zoe@SHOP.EXAMPLE
step "Who is disabled is told so" refused "as A2" kinit -k ben@SHOP.EXAMPLE
logon ana@SHOP.EXAMPLE
step "A ticket to the front end" granted "tgs ok" kvno HTTP/shop.example
step "No account has this SPN (the tool asks twice, the second time for a referral)" refused "tgs G19, tgs G19" kvno HTTP/no.shop.example
step "A user has no SPN, so is no service, and gets no S4U2self" refused "self S4" kvno -I admin ana
change "ana gets a password while the KDC runs: derive 18 4096 SHOP.EXAMPLEana secret prints this key" \
    "set-key SHOP.EXAMPLE ana 18 2 be704ae0bff4321c76dc044374631842b20e22c71bd4ab30d6207fcb9fb549b8"
echo secret >"$work/password"
echo wrong >"$work/another"
input=$work/password step "She logs on by it" granted "as A7, as ok" kinit ana@SHOP.EXAMPLE
input=$work/another step "Another password" refused "as A7, as A8" kinit ana@SHOP.EXAMPLE
step "Her old key" refused "as A7, as A8" kinit -k ana@SHOP.EXAMPLE

title "The front end, which is trusted to authenticate and lists the database"
logon storefront@SHOP.EXAMPLE
step "A ticket to the database in its own name" granted "tgs ok" kvno -k "$work/keys" postgres/db1.shop.example
step "S4U2self: a ticket to itself in ana's name" granted "self ok" kvno -I ana storefront
step "The same, for which the tool asks first where ana is" granted "as A7, self ok" kvno -U ana storefront
step "S4U2self for a user who is disabled" refused "self S7" kvno -I ben storefront
step "S4U2self for a user whom nobody knows" refused "self S6" kvno -I zoe storefront
step "S4U2proxy, by its own list; the database opens the ticket" granted "self ok, proxy ok" kvno -k "$work/keys" -I ana -P postgres/db1.shop.example
step "The same by -U" granted "as A7, self ok, proxy ok" kvno -U ana -P postgres/db1.shop.example
step "S4U2proxy for the administrator, who is marked as not to be delegated" refused "self ok, proxy P10" kvno -I admin -P postgres/db1.shop.example
step "S4U2proxy to the archive, which is in no list" refused "self ok, proxy P11" kvno -I ana -P nfs/archive.shop.example
change "The archive lists the front end" "add-resource SHOP.EXAMPLE archive S-1-5-21-3623811015-3361044348-30300820-1201"
step "S4U2proxy, resource-based, by the archive's list" granted "self ok, proxy ok" kvno -k "$work/keys" -I ana -P nfs/archive.shop.example
step "The administrator is marked here too" refused "self ok, proxy P10" kvno -I admin -P nfs/archive.shop.example
change "It lists it no more" "remove-resource SHOP.EXAMPLE archive S-1-5-21-3623811015-3361044348-30300820-1201"
step "What was granted is granted no more" refused "self ok, proxy P11" kvno -I ana -P nfs/archive.shop.example
step "It logs on anew, with a ticket-granting ticket that is not forwardable" granted "as A7, as ok" kinit -F -k storefront@SHOP.EXAMPLE
cp "$work/tickets" "$work/logon" 2>/dev/null
step "So what it gets by S4U2self is not forwardable either, and its own list does not help it" refused "self ok, proxy P11" kvno -I ana -P postgres/db1.shop.example

title "The batch job, which is not trusted to authenticate"
logon invoices@SHOP.EXAMPLE
step "S4U2self; the ticket is not forwardable" granted "self ok" kvno -I ana invoices
step "So its own list does not help it" refused "self ok, proxy P11" kvno -I ana -P postgres/db1.shop.example
step "The archive's list does" granted "self ok, proxy ok" kvno -k "$work/keys" -I ana -P nfs/archive.shop.example

title "Across the trust"
logon carla@PARTNER.EXAMPLE
step "A ticket to the front end, by a referral" granted "tgs ok, tgs ok" kvno HTTP/shop.example
logon storefront@SHOP.EXAMPLE
step "A ticket to the partner's database, by a referral" granted "tgs ok, tgs ok" kvno postgres/stock.partner.example
step "S4U2self for the partner's user: at the partner's realm, and back" granted "tgs ok, self ok, self ok" kvno -I carla@PARTNER.EXAMPLE storefront
step "S4U2proxy for her, to the shop's database" granted "tgs ok, self ok, self ok, proxy ok" kvno -k "$work/keys" -I carla@PARTNER.EXAMPLE -P postgres/db1.shop.example
logon orders@PARTNER.EXAMPLE
step "The partner's service, for the shop's user, to its own database" granted "tgs ok, self ok, self ok, proxy ok" kvno -k "$work/keys" -I ana@SHOP.EXAMPLE -P postgres/stock.partner.example@PARTNER.EXAMPLE

title "What differs for this client from other KDCs"
logon storefront@SHOP.EXAMPLE
step "Resource-based delegation across realms: a referral is granted, and the tool refuses it, since no reply has encrypted padata" refused "self ok, proxy ok" kvno -I ana -P postgres/stock.partner.example
step "The target named with its realm: the tool sends that realm a ticket that is not for it" refused "self ok, proxy G2" kvno -I ana -P postgres/stock.partner.example@PARTNER.EXAMPLE
step "An enterprise name with its realm: the ticket is granted, and names ana, which the tool did not ask for" refused "as A7, self ok" kvno -U ana@SHOP.EXAMPLE storefront
step "An enterprise name of another realm: the tool asks the shop's realm, which refers nobody" refused "as A1" kvno -U carla@PARTNER.EXAMPLE storefront

trap 'rm -rf "$work"' EXIT
finish
ended=$?
echo
if [ -n "$late" ]; then
    if difference=$(diff <(printf '%s\n' "${all[@]}" | sed 's/, /\n/g') "$work/notes"); then
        echo "The KDC's notes came when it ended: all $(wc -l <"$work/notes") are those that were wanted, in their order"
    else
        echo "The KDC's notes came when it ended. THIS IS OTHERWISE: (< wanted, > came)"
        echo "$difference"
        wrong=$((wrong + 1))
    fi
fi
[ $ended -eq 0 ] || { echo "The KDC ended with status $ended, not with 0 after $callers callers:"; cat "$work/told"; wrong=$((wrong + 1)); }
echo "$right steps as wanted, $wrong otherwise, $skipped skipped; the KDC's status: $ended"
[ $wrong -eq 0 ]
