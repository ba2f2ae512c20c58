#!/usr/bin/env python3
"""Runs of the program over devices in memory in which something is broken: a ticket and requests damaged at each byte and cut at each
byte, frames that are cut or too long, devices that fail at each of their calls, changes that are refused. The runs are made here,
repeated by kdc_replay, and compared with what the rules say of their kind. Prints a line a family: cases, and what came out. Ends with
status 1 where one came otherwise.

    bench/faults.py [PROGRAM]     kdc_replay as `rt run` builds it; where it isn't built, the sources run unproved (rt try)
    bench/faults.py --print FAMILY     the runs of a family, as kdc_replay reads them
"""
import os
import re
import subprocess
import sys
from collections import Counter

TOP = os.path.dirname(os.path.dirname(os.path.abspath(__file__)))
PROGRAM = os.path.join(TOP, "crates/kdc_replay/out/kdc_replay")


def content(name):
    with open(os.path.join(TOP, name), "rb") as file:
        return file.read()


def spelt(octets):
    return octets.hex() or "-"


def framed(message):
    return len(message).to_bytes(4, "big") + message


def run(words, directory, callers, batches=(), moment=1_700_000_000, fails=None):
    """The lines of a run."""
    lines = ["words " + " ".join(spelt(word.encode()) for word in words), "dir " + spelt(directory)]
    lines += ["batch " + spelt(batch) for batch in batches]
    lines += ["caller " + spelt(caller) for caller in callers]
    lines += [f"moment {moment} 0"]
    lines += [f"fails {fails[0]} {fails[1]}"] if fails else []
    return "\n".join(lines + ["run"])


class Came:
    """What a run printed."""

    def __init__(self, text):
        lines = [line.split(" ", 1) for line in text.splitlines()]
        octets = lambda word: b"" if word == "-" else bytes.fromhex(word)
        self.status = int(lines[0][1])
        self.out = octets(lines[1][1]).decode()
        self.notes = self.out.splitlines()
        self.sent = [octets(line[1]) for line in lines[2:]]


def replayed(runs):
    """What each run printed."""
    text = "\n".join(runs) + "\n"
    if os.access(PROGRAM, os.X_OK):
        told = subprocess.run([PROGRAM], input=text, text=True, stdout=subprocess.PIPE, check=True).stdout
    else:
        told = subprocess.run(["rt", "try", "--seconds", "3000"], cwd=os.path.join(TOP, "crates/kdc_replay"), input=text, text=True,
                              stdout=subprocess.PIPE, stderr=subprocess.DEVNULL, check=True).stdout
    came = [Came(part) for part in told.split("end\n")[:-1]]
    assert len(came) == len(runs), f"{len(runs)} runs were made, {len(came)} came"
    return came


def damaged(octets):
    """The octets with the lowest bit of each turned in its turn."""
    return [octets[:place] + bytes([octets[place] ^ 1]) + octets[place + 1:] for place in range(len(octets))]


def fronts(octets):
    """All proper fronts."""
    return [octets[:length] for length in range(len(octets))]


def frames_in(octets):
    """The whole frames at the front, and whether anything is left."""
    frames = []
    while len(octets) >= 4 and len(octets) >= 4 + int.from_bytes(octets[:4], "big"):
        length = 4 + int.from_bytes(octets[:4], "big")
        frames.append(octets[4:length])
        octets = octets[length:]
    return frames, bool(octets)


ONE_REALM = content("examples/one-realm.json")
TICKET = bytes.fromhex(content("examples/ticket.txt").decode())
REQUESTS = {}
for line in content("bench/requests.txt").decode().splitlines():
    kind, moment, directory, request = line.split()
    REQUESTS[kind] = (int(moment), bytes.fromhex(directory), bytes.fromhex(request))

# Each family gives pairs of a run and a judge. A judge tells a word for each case of the run; one that begins with WRONG is a fault.


def name_type_alone(place):
    """Whether a byte of the ticket is its sname's name-type, which no rule looks at (RFC 4120, section 6.2)."""
    return TICKET[place - 4:place] == bytes.fromhex("a0030201") and TICKET[place + 1] == 0xa1


def explained(octets, place=None):
    def judge(came):
        word = came.out.strip()
        if came.status == 10 and re.fullmatch("refused (U3|P2|P3|P4|P5)", word):
            return [word]
        if came.status == 0 and place and name_type_alone(place):
            return ["told, the name-type alone being another"]
        return ["WRONG " + (word.splitlines() or [""])[0]]

    return run(["explain", "DIR"], ONE_REALM, [octets.hex().encode()]), judge


def tickets_damaged():
    return [explained(ticket, place) for place, ticket in enumerate(damaged(TICKET))]


def tickets_cut():
    return [explained(ticket) for ticket in fronts(TICKET)]


def fields_at(octets, place):
    """The tags of the fields round a byte, through the AP-REQ in its octet string too."""
    begin, end, tags = 0, len(octets), ""
    while begin < end:
        tag, length, head = octets[begin], octets[begin + 1], begin + 2
        if length & 0x80:
            head += length & 0x7f
            length = int.from_bytes(octets[begin + 2:head], "big")
        if not begin <= place < head + length:
            begin = head + length
            continue
        tags += f"{tag:02x}"
        if place < head:
            return tags
        if not (tag & 0x20 or tag == 0x04 and octets[head] == 0x6e):
            return tags
        begin, end = head, head + length
    return tags


# What nothing protects (an AS-REQ), or what no rule looks at: a damage of it leaves a request that is granted.
HARMLESS = {
    "6a30a430a003": "kdc-options of an AS-REQ",
    "6a30a430a130a002": "name-type",
    "6a30a430a330a002": "name-type",
    "6a30a430a702": "nonce of an AS-REQ",
    "6a30a430a83002": "an etype that is not needed",
    "6c30a33030a2046e30a203": "ap-options",
    "6c30a33030a2046e30a36130a230a002": "name-type",
    "6c30a33030a2046e30a430a002": "the authenticator's etype",
    "6c30a33030a102": "the type of one of two padata that name the user",
}


def changed_requests(how):
    """A run for each kind of request, whose caller sends all the changed ones; of each, how many are granted."""
    cases = []
    for kind, (moment, directory, whole) in REQUESTS.items():
        requests = how(whole)

        def judge(came, whole=whole, requests=requests):
            words = []
            replies, rest = frames_in(came.sent[0])
            if rest or len(replies) != len(requests) or len(came.notes) != len(requests) or came.status != 0:
                return ["WRONG number of replies or notes"]
            for place, (reply, note) in enumerate(zip(replies, came.notes)):
                field = HARMLESS.get(fields_at(whole, place)) if how is damaged else None
                if note.endswith(" ok") and reply[0] in (0x6b, 0x6d) and field:
                    words.append("granted: " + field)
                elif reply[0] == 0x7e and re.fullmatch("(none|as|tgs|self|proxy) [UAGSPT][0-9]+", note):
                    words.append(note)
                else:
                    words.append(f"WRONG {note} at {place}")
            return words

        cases.append((run(["answer", "DIR"], directory, [b"".join(map(framed, requests))], moment=moment), judge))
    return cases


def requests_damaged():
    return changed_requests(damaged)


def requests_cut():
    return changed_requests(fronts)


def served(callers, judge, **more):
    moment, directory, _ = REQUESTS["as"]
    return run(["serve", "DIR", "88", str(len(callers))], directory, callers, moment=moment, **more), judge


def frames_cut():
    """Two frames, cut at each byte: what came whole is answered."""
    whole = framed(REQUESTS["as"][2]) * 2
    cases = []
    for part in fronts(whole) + [whole]:

        def judge(came, part=part):
            frames, rest = frames_in(part)
            wanted = ["as ok"] * len(frames) + ["caller left: frame cut"] * rest
            right = came.notes == wanted and len(frames_in(came.sent[0])[0]) == len(frames) and came.status == 0
            return [f"{len(frames)} answered" + (", frame cut" if rest else "") if right else "WRONG"]

        cases.append(served([part], judge))
    return cases


def frames_long():
    """A frame of the longest length is answered, of a longer one nothing is read but its length, and the next caller is served."""
    good = framed(REQUESTS["as"][2])
    cases = []
    for length in (131_072, 131_073, 131_074, 1 << 17 | 1 << 16, 1 << 24, (1 << 31) - 1, 1 << 31, (1 << 32) - 1):
        first = length.to_bytes(4, "big") + (bytes(length) if length == 131_072 else b"") + good

        def judge(came, length=length):
            wanted = ["none U2", "as ok"] if length == 131_072 else ["none U1", "caller left: frame too long"]
            right = came.notes == wanted + ["as ok"] and came.status == 0
            return [wanted[0] + ", " + wanted[1] if right else f"WRONG at {length}"]

        cases.append(served([first, good], judge))
    return cases


def callers_of_many_frames():
    """A caller is left after 10,000 requests, and the next one is served. (More is printed than `rt try` lets through.)"""
    good = framed(REQUESTS["as"][2])
    cases = []
    for count in (9_999, 10_000, 10_001):

        def judge(came, count=count):
            wanted = ["none U2"] * min(count, 10_000) + ["caller left: budget"] * (count >= 10_000) + ["as ok"]
            return [f"{count} frames: " + wanted[-2] if came.notes == wanted and came.status == 0 else f"WRONG at {count}"]

        cases.append(served([framed(b"0") * count, good], judge))
    return cases


# A realm with a user and a service, and an AS-REQ of somebody who has no account (A1).
SMALL = (b'{"realms":[{"name":"R","sid":"S-1-5-21-1","krbtgt":{"etype":17,"kvno":1,"key":"11111111111111111111111111111111"},"accounts":['
         b'{"name":"ana","number":1001,"key":{"etype":17,"kvno":1,"key":"21212121212121212121212121212121"}},'
         b'{"name":"web","number":1002,"key":{"etype":17,"kvno":1,"key":"31313131313131313131313131313131"},"spns":["http/web"],"trusted_to_auth":true}]}]}')


def der(tag, *parts):
    content = b"".join(parts)
    assert len(content) < 128
    return bytes([tag, len(content)]) + content


def as_request(name, realm):
    """A framed AS-REQ without pre-authentication (RFC 4120, section 5.4.1)."""
    text = lambda word: der(0x1b, word.encode())
    principal = lambda kind, *words: der(0x30, der(0xa0, der(2, bytes([kind]))), der(0xa1, der(0x30, *map(text, words))))
    body = [der(0xa0, der(3, bytes(5))), der(0xa1, principal(1, name)), der(0xa2, text(realm)), der(0xa3, principal(2, "krbtgt", realm)),
            der(0xa5, der(0x18, b"19700101000000Z")), der(0xa7, der(2, b"\x07")), der(0xa8, der(0x30, der(2, b"\x12")))]
    body = der(0x30, *body)
    return framed(der(0x6a, der(0x30, der(0xa1, der(2, b"\x05")), der(0xa2, der(2, b"\x0a")), der(0xa4, body))))


NOBODY = as_request("nobody", "R")
# Of each command: its words, its callers, batches of changes.
COMMANDS = {
    "serve": (["serve", "DIR", "88", "2"], [NOBODY + NOBODY, NOBODY], [b"set R ana disabled on\n", b"", b"set R ana disabled off\n"]),
    "ask": (["ask", "DIR"], [b"self web@R ana@R\nself ana@R web@R\n"], []),
    "explain": (["explain", "DIR"], [b"00\n"], []),
    "derive": (["derive", "17", "1", "ATHENA.MIT.EDUraeburn", "password"], [], []),
}
# The status that a device's fault gives. One of a caller gives none while requests are served: the caller is left, and the run goes on.
STATUSES = {"dir": 5, "changes": 8, "entropy": 7, "out": 6}
CALLS = 24  # more than any device has


def devices():
    """Each call of each device fails once. The last case of a device is the first call that is not made any more: all is as without faults."""
    cases = []
    for command, (words, callers, batches) in COMMANDS.items():
        clean = {}
        for device in ("none", "dir", "changes", "door", "entropy", "out"):
            for call in range(1, 2 if device == "none" else CALLS + 1):

                def judge(came, command=command, device=device, call=call, clean=clean):
                    here = (came.status, came.out, came.sent)
                    if device == "none":
                        clean["all"] = here
                        return []
                    status, out, sent = clean["all"]
                    if here == clean["all"]:
                        clean[device] = True  # from here on no call is made
                        return []
                    if device in clean or call == CALLS:
                        return [f"WRONG {command} {device} {call}: a later call"]
                    fronts_alone = out.startswith(came.out) and all(whole.startswith(part) for whole, part in zip(sent, came.sent))
                    if device != "door":
                        right = came.status == STATUSES[device] and fronts_alone
                    elif command == "serve" and came.status == status:
                        right = came.notes.count("caller left: fault") == 1 and all(w.startswith(p) for w, p in zip(sent, came.sent))
                    else:
                        right = came.status == 9 and fronts_alone or command != "serve" and came.status == 5 and came.out == ""
                    if not right:
                        return [f"WRONG {command} {device} {call}: status {came.status}"]
                    return [f"{command}, {device}: status {came.status}"]

                cases.append((run(words, SMALL, callers, batches, fails=(device, call) if device != "none" else None), judge))
    return cases


# Lines that can't be applied to examples/one-realm.json, with the cause that docs/CHANGES.md gives.
KEY = "00112233445566778899aabbccddeeff"
SID = "S-1-5-21-3623811015-3361044348-30300820-1203"
REFUSED = {
    "BadField": ["rename SHOP.EXAMPLE ana anna", "set SHOP.EXAMPLE ana disabled", "set SHOP.EXAMPLE ana disabled yes",
                 "set SHOP.EXAMPLE ana  disabled on", "set SHOP.EXAMPLE ana disabled on ", "set SHOP.EXAMPLE krbtgt disabled on",
                 f"add-account SHOP.EXAMPLE eva 0 17 1 {KEY}", f"add-account SHOP.EXAMPLE eva 01110 17 1 {KEY}",
                 f"add-account SHOP.EXAMPLE eva 1110 18 1 {KEY}", f"add-account SHOP.EXAMPLE eva 1110 23 1 {KEY}",
                 "set-life SHOP.EXAMPLE 31536001", "add-spn SHOP.EXAMPLE database krbtgt/x", "add-resource SHOP.EXAMPLE archive S-1-x",
                 "set SHOP.EXAMPLE ana disabled on\r"],
    "UnknownRef": ["set NO.EXAMPLE ana disabled on", "set SHOP.EXAMPLE nobody disabled on", "remove-account SHOP.EXAMPLE nobody",
                   "remove-spn SHOP.EXAMPLE database nfs/archive.shop.example", "remove-group SHOP.EXAMPLE ana 512",
                   "add-reach SHOP.EXAMPLE PARTNER.EXAMPLE FAR.EXAMPLE"],
    "Duplicate": [f"add-account SHOP.EXAMPLE ana 1110 17 1 {KEY}", f"add-account SHOP.EXAMPLE eva 1105 17 1 {KEY}",
                  "add-spn SHOP.EXAMPLE database HTTP/shop.example", "add-group SHOP.EXAMPLE ana 513",
                  "add-classic SHOP.EXAMPLE storefront postgres/db1.shop.example", f"add-resource SHOP.EXAMPLE archive {SID}",
                  f"remove-account SHOP.EXAMPLE ben\nadd-account SHOP.EXAMPLE eva 1106 17 1 {KEY}"],
    "SameKey": ["set-key SHOP.EXAMPLE ana 18 2 9d233190390dc46be61566100b3787ccb3059ce19ed07eff74aee393e13c7e07",
                "add-account SHOP.EXAMPLE eva 1110 18 1 9d233190390dc46be61566100b3787ccb3059ce19ed07eff74aee393e13c7e07",
                "remove-account SHOP.EXAMPLE ben\nset-key SHOP.EXAMPLE ana 18 2 af720d8d2dde4a2f476c6e887fe809f547f87170a588ba05faea22c081e8cc19"],
    "TooMany": ["\n".join(f"add-spn SHOP.EXAMPLE database s/{number}" for number in range(32)),
                "\n".join(f"add-group SHOP.EXAMPLE ana {number}" for number in range(127)),
                "\n".join(f"add-classic SHOP.EXAMPLE database s/{number}" for number in range(257))],
}


def changes_refused():
    """A batch whose last line can't be applied: its cause and number are told, and none of its lines is applied."""
    cases = []
    for cause, batches in REFUSED.items():
        for batch in batches:
            lines = ["set SHOP.EXAMPLE ana disabled on", *batch.split("\n")]

            def judge(came, cause=cause, lines=lines):
                wanted = [f"changes refused {cause} at line {len(lines)}", "as A7", "as A2"]
                return [cause if came.notes == wanted and came.status == 0 else f"WRONG {lines[-1]}: {came.notes}"]

            whole = ["\n".join(lines).encode() + b"\n", lines[0].encode() + b"\n"]  # refused, and what of it could be applied
            cases.append((run(["answer", "DIR"], ONE_REALM, [as_request("ana", "SHOP.EXAMPLE") * 2], whole), judge))
    return cases


FAMILIES = {family.__name__: family for family in (
    tickets_damaged, tickets_cut, requests_damaged, requests_cut, frames_cut, frames_long, callers_of_many_frames, devices, changes_refused)}

if __name__ == "__main__":
    if sys.argv[1:2] == ["--print"]:
        print("\n".join(made for made, _ in FAMILIES[sys.argv[2]]()))
        sys.exit()
    PROGRAM = sys.argv[1] if sys.argv[1:] else PROGRAM
    proved = os.access(PROGRAM, os.X_OK)
    wrong = 0
    for name, family in FAMILIES.items():
        if family is callers_of_many_frames and not proved:
            print(f"{name}: skipped, since rt try lets no more than 1,048,576 bytes through")
            continue
        cases = family()
        words = [word for (_, judge), came in zip(cases, replayed([made for made, _ in cases])) for word in judge(came)]
        wrong += sum(word.startswith("WRONG") for word in words)
        print(f"{name}: {len(words)} cases: " + ", ".join(f"{count} {word}" for word, count in sorted(Counter(words).items())), flush=True)
    sys.exit(wrong > 0)
