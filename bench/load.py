#!/usr/bin/env python3
"""Requests a second over a loopback connection, and the memory of the program while callers come one after the other.

    bench/load.py [--program PROGRAM] [--accounts N ..] [--requests N] [--callers N]

PROGRAM is the proved program as ./mubjarde prove builds it, where none is given. MIT Kerberos' kinit and kvno (krb5-user) ask once for each
kind of ticket, over examples/one-realm.json with more accounts in it; what they sent is then sent again and again over one connection, each
time when the reply to the last one came. Prints a line a number of accounts.
"""
import argparse
import json
import os
import socket
import subprocess
import sys
import tempfile
import threading
import time

TOP = os.path.dirname(os.path.dirname(os.path.abspath(__file__)))


def directory_of(accounts):
    """The shop's realm with so many accounts."""
    with open(os.path.join(TOP, "examples/one-realm.json")) as file:
        directory = json.load(file)
    shop = directory["realms"][0]["accounts"]
    for number in range(accounts - len(shop)):
        shop.append({"name": f"user{number}", "number": 10_000 + number, "key": {"etype": 18, "kvno": 1, "key": f"{number + 1:064x}"},
                     "spns": [f"http/{number}.shop.example"]})
    return json.dumps(directory)


def free_port():
    with socket.socket() as held:
        held.bind(("127.0.0.1", 0))
        return held.getsockname()[1]


def whole(connection, length):
    octets = b""
    while len(octets) < length:
        more = connection.recv(length - len(octets))
        if not more:
            return None
        octets += more
    return octets


def frame_from(connection):
    head = whole(connection, 4)
    return None if head is None else head + whole(connection, int.from_bytes(head, "big"))


class Recorder(threading.Thread):
    """Passes callers on to the KDC, and keeps what they sent."""

    def __init__(self, port):
        super().__init__(daemon=True)
        self.kdc, self.frames = port, []
        self.door = socket.create_server(("127.0.0.1", 0))
        self.port = self.door.getsockname()[1]

    def run(self):
        while True:
            client, _ = self.door.accept()
            with client, socket.create_connection(("127.0.0.1", self.kdc)) as kdc:
                while frame := frame_from(client):
                    self.frames.append(frame)
                    kdc.sendall(frame)
                    client.sendall(frame_from(kdc))


def recorded(port, work):
    """The last request of each kind of what kinit and kvno send."""
    recorder = Recorder(port)
    recorder.start()
    with open(os.path.join(TOP, "examples/clients/krb5.conf")) as file:
        conf = file.read().replace("127.0.0.1:8888", f"127.0.0.1:{recorder.port}")
    with open(os.path.join(work, "krb5.conf"), "w") as file:
        file.write(conf)
    named = {"KRB5_CONFIG": os.path.join(work, "krb5.conf"), "KRB5CCNAME": "FILE:" + os.path.join(work, "tickets")}
    client = lambda *words: subprocess.run(words, env={**os.environ, **named}, stdout=subprocess.DEVNULL, check=True)
    client("kinit", "-k", "-t", os.path.join(TOP, "examples/clients/storefront.keytab"), "storefront")
    kinds = {"AS-REQ": recorder.frames[-1]}
    client("kvno", "postgres/db1.shop.example")
    kinds["TGS-REQ"] = recorder.frames[-1]
    client("kvno", "-I", "ana", "-P", "postgres/db1.shop.example")
    kinds["S4U2self"], kinds["S4U2proxy"] = recorder.frames[-2:]
    return kinds


def memory(process, field):
    """In kB: VmRSS, or VmHWM at the peak."""
    with open(f"/proc/{process}/status") as file:
        return next(int(line.split()[1]) for line in file if line.startswith(field + ":"))


def main():
    words = argparse.ArgumentParser()
    words.add_argument("--program", default=os.path.join(TOP, "crates/kdc_cli/out/kdc_cli"))
    words.add_argument("--accounts", type=int, nargs="+", default=[10, 1_000, 100_000])
    words.add_argument("--requests", type=int, default=2_000, help="at most 10,000")
    words.add_argument("--callers", type=int, default=1_000)
    words = words.parse_args()
    for accounts in words.accounts:
        with tempfile.TemporaryDirectory() as work:
            path = os.path.join(work, "directory.json")
            with open(path, "w") as file:
                file.write(directory_of(accounts))
            port = free_port()
            with open(os.path.join(work, "notes"), "w") as notes:
                kdc = subprocess.Popen([words.program, "serve", path, str(port), "1000000"], stdout=notes)
            try:
                began = time.monotonic()
                while True:
                    try:
                        socket.create_connection(("127.0.0.1", port)).close()
                        break
                    except OSError:
                        if kdc.poll() is not None:
                            sys.exit(f"load: the program ended with status {kdc.returncode}")
                        time.sleep(0.02)
                told = [f"{accounts} accounts: listens after {time.monotonic() - began:.1f} s"]
                for kind, frame in recorded(port, work).items():
                    with socket.create_connection(("127.0.0.1", port)) as connection:
                        connection.setsockopt(socket.IPPROTO_TCP, socket.TCP_NODELAY, 1)
                        began = time.monotonic()
                        for _ in range(words.requests):
                            connection.sendall(frame)
                            if frame_from(connection)[4] not in (0x6b, 0x6d):
                                sys.exit(f"load: a request of the kind {kind} was refused")
                        told.append(f"{kind} {words.requests / (time.monotonic() - began):.0f} a second")
                before = memory(kdc.pid, "VmRSS")
                began = time.monotonic()
                for _ in range(words.callers):
                    with socket.create_connection(("127.0.0.1", port)) as connection:
                        connection.sendall(frame)
                        frame_from(connection)
                told.append(f"{words.callers} callers with one S4U2proxy each {words.callers / (time.monotonic() - began):.0f} a second, "
                            f"{before} kB before and {memory(kdc.pid, 'VmRSS')} kB behind them, {memory(kdc.pid, 'VmHWM')} kB at the peak")
                print("; ".join(told), flush=True)
            finally:
                kdc.kill()
                kdc.wait()


main()
