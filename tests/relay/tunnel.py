#!/usr/bin/env python3
"""Two relays at the ends of a tunnel, WireGuard's or IPsec's, as docs/RELAY.md has them: each in a network namespace of its own, joined by a link of
1500 octets. What comes from outside of the tunnel is not heard.

    tunnel.py PROGRAM

It wants root, Debian's iproute2, and for the one wireguard-tools, with wireguard-go where the kernel has no WireGuard, for the other strongswan-charon
and strongswan-swanctl, with libcharon-extra-plugins where the kernel has no ESP. What is missing is skipped with a word. Its last line is `N passed,
M failed`."""
import json
import os
import re
import shutil
import subprocess
import sys
import tempfile
import time
from pathlib import Path

from base import Checks

SENT, LENGTH = 500, 1200  # packets, and what a payload has: as many octets as the relay carries that `rt ci` leaves
ENDS = {"gz-a": ("10.9.0.1", "10.8.0.1"), "gz-b": ("10.9.0.2", "10.8.0.2")}  # a namespace, its address outside, and inside of the tunnel
CHARON = Path("/usr/lib/ipsec/charon")
SENDER = """
import socket, struct, sys, time
to, many, length = (sys.argv[1], int(sys.argv[2])), int(sys.argv[3]), int(sys.argv[4])
out = socket.socket(socket.AF_INET, socket.SOCK_DGRAM)
for i in range(many):
    out.sendto(struct.pack(">BBHII", 0x80, 33, i, i * 90, 0x1a2b3c4d) + struct.pack(">I", i) + bytes(length - 4), to)
    time.sleep(0.004)
"""
PLAYER = """
import json, socket, struct, sys
at = socket.socket(socket.AF_INET, socket.SOCK_DGRAM)
at.bind(("127.0.0.1", int(sys.argv[1])))
at.settimeout(6)
came = []
try:
    while True:
        octets = at.recv(2000)
        came.append((struct.unpack(">I", octets[12:16])[0], len(octets) - 12))
except TimeoutError:
    print(json.dumps(came))
"""
DAEMON = """charon {{
  load = random nonce aes sha1 sha2 hmac kdf gcm gmp curve25519 x509 pubkey pem openssl {esp} kernel-netlink socket-default vici
  plugins {{ vici {{ socket = unix://{room}/{name}.vici }} }}
}}
"""
CONNECTION = """connections {{ relay {{
  remote_addrs = {there}
  version = 2
  local {{ auth = psk }}
  remote {{ auth = psk }}
  children {{ relay {{
    local_ts = {inside}/32
    remote_ts = {across}/32
    esp_proposals = aes128gcm16
    start_action = start
  }} }}
}} }}
secrets {{ ike-relay {{ secret = {secret} }} }}
"""


def ip(*words):
    subprocess.run(["ip", *words], check=True, capture_output=True)


def missing(*tools):
    """What is not there, or None."""
    lacks = [one for one in ("ip", *tools) if not shutil.which(one)]
    if lacks:
        return f"no {' and no '.join(lacks)}"
    if os.geteuid() != 0:
        return "it wants root"
    try:
        ip("netns", "add", "gz-try")
        ip("netns", "del", "gz-try")
    except subprocess.CalledProcessError:
        return "no namespaces can be made"
    return None


class Ends:
    """Both namespaces, the link between them, and the tunnel over it, which a kind of it makes."""

    def __init__(self, room):
        self.room, self.runs = room, []

    def __enter__(self):
        self.clear()
        for name in ENDS:
            ip("netns", "add", name)
            ip("-n", name, "link", "set", "lo", "up")
        ip("link", "add", "out", "netns", "gz-a", "type", "veth", "peer", "name", "out", "netns", "gz-b")
        for name, (outside, _) in ENDS.items():
            ip("-n", name, "addr", "add", f"{outside}/24", "dev", "out")
            ip("-n", name, "link", "set", "out", "up")
        self.connect([(name, *ENDS[name], other, *ENDS[other]) for name, other in zip(ENDS, reversed(ENDS))])
        return self

    def inside(self, name, *words):
        subprocess.run(["ip", "netns", "exec", name, *map(str, words)], check=True, capture_output=True)

    def starts(self, name, *words, **more):
        self.runs.append(subprocess.Popen(["ip", "netns", "exec", name, *map(str, words)], text=True, **more))
        return self.runs[-1]

    def __exit__(self, *error):
        for one in self.runs:
            one.terminate()
            one.wait()
        self.clear()

    def clear(self):
        """Nothing is left of it, nor of one that broke."""
        for name in ENDS:
            subprocess.run(["ip", "-n", name, "link", "del", name], capture_output=True)
            subprocess.run(["ip", "netns", "del", name], capture_output=True)


class WireGuard(Ends):
    """A device of the namespace's name: the kernel's, or else that of wireguard-go, which ends with it."""
    tools = ("wg",)

    def connect(self, ends):
        keys = {name: self.key(name) for name in ENDS}
        for name, _, inside, other, there, across in ends:
            if subprocess.run(["ip", "-n", name, "link", "add", name, "type", "wireguard"], capture_output=True).returncode:
                self.inside(name, "wireguard-go", name)
            self.inside(name, "wg", "set", name, "listen-port", 51820, "private-key", f"{self.room}/{name}", "peer", keys[other],
                        "allowed-ips", f"{across}/32", "endpoint", f"{there}:51820")
            ip("-n", name, "addr", "add", f"{inside}/24", "dev", name)
            ip("-n", name, "link", "set", name, "mtu", "1420", "up")

    def came(self, name):
        """How many octets came through it to an end."""
        told = subprocess.run(["ip", "netns", "exec", name, "wg", "show", name, "transfer"], capture_output=True, text=True, check=True).stdout
        return int(told.split()[1])

    def key(self, name):
        """A private key in a file, and its public one."""
        made = subprocess.run(["wg", "genkey"], check=True, capture_output=True).stdout
        with open(os.open(f"{self.room}/{name}", os.O_CREAT | os.O_WRONLY, 0o600), "wb") as file:
            file.write(made)
        return subprocess.run(["wg", "pubkey"], input=made, check=True, capture_output=True).stdout.decode().strip()


class Ipsec(Ends):
    """strongSwan's daemon at each end, with ESP by the kernel, or by itself where that has none."""
    tools = ("swanctl", str(CHARON))

    def connect(self, ends):
        secret = os.urandom(24).hex()
        esp = "" if self.has_esp() else "kernel-libipsec"
        for name, _, inside, _, there, across in ends:
            ip("-n", name, "addr", "add", f"{inside}/32", "dev", "lo")
            self.put(f"{name}.daemon", DAEMON.format(room=self.room, name=name, esp=esp))
            self.put(f"{name}.conf", CONNECTION.format(there=there, inside=inside, across=across, secret=f'"{secret}"'))
            # Each daemon has a folder of its own for what tells that one runs.
            self.starts(name, "sh", "-c", f"mount -t tmpfs tmpfs /run && exec {CHARON}", stdout=subprocess.DEVNULL, stderr=subprocess.DEVNULL,
                        env={**os.environ, "STRONGSWAN_CONF": f"{self.room}/{name}.daemon"})
        for name in ENDS:
            self.until(name, "--load-all", "--file", f"{self.room}/{name}.conf")
        for name in ENDS:
            self.until(name, "--list-sas", wanted="INSTALLED")

    def has_esp(self):
        """Whether the kernel has ESP with AES-GCM."""
        words = "xfrm state add src 10.9.0.1 dst 10.9.0.2 proto esp spi 256 mode tunnel aead rfc4106(gcm(aes))".split()
        return subprocess.run(["ip", "-n", "gz-a", *words, f"0x{'00' * 20}", "128"], capture_output=True).returncode == 0

    def came(self, name):
        """How many octets came through it to an end."""
        return sum(map(int, re.findall(r"in  .*?, +(\d+) bytes", self.asked(name, "--list-sas").stdout)))

    def put(self, name, text):
        with open(os.open(f"{self.room}/{name}", os.O_CREAT | os.O_WRONLY, 0o600), "w") as file:
            file.write(text)

    def asked(self, name, *words):
        return subprocess.run(["swanctl", *words, "--uri", f"unix://{self.room}/{name}.vici"], capture_output=True, text=True)

    def until(self, name, *words, wanted=""):
        """Asks the daemon until it answers, with this word."""
        for _ in range(200):
            asked = self.asked(name, *words)
            if asked.returncode == 0 and wanted in asked.stdout:
                return
            time.sleep(0.1)
        raise OSError(f"the daemon of {name}: {' '.join(words)}: {asked.stdout[-300:]}{asked.stderr[-300:]}")


def streams(checks, tunnel, program):
    """A stream passes whole, and what is sent beside the tunnel is not heard."""
    (outside, inside), kind = ENDS["gz-b"], type(tunnel).__name__
    player = tunnel.starts("gz-b", sys.executable, "-c", PLAYER, 6004, stdout=subprocess.PIPE)
    tunnel.starts("gz-b", program, "receive", "--listen", f"{inside}:5004", "--to", "127.0.0.1:6004", "--peer", ENDS["gz-a"][1], stderr=subprocess.DEVNULL)
    tunnel.starts("gz-a", program, "send", "--listen", "127.0.0.1:4004", "--to", f"{inside}:5004", stderr=subprocess.DEVNULL)
    time.sleep(1)
    tunnel.starts("gz-a", sys.executable, "-c", SENDER, outside, 5004, 100, 50).wait()
    tunnel.starts("gz-a", sys.executable, "-c", SENDER, "127.0.0.1", 4004, SENT, LENGTH).wait()
    came = json.loads(player.communicate()[0])
    checks.same(came, [[i, LENGTH] for i in range(SENT)], f"{kind}: what came to the player")
    checks.count(tunnel.came("gz-b") >= SENT * LENGTH, f"{kind}: {tunnel.came('gz-b')} octets came through the tunnel")


def main():
    whole = Checks()
    for kind in WireGuard, Ipsec:
        if why := missing(*kind.tools):
            print(f"{kind.__name__} is skipped: {why}")
            continue
        checks = Checks()
        with tempfile.TemporaryDirectory() as room, kind(room) as tunnel:
            streams(checks, tunnel, os.path.realpath(sys.argv[1]))
        whole.add(checks)
    whole.tell()


main()
