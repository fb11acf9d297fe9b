#!/usr/bin/env python3
"""Times the coders of base64ct beside the crate base64ct of Debian, in one run.

Each process encodes and decodes 64 KiB 200 times for each alphabet. The processes are interleaved, and of each
alphabet the least time counts.

Ours is bench/base64_ours.txt, the source of a program, which the script proves and builds outside of the checkout over the
repository's crates. The peer is bench/base64_peer.rs, built by cargo in release. Its crate is that of Debian's package
librust-base64ct-dev: the script looks in /usr/share/cargo/registry, or in the folder that BASE64CT names (after
`apt-get download librust-base64ct-dev` and `dpkg -x`). Debian's 1.5.1 has no alphabet of SHA-crypt; its alphabet of
crypt stands in its place. It installs nothing.

usage: bench/base64_times.py [RUNS]      (15 if left out)
"""
import subprocess
import sys

from building import built, need, peer

BYTES = 65536 * 200
PEER_OF = {"standard": "standard", "bcrypt": "bcrypt", "crypt": "crypt", "shacrypt": "crypt"}


def take(program, best):
    """Runs a program, and keeps for each alphabet the most bytes a second, in MB, of encoding and of decoding."""
    for line in subprocess.run([program], capture_output=True, text=True, check=True).stdout.splitlines():
        name, length, again, encoding, decoding = line.split()
        need((int(length), int(again)) in [(87384, 65536), (87382, 65536)], "wrong lengths: " + line)
        speeds = BYTES / int(encoding), BYTES / int(decoding)
        best[name] = tuple(map(max, speeds, best.get(name, (0, 0))))


def main():
    runs = int(sys.argv[1]) if len(sys.argv) > 1 else 15
    programs = built("base64_time", "base64_ours.txt", "base64ct"), peer("base64_peer")
    our, their = {}, {}
    for _ in range(runs):
        take(programs[0], our)
        take(programs[1], their)
    print(f"MB of bytes a second, 64 KiB, best of {runs} interleaved runs")
    print("alphabet  encode  Debian's  ratio  decode  Debian's  ratio")
    for name, (encode, decode) in our.items():
        peer_encode, peer_decode = their[PEER_OF[name]]
        print(f"{name:8}  {encode:6.0f}  {peer_encode:8.0f}  {encode / peer_encode:5.2f}"
              f"  {decode:6.0f}  {peer_decode:8.0f}  {decode / peer_decode:5.2f}")


main()
