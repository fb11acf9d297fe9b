#!/usr/bin/env python3
"""Times wrapped Base64 streams in one run: `Encoder` and `Decoder` over 1 MB in lines of 64 and of 76 characters (LF),
beside our own one-shot calls and the crate base64ct of Debian; and whole programs: `pwcheck wrap 76` and `unwrap 76`
beside coreutils' `base64` and `openssl enc -base64`.

Ours is bench/base64_streams_ours.txt, which the script proves and builds outside of the checkout; the peer is
bench/base64_streams_peer.rs, built by cargo over Debian's librust-base64ct-dev (/usr/share/cargo/registry, or the folder
that BASE64CT names). The processes are interleaved, and of each the best time counts. The programs read a file and write
to /dev/null; `pwcheck` is crates/pwcheck/out/pwcheck, or what PWCHECK names. It installs nothing.

usage: bench/base64_streams.py [RUNS]      (15 if left out)
"""
import os
import subprocess
import sys
import tempfile
import time

from building import built, need, peer

HERE = os.path.dirname(os.path.abspath(__file__))
PROGRAM = os.environ.get("PWCHECK", os.path.join(HERE, "..", "crates", "pwcheck", "out", "pwcheck"))
SIZE = 1_000_000
BYTES = SIZE * 40
PROGRAM_SIZE = 700_000  # whose text `unwrap` takes: at most 1,048,576 bytes
NAMES = {"64": "lines of 64", "76": "lines of 76", "0": "one shot"}


def take(program, best):
    """Runs a program, and keeps for each width the most bytes a second, in MB, of encoding and of decoding."""
    for line in subprocess.run([program], capture_output=True, text=True, check=True).stdout.splitlines():
        width, _length, again, encoding, decoding = line.split()
        need(int(again) == SIZE, "wrong lengths: " + line)
        speeds = BYTES / int(encoding), BYTES / int(decoding)
        best[width] = tuple(map(max, speeds, best.get(width, (0, 0))))


def seconds(command, path):
    with open(path, "rb") as source, open(os.devnull, "wb") as sink:
        begin = time.perf_counter()
        done = subprocess.run(command, stdin=source, stdout=sink, stderr=subprocess.DEVNULL, check=False)
        took = time.perf_counter() - begin
    need(done.returncode == 0, f"{command[0]} ended with {done.returncode}")
    return took


def programs(runs):
    need(os.path.exists(PROGRAM), "build the program first: (cd crates/pwcheck && rt run -- check </dev/null)")
    both = {"wrap": [[PROGRAM, "wrap", "76"], ["base64", "-w", "76"], ["openssl", "enc", "-base64"]],
            "unwrap": [[PROGRAM, "unwrap", "76"], ["base64", "-d"], ["openssl", "enc", "-base64", "-d"]]}
    with tempfile.TemporaryDirectory() as folder:
        plain, text = (os.path.join(folder, name) for name in ("plain", "text"))
        with open(plain, "wb") as out:
            out.write(bytes((i * i >> 3) & 255 for i in range(PROGRAM_SIZE)))
        with open(text, "wb") as out:
            subprocess.run(["base64", "-w", "76", plain], stdout=out, check=True)
        for form, commands in both.items():
            best = [1e18] * len(commands)
            for _ in range(2 * runs):
                for i, command in enumerate(commands):
                    best[i] = min(best[i], seconds(command, plain if form == "wrap" else text))
            print(f"{form} 76, {PROGRAM_SIZE} bytes, whole program, ms: pwcheck {best[0] * 1e3:.2f}, base64 {best[1] * 1e3:.2f}, "
                  f"openssl {best[2] * 1e3:.2f}", flush=True)


def main():
    runs = int(sys.argv[1]) if len(sys.argv) > 1 else 15
    both = built("base64_streams_time", "base64_streams_ours.txt", "base64ct"), peer("base64_streams_peer")
    our, their = {}, {}
    for _ in range(runs):
        take(both[0], our)
        take(both[1], their)
    print(f"MB of bytes a second, 1 MB in parts of 4,096 bytes, best of {runs} interleaved runs")
    print("            encode  to-one-shot  Debian's  ratio  decode  to-one-shot  Debian's  ratio")
    for width, (encode, decode) in our.items():
        peer_encode, peer_decode = their[width]
        print(f"{NAMES[width]:11} {encode:6.0f}  {encode / our['0'][0]:11.2f}  {peer_encode:8.0f}  {encode / peer_encode:5.2f}"
              f"  {decode:6.0f}  {decode / our['0'][1]:11.2f}  {peer_decode:8.0f}  {decode / peer_decode:5.2f}")
    programs(runs)


main()
