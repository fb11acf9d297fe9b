#!/usr/bin/env python3
"""Times `wrapstream` beside coreutils' `base64` and `openssl enc -base64` over 100 MB, in one interleaved run.

Both directions at width 76, from a file to /dev/null and from a pipe (`cat`) into a pipe (`cat`), with the peak memory of
ours; then unwrapping at other widths from 5 to 77, of which most cut blocks. Of each the least time counts. The program is
crates/wrapstream/out/wrapstream, or what WRAPSTREAM names:
    (cd crates/wrapstream && rt run -- wrap 4 </dev/null)
It needs gcc, base64 and openssl, and installs nothing. OpenSSL reads lines of 64 characters alone; its texts have those.

usage: bench/wrap_stream.py [RUNS] [MEGABYTES]      (5 and 100 if left out)
"""
import os
import subprocess
import sys
import tempfile

HERE = os.path.dirname(os.path.abspath(__file__))
PROGRAM = os.environ.get("WRAPSTREAM", os.path.join(HERE, "..", "crates", "wrapstream", "out", "wrapstream"))
ODD_WIDTHS = [5, 7, 10, *range(16, 24), 30, 31, 33, 61, 63, 65, 75, 77]


def need(condition, text):
    if not condition:
        sys.exit("bench: " + text)


def seconds(peak, command, path, piped):
    """The seconds of a command over a file, and its peak memory in KiB."""
    with open(path, "rb") as file, open(os.devnull, "wb") as null:
        if not piped:
            done = subprocess.run([peak, *command], stdin=file, stdout=null, stderr=subprocess.PIPE, check=False)
            told, status = done.stderr, done.returncode
        else:
            with subprocess.Popen(["cat"], stdin=file, stdout=subprocess.PIPE) as source, \
                    subprocess.Popen([peak, *command], stdin=source.stdout, stdout=subprocess.PIPE,
                                     stderr=subprocess.PIPE) as middle, \
                    subprocess.Popen(["cat"], stdin=middle.stdout, stdout=null) as sink:
                source.stdout.close()
                middle.stdout.close()
                told = middle.stderr.read()
                sink.wait()
                status = middle.wait()
    need(status == 0, f"{command[0]} ended with {status}")
    took, memory = told.split()[-2:]
    return float(took), int(memory)


def compared(peak, commands, paths, runs, size):
    for piped in (False, True):
        best, most = [1e18] * len(commands), 0
        for _ in range(runs):
            for i, (command, path) in enumerate(zip(commands, paths)):
                took, memory = seconds(peak, command, path, piped)
                best[i] = min(best[i], took)
                most = max(most, memory) if i == 0 else most
        told = ", ".join(f"{os.path.basename(c[0])} {t:.3f} s ({size / t:.0f} MB/s)" for c, t in zip(commands, best))
        print(f"  {'pipes' if piped else 'file '}: {told}; to base64 {best[0] / best[1]:.2f}, to openssl {best[0] / best[2]:.2f},"
              f" peak {most} KiB", flush=True)


def main():
    runs = int(sys.argv[1]) if len(sys.argv) > 1 else 5
    size = int(sys.argv[2]) if len(sys.argv) > 2 else 100
    need(os.path.exists(PROGRAM), "build the program first: (cd crates/wrapstream && rt run -- wrap 4 </dev/null)")
    with tempfile.TemporaryDirectory() as folder:
        peak, plain, text, short = (os.path.join(folder, name) for name in ("peak", "plain", "text", "short"))
        built = subprocess.run(["gcc", "-O2", "-w", "-o", peak, os.path.join(HERE, "peak.c")], check=False)
        need(built.returncode == 0, "gcc is needed")
        with open(plain, "wb") as out:
            out.write(os.urandom(1_000_000) * size)
        for path, width in ((text, "76"), (short, "64")):
            with open(path, "wb") as out:
                subprocess.run(["base64", "-w", width, plain], stdout=out, check=True)
        print(f"wrap 76, {size} MB, least of {runs}")
        compared(peak, [[PROGRAM, "wrap", "76"], ["base64", "-w", "76"], ["openssl", "enc", "-base64"]], [plain] * 3, runs, size)
        print(f"unwrap 76 (openssl: 64), {size} MB of bytes, least of {runs}")
        compared(peak, [[PROGRAM, "unwrap", "76"], ["base64", "-d"], ["openssl", "enc", "-base64", "-d"]], [text, text, short], runs, size)
        print("unwrap at other widths, MB of bytes a second")
        for width in ODD_WIDTHS:
            with open(text, "wb") as out:
                subprocess.run(["base64", "-w", str(width), plain], stdout=out, check=True)
            took = min(seconds(peak, [PROGRAM, "unwrap", str(width)], text, False)[0] for _ in range(max(1, runs // 2)))
            print(f"  {width:3}: {size / took:.0f}", flush=True)


main()
