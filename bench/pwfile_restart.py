#!/usr/bin/env python3
"""Shows on real files that a table outlives its run by its listing, and what each status of `pwfile` comes with.

1. A session sets, upgrades and lists users. What `list` wrote is the input of a second run, to which the same checks
   and a `list` are added: the checks have the same answers and the listing is the same, byte by byte. The replies, the
   upgraded text among them, are compared with a model over Python's hashlib, which shares nothing with the program.
2. Each status once: 0, 1, a directory as input (3), a full device (4), an address space of 12 MB (5: the table of
   scrypt isn't found, and the lines before are answered). Status 6 asks for more than 2^40 bytes of input; a test of
   `pw_file` shows it over a smaller bound.
3. A full table, 4,096 users of 1,024 bytes each: its listing is the commands that made it, and four listings take no
   more memory than none.

It needs the program, which
    (cd crates/pwfile && rt run < ../../examples/pwfile-session.txt)
proves and builds as crates/pwfile/out/pwfile, and gcc. It installs nothing.

usage: bench/pwfile_restart.py
"""
import binascii
import hashlib
import os
import resource
import subprocess
import sys
import tempfile

HERE = os.path.dirname(os.path.abspath(__file__))
PROGRAM = os.environ.get("PWFILE", os.path.join(HERE, "..", "crates", "pwfile", "out", "pwfile"))
ANN = "$5$saltstring$5B8vYYiY.CVt1RlTTf8KbXBH3hsxY/GNooZaBBGWEc5"
SALT = "abcdabcdabc"
SETS = [("set\tann\t" + ANN, "ok"), ("set\tbob\t$2b$12$R9h/cIPz0gi.URNNX3kh2OPST9/PgBkqquzi.Ss7KIUgO2t0jWMUW", "ok"),
        ("set\tcleo\t$6$saltstring$tooshort", "ok"), ("set\tbob\t$1$a$b", "ok"), ("set\tdora\tplain", "bad-text"),
        ("upgrade\tann\t" + SALT + "\tHello world!", "upgraded"), ("upgrade\tcleo\t" + SALT + "\tx", "invalid")]
CHECKS = [("check\tann\tHello world!", "match"), ("check\tann\thello world!", "mismatch"),
          ("check\tbob\tx", "invalid"), ("check\tcleo\tx", "invalid"), ("check\tdora\tx", "no-user")]
FAILED = []


def base64(data):
    return binascii.b2a_base64(data).decode().strip().rstrip("=")


def fresh(password, salt):
    """The text of scrypt with N = 2^14, r = 8, p = 1."""
    raw = binascii.a2b_base64(salt + "=" * (-len(salt) % 4))
    key = hashlib.scrypt(password.encode(), salt=raw, n=2**14, r=8, p=1, maxmem=2**26, dklen=32)
    return f"$scrypt$ln=14,r=8,p=1${salt}${base64(key)}"


def run(data, folder, number):
    """The output and the status of a run over a real file."""
    paths = [os.path.join(folder, f"{kind}{number}") for kind in ("in", "out")]
    with open(paths[0], "wb") as source:
        source.write(data)
    with open(paths[0], "rb") as source, open(paths[1], "wb") as sink:
        status = subprocess.run([PROGRAM], stdin=source, stdout=sink, check=False).returncode
    with open(paths[1], "rb") as sink:
        return sink.read(), status


def lines(rows):
    return "".join(row + "\n" for row in rows).encode()


def holds(what, test):
    print(f"{'ok' if test else 'FAILED'}  {what}")
    if not test:
        FAILED.append(what)


def restart(folder):
    listing = lines(["set\tann\t" + fresh("Hello world!", SALT), "set\tbob\t$1$a$b", "set\tcleo\t$6$saltstring$tooshort"])
    verdicts = lines(word for _, word in CHECKS)
    first, status = run(lines([row for row, _ in SETS + CHECKS] + ["list"]), folder, 1)
    told = lines(word for _, word in SETS) + verdicts
    holds("the first run answers as the model does", first == told + listing and status == 1)
    saved = first[len(told):]
    again, status = run(saved + lines([row for row, _ in CHECKS] + ["list"]), folder, 2)
    holds("its listing gives the same verdicts and the same listing", again == b"ok\n" * 3 + verdicts + saved)
    holds("and ends with status 1, as some checks aren't good", status == 1)


def short_of_memory():
    resource.setrlimit(resource.RLIMIT_AS, (12 << 20, 12 << 20))


def statuses(folder):
    holds("0: each reply is good", run(lines([SETS[0][0], "list"]), folder, 3) == (lines(["ok", SETS[0][0]]), 0))
    holds("1: some reply isn't", run(lines(["check\tbob\tx"]), folder, 4) == (b"no-user\n", 1))
    directory = os.open(folder, os.O_RDONLY)
    done = subprocess.run([PROGRAM], stdin=directory, capture_output=True, check=False)
    os.close(directory)
    holds("3: a directory as input", (done.returncode, done.stdout) == (3, b""))
    with open("/dev/full", "wb") as sink:
        done = subprocess.run([PROGRAM], input=b"list\nx\n", stdout=sink, check=False)
    holds("4: a full device", done.returncode == 4)
    # what is right and was upgraded in a run with memory is wanting in one without
    data = lines([SETS[0][0], CHECKS[0][0], SETS[5][0], "list"])
    done = subprocess.run([PROGRAM], input=data, capture_output=True, preexec_fn=short_of_memory, check=False)
    holds("5: no memory for the upgrade; the lines before it are answered", (done.returncode, done.stdout) == (5, b"ok\nmatch\n"))


def peak_of(folder, data):
    """The output of a run, and the most memory in KiB that it had, by bench/peak.c."""
    watcher = os.path.join(folder, "peak")
    subprocess.run(["gcc", "-O2", "-o", watcher, os.path.join(HERE, "peak.c")], check=True)
    done = subprocess.run([watcher, PROGRAM], input=data, capture_output=True, check=True)
    return done.stdout, int(done.stderr.split()[-1])


def full_table(folder):
    rows = [f"set\tu{number:031d}\t$x${'a' * 1021}" for number in range(4096)]
    none, least = peak_of(folder, lines(rows))
    told, most = peak_of(folder, lines(rows + ["list"] * 4))
    holds("a full table of 1,024 bytes a text is listed as it was set", told == none + lines(rows) * 4)
    holds(f"in fixed memory: {least} KiB without, {most} with four listings", most - least < 128)


def main():
    if not os.path.exists(PROGRAM):
        sys.exit("pwfile isn't built")
    with tempfile.TemporaryDirectory() as folder:
        restart(folder)
        statuses(folder)
        full_table(folder)
    sys.exit(1 if FAILED else 0)


if __name__ == "__main__":
    main()
