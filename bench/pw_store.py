#!/usr/bin/env python3
"""Times `pwstore` beside SQLite (Python's sqlite3, synchronous=FULL, one row a user, one transaction a change) and `htpasswd -b`.

1. Changes one at a time: the reply is read before the next command is sent. SQLite in its default journal, DELETE, and in WAL, which
   has one sync a change; htpasswd writes its file anew for each.
2. Changes from a list of 10,000, sent at once; SQLite with a transaction a change.
3. Checks without a digest (the user has no text of a scheme), a million, beside `pwfile`.
4. The start with 4,096 users and 100,000 changes after them: the time of a run over no commands.
5. The most memory of a run over a million changes, beside one over ten thousand.
6. A million checks of 4,096 and of 1,000,000 users, whose texts are locked: of the users in the order of the file, and of users in a mixed
   order. The time of the start, which is that of a run over no commands, is taken off.
7. The start with 1,000,000 users, the most memory of it a user beside the bytes of names and texts, and the reply to one user more.

All on one disk, in rounds that take turns; the least time of each counts. It needs the programs pwstore and pwfile, built, and gcc.

usage: bench/pw_store.py [FOLDER] [ROUNDS]      (a folder on the disk that is measured, /var/tmp; 5 rounds; PWSTORE, PWFILE name the programs)
"""
import os
import shutil
import sqlite3
import subprocess
import sys
import tempfile
import time

HERE = os.path.dirname(os.path.abspath(__file__))
PROGRAM = os.environ.get("PWSTORE", os.path.join(HERE, "..", "crates", "pwstore", "out", "pwstore"))
PWFILE = os.environ.get("PWFILE", os.path.join(HERE, "..", "crates", "pwfile", "out", "pwfile"))
TEXT = "$5$saltstring$5B8vYYiY.CVt1RlTTf8KbXBH3hsxY/GNooZaBBGWEc5"
SINGLE = 500
LISTED = 10_000


def need(test, what):
    if not test:
        sys.exit(what)


def timed(work, *words):
    begin = time.perf_counter()
    work(*words)
    return time.perf_counter() - begin


def one_by_one(name):
    child = subprocess.Popen([PROGRAM, name], stdin=subprocess.PIPE, stdout=subprocess.PIPE)
    for number in range(SINGLE):
        child.stdin.write(b"set\tuser%d\t%s\n" % (number % 100, TEXT.encode()))
        child.stdin.flush()
        need(child.stdout.readline() == b"ok\n", "a change isn't answered ok")
    child.stdin.close()
    need(child.wait() == 0, "pwstore didn't end with 0")


def lines_of(number):
    return b"".join(b"set\tuser%d\t%s\n" % (n % 4096, TEXT.encode()) for n in range(number))


def answered(program, words, data, wanted):
    done = subprocess.run([program, *words], input=data, capture_output=True, check=False)
    need(done.stdout == wanted, f"{program}: other replies, status {done.returncode}")


def listed(name):
    answered(PROGRAM, [name], lines_of(LISTED), b"ok\n" * LISTED)


def sqlite_changes(name, mode, number):
    base = sqlite3.connect(name, isolation_level=None)
    base.execute(f"PRAGMA journal_mode={mode}")
    base.execute("PRAGMA synchronous=FULL")
    base.execute("CREATE TABLE IF NOT EXISTS users (name TEXT PRIMARY KEY, stored TEXT)")
    for n in range(number):
        base.execute("INSERT INTO users VALUES (?, ?) ON CONFLICT (name) DO UPDATE SET stored = excluded.stored", (f"user{n % 4096}", TEXT))
    base.close()


def htpasswd_changes(name, number):
    for n in range(number):
        subprocess.run(["htpasswd", "-b", *(["-c"] if n == 0 else []), name, f"user{n % 100}", "secret"], check=True, stderr=subprocess.DEVNULL)


def checks(program, words):
    data = b"set\tann\t*\n" + b"check\tann\tsecret\n" * 1_000_000
    word = b"locked\n" if program == PROGRAM else b"no-user\n"
    if program == PWFILE:
        data = data.replace(b"set\tann\t*\n", b"", 1)
        return answered(program, words, data, word * 1_000_000)
    return answered(program, words, data, b"ok\n" + word * 1_000_000)


def many_users(name, users):
    """A file of so many users with locked texts, written as docs/FORMAT.md says, and the bytes of their names and texts."""
    rows = [b"set\tuser%d\t!%s\n" % (number, TEXT.encode()) for number in range(users)]
    with open(name, "wb") as file:
        file.write(b"#pwstore 1\n" + b"".join(rows) + b"#")
    os.chmod(name, 0o600)
    return sum(map(len, rows)) - users * len(b"set\t\t\n")


def checks_of(name, users, step):
    data = b"".join(b"check\tuser%d\tsecret\n" % (n * step % users) for n in range(1_000_000))
    begin = time.perf_counter()
    answered(PROGRAM, [name], data, b"locked\n" * 1_000_000)
    return time.perf_counter() - begin


def peak_of(folder, name, data):
    """The most memory of a run in KiB, by bench/peak.c."""
    watcher = os.path.join(folder, "peak")
    subprocess.run(["gcc", "-O2", "-o", watcher, os.path.join(HERE, "peak.c")], check=True)
    done = subprocess.run([watcher, PROGRAM, name], input=data, capture_output=True, check=True)
    return int(done.stderr.split()[-1])


def flat(folder, rounds):
    """Checks, starts and memory with 4,096 and with 1,000,000 users."""
    counts, times = (4_096, 1_000_000), {}
    names = {users: os.path.join(folder, f"users{users}") for users in counts}
    held = {users: many_users(names[users], users) for users in counts}
    for _ in range(rounds):
        for users in counts:
            times.setdefault(("start", users), []).append(timed(answered, PROGRAM, [names[users]], b"", b""))
            for order, step in (("in order", 1), ("mixed", 7919)):
                times.setdefault((order, users), []).append(checks_of(names[users], users, step))
    for order in ("in order", "mixed"):
        least = [min(times[order, users]) - min(times["start", users]) for users in counts]
        print(f"a million checks {order}: {least[0]:.3f} s of 4,096 users, {least[1]:.3f} s of 1,000,000, {least[1] / least[0]:.2f} times")
    print(f"start with 1,000,000 users: least {min(times['start', counts[1]]):.3f} s")
    peaks = [peak_of(folder, names[users], b"") for users in counts]
    print(f"memory: {peaks[1]} KiB for 1,000,000 users, {(peaks[1] - peaks[0]) * 1024 / (counts[1] - counts[0]):.0f} bytes a user, of which"
          f" {held[counts[1]] / counts[1]:.0f} are its name and text")
    answered(PROGRAM, [names[counts[1]]], b"set\tanother\t*\nset\tuser7\t*\ncheck\tanother\tx\n", b"full\nok\nno-user\n")


def main():
    need(os.path.exists(PROGRAM), "pwstore isn't built")
    disk = sys.argv[1] if len(sys.argv) > 1 else "/var/tmp"
    rounds = int(sys.argv[2]) if len(sys.argv) > 2 else 5
    times = {}

    def note(what, work, *words):
        times.setdefault(what, []).append(timed(work, *words))

    with tempfile.TemporaryDirectory(dir=disk, prefix="pw_store_") as folder:
        def fresh():
            shutil.rmtree(os.path.join(folder, "d"), ignore_errors=True)
            os.mkdir(os.path.join(folder, "d"))
            return os.path.join(folder, "d", "table")
        for _ in range(rounds):
            note("one by one: pwstore", one_by_one, fresh())
            note("one by one: sqlite DELETE", sqlite_changes, fresh(), "DELETE", SINGLE)
            note("one by one: sqlite WAL", sqlite_changes, fresh(), "WAL", SINGLE)
            if shutil.which("htpasswd"):
                note("one by one: htpasswd -b (100)", htpasswd_changes, fresh(), 100)
            note("10,000 listed: pwstore", listed, fresh())
            note("10,000 listed: sqlite DELETE", sqlite_changes, fresh(), "DELETE", LISTED)
            note("10,000 listed: sqlite WAL", sqlite_changes, fresh(), "WAL", LISTED)
            note("a million checks: pwstore", checks, PROGRAM, [fresh()])
            if os.path.exists(PWFILE):
                note("a million checks: pwfile", checks, PWFILE, [])
        name = fresh()
        answered(PROGRAM, [name], lines_of(100_000), b"ok\n" * 100_000)
        for _ in range(rounds):
            note("start with 100,000 changes of 4,096 users", answered, PROGRAM, [name], b"", b"")
        few, many = peak_of(folder, fresh(), lines_of(10_000)), peak_of(folder, fresh(), lines_of(1_000_000))
        flat(folder, rounds)
    counts = {"one by one: htpasswd -b (100)": 100, "start with 100,000 changes of 4,096 users": 1}
    for what, taken in times.items():
        count = counts.get(what, 1_000_000 if "million" in what else LISTED if "listed" in what else SINGLE)
        print(f"{what}: least {min(taken):.3f} s, most {max(taken):.3f} s, {count / min(taken):,.0f} a second")
    print(f"memory: {few} KiB for 10,000 changes, {many} KiB for a million")


if __name__ == "__main__":
    main()
