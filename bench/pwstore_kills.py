#!/usr/bin/env python3
"""Kills `pwstore` at random moments of a load, and compares the table that it has then with the replies that were read before.

Each run takes the file that the one before left, sends up to 400 commands (set, remove, check) in pieces of random length, and
kills the program by SIGKILL after a random time. Then the file is read by a model of docs/FORMAT.md (bench/pwstore_model.py), and a
new run of the program lists the table: both have to be the table after the first k of the commands, where k is at least the number
of replies that were read and at most the number of commands that were sent; and every reply has to be the model's. Every fifth run is an
import of users, each line of which is the `set` of its user. Every tenth run
is a `compact`, which is killed too; one of fifty sends a few upgrades, which take long, and is killed after up to three seconds.

A kill takes no bytes of the page cache away: what a power cut may take is what the proofs and the device in memory are for.

usage: bench/pwstore_kills.py [RUNS] [SEED]      (1,000 runs, seed 1; PWSTORE is the program, as of bench/pwstore_hostile.py)
"""
import binascii
import os
import random
import shlex
import subprocess
import sys
import tempfile
import threading
import time

sys.path.insert(0, os.path.dirname(os.path.abspath(__file__)))
import pwstore_model as model  # noqa: E402

HERE = os.path.dirname(os.path.abspath(__file__))
PROGRAM = shlex.split(os.environ.get("PWSTORE", "")) or [os.path.join(HERE, "..", "crates", "pwstore", "out", "pwstore")]
PROGRAM += model.TO_SCRYPT
COUNTS = {"killed": 0, "ended before": 0, "answered": 0, "found beyond the answers": 0, "imports": 0, "compactions": 0, "upgraded": 0, "kept": 0}


def command(chance):
    user = b"u%d" % chance.randrange(40)
    kind = chance.random()
    if kind < 0.02:
        return b"upgrade\t" + user + b"\tabcdabcdabc\t" + model.PASSWORD.encode()
    if kind < 0.1:
        return b"remove\t" + user
    if kind < 0.25:
        return b"check\t" + user + b"\t" + chance.choice([model.PASSWORD.encode(), b"other"])
    text = chance.choice([model.HELLO.encode(), b"*%d" % chance.randrange(10**9), b"none%d" % chance.randrange(10**9),
                          b"!" + b"x" * chance.randrange(1000)])
    return b"set\t" + user + b"\t" + text


def line_of(command, chance):
    """The line of a shadow or htpasswd file that sets the text of this command for its user."""
    user, text = command.split(b"\t")[1:]
    return user + b":" + text + chance.choice([b"", b":", b":19000:0:99999:7:::"])


def upgrades(chance):
    """A user's text, upgrades of it with two salts, the second of which keeps it, and a check; the user is none of the other runs'."""
    commands = []
    for _ in range(chance.randrange(1, 4)):
        user = b"w%d" % chance.randrange(3)
        salts = [binascii.b2a_base64(chance.randbytes(16)).strip().rstrip(b"=") for _ in range(2)]
        if chance.random() < 0.7:
            commands.append(b"set\t" + user + b"\t" + chance.choice([model.HELLO.encode(), model.fresh(model.PASSWORD, salts[1], 14)]))
        commands += [b"upgrade\t" + user + b"\t" + salt + b"\t" + model.PASSWORD.encode() for salt in salts]
        commands.append(b"check\t" + user + b"\t" + chance.choice([model.PASSWORD.encode(), b"other"]))
    return commands


def feed(child, data, chance):
    place = 0
    try:
        while place < len(data):
            piece = chance.randrange(1, 4000)
            child.stdin.write(data[place:place + piece])
            child.stdin.flush()
            place += piece
            if chance.random() < 0.2:
                time.sleep(chance.random() * 0.002)
        child.stdin.close()
    except OSError:
        pass


def killed(words, data, chance, most):
    """What a run wrote before it was killed, and whether it was."""
    child = subprocess.Popen([*PROGRAM, *words], stdin=subprocess.PIPE, stdout=subprocess.PIPE)
    read = []
    threads = [threading.Thread(target=lambda: read.append(child.stdout.read())),
               threading.Thread(target=feed, args=(child, data, random.Random(chance.random())))]
    for thread in threads:
        thread.start()
    time.sleep(chance.random() * most)
    child.kill()
    status = child.wait()
    for thread in threads:
        thread.join()
    return read[0], status < 0


def states(before, commands):
    """The tables after the first k commands, for each k, with the replies to them."""
    run, tables, replies = model.Model(before), [dict(before)], []
    for line in commands:
        replies.append(run.reply(line))
        tables.append(dict(run.table))
    return tables, replies


def check_run(name, before, chance, commands, most, is_import=False):
    """Makes one run of these commands, which is killed after at most so many seconds, and gives the table that the file has then."""
    if is_import:
        commands = [line for line in commands if line.startswith(b"set\t")]
        out, was_killed = killed([name, "import"], b"".join(line_of(line, chance) + b"\n" for line in commands), chance, most)
        COUNTS["imports"] += 1
    else:
        out, was_killed = killed([name], b"".join(line + b"\n" for line in commands), chance, most)
    answers = out.decode().split("\n")[:-1]
    tables, replies = states(before, commands)
    if answers != replies[:len(answers)]:
        sys.exit(f"replies other than the model's: {answers[-3:]}")
    found = model.read(open(name, "rb").read())
    fits = [k for k in range(len(answers), len(tables)) if tables[k] == found]
    if not fits:
        sys.exit(f"a table that {len(answers)} answers of {len(commands)} commands don't leave: kept as {name}")
    listed = subprocess.run([*PROGRAM, name], input=b"list\n", capture_output=True, check=False)
    if listed.returncode != 0 or listed.stdout != model.listing(found):
        sys.exit(f"another listing, or status {listed.returncode}: {listed.stderr.decode()}")
    COUNTS["killed" if was_killed else "ended before"] += 1
    COUNTS["answered"] += len(answers)
    for word in ("upgraded", "kept"):
        COUNTS[word] += answers.count(word)
    COUNTS["found beyond the answers"] += tables[len(answers)] != found
    return found


def compact_run(name, before, chance):
    killed([name, "compact"], b"", chance, 0.004)
    if model.read(open(name, "rb").read()) != before:
        sys.exit("a compaction changed the table")
    COUNTS["compactions"] += 1


def main():
    runs = int(sys.argv[1]) if len(sys.argv) > 1 else 1000
    chance = random.Random(int(sys.argv[2]) if len(sys.argv) > 2 else 1)
    folder = tempfile.mkdtemp(prefix="pwstore_kills_")
    name = os.path.join(folder, "table")
    subprocess.run([*PROGRAM, name], input=b"", check=True)
    table = {}
    for number in range(runs):
        if number % 10 == 9:
            compact_run(name, table, chance)
        elif number % 50 == 25:
            table = check_run(name, table, chance, upgrades(chance), 3)
        else:
            commands = [command(chance) for _ in range(chance.randrange(1, 400))]
            table = check_run(name, table, chance, commands, 0.06, number % 5 == 3)
    for file in os.listdir(folder):
        os.remove(os.path.join(folder, file))
    os.rmdir(folder)
    print("; ".join(f"{what}: {count}" for what, count in COUNTS.items()))


if __name__ == "__main__":
    main()
