#!/usr/bin/env python3
"""Times `pwfile` over a table of users, beside passlib's HtpasswdFile and a plain dict of Python.

An input is N `set` commands, then a million `check` commands that need no digest (half on unknown users, half on users
whose texts have a fault), then `list`. For N from 256 to 4,096 it prints the checks a second and how the time of the
checks grows; for 4,096 users besides the time of the `set` commands with the `list`. The time of the checks is that of
the whole input less that of the same input without them. All three read the same file and write a reply for each line;
the dict is the least that Python can do: it finds the user, and answers `invalid` without looking at the text. passlib
is asked for a tenth of the checks. Times are processor time, the system's part included, as the machine is shared. Runs
are interleaved, and of each the least counts.

It needs the program, which
    (cd crates/pwfile && rt run < ../../examples/pwfile-session.txt)
proves and builds as crates/pwfile/out/pwfile, and Debian's python3-passlib, so run it by /usr/bin/python3. Without
passlib that column is left out. It installs nothing.

usage: /usr/bin/python3 bench/pw_file.py [RUNS]      (RUNS is 3 if left out)
"""
import os
import subprocess
import sys
import tempfile
import time

HERE = os.path.dirname(os.path.abspath(__file__))
# a script beside this one has the name of a module that passlib needs
sys.path = [place for place in sys.path if os.path.abspath(place or ".") != HERE]

PROGRAM = os.environ.get("PWFILE", os.path.join(HERE, "..", "crates", "pwfile", "out", "pwfile"))
USERS = [256, 1024, 4096]
CHECKS = 1_000_000
TEXTS = ["$6$saltstring$tooshort", "$2b$12$R9h/cIPz0gi.URNNX3kh2OPST9/PgBkqquzi.Ss7KIUgO2t0jWMUW"]


def need(condition, text):
    if not condition:
        sys.exit("bench: " + text)


def name(i):
    return f"user-{i * 2654435761 % 2**32:08x}"


def commands(users, checks):
    """The lines of an input, without their line feeds."""
    yield from (f"set\t{name(i)}\t{TEXTS[i % 2]}" for i in range(users))
    for i in range(checks):
        user = name(i * 7919 % users) if i % 2 else name(users + i % 4096)
        yield f"check\t{user}\tcorrect horse battery staple"
    yield "list"


def ours(path, out):
    with open(path, "rb") as source:
        child = subprocess.Popen([PROGRAM], stdin=source, stdout=out)
        _, status, used = os.wait4(child.pid, 0)
    child.returncode = os.waitstatus_to_exitcode(status)
    need(child.returncode in (0, 1), f"pwfile ended with {child.returncode}")
    return used.ru_utime + used.ru_stime


def plain_dict(path, out):
    texts = {}
    write = out.write
    start = time.process_time()
    with open(path, "rb") as source:
        for line in source:
            words = line.rstrip(b"\n").split(b"\t", 2)
            if words[0] == b"check":
                write(b"no-user\n" if texts.get(words[1]) is None else b"invalid\n")
            elif words[0] == b"set":
                texts[words[1]] = words[2]
                write(b"ok\n")
            else:
                for user, text in texts.items():
                    write(b"set\t%b\t%b\n" % (user, text))
    out.flush()
    return time.process_time() - start


def htpasswd_file(path, out):
    from passlib.apache import HtpasswdFile
    from passlib.context import CryptContext

    table = HtpasswdFile(context=CryptContext(["sha256_crypt", "sha512_crypt"]))
    write = out.write
    start = time.process_time()
    with open(path, "rb") as source:
        for line in source:
            words = line.rstrip(b"\n").decode().split("\t", 2)
            if words[0] == "check":
                try:
                    found = table.check_password(words[1], words[2])
                    write(b"no-user\n" if found is None else b"match\n" if found else b"mismatch\n")
                except ValueError:
                    write(b"invalid\n")
            elif words[0] == "set":
                table.set_hash(words[1], words[2])
                write(b"ok\n")
            else:
                for user in table.users():
                    write(b"set\t%b\t%b\n" % (user.encode(), table.get_hash(user)))
    out.flush()
    return time.process_time() - start


def has_passlib():
    try:
        import passlib.apache  # noqa: F401
    except ImportError:
        return False
    return True


def written(folder, users, checks):
    path = os.path.join(folder, f"{users}-{checks}")
    with open(path, "w") as out:
        out.writelines(line + "\n" for line in commands(users, checks))
    return path


def same_replies(folder, peers):
    """All answer one input alike, so that they are timed at the same work."""
    path = written(folder, 256, 2_000)
    texts = []
    for peer in [ours, *peers]:
        with open(os.path.join(folder, "replies"), "wb") as out:
            peer(path, out)
        with open(os.path.join(folder, "replies"), "rb") as replies:
            texts.append(replies.read())
    need(all(text == texts[0] for text in texts), "the replies differ")


def measured(folder, users, runs, peers):
    """For each peer the least time of the checks of an input and of the rest."""
    asked = {peer: CHECKS // 10 if peer is htpasswd_file else CHECKS for peer in peers}
    least = {}
    for _ in range(runs):
        for peer in peers:
            for checks in (asked[peer], 0):
                path = written(folder, users, checks)
                with open(os.devnull, "wb") as out:
                    took = peer(path, out)
                least[peer, checks] = min(took, least.get((peer, checks), took))
    return {peer: ((least[peer, asked[peer]] - least[peer, 0]) / asked[peer], least[peer, 0]) for peer in peers}


def main():
    runs = int(sys.argv[1]) if len(sys.argv) > 1 else 3
    need(os.path.exists(PROGRAM), "the program isn't built")
    peers = [ours, plain_dict] + ([htpasswd_file] if has_passlib() else [])
    titles = {ours: "pwfile", plain_dict: "dict", htpasswd_file: "passlib"}
    print(f"load at the start {os.getloadavg()[0]:.1f}; least of {runs} interleaved runs")
    print("users  " + "  ".join(f"{titles[peer]:>8}-checks/s  {titles[peer]:>8}-rest-ms" for peer in peers))
    with tempfile.TemporaryDirectory() as folder:
        same_replies(folder, peers[1:])
        first = None
        for users in USERS:
            times = measured(folder, users, runs, peers)
            first = first or times
            print(f"{users:5}  " + "  ".join(f"{1 / times[peer][0]:17,.0f}  {times[peer][1] * 1000:16.1f}" for peer in peers))
        print("growth of a check's time from the first row to the last: "
              + ", ".join(f"{titles[peer]} {times[peer][0] / first[peer][0]:.2f}" for peer in peers))
    print(f"load at the end {os.getloadavg()[0]:.1f}")


if __name__ == "__main__":
    main()
