#!/usr/bin/env python3
"""What `pwstore` does with files that are damaged, that can't be written or grow no more, and with a second process.

1. A small table cut at every byte, with every bit of every byte flipped, and with every byte taken out: the program gives the content
   that the model of docs/FORMAT.md (bench/pwstore_model.py) reads, or the refusal that it names, at the place that it names, and a refused
   file is left as it was.
2. A file system of 64 KiB (tmpfs; wants root): commands until it is full. The replies are `ok` and then `disk-fault`, checks are
   answered further, the status is 7, and once there is room again the table is that of the answers.
3. A file that can't be written (a file system that is mounted read-only; wants root), a folder that isn't there, a folder in the file's
   place, a link, an empty file: status 66 or 65, and one line on standard error.
4. A second process is refused (75); one after a kill of the first isn't.
5. A file that others may read is told on standard error and isn't made anew (73); without their rights owner, group and mode stay. A file
   with an access control list isn't either (wants a file system that has them). A new file has the mode 0600, whatever the umask is.
6. The new file, `.FILE.pwstore-new`: what a killed run or a power cut has left there is taken away, anything else stays (73), at a compaction and at a
   first start; FILE.new is never touched. A compaction on a full disk takes it away, and the next change is taken.
7. Standard input, output or error closed: refused (66), and nothing is written into a table.
8. Two first starts at once (the lock delayed by a preload; wants gcc), and many: one makes the file, each other one ends with 75.
9. A file that is moved away, removed or replaced under a run: `disk-fault`, 7, and neither file has the change.
10. Each request for memory of a session refused in turn (bench/refuse_nth.c, preloaded; wants gcc): the status is 5, or all is as usual;
   the replies are the first ones of a run with memory, and the table is that of them, or of one command more.
11. A file whose users have 4,096 bytes more than a file may have: checks are answered, changes are `file-full`, and it isn't made anew (65).

usage: bench/pwstore_hostile.py      (PWSTORE is the program, with words behind it where it has other forms: "PATH/pwtool table")
"""
import fcntl
import os
import re
import shlex
import struct
import subprocess
import sys
import tempfile
import time

sys.path.insert(0, os.path.dirname(os.path.abspath(__file__)))
import pwstore_model as model  # noqa: E402

HERE = os.path.dirname(os.path.abspath(__file__))
PROGRAM = shlex.split(os.environ.get("PWSTORE", "")) or [os.path.join(HERE, "..", "crates", "pwstore", "out", "pwstore")]
FAILED = []


def holds(what, test):
    print(f"{'ok' if test else 'FAILED'}  {what}", flush=True)
    if not test:
        FAILED.append(what)


def run(name, data=b"list\n", words=()):
    done = subprocess.run([*PROGRAM, name, *words], input=data, capture_output=True, check=False)
    return done.returncode, done.stdout, done.stderr.decode()


def write(name, data):
    with open(name, "wb") as file:
        file.write(data)
    os.chmod(name, 0o600)


def judged(name, data):
    """Whether the program does with a file what the model says."""
    write(name, data)
    status, out, told = run(name)
    means = model.read(data)
    if isinstance(means, dict):
        return status == 0 and out == model.listing(means) and told == ""
    place = re.search(r"byte (\d+)", told)
    return (status == 65 and out == b"" and means[0] in told and (place is None or int(place[1]) == means[1])
            and told.count("\n") == 1 and open(name, "rb").read() == data)


def damaged(folder):
    name = os.path.join(folder, "damaged")
    run(name, b"set\tann\t$5$a$b\nset\tbob\t*\nset\tann\t!$6\n")
    whole = open(name, "rb").read()
    cuts = [judged(name, whole[:n]) for n in range(len(whole) + 1)]
    holds(f"a table of {len(whole)} bytes cut at every byte: {sum(cuts)} of {len(cuts)}", all(cuts))
    flips = [judged(name, whole[:n] + bytes([whole[n] ^ 1 << bit]) + whole[n + 1:]) for n in range(len(whole)) for bit in range(8)]
    holds(f"every bit of it flipped: {sum(flips)} of {len(flips)}", all(flips))
    holes = [judged(name, whole[:n] + whole[n + 1:]) for n in range(len(whole))]
    holds(f"every byte of it taken out: {sum(holes)} of {len(holes)}", all(holes))
    ends = [judged(name, whole[:-1] + end) for end in (b"", b"s", b"#et\tcleo\t$", b"#et\tcleo\t$\n#", b"set\tcleo\t$", b"#" * 16385,
                                                        b"#" * 16386, b"\0" * 100)]
    holds(f"ends of other kinds: {sum(ends)} of {len(ends)}", all(ends))


def mounted(folder, options):
    os.mkdir(folder)
    return subprocess.run(["mount", "-t", "tmpfs", "-o", options, "pwstore", folder], check=False).returncode == 0


def full_disk(folder):
    place = os.path.join(folder, "full")
    if not mounted(place, "size=64k"):
        print("skipped: no tmpfs can be mounted")
        return
    name = os.path.join(place, "table")
    lines = [b"set\tu%d\t%s\n" % (n % 50, b"x" * 900) for n in range(200)] + [b"check\tu1\tpw\n", b"set\tlast\t$\n"]
    status, out, told = run(name, b"".join(lines))
    words = out.decode().split("\n")[:-1]
    oks = words.count("ok")
    holds(f"a full disk: {oks} changes are answered ok, {words.count('disk-fault')} disk-fault, status {status}",
          status == 7 and words == ["ok"] * oks + ["disk-fault"] * (200 - oks) + ["invalid" if oks > 1 else "no-user", "disk-fault"])
    holds("it is told in one line with the file's name: " + told.strip(), told.count("\n") == 1 and name in told)
    kept = model.Model()
    for line in lines[:oks]:
        kept.reply(line[:-1])
    found = model.read(open(name, "rb").read())
    subprocess.run(["mount", "-o", "remount,size=1m", place], check=True)
    status, out, _ = run(name)
    holds("with room again all that was answered is there, and nothing else", (status, out) == (0, model.listing(kept.table)) and found == kept.table)
    status, out, _ = run(name, b"set\tnew\t$\n")
    holds("and it takes changes again", (status, out) == (0, b"ok\n"))
    subprocess.run(["umount", place], check=True)


def unwritable(folder):
    place = os.path.join(folder, "read_only")
    if mounted(place, "size=64k"):
        name = os.path.join(place, "table")
        run(name, b"set\tann\t$\n")
        subprocess.run(["mount", "-o", "remount,ro", place], check=True)
        status, out, told = run(name)
        holds("a read-only file system: " + told.strip(), (status, out) == (66, b"") and name in told)
        status, out, told = run(os.path.join(place, "other"))
        holds("a file to be made there: " + told.strip(), status in (7, 66) and out == b"" and told.count("\n") == 1)
        subprocess.run(["umount", place], check=True)
    for what, status, make in (("no such folder", 66, lambda name: None), ("a folder", 66, os.mkdir), ("an empty file", 65, lambda name: write(name, b"")),
                               ("a link", 66, lambda name: os.symlink("/dev/null", name))):
        name = os.path.join(folder, what.replace(" ", "_"), "x") if what == "no such folder" else os.path.join(folder, what.replace(" ", "_"))
        make(name)
        got = run(name)
        holds(f"{what}: {got[2].strip()}", got[0] == status and got[1] == b"" and got[2].count("\n") == 1 and name in got[2])


def second_process(folder):
    name = os.path.join(folder, "locked")
    first = subprocess.Popen([*PROGRAM, name], stdin=subprocess.PIPE, stdout=subprocess.PIPE)
    first.stdin.write(b"set\tann\t$\n")
    first.stdin.flush()
    first.stdout.readline()
    got = run(name)
    holds("a second process: " + got[2].strip(), got[0] == 75 and got[1] == b"" and name in got[2])
    got = run(name, words=["compact"])
    holds("a compaction beside it: " + got[2].strip(), got[0] == 75)
    first.kill()
    first.wait()
    holds("one after the first was killed", run(name)[:2] == (0, b"set\tann\t$\n"))


def modes(folder):
    name = os.path.join(folder, "mode")
    run(name, b"")
    holds("a new file has the mode 0600", os.stat(name).st_mode & 0o777 == 0o600)
    os.chmod(name, 0o644)
    got = run(name)
    holds("a file that others may read: " + got[2].strip(), got[0] == 0 and got[2].count("\n") == 1 and name in got[2])
    before = os.stat(name)
    for mode in (0o644, 0o640, 0o604, 0o610):
        os.chmod(name, mode)
        got = run(name, words=["compact"])
        told = got[2].split("\n")[-2]
        holds(f"it isn't made anew with the mode {mode:o}: {told}", got[0] == 73 and os.stat(name).st_ino == before.st_ino and "chmod go=" in told)
    os.chmod(name, 0o700)
    if os.geteuid() == 0:
        os.chown(name, 4, 5)
    before = os.stat(name)
    got = run(name, words=["compact"])
    after = os.stat(name)
    holds("a file made anew keeps its owner, group and mode", got[0] == 0 and after.st_ino != before.st_ino and
          [(s.st_uid, s.st_gid, s.st_mode) for s in (before, after)] == [(before.st_uid, before.st_gid, before.st_mode)] * 2)
    name = os.path.join(folder, "umask")
    done = subprocess.run([*PROGRAM, name], input=b"list\n", capture_output=True, check=False, umask=0o777)
    holds("a new file under the umask 0777 has the mode 0600", done.returncode == 0 and os.stat(name).st_mode & 0o777 == 0o600)
    name = os.path.join(folder, "acl")
    run(name, b"set\tann\t*\n")
    # user::rw-, user:1:r--, group::---, mask::r--, other::---, as the kernel has it
    entries = ((1, 6, 0xffffffff), (2, 4, 1), (4, 0, 0xffffffff), (16, 4, 0xffffffff), (32, 0, 0xffffffff))
    try:
        os.setxattr(name, "system.posix_acl_access", struct.pack("<I", 2) + b"".join(struct.pack("<HHI", *entry) for entry in entries))
    except OSError as error:
        print(f"skipped: no access control lists here ({error})")
        return
    before = os.stat(name), os.getxattr(name, "system.posix_acl_access")
    got = run(name, words=["compact"])
    after = os.stat(name), os.getxattr(name, "system.posix_acl_access")
    holds(f"a file with an access control list, of the mode {before[0].st_mode & 0o777:o}: {got[2].split(chr(10))[-2]}",
          got[0] == 73 and before[0].st_ino == after[0].st_ino and before[1] == after[1])


def new_files(folder):
    place = os.path.join(folder, "new")
    os.mkdir(place)
    name, new = os.path.join(place, "table"), os.path.join(place, ".table.pwstore-new")
    plain = name + ".new"
    write(plain, b"#pwstore 1\nset\tother\t*\n#")
    whole = b"#pwstore 1\nset\tann\t*\nset\tann\t!\n#"
    for there in (True, False):
        for left in (b"", b"#pws", b"#pwstore 1\n", b"#pwstore 1\nset\tcleo\t*\n#", b"\0" * 20, b"#pws" + bytes(30)):
            if there:
                write(name, whole)
            elif os.path.exists(name):
                os.remove(name)
            write(new, left)
            got = run(name, b"list\n", ["compact"] if there else [])
            holds(f"left by a run, {left}, at a {'compaction' if there else 'first start'}",
                  got[0] == 0 and got[2] == "" and os.listdir(place) and sorted(os.listdir(place)) == ["table", "table.new"])
        for other in (b"#pwstore 2\n", b"root:*:\n", b"a", bytes(8) + b"\0\0x", "folder", "link", "fifo", "locked"):
            if there:
                write(name, whole)
            elif os.path.exists(name):
                os.remove(name)
            held = None
            if other == "folder":
                os.mkdir(new)
            elif other == "link":
                os.symlink("nowhere", new)
            elif other == "fifo":
                os.mkfifo(new)
            else:
                write(new, b"#pwstore 1\n#" if other == "locked" else other)
                if other == "locked":
                    held = open(new, "rb")
                    fcntl.flock(held, fcntl.LOCK_EX)
            before = os.lstat(new)
            got = run(name, b"list\n", ["compact"] if there else [])
            after = os.lstat(new)
            status = 75 if other == "locked" and not there else 73
            holds(f"{other} at a {'compaction' if there else 'first start'}: {got[2].strip()}",
                  got[0] == status and got[1] == b"" and got[2].count("\n") == 1 and (status == 75 or new in got[2]) and
                  (before.st_ino, before.st_size, before.st_mode) == (after.st_ino, after.st_size, after.st_mode) and
                  (open(name, "rb").read() == whole if there else not os.path.exists(name)))
            if held:
                held.close()
            (os.rmdir if other == "folder" else os.remove)(new)
    holds("the file table.new is as it was", open(plain, "rb").read() == b"#pwstore 1\nset\tother\t*\n#")
    place = os.path.join(folder, "tight")
    if mounted(place, "size=64k"):
        name = os.path.join(place, "table")
        run(name, b"".join(b"set\tu%d\t%s\n" % (n, b"x" * 900) for n in range(44)))
        size = os.stat(name).st_size
        got = run(name, words=["compact"])
        holds(f"a compaction of {size} bytes on a disk of 65,536: {got[2].strip()}", got[0] == 7 and os.listdir(place) == ["table"])
        holds("and the next change is taken", run(name, b"set\tlast\t*\n")[:2] == (0, b"ok\n"))
        subprocess.run(["umount", place], check=True)
    for other in ("", "new/", "not_there/.", ".."):
        got = subprocess.run([*PROGRAM, other], input=b"list\n", capture_output=True, check=False, cwd=folder)
        holds(f"FILE {other!r}: {got.stderr.decode().strip()}", got.returncode == 66 and got.stdout == b"" and not os.path.exists(os.path.join(folder, ".new")))


def closed_streams(folder):
    users = os.path.join(folder, "users")
    write(users, b"bob:*\n")
    for streams in ("<&-", ">&-", "2>&-", ">&- 2>&-", "<&- 2>&-", "<&- >&- 2>&-"):
        for there in (False, True):
            name = os.path.join(folder, "closed")
            if os.path.exists(name):
                os.remove(name)
            if there:
                run(name, b"set\tann\t*\n")
            before = open(name, "rb").read() if there else None
            for words in ("", " compact", " export", " import", f" import {shlex.quote(users)}"):
                command = " ".join(map(shlex.quote, PROGRAM)) + f" {shlex.quote(name)}{words} {streams}"
                done = subprocess.run(["sh", "-c", command], input=b"bob:*\n" if "import" in words else b"set\tbob\t*\n", capture_output=True, check=False)
                after = open(name, "rb").read() if os.path.exists(name) else None
                holds(f"{streams}{words}, {'a' if there else 'no'} file: {done.returncode}",
                      done.returncode == 66 and before == after and open(users, "rb").read() == b"bob:*\n")


def first_starts(folder):
    source, library = os.path.join(folder, "late.c"), os.path.join(folder, "late.so")
    write(source, b"""#define _GNU_SOURCE
#include <dlfcn.h>
#include <stdlib.h>
#include <unistd.h>
int flock(int fd, int how) {
    static int calls;
    const char *at = getenv("LATE_AT"), *time = getenv("LATE_US");
    if (at && time && ++calls == atoi(at)) usleep(atoi(time));
    return ((int (*)(int, int))dlsym(RTLD_NEXT, "flock"))(fd, how);
}
""")
    if subprocess.run(["gcc", "-O2", "-shared", "-fPIC", "-o", library, source, "-ldl"], check=False).returncode:
        print("skipped: no gcc")
        return
    name = os.path.join(folder, "first")
    first, second = (subprocess.Popen([*PROGRAM, name], stdin=subprocess.PIPE, stdout=subprocess.PIPE, stderr=subprocess.PIPE,
                                      env={**os.environ, "LD_PRELOAD": library, "LATE_AT": at, "LATE_US": late})
                     for at, late in (("1", "200000"), ("2", "300000")))
    ends = [(process.communicate(b"set\t%s\t*\n" % user), process.returncode) for process, user in ((first, b"ann"), (second, b"bob"))]
    answered = [user for user, (told, status) in zip((b"ann", b"bob"), ends) if told[0] == b"ok\n" and status == 0]
    listed = run(name)
    holds(f"two first starts, the lock of each delayed: statuses {[status for _, status in ends]}, answered {answered}",
          sorted(status for _, status in ends) in ([0, 75], [0, 0], [75, 75]) and all(b"set\t" + user + b"\t*\n" in listed[1] for user in answered)
          and listed[0] == 0)
    lost, ended = 0, {}
    for turn in range(300):
        name = os.path.join(folder, f"first_{turn}")
        runs = [subprocess.Popen([*PROGRAM, name], stdin=subprocess.PIPE, stdout=subprocess.PIPE, stderr=subprocess.PIPE) for _ in range(3)]
        ends = [(process.communicate(b"set\tu%d\t*\n" % n), process.returncode) for n, process in enumerate(runs)]
        kept = run(name)[1]
        for n, (told, status) in enumerate(ends):
            ended[status] = ended.get(status, 0) + 1
            lost += told[0] == b"ok\n" and b"set\tu%d\t*\n" % n not in kept
    holds(f"300 times three first starts at once: statuses {ended}, answers lost: {lost}", lost == 0 and set(ended) <= {0, 75})


def moved(folder):
    for how in ("moved", "removed", "replaced"):
        name, far = os.path.join(folder, "under"), os.path.join(folder, "far")
        for file in (name, far):
            if os.path.exists(file):
                os.remove(file)
        process = subprocess.Popen([*PROGRAM, name], stdin=subprocess.PIPE, stdout=subprocess.PIPE, stderr=subprocess.PIPE)
        process.stdin.write(b"set\tann\t*\n")
        process.stdin.flush()
        process.stdout.readline()
        if how == "moved":
            os.rename(name, far)
        elif how == "removed":
            os.remove(name)
        else:
            write(far, b"#pwstore 1\nset\tother\t*\n#")
            os.rename(far, name)
        # a look at the name holds for a millisecond
        time.sleep(0.005)
        out, told = process.communicate(b"set\tbob\t*\nset\tcleo\t*\n")
        left = [run(file)[1] for file in (name, far) if os.path.exists(file)]
        holds(f"a file that is {how} under a run: {told.decode().strip()}",
              out == b"disk-fault\ndisk-fault\n" and process.returncode == 7 and not any(b"bob" in lines for lines in left))


def refused_memory(folder):
    library, name, mark = (os.path.join(folder, file) for file in ("refuse.so", "refused", "mark"))
    if subprocess.run(["gcc", "-O2", "-shared", "-fPIC", "-o", library, os.path.join(HERE, "refuse_nth.c"), "-ldl"], check=False).returncode:
        print("skipped: no gcc")
        return
    lines = [b"set\tann\t" + model.HELLO.encode(), b"set\tbob\t*", b"check\tann\t" + model.PASSWORD.encode(), b"check\tbob\tx",
             b"upgrade\tann\tAAECAwQFBgcICQoLDA0ODw\t" + model.PASSWORD.encode(), b"set\tcleo\t" + b"x" * 1000]
    kept, replies, tables = model.Model(), [], [{}]
    for line in lines:
        replies.append(kept.reply(line))
        tables.append(dict(kept.table))
    fives, usual, others = 0, 0, []
    for number in range(1, 4000):
        for file in (name, mark):
            if os.path.exists(file):
                os.remove(file)
        env = {**os.environ, "LD_PRELOAD": library, "REFUSE_NTH": str(number), "REFUSE_MARK": mark}
        done = subprocess.run([*PROGRAM, *model.TO_SCRYPT, name], input=b"".join(line + b"\n" for line in lines), capture_output=True, check=False,
                              env=env)
        words = done.stdout.decode().split("\n")[:-1]
        found = model.read(open(name, "rb").read()) if os.path.exists(name) else {}
        right = words == replies[:len(words)] and found in tables[len(words):len(words) + 2]
        if not os.path.exists(mark):
            others += [] if right and done.returncode == 1 else [number]
            break
        fives += done.returncode == 5
        usual += done.returncode == 1
        told = done.stderr.decode()
        if not right or (done.returncode, told.count("\n")) not in ((5, 1), (1, 0)):
            others.append((number, done.returncode, told))
    holds(f"{number - 1} requests for memory refused in turn: status 5 {fives} times, as usual {usual} times, other {others}", not others)


def too_long(folder):
    name, users = os.path.join(folder, "too_long"), (1 << 18) + 4
    data = b"#pwstore 1\n" + b"".join(b"set\tu%06d\t*%s\n" % (number, b"x" * 1010) for number in range(users)) + b"#"
    write(name, data)
    status, out, told = run(name, b"check\tu262147\tx\nset\tu000001\t*\ncheck\tu000001\tx\n")
    holds(f"a file of {len(data)} bytes: a change is file-full", (status, out, told) == (1, b"locked\nfile-full\nlocked\n", ""))
    status, out, told = run(name, b"", ("compact",))
    holds("and it isn't made anew (65), with one line: " + told.strip(), (status, out) == (65, b"") and told.count("\n") == 1 and name in told)
    holds("it is as it was, and nothing is beside it", open(name, "rb").read() == data and not os.path.exists(os.path.join(folder, ".too_long.pwstore-new")))


def main():
    if not os.path.exists(PROGRAM[0]):
        sys.exit(f"{PROGRAM[0]} isn't built")
    with tempfile.TemporaryDirectory(prefix="pwstore_hostile_") as folder:
        for part in (damaged, full_disk, unwritable, second_process, modes, new_files, closed_streams, first_starts, moved, refused_memory, too_long):
            part(folder)
    sys.exit(1 if FAILED else 0)


if __name__ == "__main__":
    main()
