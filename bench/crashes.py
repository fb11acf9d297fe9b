#!/usr/bin/env python3
"""What a crash can leave of a table: the calls of the system of real runs, and each state of the disk that they allow.

A run of `pwstore` is recorded by strace with all its bytes, and a model of a disk (bench/disk_model.py) replays the calls one by one.
After each call the model makes the states that a power cut may leave: any of the writes that wait, each torn from the front, from the
back, by sectors, or filled with other bytes; a cut that waits, with zeros after the new length; names as they were or as they are. On
each state the program starts anew. Its table has to be the one after some whole groups of changes, with each change whose reply was
written; a further change has to be taken; the file has to be at rest afterwards; and where a new file was left, a compaction works.

A call can be made to fail (strace injects the fault), and a run can be killed after any of its calls. Then a second run goes on over
what the page cache has. After a sync that failed, what waited never reaches the disk, unless it is written again.

Then each kind of sync is taken out of the records in turn. The script has to find a wrong state each time, or it would see nothing.

usage: bench/crashes.py [quick|long] [SEED]
       (PWSTORE is the program, by default what the gate built or dist/pwstore; it needs strace)
"""
import concurrent.futures
import dataclasses
import os
import random
import re
import shlex
import shutil
import subprocess
import sys
import tempfile
import threading
import time

HERE = os.path.dirname(os.path.abspath(__file__))
sys.path.insert(0, HERE)
import pwstore_model as model  # noqa: E402
from disk_model import Call, Disk  # noqa: E402

TABLE = "users"
TRACED = "openat,close,pwrite64,write,ftruncate,fsync,fdatasync,rename,renameat,renameat2,unlink,unlinkat,flock,fchmod,fchown"
SYNCS = ["opening", "folder at opening", "stage", "gate", "new file", "folder after a rename"]
FURTHER = b"zed"


def program():
    """The words of the program: PWSTORE, what the gate built, or what dist/ holds."""
    given = shlex.split(os.environ.get("PWSTORE", ""))
    for place in ("crates/pwstore/out/pwstore", "dist/pwstore"):
        path = os.path.abspath(os.path.join(HERE, "..", place))
        if not given and os.access(path, os.X_OK):
            given = [path]
    return given or sys.exit("crashes.py: there is no pwstore: name one by PWSTORE")


# ---- a record of calls


def unescaped(text):
    return bytes.fromhex(text.replace("\\x", ""))


class Parser:
    """Calls from the lines of strace, by the descriptors that are open."""

    def __init__(self, folder, disk):
        self.folder, self.nodes, self.next_node = folder, disk.seen_names(), disk.next_node
        self.open, self.calls, self.counts, self.system = {}, [], {}, ()

    def add(self, kind, result=0, **words):
        self.calls.append(Call(kind, failed=result < 0, system=self.system, **words))

    def name_of(self, text):
        path = unescaped(text).decode()
        return os.path.basename(path) if os.path.dirname(path) == self.folder else None

    def line(self, line):
        found = re.match(r"(\w+)\((.*)\) += (-?\d+|\?)", line)
        if not found:
            return
        call, words, result = found.group(1), found.group(2), int(found.group(3).replace("?", "-1"))
        self.counts[call] = self.counts.get(call, 0) + 1
        self.system = (call, self.counts[call])
        texts = re.findall(r'"((?:\\x[0-9a-f]{2})*)"', words)
        if call == "openat":
            self.opened(texts[0], words, result)
        elif call.startswith("rename"):
            self.renamed(texts[0], texts[1], result)
        elif call.startswith("unlink"):
            self.unlinked(texts[0], result)
        else:
            self.by_descriptor(call, words, texts, result)

    def by_descriptor(self, call, words, texts, result):
        descriptor = int(words.split(",")[0])
        node = self.open.get(descriptor)
        if call == "close":
            self.open.pop(descriptor, None)
        elif call == "write" and descriptor == 1:
            self.add("reply", result, data=unescaped(texts[0])[:max(result, 0)])
        elif node == "folder" and call == "fsync":
            is_new = any(before.kind == "rename" for before in self.calls)
            self.add("folder", result, label=SYNCS[5] if is_new else SYNCS[1])
        elif not isinstance(node, int):
            return
        elif call == "pwrite64":
            self.add("write", result, node=node, at=int(words.rsplit(",", 1)[1]), data=unescaped(texts[0])[:max(result, 0)])
        elif call == "ftruncate":
            self.add("cut", result, node=node, at=int(words.split(",")[1]))
        elif call in ("fsync", "fdatasync"):
            self.add("sync", result, node=node, label=self.label(node))
        else:
            self.add("other", result, node=node)

    def opened(self, path, words, result):
        name = self.name_of(path)
        if unescaped(path).decode() == self.folder and result >= 0:
            self.open[result] = "folder"
        elif name is not None and "O_CREAT" in words:
            self.add("made", result, node=self.next_node, name=name)
            if result >= 0:
                self.nodes[name] = self.open[result] = self.next_node
                self.next_node += 1
        elif name is not None and result >= 0:
            self.open[result] = self.nodes[name]
            self.add("opened", result, node=self.nodes[name], name=name)

    def renamed(self, old, new, result):
        old, new = self.name_of(old), self.name_of(new)
        self.add("rename", result, name=old, to=new)
        if result >= 0:
            self.nodes[new] = self.nodes.pop(old)

    def unlinked(self, path, result):
        name = self.name_of(path)
        if name is not None:
            self.add("unlink", result, name=name)
            if result >= 0:
                self.nodes.pop(name, None)

    def label(self, node):
        """Which sync of a file it is, by the writes since the one before."""
        if self.nodes.get(TABLE) != node:
            return "new file"
        since = []
        for call in reversed(self.calls):
            if call.kind == "sync" and call.node == node:
                break
            if call.kind in ("write", "cut") and call.node == node:
                since.insert(0, call)
        datas = [call.data for call in since if call.kind == "write"]
        if datas == [b"s"]:
            return "gate"
        if len(datas) == 2 and datas[1] == b"#":
            return "stage"
        return "opening"


# ---- runs


class Lab:
    """Runs of the program in folders of their own, and what their starts found."""

    def __init__(self, seed):
        self.words, self.chance = program(), random.Random(seed)
        self.top = tempfile.mkdtemp(dir="/dev/shm" if os.access("/dev/shm", os.W_OK) else None)
        self.known, self.states = {}, 0
        self.pool = concurrent.futures.ThreadPoolExecutor(os.cpu_count())

    def folder(self, files):
        place = os.path.join(self.top, f"run{threading.get_ident()}")
        shutil.rmtree(place, ignore_errors=True)
        os.mkdir(place)
        for name, data in files.items():
            with open(os.open(os.path.join(place, name), os.O_WRONLY | os.O_CREAT, 0o600), "wb") as file:
                file.write(data)
        return place

    def recorded(self, disk, run, fault=()):
        """The calls of a run over what the page cache has, and its status. Each piece of commands waits for the replies before."""
        place, trace = self.folder(disk.seen()), os.path.join(self.top, "trace")
        faults = ["-e", "inject={0}:error={2}:when={1}".format(*fault)] if fault else []
        child = subprocess.Popen(
            ["strace", "-xx", "-s", "400000", "-e", f"trace={TRACED}", *faults, "-o", trace, *self.words, os.path.join(place, TABLE), *run.words],
            stdin=subprocess.PIPE, stdout=subprocess.PIPE, stderr=subprocess.DEVNULL)
        try:
            for piece in run.pieces:
                child.stdin.write(piece)
                child.stdin.flush()
                for _ in range(piece.count(b"\n")):
                    child.stdout.readline()
            child.stdin.close()
        except OSError:
            pass
        child.stdout.read()
        status = child.wait()
        parser = Parser(place, disk)
        with open(trace, encoding="ascii") as lines:
            for line in lines:
                parser.line(line)
        return parser.calls, status

    def found(self, states):
        """What the starts over these states list, or what is wrong with them."""
        keys = [tuple(sorted(files.items())) for files in states]
        new = [key for key in dict.fromkeys(keys) if key not in self.known]
        for key, what in zip(new, self.pool.map(self.start, new)):
            self.known[key] = what
        self.states += len(states)
        return [self.known[key] for key in keys]

    def run(self, place, *words, commands=b""):
        return subprocess.run([*self.words, os.path.join(place, TABLE), *words], input=commands, capture_output=True, check=False)

    def start(self, files):
        place = self.folder(dict(files))
        run = self.run(place, commands=b"list\nset\t" + FURTHER + b"\t*\nlist\n")
        if run.returncode != 0 or run.stderr:
            return f"status {run.returncode}, {run.stderr!r}, {run.stdout[-60:]!r}"
        before, between, listed = run.stdout.partition(b"ok\n")
        table = dict(line.split(b"\t")[1:] for line in before.splitlines())
        wanted = {**table, FURTHER: b"*"}
        with open(os.path.join(place, TABLE), "rb") as file:
            data = file.read()
        if not between or listed != model.listing(wanted):
            return f"the further change: {run.stdout[-80:]!r}"
        if model.read(data) != wanted or data[data.rindex(b"\n") + 1:] != b"#":
            return "the file isn't at rest"
        if len(files) > 1:
            run = self.run(place, "compact")
            if run.returncode != 0 or run.stderr or os.listdir(place) != [TABLE]:
                return f"compact: status {run.returncode}, {run.stderr!r}, {os.listdir(place)}"
        return table


def after_lines(table, lines):
    """The table after lines of a file: each sets the text of a user, or has none and takes the user away."""
    table = dict(table)
    for line in lines:
        _, user, *text = line.split(b"\t", 2)
        if text:
            table[user] = text[0]
        else:
            del table[user]
    return table


class Watch:
    """The tables that a power cut may leave: those after whole groups, with each change whose reply was written."""

    def __init__(self, allowed, table):
        self.before, self.tables = allowed, [table]
        self.changes, self.replies, self.staged, self.has_replied = [0], 0, b"", False

    def see(self, call, node):
        if call.kind == "write" and call.node == node and not call.failed:
            if call.data == b"s" and self.staged:
                lines = (b"s" + self.staged).split(b"\n")[:-1]
                self.tables.append(after_lines(self.tables[-1], lines))
                self.changes.append(self.changes[-1] + len(lines))
                self.staged = b""
            elif call.data != b"#":
                self.staged = call.data
        elif call.kind == "reply":
            self.has_replied = True
            self.replies += sum(line in (b"ok", b"upgraded") for line in call.data.splitlines())

    def allowed(self):
        """The tables. There is none where a reply was written before its change was opened."""
        tables = [table for table, count in zip(self.tables, self.changes) if count >= self.replies]
        return tables if self.has_replied else self.before + tables


@dataclasses.dataclass(frozen=True)
class Run:
    """A run of the program: its words after the file, and its commands in pieces."""
    pieces: tuple = ()
    words: tuple = ()


@dataclasses.dataclass
class Record:
    """A disk, what a power cut may leave of it by then, and the calls of a run over it."""
    name: str
    disk: Disk
    allowed: list
    calls: list


def steps(record, without=""):
    """The calls of a run, each with the disk after it and what was watched by then."""
    disk, seen = record.disk.copy(), record.disk.seen()
    watch = Watch(record.allowed, model.read(seen[TABLE]) if TABLE in seen else {})
    yield None, disk, watch
    for call in record.calls:
        if not without or call.label != without:
            disk.do(call)
            watch.see(call, disk.seen_names().get(TABLE, -1))
            yield call, disk, watch


def left(record, count):
    """The disk after the first calls of a run, and the tables that a power cut may leave then."""
    for number, (_, disk, watch) in enumerate(steps(record)):
        if number == count:
            return disk.copy(), watch.allowed()
    raise IndexError(count)


def wrong_states(lab, record, most, without="", rarely=False):
    """The wrong states after the calls of a run; rarely: after its replies and its last call alone."""
    wrong = []
    for number, (call, disk, watch) in enumerate(steps(record, without)):
        if call is None or rarely and call.kind != "reply" and number < len(record.calls):
            continue
        states, tables = list(disk.states(TABLE, lab.chance, most)), watch.allowed()
        for files, found in zip(states, lab.found(states)):
            if found not in tables:
                wrong.append(f"{record.name}, after call {number}, {call.kind} {call.label or call.data[:20]!r}: {found!r}, of {files!r:.300}")
        if wrong and without:
            break
    return wrong


# ---- what is run


def sets(count, long):
    """So many changes of a list, of different lengths."""
    return b"".join(b"set\tu%d\t!%s\n" % (number % 7, b"x" * (number * long % 900)) for number in range(count))


def table_file(lines, end=b"#"):
    return model.HEADER + lines + end


NEXT = Run((b"check\tann\tx\n", b"set\tlater\t*\n", b"set\tann\t!1\nset\tlast\t!2\n"))


def workloads(is_long):
    """Names, files and runs."""
    two = b"set\tann\t*\nset\tbob\t!\n"
    hello = b"set\tann\t" + model.HELLO.encode() + b"\n"
    upgrade = b"upgrade\tann\tAAECAwQFBgcICQoLDA0ODw\t" + model.PASSWORD.encode() + b"\n"
    rows = [
        ("first start", {}, Run((b"set\tann\t*\n", b"set\tbob\t!\nset\tann\t!3\n"))),
        ("single changes", {TABLE: table_file(two)}, Run((b"set\tann\t!4\n", b"set\tcleo\t*\n", b"set\tbob\t!5\n"))),
        ("a group", {TABLE: table_file(two + sets(20, 41))}, Run((sets(14, 67),))),
        ("an upgrade, and one that keeps the text", {TABLE: table_file(hello)}, Run((upgrade, upgrade))),
        ("users taken away", {TABLE: table_file(two + hello)}, Run((b"remove\tbob\n", b"set\tcleo\t*\nremove\tann\nremove\tcleo\n"))),
        ("an import", {TABLE: table_file(two)}, Run((b"cleo:*:1::\nann:!4:2:\n", b"dora:!5\n"), ("import",))),
        ("a compaction", {TABLE: table_file(two + sets(30, 53))}, Run((), ("compact",))),
        ("a group that a crash left", {TABLE: table_file(two, b"#et\tcleo\t!6\nset\tann\t!7\n#")}, Run((b"set\tdora\t*\n",))),
        ("zeros that a crash left", {TABLE: table_file(two, bytes(700))}, Run((b"set\tdora\t*\n",))),
        ("no end", {TABLE: table_file(two, b"")}, Run((), ("compact",))),
    ]
    if is_long:
        rows += [
            ("a list", {}, Run((sets(300, 29), sets(40, 83)))),
            ("long lines", {TABLE: table_file(two)}, Run((b"".join(b"set\tu%d\t!%s\n" % (number, b"y" * 1000) for number in range(30)),))),
            ("groups and single changes", {TABLE: table_file(sets(200, 17))}, Run((sets(9, 97), b"set\tann\t*\n", sets(30, 31), b"set\tann\t!\n"))),
            ("a long import", {TABLE: table_file(sets(9, 71))}, Run((b"".join(b"u%d:!%s:1::\n" % (number % 13, b"z" * (number * 37 % 900))
                                                                             for number in range(60)),), ("import",))),
            ("a long compaction", {TABLE: table_file(sets(400, 71))}, Run((), ("compact",))),
            *((f"an end of {len(end)} bytes", {TABLE: table_file(two, end)}, Run((b"set\tdora\t*\n",)))
              for end in (b"\0", b"\n", b"#" * 16385, b"e" * 9000, bytes(16385), b"#\0\0\0s", b"\xff" * 513)),
        ]
    return rows


def answered(record, run):
    """Whether each change of a run was answered `ok`."""
    asked = sum(piece.count(b"set\t") for piece in run.pieces)
    return sum(call.data.splitlines().count(b"ok") for call in record.calls if call.kind == "reply") == asked


def following(lab, record, count, most):
    """What a second run over what the first calls left finds, its record, and its wrong states."""
    disk, allowed = left(record, count)
    calls, status = lab.recorded(disk, NEXT)
    second = Record(f"{record.name}, and a run after call {count}", disk, allowed, calls)
    wrong = wrong_states(lab, second, most, rarely=True)
    if status != 1 or not answered(second, NEXT):
        wrong.append(f"{second.name}: status {status}, or a change that isn't taken")
    return second, wrong


def faulted(lab, name, disk, run, call, errors, most):
    """The records and wrong states of runs in which one call fails, and of the runs after them."""
    for error in errors:
        calls, status = lab.recorded(disk, run, (*call.system, error))
        table = disk.seen().get(TABLE)
        record = Record(f"{name}, {call.system[0]} {call.system[1]} fails with {error}", disk, [model.read(table) if table else {}], calls)
        wrong = wrong_states(lab, record, most, rarely=True)
        if status not in (7, 66, 73, 75):
            wrong.append(f"{record.name}: status {status}")
        second, more = following(lab, record, len(calls), most)
        yield [record, second], wrong + more


def explored(lab, is_long):
    """The records of all runs, and the wrong states."""
    most, records, wrong = 40 if is_long else 12, [], []
    for name, files, run in workloads(is_long):
        disk = Disk.of(files)
        calls, status = lab.recorded(disk, run)
        record = Record(name, disk, [model.read(files[TABLE]) if files else {}], calls)
        records.append(record)
        wrong += wrong_states(lab, record, most)
        if status != 0:
            wrong.append(f"{name}: status {status}")
        if run.words == ("compact",) and not any(call.label == "new file" for call in calls):
            wrong.append(f"{name}: no new file is made")
        for count in range(len(calls) + 1):
            second, more = following(lab, record, count, 3)
            records.append(second)
            wrong += more
        for call in calls:
            if call.system[0] in ("write", "close") or call.kind == "opened":
                continue
            errors = ["EIO", "ENOSPC", "EPERM"] if is_long else ["EIO"]
            for more_records, more in faulted(lab, name, disk, run, call, errors, 3):
                records += more_records
                wrong += more
    return records, wrong


def main():
    size = sys.argv[1] if len(sys.argv) > 1 else "quick"
    if size not in ("quick", "long") or not shutil.which("strace"):
        sys.exit(__doc__ if shutil.which("strace") else "crashes.py: it needs strace (apt-get install strace)")
    lab, begin = Lab(int(sys.argv[2]) if len(sys.argv) > 2 else 1), time.time()
    try:
        records, wrong = explored(lab, size == "long")
        print("\n".join(wrong[: int(os.environ.get("SHOWN", "20"))]))
        print(f"crashes.py: {len(records)} runs, {lab.states} states of the disk, {len(lab.known)} different ones, {len(wrong)} wrong")
        unseen = []
        for label in SYNCS:
            bad = next((bad for record in records if any(call.label == label for call in record.calls)
                        for bad in wrong_states(lab, record, 3, without=label)), None)
            print(f"without the sync '{label}': {(bad or 'no wrong state is found'):.160}")
            unseen += [] if bad else [label]
        print(f"crashes.py: {time.time() - begin:.0f} s")
        return 1 if wrong or unseen else 0
    finally:
        shutil.rmtree(lab.top)


if __name__ == "__main__":
    sys.exit(main())
