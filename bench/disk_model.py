"""A disk as a model: what the calls of a run put on it for sure, what waits, and each state that a power cut may leave.

For bench/crashes.py. A sync that fails leaves what waited "lost": no later sync puts it on the disk, unless it is written again.
"""
import dataclasses
import itertools

SECTOR = 512


@dataclasses.dataclass(frozen=True)
class Call:
    """A call of the system that a run made on the table, on its folder or on standard output."""
    kind: str            # made, opened, write, cut, sync, folder, rename, unlink, other, reply
    node: int = -1       # the number of the file
    at: int = 0
    data: bytes = b""
    name: str = ""
    to: str = ""
    failed: bool = False
    label: str = ""      # which of the syncs it is
    system: tuple = ()   # the name of the call of the system, and which one of that name it is


def overwritten(data, at, new):
    """Bytes after a write of new ones at a place."""
    return (data + bytes(max(0, at - len(data))))[:at] + new + data[at + len(new):]


@dataclasses.dataclass
class Change:
    """A write or a cut that a file has seen."""
    kind: str
    at: int
    data: bytes = b""
    state: str = "waits"     # waits, lost (a sync of it failed) or synced

    def done(self, old):
        if self.kind == "write":
            return overwritten(old, self.at, self.data)
        return (old + bytes(max(0, self.at - len(old))))[:self.at]

    def covers(self, other):
        """Whether this change leaves nothing of an earlier write."""
        return self.at <= other.at and (self.kind == "cut" or other.at + len(other.data) <= self.at + len(self.data))


class File:
    """A file: the bytes that the disk has for sure, and what came after them."""

    def __init__(self, data=b""):
        self.data, self.changes = data, []

    def copy(self):
        other = File(self.data)
        other.changes = [dataclasses.replace(change) for change in self.changes]
        return other

    def seen(self):
        """What a read gives."""
        data = self.data
        for change in self.changes:
            data = change.done(data)
        return data

    def sync(self, failed):
        for change in self.changes:
            if change.state == "waits" and not (failed and change.kind == "cut"):
                change.state = "lost" if failed else "synced"
        self.changes = [change for place, change in enumerate(self.changes) if change.state != "lost"
                        or not any(later.state == "synced" and later.covers(change) for later in self.changes[place + 1:])]
        if all(change.state == "synced" for change in self.changes):
            self.data, self.changes = self.seen(), []

    def states(self, chance, most, only_zeros=False):
        """The bytes that a power cut may leave, each once. More than 40 times `most` are thinned out."""
        states = {self.data: None}
        for change in self.changes:
            following = {}
            for old in states:
                if change.state == "synced":
                    following[change.done(old)] = None
                elif change.kind == "write":
                    following.update(dict.fromkeys(torn(change, old, chance, most, only_zeros)))
                else:
                    following.update(dict.fromkeys(cut(change, old)))
            if len(following) > 40 * most:
                following = dict.fromkeys([*itertools.islice(following, most), *chance.sample(list(following), 40 * most)])
            states = following
        return list(states)


def torn(change, old, chance, most, only_zeros):
    """What a power cut may leave of one write over the bytes before it. A byte that the write doesn't change stays."""
    new, at = change.data, change.at
    same = [place for place in range(at, min(at + len(new), len(old))) if old[place] == new[place - at]]
    for left in torn_anyhow(new, at, old, chance, most, only_zeros):
        if same:
            left = bytearray(left)
            for place in same:
                left[place] = old[place]
        yield bytes(left)


def torn_anyhow(new, at, old, chance, most, only_zeros):
    """The same, where the bytes that the write doesn't change may be torn too."""
    under = (old + bytes(max(0, at + len(new) - len(old))))[at:at + len(new)]
    cuts = range(1, len(new) + 1)
    if len(new) > most:
        cuts = sorted({1, 2, len(new) - 1, len(new), *(chance.randrange(1, len(new)) for _ in range(most))})
    yield old
    for place in cuts:
        yield overwritten(old, at, new[:place])
        yield overwritten(old, at, new[:place] + under[place:])
        if not only_zeros:
            yield overwritten(old, at, under[:place] + new[place:])
    yield overwritten(old, at, bytes(len(new)))
    if only_zeros:
        return
    for fill in (b"s", b"#", b"\n", b"\xff", b"set\tevil\t*\n", chance.randbytes(len(new))):
        yield overwritten(old, at, (fill * (len(new) // len(fill) + 1))[:len(new)])
    for _ in range(2):
        mixed = bytearray(under)
        for place in range(-(at % SECTOR), len(new), SECTOR):
            part = slice(max(place, 0), min(place + SECTOR, len(new)))
            if chance.random() < 0.5:
                mixed[part] = new[part]
        yield overwritten(old, at, bytes(mixed))


def cut(change, old):
    """What a power cut may leave of a cut: nothing done, all of it, or zeros in the place of what is cut off."""
    yield old
    yield change.done(old)
    for place in {change.at, (change.at + len(old)) // 2}:
        if place < len(old):
            yield old[:place] + bytes(len(old) - place)


def named(names, step):
    """The names of a folder after one step."""
    kind, name, what = step
    names = dict(names)
    if kind == "made":
        names[name] = what
    elif kind == "rename" and name in names:
        names[what] = names.pop(name)
    elif kind == "unlink":
        names.pop(name, None)
    return names


class Disk:
    """The files, the names that the disk has for sure, and what was done with names since."""

    def __init__(self):
        self.files, self.names, self.steps, self.next_node = {}, {}, [], 0

    @staticmethod
    def of(files):
        """A disk that has these files."""
        disk = Disk()
        for name, data in files.items():
            disk.files[disk.next_node] = File(data)
            disk.names[name] = disk.next_node
            disk.next_node += 1
        return disk

    def copy(self):
        other = Disk()
        other.files = {node: file.copy() for node, file in self.files.items()}
        other.names, other.steps, other.next_node = dict(self.names), list(self.steps), self.next_node
        return other

    def seen_names(self):
        names = self.names
        for step in self.steps:
            names = named(names, step)
        return dict(names)

    def seen(self):
        """The files as a program finds them."""
        return {name: self.files[node].seen() for name, node in self.seen_names().items()}

    def do(self, call):
        """What a call does."""
        if call.kind == "sync":
            self.files[call.node].sync(call.failed)
        elif call.failed:
            return
        elif call.kind == "made":
            self.files[call.node] = File()
            self.next_node = max(self.next_node, call.node + 1)
            self.steps.append(("made", call.name, call.node))
        elif call.kind in ("write", "cut"):
            self.files[call.node].changes.append(Change(call.kind, call.at, call.data))
        elif call.kind in ("rename", "unlink"):
            self.steps.append((call.kind, call.name, call.to))
        elif call.kind == "folder":
            self.names, self.steps = self.seen_names(), []

    def states(self, table, chance, most):
        """The files that a power cut may leave: any of the steps of names in their order, and of each file what it may hold."""
        for picked in itertools.product((False, True), repeat=len(self.steps)):
            names = self.names
            for step in itertools.compress(self.steps, picked):
                names = named(names, step)
            held = {name: self.files[node].states(chance, most if name == table else 3, name != table) for name, node in names.items()}
            first = {name: datas[-1] for name, datas in held.items()}
            for name, datas in held.items():
                yield from ({**first, name: data} for data in (datas if name == table else datas[:20]))
            if not held:
                yield {}
