#!/usr/bin/env python3
"""Tries the wrong bodies of crates, which the prover has to refuse, several of one crate in one check.

    checks/wrong_bodies.py [CHECKOUT] [NAME..]     (this checkout, and each crate that has wrong bodies, if left out)

A wrong body is a file crates/NAME/must-fail/*.edit: lines `file:`, and then pairs of `old:` and `new:`. CHECKOUT is one in which
`rt ci` has proved the libraries (crates/*/out/rlib). First the crate is proved as it is. Then the edits of different functions are put
into one copy of the crate, over what that check kept. An edit counts as refused where the prover says of a function that it turns that
this function isn't proved for a reason of its own, and not only for what it calls. The others are tried again without those. Where no
edit of a set is refused so, one is tried alone, and the crate has to be refused. The script ends with 1 where an edit is not refused,
where its text is not there once, or where it doesn't compile.

This is a quick look before the gate and no verdict: the verdict is `rt ci`, which tries each edit for itself, over a proof from nothing. But
`rt ci` passes by an edit that doesn't compile, and this script doesn't.

RT_JOBS is how many crates are tried at once, as for `rt ci`; all processors if it isn't set.
"""
import collections
import concurrent.futures
import os
import re
import shutil
import subprocess
import sys
import tempfile
import time

TOP = os.path.dirname(os.path.dirname(os.path.abspath(__file__)))
sys.path.insert(0, os.path.join(TOP, "packaging"))
from newer import STATIC, below, used  # noqa: E402

FOLDER = "must-fail"
Edit = collections.namedtuple("Edit", "name changes")
Change = collections.namedtuple("Change", "file old new")
FUNCTION = re.compile(r"^( *)(?:pub(?:\([a-z]+\))? )?(?:final )?(?:unsafe )?(?:extern \"C\" )?fn (\w+)", re.M)


def read_edit(path):
    """An edit: for each pair the file, the text that is there, and the text that takes its place."""
    changes, file, words = [], None, {}
    with open(path, encoding="utf-8") as lines:
        key = None
        for line in lines.read().split("\n"):
            begin = re.match(r"(file|old|new): ?(.*)", line)
            if begin:
                key, rest = begin.groups()
                if key == "file":
                    file = rest
                    continue
                words[key] = [rest]
                if key == "new":
                    changes.append((file, words["old"], words["new"]))
            elif line.startswith("     ") and key in words:
                words[key].append(line[5:])
    name = os.path.basename(path)[:-len(".edit")]
    return Edit(name, [Change(file, "\n".join(old), "\n".join(new)) for file, old, new in changes])


def turned(folder, edit):
    """The functions whose bodies an edit changes, each as its file and its name; the name is empty where the change is in no function."""
    found = set()
    for change in edit.changes:
        with open(os.path.join(folder, change.file), encoding="utf-8") as source:
            text = source.read()
        before = text[:text.find(change.old) + len(change.old)]
        last = None
        for last in FUNCTION.finditer(before):
            pass
        # A function ends with a brace that stands as far in as its first word.
        is_in = last and not re.search(rf"^{last.group(1)}}}", before[last.end():text.find(change.old)], re.M)
        found.add((change.file, last.group(2) if is_in else ""))
    return found


def in_sets(folder, edits):
    """The edits in sets in which no function is turned twice. An edit outside of any function is a set of its own."""
    sets = []
    for edit in edits:
        functions = turned(folder, edit)
        place = next((one for one in sets if not one[0] & functions and "" not in {name for _, name in functions | one[0]}), None)
        if place is None:
            place = (set(), [])
            sets.append(place)
        place[0].update(functions)
        place[1].append(edit)
    return [edits for _, edits in sets]


def own_refusals(said):
    """The functions of which the prover says that they aren't proved for a reason of their own."""
    return [path for path, rest in re.findall(r"^fn (\S+): (.*)$", said, re.M)
            if not rest.startswith(("proved", "no proof: it calls")) and "; it calls" not in rest]


def is_own(path, file, name):
    """Whether a function's path is that of a file and a name, be it of a closure in it."""
    stem = os.path.basename(file)[:-len(".rt")]
    words = path.split("::")
    return name in words and (stem in words or stem == "lib")


def linked(one, other):
    """Copies a file of what a check kept; a module that was checked by a link, since a check replaces such a file and changes none."""
    if one.endswith(".oantt"):
        os.link(one, other)
    else:
        shutil.copy2(one, other)


class Crate:
    """A crate with edits, and what is kept of its proof."""

    def __init__(self, top, kit, name, work):
        self.top, self.kit, self.name, self.work = top, kit, name, work
        self.folder = os.path.join(top, "crates", name)
        self.kept = os.path.join(work, "kept")
        self.uses = used(top)

    def rlib(self, name):
        own = os.path.join(self.top, "crates", name, "out", "rlib", name + ".rlib")
        return own if os.path.isdir(os.path.join(self.top, "crates", name)) else os.path.join(self.kit, "rlibs", name + ".rlib")

    def check(self, folder, kept):
        """What the prover says of the crate in a folder."""
        words = ["--extern", f"std={self.kit}/rlibs/std.rlib", "-L", f"dependency={self.kit}/rlibs"]
        for name in self.uses[self.name]:
            if "=" not in name and name != "staticlib":
                words += ["--extern", f"{name}={self.rlib(name)}"]
        for name in below(self.uses, self.name):
            words += ["-L", "dependency=" + os.path.dirname(self.rlib(name))]
        words += ["--antt-project", f"{self.kit}/rattle/logic/antt-project.json", "--logic-built", f"{self.kit}/logic_built"]
        if self.name in STATIC:
            words += ["--crate-type", "staticlib"]
        root = "src/main.rt" if os.path.exists(os.path.join(folder, "src", "main.rt")) else "src/lib.rt"
        done = subprocess.run([f"{self.kit}/bin/rattle", "check", "--crate-name", self.name, root, *words, "--links", self.name + "=", "--jobs", "1",
                               "--incremental", kept], cwd=folder, stdin=subprocess.DEVNULL, capture_output=True, text=True, check=False)
        return done.stdout + done.stderr

    def tried(self, edits):
        """What the prover says of the crate with these edits."""
        with tempfile.TemporaryDirectory(dir=self.work) as place:
            copy, kept = os.path.join(place, self.name), os.path.join(place, "kept")
            shutil.copytree(self.folder, copy, ignore=shutil.ignore_patterns("out", FOLDER))
            shutil.copytree(self.kept, kept, copy_function=linked)
            for edit in edits:
                for change in edit.changes:
                    path = os.path.join(copy, change.file)
                    with open(path, encoding="utf-8") as source:
                        text = source.read()
                    if text.count(change.old) != 1:
                        return f"{edit.name}: its text is there {text.count(change.old)} times"
                    with open(path, "w", encoding="utf-8") as source:
                        source.write(text.replace(change.old, change.new))
            return self.check(copy, kept)

    def refused(self, said, edit, alone):
        """Whether the prover refuses a function that an edit turns for a reason of its own; of an edit that is tried alone, the crate."""
        last = said.rstrip().rsplit("\n", 1)[-1]
        if alone:
            return last.startswith("logic=not-proved") or last.startswith("rattle: no verdict") and ": could not tell" in said
        return any(is_own(path, file, name) for path in own_refusals(said) for file, name in turned(self.folder, edit))

    def faults(self):
        """The edits that aren't refused, each with what is to be said."""
        begin = time.time()
        edits = sorted(os.listdir(os.path.join(self.folder, FOLDER)))
        edits = [read_edit(os.path.join(self.folder, FOLDER, name)) for name in edits if name.endswith(".edit")]
        said = self.check(self.folder, self.kept)
        if "logic=proved" not in said:
            return [f"{self.name}: the crate itself isn't proved: {said.strip()[-200:]}"]
        left, found, alone, checks = edits, [], [], 0
        while left:
            # A function that calls one that is turned too isn't judged beside it, so it is tried again without that one.
            some = in_sets(self.folder, left)[0]
            said, checks = self.tried(some), checks + 1
            done = [edit for edit in some if self.refused(said, edit, len(some) == 1)]
            if not done:
                if len(some) > 1:
                    said, checks = self.tried(some[:1]), checks + 1
                done = some[:1]
                alone += [edit.name for edit in done]
                if not self.refused(said, some[0], True):
                    judged = re.search(r"^fn \S+: ", said, re.M)
                    found.append(f"{self.name} {some[0].name}: " + ("not refused" if judged else "it isn't judged: " + said.strip()[-200:]))
            left = [edit for edit in left if edit not in done]
        last = f" ({', '.join(alone)} alone)" if alone else ""
        print(f"{self.name}: {len(edits)} edits in {checks} checks{last}, {len(edits) - len(found)} refused, {time.time() - begin:.0f} s", flush=True)
        return found


def main():
    words = sys.argv[1:]
    top = os.path.abspath(words.pop(0)) if words and os.path.isdir(words[0]) else TOP
    kit = os.path.dirname(subprocess.run(["rt", "doc"], capture_output=True, text=True, check=True).stdout.strip())
    names = words or sorted(name for name in os.listdir(os.path.join(top, "crates")) if os.path.isdir(os.path.join(top, "crates", name, FOLDER)))
    def faults(name):
        with tempfile.TemporaryDirectory() as work:
            return Crate(top, kit, name, work).faults()

    # The crates with most wrong bodies first, so that none of them is left to the end.
    names.sort(key=lambda name: -len(os.listdir(os.path.join(top, "crates", name, FOLDER))))
    with concurrent.futures.ThreadPoolExecutor(int(os.environ.get("RT_JOBS") or os.cpu_count())) as jobs:
        found = [line for lines in jobs.map(faults, names) for line in lines]
    for line in found:
        print(line)
    sys.exit(1 if found else 0)


if __name__ == "__main__":
    main()
