#!/usr/bin/env python3
"""Times `pwtool` over lines that need no digest, in one interleaved run; of each the least time counts.

check: a file of lines (a broken SHA-crypt text, an md5-crypt text with a salt that is too long, a text without a scheme, a
line without a tab) beside `pwcheck check` over the same; what each answers is compared where both have the same word.
join: a shadow file and a file of passwords of as many users, in another order, beside `sort` and `join` of coreutils, which
put the same pairs side by side and check nothing; it prints the peak memory of `pwtool` too, and that of a join of a tenth of
the texts, which is then the smaller file. All texts are locked, empty or broken, so that no digest is computed.
survey: ten lines of a shadow file for each of those users, of five schemes, beside `awk -F:`, which counts identifiers; how many
there are of each identifier is compared.

It needs coreutils, gcc, and both programs, which
    (cd crates/pwtool && rt run </dev/null); (cd crates/pwcheck && rt run </dev/null)
prove and build. It installs nothing, and writes into a folder of its own alone.

usage: bench/pwtool.py [RUNS] [USERS]      (5 and 1000000 if left out)
"""
import os
import random
import subprocess
import sys
import tempfile

import check

HERE = os.path.dirname(os.path.abspath(__file__))
PWTOOL = os.environ.get("PWTOOL", os.path.join(HERE, "..", "crates", "pwtool", "out", "pwtool"))
LINES = (
    b"password\t$6$saltstring$tooshort\n"
    b"hunter2\t$1$saltsaltsalt$cHJi5PXp/ki/ktXzqlk6I1\n"
    b"secret\t{SHA}5en6G6MezRroT3XKqkdPOmY/BfQ=\n"
    b"root:x:0:0:root:/root:/bin/bash\n"
)
TEXTS = [b"!$6$saltstring$tooshort", b"*", b"", b"$6$saltstring$tooshort", b"{SHA}5en6G6MezRroT3XKqkdPOmY/BfQ="]


def write_users(folder, users):
    """The files of texts and of passwords, each of all users in an order of its own."""
    random.seed(1)
    texts, passwords = os.path.join(folder, "texts"), os.path.join(folder, "passwords")
    numbers = list(range(users))
    random.shuffle(numbers)
    with open(texts, "wb") as file:
        for n in numbers:
            file.write(b"user%d:%s:19000:0:99999:7:::\n" % (n, TEXTS[n % len(TEXTS)]))
    random.shuffle(numbers)
    with open(passwords, "wb") as file:
        for n in numbers:
            file.write(b"user%d:secret%d\n" % (n, n))
    return texts, passwords


SURVEYED = [
    b"$6$abcdefgh$ltjgWl6579NluT/Vi1nwEvcil.G5Nbc4NiXZaNGStk8PSwGfQv72N2CKPPrVACtLtip/cZ/1GM/O6IND4WQhG.",
    b"$y$j9T$F5Jx5fExrKuPp53xLKQ..1$X3DX6M94c7o.9agCG9G317fhZg9SqC.5i5rd.RhAtQ7",
    b"$2b$12$abcdefghijklmnopqrstuu2r9OfJnfCsdneAXAGHnS4UpFFP8WIrW",
    b"$1$abcdefgh$cHJi5PXp/ki/ktXzqlk6I1",
    b"!",
]
AWK = "{ split($2, part, \"$\"); count[part[2]]++ } END { for (id in count) print id, count[id] }"


def write_surveyed(folder, users):
    """A shadow file of ten lines for each of these users."""
    path = os.path.join(folder, "surveyed")
    with open(path, "wb") as file:
        for n in range(users // 100):
            file.write(b"".join(b"user%d:%s:19000:0:99999:7:::\n" % (1000 * n + k, SURVEYED[k % 5]) for k in range(1000)))
    return path


def compare_counts(path, users):
    """Whether the survey counts as awk does."""
    rows = subprocess.run([PWTOOL, "survey", path], stdout=subprocess.PIPE, check=False).stdout.split(b"\n\n")[1]
    counts = {}
    for row in rows.split(b"\n"):
        if row:
            number, what = row.split(b"\t")
            counts[what.split()[0]] = counts.get(what.split()[0], 0) + int(number)
    told = subprocess.run(["awk", "-F:", AWK, path], stdout=subprocess.PIPE, check=True).stdout
    by_awk = {line.split(b" ")[0]: int(line.split(b" ")[1]) for line in told.split(b"\n") if line}
    names = {b"6": b"sha512-crypt", b"y": b"yescrypt", b"2b": b"bcrypt", b"1": b"md5-crypt", b"": b"locked"}
    check.need({names[id]: count for id, count in by_awk.items()} == counts, f"counts differ: {by_awk} {counts}")
    check.need(sum(counts.values()) == 10 * users, "each line is counted")


def sorted_and_joined(folder, texts, passwords):
    """A script that pairs texts with passwords by coreutils."""
    script = os.path.join(folder, "joined.sh")
    with open(script, "w") as file:
        file.write(
            "export LC_ALL=C\n"
            f"cut -d: -f1,2 {texts} | sort -t: -k1,1 > {folder}/texts.sorted\n"
            f"sort -t: -k1,1 {passwords} > {folder}/passwords.sorted\n"
            f"join -t: -j1 {folder}/texts.sorted {folder}/passwords.sorted\n"
        )
    return ["sh", script]


def main():
    runs = int(sys.argv[1]) if len(sys.argv) > 1 else 5
    users = int(sys.argv[2]) if len(sys.argv) > 2 else 1_000_000
    for program in (PWTOOL, check.PROGRAM):
        check.need(os.path.exists(program), f"build {program} first")
    with tempfile.TemporaryDirectory() as folder:
        peak = check.compiled(folder, "peak")
        lines = os.path.join(folder, "lines")
        with open(lines, "wb") as file:
            file.write(LINES * (100_000_000 // len(LINES)))
        texts, passwords = write_users(folder, users)
        few = os.path.join(folder, "few")
        with open(texts, "rb") as file, open(few, "wb") as part:
            part.writelines(file.readline() for _ in range(users // 10))
        surveyed = write_surveyed(folder, users)
        compare_counts(surveyed, users)
        commands = {
            "pwtool check": ([PWTOOL, "check", "--quiet"], lines),
            "pwcheck check": ([check.PROGRAM, "check"], lines),
            "pwtool join": ([PWTOOL, "join", "--quiet", texts, passwords], os.devnull),
            "pwtool join of a tenth of the texts": ([PWTOOL, "join", "--quiet", few, passwords], os.devnull),
            "pwtool survey": ([PWTOOL, "survey", "--quiet", surveyed], os.devnull),
            "awk": (["awk", "-F:", AWK, surveyed], os.devnull),
            "sort and join": (sorted_and_joined(folder, texts, passwords), os.devnull),
        }
        least = {name: (float("inf"), 0) for name in commands}
        for _ in range(runs):
            for name, (command, source) in commands.items():
                least[name] = min(least[name], check.run(peak, command, source, "file", folder))
        for name, (seconds, memory) in least.items():
            print(f"{name}: {seconds:.2f} s, {memory // 1024} MiB")
        print(f"check: {least['pwcheck check'][0] / least['pwtool check'][0]:.2f} of pwcheck's speed")
        print(f"join: {least['pwtool join'][0] / least['sort and join'][0]:.2f} of the time of sort and join")
        print(f"survey: {least['pwtool survey'][0] / least['awk'][0]:.2f} of awk's time")
        answered = subprocess.run([PWTOOL, "join", "--quiet", texts, passwords], stdout=subprocess.PIPE, check=False).stdout
        check.need(answered.count(b"\n") == users, "each user has one answer")


if __name__ == "__main__":
    main()
