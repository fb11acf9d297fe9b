#!/usr/bin/env python3
"""Compares the numbers that the pages state with those of the sources, so that none is stated twice with two values.

usage: checks/same_numbers.py           (it ends with 1 where a page states another number, or no page states one)
       checks/same_numbers.py changed   (the same, and each found number is changed in turn, which has to be seen)

A fact is a number, where it comes from, and the sentences that state it: patterns with one group, looked for in every page, where
macros of manual pages, comment marks and line ends count as blanks. A fact without a source is stated by pages alone: these have to agree.
"""
import os
import re
import sys

from page_texts import TOP, end, page_texts

CLI = "crates/pwtool_cli/src/cli.rt"
BOUNDS = "crates/rule_options/src/bounds.rt"
LEASTS = "crates/shadow_survey/src/least.rt"

# Where each number of an option stands in a record of costs: the family, and its name there.
NUMBERS = {
    "sha-rounds": ("sha_crypt", "rounds"), "bcrypt-cost": ("bcrypt", "cost"), "yescrypt-ln": ("yescrypt", "ln"), "yescrypt-r": ("yescrypt", "r"),
    "yescrypt-t": ("yescrypt", "t"), "pbkdf2-rounds": ("pbkdf2_sha256", "rounds"),
    "scrypt-ln": ("scrypt", "ln"), "scrypt-r": ("scrypt", "r"), "scrypt-p": ("scrypt", "p"), "argon2-memory": ("argon2", "m"),
    "argon2-passes": ("argon2", "t"), "argon2-lanes": ("argon2", "p"),
}


def in_record(record, name):
    """The pattern of a number in a record of costs."""
    family, number_name = NUMBERS[name]
    return rf"const {record}: .*?\b{family}: Costs \{{[^}}]*?\b{number_name}: ([\d_]+)"


# A name, the file and the pattern of the source (or none), the patterns of the pages, and how often a page states it at least.
FACTS = [
    ("the longest line", ("crates/line_io/src/buffer.rt", r"LINE_MAX: usize = ([\d_]+)"),
     [r"(?<!then )(?:line|one) (?:has|of) more than ([\d,]+) bytes", r"A line has at most ([\d,]+) bytes"], 9),
    ("the longest input", ("crates/line_io/src/buffer.rt", r"INPUT_MAX: u64 = 1 << (\d+)"),
     [r"input has more than 2\^(\d+) bytes", r"up to 2\^(\d+) bytes"], 10),
    ("the longest password", ("crates/phc_kdf/src/lib.rt", r"PASSWORD_MAX: usize = ([\d_]+)"),
     [r"password, which stands before the last tab, has more than ([\d,]+) bytes", r"the password has more than ([\d,]+) bytes",
      r"passwords of (?:more than|at most) ([\d,]+) bytes", r"UTF-8 of at most ([\d,]+) bytes", r"a password at most ([\d,]+)",
      r"PWCHECK_PASSWORD_MAX ([\d,]+)", r"PASSWORD_TOO_LONG = 4, (?:/\*)? ?more than ([\d,]+) bytes"], 9),
    ("the longest text of a table", ("crates/pw_file/src/table.rt", r"TEXT_MAX: usize = ([\d_]+)"),
     [r"text-long`?,? \(more than ([\d,]+) bytes\)"], 2),
    ("the users of pwfile", ("crates/pw_file/src/stored_texts.rt", r"pub const USERS_MAX: usize = ([\d_]+)"),
     [r"crypt format\)\W+full\W+\(the user has no text, and ([\d,]+) users have one", r"`pwfile` keeps its ([\d,]+)"], 2),
    ("the users of pwstore", ("crates/shadow_table/src/any_texts.rt", r"fn users_max\(\) -> usize \{\s*([\d_]+)"),
     [r"or a colon\)\W+full\W+\(the user has no text, and ([\d,]+) users have one", r"and the table at most ([\d,]+) users",
      r"walks through the users that have them, at most ([\d,]+) steps: where", r"`pwtool table` takes ([\d,]+) users"], 3),
    ("the phrases of crypt(3)", ("crates/crypt_text/src/texts.rt", r"PHRASE_MAX: usize = ([\d_]+)"),
     [r"phrase of at most ([\d,]+) bytes", r"a password of up to ([\d,]+) bytes, ended by a zero byte"], 3),
    ("the least rounds of SHA-crypt", ("crates/sha_crypt/src/params.rt", r"ROUNDS_MIN: usize = ([\d_]+)"),
     [r"rounds are (?:outside )?([\d,]+) to 999,999,999", r"rounds of SHA-crypt[^|,]*[|,] ?([\d,]+) to 999,?999,?999"], 3),
    ("the most rounds of SHA-crypt", ("crates/sha_crypt/src/params.rt", r"ROUNDS_MAX: usize = ([\d_]+)"),
     [r"rounds are (?:outside )?1,000 to ([\d,]+)", r"rounds of SHA-crypt[^|,]*[|,] ?1,?000 to ([\d,]+)"], 3),
    ("the rounds of SHA-crypt where none are named", ("crates/sha_crypt/src/params.rt", r"ROUNDS_DEFAULT: usize = ([\d_]+)"),
     [r"where it is left out, the rounds are ([\d,]+)", r"[Tt]he default of ([\d,]+)(?: rounds is)? too"], 2),
    ("scrypt's p", (BOUNDS, in_record("SCHEMES_OWN", "scrypt-p")), [r"\b[pP] (?:is )?at most ([\d,]+), `?[rR]"], 2),
    ("scrypt's r p", (BOUNDS, in_record("SCHEMES_OWN", "scrypt-r")), [r"[rR] (?:\* )?[pP]`? at most ([\d,]+)"], 2),
    ("the logarithm of scrypt's table", None, [r"128 (?:\* )?[rR] (?:\* )?2\^(?:ln|L)`? (?:is )?at most 2\^(\d+)"], 3),
    ("scrypt's greatest ln", None, [r"[sS]o (?:ln|L) is at most (\d+)"], 3),
    ("scrypt's greatest ln with r = 8", None,
     [r"with r = 8 at most (\d+)", r"with R = 8 at most (\d+)", r"and at most (\d+) for r = 8", r"and at (?:most )?(\d+) (?:for|with) r = 8"], 3),
    ("what wrap and unwrap take", ("crates/pwcheck_run/src/streams.rt", r"LONGEST_KEPT: u64 = ([\d_]+)"),
     [r"for `wrap` and `unwrap` more than ([\d,]+)", r"take at most ([\d,]+) bytes"], 1),
    ("the answers that wait", None, [r"where ([\d,]+) bytes wait", r"Answers wait in ([\d,]+) bytes"], 2),
    ("the kit", None, [r"rattle-kit-(\w+) logic"], 1),
    ("the logic", None, [r"rattle-kit-\w+ logic ([0-9a-f]+)"], 1),
    ("the words that the first command prints", ("examples/passwords.txt", len), [r"prints (\d+) words"], 1),
    ("the lines of 81 makers", None, [r"([\d,]+) lines(?: of 81 makers|,? every answer (?:was )?as the maker says)"], 1),
    ("the processor minutes of the gate", None, [r"from nothing it takes some (\d+)\s+minutes of processor time", r"so the whole takes some (\d+) minutes there"], 2),
    ("the minutes of the first answer", None, [r"prints the same: (\d+) minutes on four cores", r"first\.sh` took (\d+) minutes by the clock"], 2),
    ("the processor minutes of the first answer", None, [r"minutes on four cores and (\d+) of processor time", r"first answer (\d+) of processor time"], 2),
    ("the status of bad words", ("crates/pwtool_forms/src/status.rt", r"BAD_WORDS: u8 = (\d+)"),
     [r"(\d+) \|? ?the words of the command line are no form of the program"], 2),
    ("the status of a file that can't be opened", ("crates/pwtool_forms/src/status.rt", r"NO_FILE: u8 = (\d+)"),
     [r"(\d+) \|? ?a file can't be opened", r"It (\d+) a file can't"], 1),
]
for name in ("sha256-rounds", "sha512-rounds", "bcrypt-cost", "yescrypt-memory", "scrypt-memory", "scrypt-work", "pbkdf2-rounds",
             "pbkdf2-sha512-rounds", "argon2-memory", "argon2-work"):
    field = name.replace("pbkdf2-rounds", "pbkdf2-sha256-rounds").replace("-", "_")
    FACTS.append((f"--least-{name}", (LEASTS, rf"const RECOMMENDED_LEAST: .*?\b{field}: ([\d_]+)"),
                  [r"-least-" + name + r" = N ([\d,]+)[:,]"], 1))
for name in ("sha-rounds", "bcrypt-cost", "yescrypt-ln", "yescrypt-r", "yescrypt-t", "pbkdf2-rounds", "scrypt-ln", "scrypt-r", "scrypt-p",
             "argon2-memory", "argon2-passes", "argon2-lanes"):
    FACTS.append((f"--max-{name}", (BOUNDS, in_record("SCHEMES_OWN", name)),
                  [r"-max-" + name + r" = N [^|.]*?,? \d+ to ([\d,]+)"], 1))


def plain(page, text):
    """A page's text on one line, without macros, comment marks and font changes."""
    if page.startswith("man/"):
        text = re.sub(r"^\.It Fl ", "-", text, flags=re.M)
        text = re.sub(r"^\.(?:It Li|It|Li|Ql|Fl|Ar|Cm|Nm|Xr|Sy|Em|Pq|Pp|El|Bl.*|Ss.*|Sh.*)\b ?", " ", text, flags=re.M)
        text = text.replace(" Ns", "").replace(" Ar ", " ").replace("\\", "")
    if page.startswith("include/"):
        text = re.sub(r"^ \* ?", " ", text, flags=re.M)
    return re.sub(r"\s+", " ", text)


def number(text):
    return text.replace(",", "").replace("_", "").strip()


def value_of(source):
    """What the source says."""
    path, pattern = source
    with open(os.path.join(TOP, path), encoding="utf-8") as file:
        text = file.read()
    if pattern is len:
        return str(len(text.splitlines()))
    found = re.search(pattern, text, re.S)
    return number(found.group(1)) if found else None


def places(patterns, pages):
    """Where a fact is stated: the page, the place, the number."""
    found = []
    for page, text in pages.items():
        for pattern in patterns:
            found += [(page, each.span(1), number(each.group(1))) for each in re.finditer(pattern, text)]
    return sorted(set(found))


def faults_of(fact, pages):
    name, source, patterns, least = fact
    stated = places(patterns, pages)
    faults = []
    if len(stated) < least:
        faults.append(f"{name}: stated {len(stated)} times, {least} were known: {stated}")
    wanted = value_of(source) if source else (stated[0][2] if stated else None)
    if wanted is None:
        faults.append(f"{name}: its source has no number")
    faults += [f"{page}: {name} is {value}, elsewhere {wanted}" for page, _, value in stated if value != wanted]
    return faults, stated


def unseen(fact, pages, stated):
    """The places of a fact where another number isn't noticed."""
    for page, (start, end), value in stated:
        if fact[1] is None and len(stated) < 2:
            continue
        other = dict(pages)
        other[page] = pages[page][:start] + str(int(value, 16) + 1) + pages[page][end:]
        if not faults_of(fact, other)[0]:
            yield f"{page}: another number of {fact[0]} isn't noticed"


def main():
    # docs/PROGRAMS.md is made of the manual pages.
    pages = {page: plain(page, text) for page, text in page_texts().items() if page != "docs/PROGRAMS.md"}
    faults, count = [], 0
    for fact in FACTS:
        found, stated = faults_of(fact, pages)
        faults += found
        count += len(stated)
        if sys.argv[1:] == ["changed"]:
            faults += unseen(fact, pages, stated)
    end(faults, f"same_numbers: {len(FACTS)} facts, stated {count} times")


if __name__ == "__main__":
    main()
