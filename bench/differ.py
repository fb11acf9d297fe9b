#!/usr/bin/env python3
"""Compares the built program with a reading of pwcheck(1) in Python.

    bench/differ.py [SEED [LINES]]

makes lines from a seed (texts of both SHA-crypt families and of scrypt, near misses, damaged texts, noise, bytes that
are no UTF-8), computes for each the word that its tables want, runs `pwcheck check` and `check --count` on all
of them, and prints each difference. It ends with 0 where there is none. It needs Python 3 with OpenSSL's scrypt, and
the program at crates/pwcheck/out/pwcheck (`cd crates/pwcheck && rt run -- check < /dev/null`).
"""
import binascii
import hashlib
import os
import random
import re
import subprocess
import sys
import time

TOP = os.path.dirname(os.path.dirname(os.path.abspath(__file__)))
PROGRAM = os.environ.get("PWCHECK", os.path.join(TOP, "crates/pwcheck/out/pwcheck"))
CRYPT = "./0123456789ABCDEFGHIJKLMNOPQRSTUVWXYZabcdefghijklmnopqrstuvwxyz"
PLACES_256 = [(0, 10, 20), (21, 1, 11), (12, 22, 2), (3, 13, 23), (24, 4, 14), (15, 25, 5), (6, 16, 26), (27, 7, 17),
              (18, 28, 8), (9, 19, 29), (31, 30)]
PLACES_512 = [(0, 21, 42), (22, 43, 1), (44, 2, 23), (3, 24, 45), (25, 46, 4), (47, 5, 26), (6, 27, 48), (28, 49, 7),
              (50, 8, 29), (9, 30, 51), (31, 52, 10), (53, 11, 32), (12, 33, 54), (34, 55, 13), (56, 14, 35),
              (15, 36, 57), (37, 58, 16), (59, 17, 38), (18, 39, 60), (40, 61, 19), (62, 20, 41), (63,)]


def field(places, digest):
    """The hash field: for each group of bytes its bits, six at a time, the lowest first."""
    text = ""
    for group in places:
        value = 0
        for place in group:
            value = value << 8 | digest[place]
        for _ in range({3: 4, 2: 3, 1: 2}[len(group)]):
            text += CRYPT[value & 63]
            value >>= 6
    return text


def sha_crypt(hasher, password, salt, rounds):
    """Drepper's steps; the salt is cut to 16 bytes."""
    salt = salt[:16]
    size = len(password)
    b = hasher(password + salt + password).digest()
    a = hasher(password + salt)
    a.update((b * (size // len(b) + 1))[:size])
    bits = size
    while bits:
        a.update(b if bits & 1 else password)
        bits >>= 1
    a = a.digest()
    p = (hasher(password * size).digest() * (size // len(a) + 1))[:size]
    s = (hasher(salt * (16 + a[0])).digest() * (len(salt) // len(a) + 1))[:len(salt)]
    c = a
    for i in range(rounds):
        text = p if i % 2 else c
        if i % 3:
            text += s
        if i % 7:
            text += p
        c = hasher(text + (c if i % 2 else p)).digest()
    return c


def encoded(data):
    """Base64 without padding."""
    return binascii.b2a_base64(data, newline=False).rstrip(b"=").decode()


def canonical(text):
    """The bytes whose Base64 without padding the text is, or None."""
    if not re.fullmatch(r"[A-Za-z0-9+/]*", text) or len(text) % 4 == 1:
        return None
    data = binascii.a2b_base64(text + "=" * (-len(text) % 4))
    return data if encoded(data) == text else None


def is_decimal(text, bound):
    return re.fullmatch(r"0|[1-9][0-9]*", text) is not None and int(text) < bound


def looks(n):
    return 4 * (n // 4) + 4


def sha_word(identifier, fields, password):
    hasher, places, length = {"5": (hashlib.sha256, PLACES_256, 43), "6": (hashlib.sha512, PLACES_512, 86)}[identifier]
    rounds = 5000
    if fields and fields[0].startswith("rounds="):
        digits = fields[0][7:]
        if len(fields) == 1 or not is_decimal(digits, 2 ** 64):
            return "sha-format", None
        rounds = int(digits)
        fields = fields[1:]
    if len(fields) != 2:
        return "sha-format", None
    if not 1000 <= rounds <= 999_999_999:
        return "sha-rounds", None
    salt, text = fields
    if len(salt) > 16 or len(text) != length or any(c not in CRYPT for c in text):
        return "sha-format", None
    last = CRYPT.index(text[-1])
    if last >> (4 if length == 43 else 2):
        return "sha-format", None
    good = field(places, sha_crypt(hasher, password, salt.encode(), rounds)) == text
    size = 32 if length == 43 else 64
    return ("match" if good else "mismatch"), (looks(length), 4 + size)


def pair_word(pair):
    name, sign, rest = pair.partition("=")
    if not re.fullmatch(r"[a-z0-9-]{1,32}", name):
        return "phc-name"
    if not sign:
        return "phc-value"
    value, second, _ = rest.partition("=")
    if len(value) > 64:
        return "phc-value-long"
    if not re.fullmatch(r"[A-Za-z0-9/+.-]*", value) or second:
        return "phc-value"
    return None


def fault_of_parts(identifier, version, params, salt, text, rest):
    if len(identifier) > 32:
        return "phc-name"
    if version is not None:
        if len(version) > 64:
            return "phc-value-long"
        if not is_decimal(version, 2 ** 32):
            return "phc-value"
    if params is not None:
        if len(params) > 127:
            return "phc-params-long"
        for pair in params.split(",") if params else []:
            fault = pair_word(pair)
            if fault:
                return fault
    if salt is not None:
        if len(salt) < 11:
            return "phc-salt-short"
        if len(salt) > 64:
            return "phc-salt-long"
        if canonical(salt) is None:
            return "phc-b64"
    if text is not None:
        if len(text) > 86:
            return "phc-hash-long"
        if canonical(text) is None:
            return "phc-b64"
        if len(canonical(text)) < 10:
            return "phc-hash-short"
    return "phc-trailing" if rest else None


def scrypt_cost(identifier, version, params):
    """ln, r and p of a record that scrypt takes, or None."""
    if identifier != "scrypt" or version is not None or params is None:
        return None
    pairs = [pair.split("=") for pair in params.split(",")]
    if sorted(name for name, _ in pairs) != ["ln", "p", "r"] or not all(is_decimal(v, 2 ** 32) for _, v in pairs):
        return None
    cost = {name: int(value) for name, value in pairs}
    ln, r, p = cost["ln"], cost["r"], cost["p"]
    if not 1 <= ln <= 24 or r < 1 or not 1 <= p <= 1024 or r * p > 131_072 or 128 * r * 2 ** ln > 2 ** 28:
        return None
    return (ln, r, p) if ln < 16 * r else None


def phc_word(identifier, fields, password):
    left = list(fields)
    version = left.pop(0)[2:] if left and left[0].startswith("v=") and "," not in left[0] else None
    params = left.pop(0) if left and "=" in left[0] else None
    salt = left.pop(0) if left else None
    text = left.pop(0) if left else None
    fault = fault_of_parts(identifier, version, params, salt, text, left)
    if fault:
        return fault, None
    if salt is None or text is None:
        return "no-hash", None
    cost = scrypt_cost(identifier, version, params)
    want = canonical(text)
    if cost is None or not 10 <= len(want) <= 64:
        return "kdf", None
    ln, r, p = cost
    key = hashlib.scrypt(password, salt=canonical(salt), n=2 ** ln, r=r, p=p, dklen=len(want), maxmem=2 ** 30)
    return ("match" if key == want else "mismatch"), (looks(len(salt)) + looks(len(text)), 8 + len(want))


def answer(line):
    """The word of a line and the counts that stand behind it."""
    if len(line) > 8192:
        return "toolong", None
    try:
        text = line.decode("utf-8")
    except UnicodeDecodeError:
        return "badline", None
    if "\t" not in text:
        return "badline", None
    password, stored = text.rsplit("\t", 1)
    password = password.encode()
    if len(password) > 4096:
        return "password-too-long", None
    if not stored.startswith("$") or stored.endswith("$"):
        return "mcf-delimiter", None
    identifier, *fields = stored[1:].split("$")
    if not re.fullmatch(r"[a-z0-9]([a-z0-9-]*[a-z0-9])?", identifier):
        return "mcf-identifier", None
    for part in fields:
        if not part:
            return "mcf-field", None
        if not re.fullmatch(r"[A-Za-z0-9./+=,-]+", part):
            return "mcf-encoding", None
    if identifier in "56":
        return sha_word(identifier, fields, password)
    return phc_word(identifier, fields, password)


def some(rng, letters, least, most):
    return "".join(rng.choice(letters) for _ in range(rng.randint(least, most)))


def a_password(rng):
    return rng.choice([some(rng, "abcXYZ019 !$\t", 0, 12), some(rng, "pä߀𝄞w", 0, 40), "password", "Hello world!"])


def a_sha_text(rng, password):
    identifier = rng.choice("56")
    hasher, places = (hashlib.sha256, PLACES_256) if identifier == "5" else (hashlib.sha512, PLACES_512)
    rounds = rng.choice([1000, 1000, 1001, 1042])
    salt = some(rng, CRYPT + "+=,-", 1, rng.choice([8, 16, 17]))
    written = rng.choice([f"{rounds}", f"{rounds}", f"0{rounds}", f"+{rounds}"])
    text = field(places, sha_crypt(hasher, password.encode(), salt.encode(), rounds))
    return f"${identifier}$rounds={written}${salt}${text}"


def a_scrypt_text(rng, password):
    salt = rng.randbytes(rng.choice([8, 16, 48]))
    ln, r, p, size = rng.choice([1, 3, 4]), rng.choice([1, 2, 8]), rng.choice([1, 2]), rng.choice([10, 32, 64])
    key = hashlib.scrypt(password.encode(), salt=salt, n=2 ** ln, r=r, p=p, dklen=size)
    pairs = [f"ln={ln}", f"r={r}", f"p={p}"]
    rng.shuffle(pairs)
    plain = [encoded(part) for part in (salt, key)]
    return f"$scrypt${','.join(pairs)}${plain[0]}${plain[1]}"


def a_record(rng):
    """A PHC text whose parts are nearly right."""
    params = [rng.choice(["ln=4", "ln=0", "ln=25", "ln=16"]), rng.choice(["r=1", "r=0", "r=8", "r=08"]),
              rng.choice(["p=1", "p=0", "p=1025"]), rng.choice(["p=1", "a=1", "v=19"])]
    chosen = ",".join(params[:rng.choice([2, 3, 3, 3, 3, 4])])
    parts = [rng.choice(["scrypt", "scrypt", "scrypt", "argon2id", "a" * 32, "a" * 33])]
    parts += rng.choice([[], [], [], ["v=19"]]) + rng.choice([[chosen], [chosen], [chosen], []])
    parts += [rng.choice(["abcdabcdabc", "abcdabcdabc", "abcdabcdab.", some(rng, CRYPT[2:], 9, 66)])]
    parts += [rng.choice(["A" * 14, "A" * 13, "A" * 14, "A" * 86, "A" * 87])]
    return "$" + "$".join(parts + rng.choice([[], [], [], ["A"]]))


def a_form(rng):
    """A text that is put together of parts that are nearly right."""
    if rng.random() < 0.5:
        return a_record(rng)
    part = [some(rng, "abcdefgh0123456789-", 0, rng.choice([3, 34])), rng.choice(["5", "6", "scrypt", "argon2id", "2b"])]
    fields = [rng.choice(["v=19", "v=019", "v=4294967296", "v=1,a=2", "a=1", "a", "a==", "ln=4,r=1,p=1", "ln=4,r=1,p=1,p=1",
                          "ln=30,r=8,p=1", "p=1,r=1,ln=04", "rounds=999", "rounds=0", "rounds=1000",
                          "a=" + "1" * 64, "a=" + "1" * 65, "a=" + "1" * 126, some(rng, CRYPT, 0, 70),
                          some(rng, CRYPT + "+=,- !", 0, 90), "abcdabcdabc", "AAAAAAAAAAAAAA", "AAAAAAAAAAAAAB"])
              for _ in range(rng.randint(0, 5))]
    return rng.choice(["", "$", "$", "$", "$"]) + "$".join([rng.choice(part)] + fields) + rng.choice(["", "", "", "", "$"])


def damaged(rng, line):
    line = bytearray(line)
    for _ in range(rng.choice([1, 1, 2])):
        place = rng.randrange(len(line) + 1)
        kind = rng.randrange(4)
        if kind == 0:
            line[place:place + 1] = b""
        elif kind == 1:
            line[place:place] = bytes([rng.choice(b"$=,.+/AZaz09-\t\x00\xff ")])
        elif kind == 2 and place < len(line):
            line[place] = rng.choice(b"$=,.+/AZaz09-\t\x00\xff ")
        else:
            del line[place:]
    return bytes(line).replace(b"\n", b"")


def a_line(rng):
    kind = rng.randrange(20)
    password = a_password(rng)
    if kind < 3:
        line = f"{password}\t{a_sha_text(rng, password)}".encode()
    elif kind < 6:
        line = f"{password}\t{a_scrypt_text(rng, password)}".encode()
    elif kind < 8:
        line = f"{password}!\t{rng.choice([a_sha_text, a_scrypt_text])(rng, password)}".encode()
    elif kind == 8:
        return bytes(rng.choice(b"$ \t\xc3\xa4\xffa5=") for _ in range(rng.randint(0, 60)))
    elif kind == 9 and rng.random() < 0.05:
        return b"a" * rng.choice([4096, 4097, 8190, 8191, 8192, 8193, 20_000]) + rng.choice([b"", b"\t$", b"\t$5"])
    else:
        line = f"{password}\t{a_form(rng)}".encode()
    return damaged(rng, line) if rng.random() < 0.3 else line


def run(words, data):
    done = subprocess.run([PROGRAM, *words], input=data, stdout=subprocess.PIPE, check=False)
    return done.stdout.split(b"\n")[:-1], done.returncode


def main():
    seed = int(sys.argv[1]) if len(sys.argv) > 1 else 1
    number = int(sys.argv[2]) if len(sys.argv) > 2 else 20_000
    rng = random.Random(seed)
    begin = time.time()
    lines = [a_line(rng) for _ in range(number)]
    wanted = [answer(line) for line in lines]
    data = b"".join(line + b"\n" for line in lines)
    plain, status = run(["check"], data)
    counted, status_counted = run(["check", "--count"], data)
    found = 0
    for line, (word, counts), one, two in zip(lines, wanted, plain, counted):
        behind = f" looks={counts[0]} sames={counts[1]}" if counts else ""
        if one.decode() != word or two.decode() != word + behind:
            found += 1
            print(f"{line!r}: {one!r}, {two!r}; wanted {word}{behind}")
    good = len(plain) == len(counted) == number and status == status_counted == int(any(w != "match" for w, _ in wanted))
    seen = {}
    for word, _ in wanted:
        seen[word] = seen.get(word, 0) + 1
    print(", ".join(f"{word} {count}" for word, count in sorted(seen.items())))
    print(f"seed {seed}: {number} lines, {found} differences, status {status} {'as wanted' if good else 'WRONG'}, "
          f"{time.time() - begin:.0f} s")
    return 0 if good and not found else 1


if __name__ == "__main__":
    sys.exit(main())
