#!/usr/bin/env python3
"""Runs the definitions of crates/sha1_crypt/specs, transcribed word for word, beside libxcrypt and passlib.

It compares the texts `$sha1$rounds$salt$hash` of random passwords of any bytes but zero, with random salts and rounds, with those of
libxcrypt's crypt and of passlib's own code. Then it compares the answers to these texts, to texts of other passwords, and to texts in
which characters are changed, left out or put in. By the definition a password matches exactly where libxcrypt gives the very text back, its
rounds are 1 to 2^32 - 1, and its salt has at most 64 characters. passlib refuses each text with a fault but three kinds: those with
an empty salt, those whose rounds have a sign or a blank that Python's int takes, and those whose hash ends in another byte than its first,
which match no password. Texts that name more than MOST rounds are not hashed: how passlib reads them is compared. libcrypt.so.1 is called
through ctypes. The script installs nothing and runs no code of ours.

usage: /usr/bin/python3 bench/sha1_crypt.py [SEED [TEXTS]]      (1 and 1000 if left out; passlib is the system's Python's)
"""
import hashlib
import random
import sys

from passlib.hash import sha1_crypt as of_passlib

from building import need
from libxcrypt import CHARACTERS, crypt_r, edited

LENGTHS = [0, 1, 2, 7, 8, 16, 19, 20, 21, 55, 56, 63, 64, 65, 80, 119, 128, 255, 300]
SALTS = [1, 2, 3, 8, 8, 16, 21, 22, 63, 64]
ROUNDS = [1, 1, 2, 3, 9, 10, 19, 99, 100, 255, 256, 1000]
MOST = 2000
DAMAGED = 4
MAP_SHA1 = [2, 1, 0, 5, 4, 3, 8, 7, 6, 11, 10, 9, 14, 13, 12, 17, 16, 15, 20, 19, 18]


class Fault(Exception):
    pass


def so(condition, name):
    if not condition:
        raise Fault(name)


# ---- specs/Hmac of hmac_plain and hmac_sha1

def sha1(message):
    return hashlib.sha1(message).digest()


def short_key(key):
    return sha1(key) if 64 < len(key) else key


def block_key(key):
    return short_key(key) + bytes(64 - len(short_key(key)))


def xored(block, byte):
    return bytes(b ^ byte for b in block)


def hmac_sha1(key, text):
    return sha1(xored(block_key(key), 0x5c) + sha1(xored(block_key(key), 0x36) + text))


# ---- specs/Digest

def first_message(salt, rounds):
    return salt + b"$sha1$" + b"%d" % rounds


def after_rounds(password, message, n):
    for _ in range(n):
        message = hmac_sha1(password, message)
    return message


def sha1_digest(password, salt, rounds):
    return after_rounds(password, first_message(salt, rounds), rounds)


# ---- specs/Field, and the encoding that it names

def in_order(places, some):
    return bytes(some[k] for k in places)


def encoding(some):
    """Six bits a character, the lowest bits first."""
    bits = [byte >> k & 1 for byte in some for k in range(8)]
    bits += [0] * (-len(bits) % 6)
    return "".join(CHARACTERS[sum(bits[i + k] << k for k in range(6))] for i in range(0, len(bits), 6)).encode()


def decoding(text):
    """The bytes whose encoding a text is."""
    if any(chr(c) not in CHARACTERS for c in text):
        return None
    bits = [CHARACTERS.index(chr(c)) >> k & 1 for c in text for k in range(6)]
    found = bytes(sum(bits[i + k] << k for k in range(8)) for i in range(0, len(bits) - 7, 8))
    return found if encoding(found) == text else None


def with_first(digest):
    return digest + digest[:1]


def sha1_field(digest):
    return encoding(in_order(MAP_SHA1, with_first(digest)))


def digest_of(written):
    return written[:20] if written[20] == written[0] else None


# ---- specs/Text

def text_fields(text):
    front, *others = text.split(b"$")
    so(front == b"", "NoDollar")
    so(others and others[0] == b"sha1", "WrongId")
    pieces = others[1:]
    so(len(pieces) > 0, "NoRounds")
    so(len(pieces) > 1, "NoSalt")
    so(len(pieces) > 2, "NoHash")
    so(len(pieces) == 3, "Trailing")
    return pieces


def plain_number(bound, text):
    digits = all(48 <= c <= 57 for c in text)
    leading = len(text) > 1 and text[:1] == b"0"
    return int(text) if digits and not leading and len(text) >= 1 and int(text) < bound else None


def rounds_of(text):
    number = plain_number(2 ** 32, text)
    return None if number == 0 else number


def are_crypt_characters(text):
    return all(46 <= c <= 57 or 65 <= c <= 90 or 97 <= c <= 122 for c in text)


def text_parts(text):
    rounds, salt, hashed = text_fields(text)
    rounds = rounds_of(rounds)
    so(rounds is not None, "Rounds")
    so(1 <= len(salt) <= 64, "SaltLength")
    so(are_crypt_characters(salt), "SaltCharacter")
    so(len(hashed) == 28, "HashLength")
    found = decoding(hashed)
    so(found is not None and len(found) == 21, "HashCharacter")
    digest = digest_of(in_order(MAP_SHA1, found))
    so(digest is not None, "FirstByte")
    return rounds, salt, digest


# ---- specs/Check

def sha1_answer(password, text):
    rounds, salt, digest = text_parts(text)
    return sha1_digest(password, salt, rounds) == digest


def text_of(rounds, salt, digest):
    return b"$".join([b"", b"sha1", b"%d" % rounds, salt, sha1_field(digest)])


# ---- beside others

def salt_of(rnd):
    return "".join(rnd.choice(CHARACTERS) for _ in range(rnd.choice(SALTS))).encode()


def number_of(text):
    """The number of rounds as C's strtoul reads it, at most that of 20 digits."""
    digits = (text.split(b"$") + [b""] * 3)[2].lstrip(b" \t\n\v\f\r")
    sign, digits = digits[:1] == b"-", digits.lstrip(b"+-")
    front = digits[:len(digits) - len(digits.lstrip(b"0123456789"))]
    number = int(front) if front else 0
    return 2 ** 64 - number if sign and number else number


def changed(rnd, text):
    """A text with one to three characters changed, put in or left out; the front of the text and its ends more often."""
    def place(text):
        return rnd.choice([0, 1, 5, 6, 7, 8, 9, len(text) - 28, len(text) - 29, len(text) - 4, len(text) - 3, len(text) - 2,
                           len(text) - 1, len(text), rnd.randrange(len(text) + 1)])
    return edited(rnd, text, place, CHARACTERS + "0001$$$$+,-=:; ")


def other_form(rnd, text, password, call):
    """A text of another form: with a longer or an empty salt, with 0 or other rounds, with a hash that ends in another byte."""
    pieces = text.split(b"$")
    kind = rnd.randrange(6)
    if kind == 0:
        return call(password, b"$sha1$%s$%s" % (pieces[2], b"a" * rnd.choice([64, 65, 66, 100])))
    if kind == 1:
        return call(password, b"$sha1$0$" + pieces[3])
    if kind == 2:
        return of_passlib.using(salt="", rounds=int(pieces[2])).hash(password).encode()
    if kind == 3:
        return text[:-4] + "".join(rnd.choice(CHARACTERS) for _ in range(4)).encode()
    if kind == 4:
        number = rnd.choice([b"0", b"00", b"01", b"4294967295", b"4294967296", b"18446744073709551617", b"", b"+1", b"1 ", b"1.", b"9" * 30])
        return b"$".join(pieces[:2] + [number] + pieces[3:])
    return text + rnd.choice([b"$", b"$x", b"."])


def by_libxcrypt(call, password, text):
    """Whether libxcrypt gives the very text back."""
    return call(password, text) == text


def by_passlib(password, text):
    """passlib's verdict; None where it refuses the text."""
    try:
        return of_passlib.verify(password, text.decode())
    except ValueError:
        return None


def answer(password, text):
    try:
        return sha1_answer(password, text)
    except Fault as fault:
        return str(fault)


def fault_of(text):
    try:
        text_parts(text)
        return None
    except Fault as fault:
        return str(fault)


def takes_more(fault, pieces):
    """A text with such a fault may be one that passlib takes: with an empty salt, or with rounds that Python's int takes."""
    return fault == "SaltLength" and pieces[3] == b"" or fault == "Rounds" and not pieces[2].isdigit()


def compare_read(text):
    """The first fault of a text that would take too long; passlib has to read the text or to refuse it as the definition does."""
    fault = fault_of(text)
    try:
        read = of_passlib.from_string(text.decode()).checksum is not None
    except ValueError:
        read = False
    need(read == (fault in (None, "FirstByte")) or read and takes_more(fault, text.split(b"$")), f"passlib disagrees: {fault} {text}")
    return f"read alone: {fault}"


def compare(call, password, text):
    """The answer by the definition, which the two others must have too."""
    ours, theirs, pieces = answer(password, text), by_passlib(password, text), text.split(b"$")
    given_back = by_libxcrypt(call, password, text)
    outside = given_back and (number_of(text) == 0 or len(pieces[3]) > 64)
    need((ours is True) == (given_back and not outside), f"libxcrypt disagrees: {ours} {password} {text}")
    if isinstance(ours, bool):
        need(theirs is ours, f"passlib disagrees: {ours} {password} {text}")
    elif ours == "FirstByte":
        need(theirs is False, f"passlib disagrees: {ours} {password} {text}")
    else:
        need(theirs is None or takes_more(ours, pieces), f"passlib disagrees: {ours} {password} {text}")
    return "Outside" if outside else ours


def main():
    rnd = random.Random(int(sys.argv[1]) if len(sys.argv) > 1 else 1)
    count = int(sys.argv[2]) if len(sys.argv) > 2 else 1000
    call = crypt_r()
    of_passlib.set_backend("builtin")
    answers, made = {}, 0
    for _ in range(count):
        password = bytes(rnd.randrange(1, 256) for _ in range(rnd.choice(LENGTHS)))
        salt, rounds = salt_of(rnd), rnd.choice(ROUNDS)
        text = text_of(rounds, salt, sha1_digest(password, salt, rounds))
        need(call(password, b"$sha1$%d$%s$" % (rounds, salt)) == text, f"libxcrypt's text is another one: {text}")
        need(of_passlib.using(salt=salt.decode(), rounds=rounds).hash(password).encode() == text, f"passlib's text is another one: {text}")
        made += 1
        others = [text, text_of(rounds, salt, sha1_digest(password + b"x", salt, rounds)), other_form(rnd, text, password, call)]
        for other in others + [changed(rnd, text) for _ in range(DAMAGED)]:
            said = compare_read(other) if number_of(other) > MOST else str(compare(call, password, other))
            answers[said] = answers.get(said, 0) + 1
    print(f"{made} texts of the definition are libxcrypt's and passlib's")
    print(f"{sum(answers.values())} answers agree with theirs: " + ", ".join(f"{said} {times}" for said, times in sorted(answers.items())))


main()
