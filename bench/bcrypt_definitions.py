#!/usr/bin/env python3
"""Runs the definitions of crates/bcrypt_plain/specs, transcribed word for word, beside libxcrypt.

It compares the words of pi with those that another formula gives (Stormer's), the texts of random passwords of any bytes
but zero and random salts at cost 4 with libxcrypt's, and the answers to texts in which characters are changed, left out
or put in: by the definition a password matches exactly where libxcrypt's crypt gives the very text back and its
identifier is `2a`, `2b` or `2y`. Of some passwords with a byte of 255 the hash of `2a` is another one: which these are is
compared for 50 times as many passwords, with libxcrypt's texts of `2a` and `2b` and with the arithmetic of the fault of `2x`, and
the hash itself for a fifth of the texts. libcrypt.so.1 is called through ctypes. It installs nothing and runs no code of ours.

usage: bench/bcrypt_definitions.py [SEED [TEXTS]]      (1 and 60 if left out; two to three seconds a text)
"""
import random
import sys

from building import need
from libxcrypt import crypt_r, edited

CHARACTERS = "./ABCDEFGHIJKLMNOPQRSTUVWXYZabcdefghijklmnopqrstuvwxyz0123456789"
LENGTHS = [0, 1, 2, 3, 4, 5, 7, 8, 15, 16, 17, 30, 35, 36, 55, 56, 57, 70, 71, 72, 73, 74, 80, 100, 254, 255, 256, 300]

# ---- specs/Pi

SPARE_BITS = 64
BIT_COUNT = 32 * 1042 + SPARE_BITS


def alternating(terms, square, odd, power):
    rows = []
    for _ in range(terms):
        rows.append(power // odd)
        odd, power = odd + 2, power // square
    value = 0
    for row in reversed(rows):
        value = row - value
    return value


def arctan_inverse(terms, n):
    return alternating(terms, n * n, 1, 2 ** BIT_COUNT // n)


def pi_scaled():
    return 16 * arctan_inverse(7300, 5) - 4 * arctan_inverse(2200, 239)


def words_before(n, v):
    words = []
    for _ in range(n):
        words, v = [v % 2 ** 32] + words, v // 2 ** 32
    return words


PI_WORDS = words_before(1042, pi_scaled() // 2 ** SPARE_BITS)


# ---- specs/Blowfish

def subkey(x, i):
    return x[i]


def s_box(x, j, a):
    return x[18 + 256 * j + a]


def add32(x, y):
    return (x + y) % 2 ** 32


def f_fn(x, w):
    return add32(add32(s_box(x, 0, w // 2 ** 24), s_box(x, 1, w // 2 ** 16 % 256)) ^ s_box(x, 2, w // 2 ** 8 % 256),
                 s_box(x, 3, w % 256))


def encrypt(x, block):
    for i in range(16):
        entered = (block[0] ^ subkey(x, i), block[1])
        block = (f_fn(x, entered[0]) ^ entered[1], entered[0])
    return (block[1] ^ subkey(x, 17), block[0] ^ subkey(x, 16))


# ---- specs/Schedule

def cyclic_word(key, i):
    return int.from_bytes(bytes(key[(4 * i + k) % len(key)] for k in range(4)), "big")


def key_words(key):
    return [cyclic_word(key, i) for i in range(18)]


def expand_key(x, salt, key):
    salt, key = key_words(salt), key_words(key)
    x = [x[i] ^ key[i] for i in range(18)] + x[18:]
    last = (0, 0)
    for k in range(521):
        last = encrypt(x, (last[0] ^ salt[2 * (k % 2)], last[1] ^ salt[2 * (k % 2) + 1]))
        x[2 * k], x[2 * k + 1] = last
    return x


def setup_from(x, cost, salt, key):
    x = expand_key(x, salt, key)
    for _ in range(2 ** cost):
        x = expand_key(expand_key(x, bytes(16), key), bytes(16), salt)
    return x


# ---- specs/Bcrypt

def first_bytes(x):
    ctext = b""
    for i in range(3):
        block = (cyclic_word(b"OrpheanBeholderScryDoubt", 2 * i), cyclic_word(b"OrpheanBeholderScryDoubt", 2 * i + 1))
        for _ in range(64):
            block = encrypt(x, block)
        ctext += block[0].to_bytes(4, "big") + block[1].to_bytes(4, "big")
    return ctext[:23]


def bcrypt(password, salt, cost):
    return first_bytes(setup_from(PI_WORDS, cost, salt, password + b"\0"))


# ---- specs/Measure

def is_high(b):
    return b >= 128


def is_ones(b):
    return b == 255


def is_filled(a, b, c, d):
    return is_high(b) or is_high(c) or is_high(d)


def is_kept(a, b, c, d):
    return ((not is_high(b) or is_ones(a)) and (not is_high(c) or is_ones(a) and is_ones(b))
            and (not is_high(d) or is_ones(a) and is_ones(b) and is_ones(c)))


def is_measured(password):
    key = password + b"\0"
    words = [[key[(4 * i + k) % len(key)] for k in range(4)] for i in range(18)]
    return all(is_kept(*word) for word in words) and any(is_filled(*word) for word in words)


def measured_bcrypt(password, salt, cost):
    first = [PI_WORDS[0] ^ 2 ** 16] + PI_WORDS[1:] if is_measured(password) else PI_WORDS
    return first_bytes(setup_from(first, cost, salt, password + b"\0"))


# ---- specs/Field, specs/Made

def bcrypt_field(some):
    bits = "".join(f"{byte:08b}" for byte in some)
    bits += "0" * (-len(bits) % 6)
    return "".join(CHARACTERS[int(bits[i:i + 6], 2)] for i in range(0, len(bits), 6)).encode()


def field_bytes(m, text):
    """The bytes whose field a text of m characters is: found by trying the one candidate that the bits give."""
    if len(text) != m or any(chr(c) not in CHARACTERS for c in text):
        return None
    bits = "".join(f"{CHARACTERS.index(chr(c)):06b}" for c in text)
    found = bytes(int(bits[i:i + 8], 2) for i in range(0, len(bits) - 7, 8))
    return found if bcrypt_field(found) == text else None


def text_of(identifier, cost, salt, hashed):
    return b"$".join([b"", identifier, b"%d%d" % (cost // 10, cost % 10), bcrypt_field(salt) + bcrypt_field(hashed)])


# ---- specs/Text, specs/Check

def text_fields(text):
    front, *others = text.split(b"$")
    if front:
        return "NoDollar"
    if not others:
        return "WrongId"
    if others[0] in (b"2", b"2x"):
        return "Obsolete"
    if others[0] not in (b"2a", b"2b", b"2y"):
        return "WrongId"
    if len(others) < 2:
        return "NoCost"
    if len(others) < 3:
        return "NoHash"
    return "Trailing" if len(others) > 3 else (others[1], others[2])


def text_parts(text):
    fields = text_fields(text)
    if isinstance(fields, str):
        return fields
    cost, rest = fields
    if not (len(cost) == 2 and all(48 <= c <= 57 for c in cost) and 4 <= 10 * (cost[0] - 48) + cost[1] - 48 <= 31):
        return "Cost"
    if len(rest) != 53:
        return "Length"
    salt, hashed = field_bytes(22, rest[:22]), field_bytes(31, rest[22:])
    if salt is None or hashed is None:
        return "SpareBits" if all(chr(c) in CHARACTERS for c in rest) else "Character"
    return 10 * (cost[0] - 48) + cost[1] - 48, salt, hashed


def bcrypt_answer(password, text):
    parts = text_parts(text)
    if isinstance(parts, str):
        return parts
    if 0 in password:
        return "ZeroByte"
    cost, salt, hashed = parts
    return "Ok" if bcrypt(password, salt, cost) == hashed else "HashMismatch"


# ---- beside others

def stormer():
    """pi = 24 arctan(1/8) + 8 arctan(1/57) + 4 arctan(1/239), by a loop of its own."""
    bits = 32 * 1042 + 256
    total = 0
    for factor, n in ((24, 8), (8, 57), (4, 239)):
        power, odd, sign = 2 ** bits // n, 1, 1
        while power:
            total += sign * factor * (power // odd)
            power, odd, sign = power // (n * n), odd + 2, -sign
    fraction = total % 2 ** bits >> 256
    return [fraction >> 32 * (1041 - k) & 0xffffffff for k in range(1042)]


def changed(rnd, text):
    """A text with one to three characters changed; where it stays one of bcrypt's, its cost is 4 or 5."""
    def place(text):
        return rnd.choice([0, 1, 2, 3, 4, 5, 6, 7, 27, 28, 28, 28, 29, 58, 59, 59, 59, 60, rnd.randrange(60)])
    made = edited(rnd, text, place, CHARACTERS + "$$$+,-=:; axyb")
    parts = text_parts(made)
    dear = not isinstance(parts, str) and parts[0] > 5
    return changed(rnd, text) if dear else made


def is_measured_by_sign(password):
    """The same by arithmetic: the words of bytes, and those of bytes that are negative numbers above 127, are the same words,
    and a negative number was put to bits before it."""
    key, differ, sign = password + b"\0", 0, 0
    for i in range(18):
        right = wrong = 0
        for j in range(4):
            byte = key[(4 * i + j) % len(key)]
            right = (right << 8 | byte) % 2 ** 32
            wrong = (wrong << 8 | (byte - 256 if byte > 127 else byte)) % 2 ** 32
            sign |= j > 0 and wrong & 128
        differ |= right ^ wrong
    return differ == 0 and sign != 0


def high_password(rnd):
    """A password with high bytes, of which many are measured: bytes of 255 before a high one, at a word's first byte or another."""
    length = rnd.choice(LENGTHS[1:] + [6, 9, 11, 13, 35, 68, 69])
    kind = rnd.randrange(4)
    if kind == 0:
        return bytes(rnd.randrange(1, 256) for _ in range(length))
    if kind == 1:
        return bytes(rnd.choice([255, 255, 255, 0xa3, 0x80, 0x7f, 0xfe]) for _ in range(length))
    password = bytearray(rnd.randrange(1, 128) for _ in range(length))
    for _ in range(rnd.choice([1, 1, 2, 3, 8])):
        place, before = rnd.randrange(length), rnd.randrange(4)
        place -= place % 4 if kind == 2 else 0
        for k in range(place, min(length, place + before)):
            password[k] = 255
        if place + before < length:
            password[place + before] = rnd.randrange(128, 256)
    return bytes(password)


def measure(rnd, call, count):
    """Which passwords are measured, and the hashes of some of them."""
    measured = agree = 0
    for _ in range(50 * count):
        password, salt = high_password(rnd), bcrypt_field(rnd.randbytes(16))
        ours = is_measured(password)
        theirs = call(password, b"$2a$04$" + salt)[29:] != call(password, b"$2b$04$" + salt)[29:]
        need(ours == theirs == is_measured_by_sign(password), f"measured or not: {password}")
        measured += ours
    for k in range(count // 5):
        password, salt = high_password(rnd), rnd.randbytes(16)
        while k % 2 == 0 and not is_measured(password):
            password = high_password(rnd)
        agree += call(password, b"$2a$04$" + bcrypt_field(salt)) == text_of(b"2a", 4, salt, measured_bcrypt(password, salt, 4))
    need(agree == count // 5, f"hashes of 2a: {agree} of {count // 5} agree")
    print(f"the measure of 2a: {50 * count} passwords, {measured} of them measured, agree; {agree} hashes are libxcrypt's")


def main():
    rnd = random.Random(int(sys.argv[1]) if len(sys.argv) > 1 else 1)
    count = int(sys.argv[2]) if len(sys.argv) > 2 else 60
    call = crypt_r()
    need(PI_WORDS == stormer(), "the words of pi differ")
    agree, rows, answers = 0, 0, {}
    for _ in range(count):
        password = bytes(rnd.randrange(1, 256) for _ in range(rnd.choice(LENGTHS)))
        salt = rnd.randbytes(16)
        text = text_of(b"2y", 4, salt, bcrypt(password, salt, 4))
        agree += call(password, text[:29]) == text
        ascii_word = bytes(rnd.randrange(1, 128) for _ in range(rnd.choice(LENGTHS)))
        stored = call(ascii_word, b"$2%c$04$" % rnd.choice(b"aby") + bcrypt_field(salt))
        need(bcrypt_answer(ascii_word, stored) == "Ok", f"no match: {stored}")
        for _ in range(20):
            other = changed(rnd, stored)
            answer = bcrypt_answer(ascii_word, other)
            same = call(ascii_word, other) == other and other[:4] in (b"$2a$", b"$2b$", b"$2y$")
            need((answer == "Ok") == same, f"libxcrypt disagrees: {answer} {other}")
            rows += 1
            answers[answer] = answers.get(answer, 0) + 1
    measure(rnd, call, count)
    print(f"words of pi: 1042 agree; texts of the definition at cost 4: {agree} of {count} are libxcrypt's")
    print(f"changed texts: {rows} answers agree with libxcrypt's: "
          + ", ".join(f"{answer} {times}" for answer, times in sorted(answers.items())))
    sys.exit(0 if agree == count else 1)


main()
