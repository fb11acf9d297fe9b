#!/usr/bin/env python3
"""Compares a transcription of yescrypt_plain's definitions into Python with libxcrypt's crypt(3).

The functions are those of crates/yescrypt_plain/specs (Numbers, Params, Words, Pwxform, BlockMix, Smix, Yescrypt, Text),
word for word, on lists of numbers. Random passwords and settings of small costs are asked of both, by default 60 of each
form; where the definitions give a text, libxcrypt must give the same one. libcrypt.so.1 is called through ctypes. It
installs nothing.

usage: bench/yescrypt_definitions.py [SEED [COUNT]]
"""
import hashlib
import hmac as _hmac
import random
import sys

from libxcrypt import CHARACTERS, crypt_field, crypt_r

M32, M64 = 2 ** 32 - 1, 2 ** 64 - 1


def hmac(key, text):
    return _hmac.new(key, text, hashlib.sha256).digest()


def pbkdf2_once(password, salt, length):
    return hashlib.pbkdf2_hmac("sha256", password, salt, 1, length)


# ---- Salsa20 on sixteen words

def rotated(x, n):
    return ((x << n) | (x >> (32 - n))) & M32


def quarter(x, a, b, c, d):
    x[b] ^= rotated((x[a] + x[d]) & M32, 7)
    x[c] ^= rotated((x[b] + x[a]) & M32, 9)
    x[d] ^= rotated((x[c] + x[b]) & M32, 13)
    x[a] ^= rotated((x[d] + x[c]) & M32, 18)


def salsa20(words, double_rounds):
    x = list(words)
    for _ in range(double_rounds):
        for a, b, c, d in ((0, 4, 8, 12), (5, 9, 13, 1), (10, 14, 2, 6), (15, 3, 7, 11),
                           (0, 1, 2, 3), (5, 6, 7, 4), (10, 11, 8, 9), (15, 12, 13, 14)):
            quarter(x, a, b, c, d)
    return [(a + b) & M32 for a, b in zip(x, words)]


# ---- blocks as eight words of 64 bits, in yescrypt's order

def simd_block(x):
    s = [x[5 * k % 16] for k in range(16)]
    return [s[2 * i] | s[2 * i + 1] << 32 for i in range(8)]


def plain_block(d):
    s = [v for x in d for v in (x & M32, x >> 32)]
    out = [0] * 16
    for k in range(16):
        out[5 * k % 16] = s[k]
    return out


def words(data):
    return [int.from_bytes(data[i:i + 4], "little") for i in range(0, len(data), 4)]


def simd_row(data):
    ws = words(data)
    return [x for i in range(0, len(ws), 16) for x in simd_block(ws[i:i + 16])]


def plain_bytes(row):
    return b"".join(w.to_bytes(4, "little") for i in range(0, len(row), 8) for w in plain_block(row[i:i + 8]))


def xor(a, b):
    return [x ^ y for x, y in zip(a, b)]


# ---- pwxform and BlockMix

def pwx_group(s0, s1, x, y):
    low, high = (x & M32) // 16 % 256, (x >> 32) // 16 % 256
    return [((((v >> 32) * (v & M32) + s0[2 * low + k]) & M64) ^ s1[2 * high + k]) for k, v in ((0, x), (1, y))]


def pwx_round(s0, s1, b):
    return [v for j in range(0, 8, 2) for v in pwx_group(s0, s1, b[j], b[j + 1])]


def pwxform(boxes, b):
    s0, s1, s2, w = boxes
    rounds = [b]
    for _ in range(6):
        rounds.append(pwx_round(s0, s1, rounds[-1]))
    inner = rounds[2] + rounds[3] + rounds[4] + rounds[5]
    return rounds[6], (s2[:w] + inner + s2[w + 32:], s0, s1, (w + 32) % 512)


def block_mix(row, boxes):
    n = len(row) // 8
    x, out = row[8 * n - 8:], []
    for i in range(n):
        x, boxes = pwxform(boxes, xor(x, row[8 * i:8 * i + 8]))
        out.append(x)
    out[-1] = simd_block(salsa20(plain_block(out[-1]), 1))
    return [v for block in out for v in block], boxes


# ---- SMix

def p2floor(i):
    return 1 << (i.bit_length() - 1)


def smix(row, n, turns, boxes, r):
    v, x = [], row
    for i in range(n):
        v.append(x)
        if i > 1:
            x = xor(x, v[(x[16 * r - 8] & M32) % p2floor(i) + i - p2floor(i)])
        x, boxes = block_mix(x, boxes)
    for _ in range(turns):
        j = (x[16 * r - 8] & M32) % n
        x = v[j] = xor(x, v[j])
        x, boxes = block_mix(x, boxes)
    return x


def scrypt_rows(first, count):
    """scrypt's V[0] to V[count] with r = 1."""
    rows, b = [first], words(first)
    for _ in range(count):
        one = salsa20([x ^ y for x, y in zip(b[16:], b[:16])], 4)
        two = salsa20([x ^ y for x, y in zip(one, b[16:])], 4)
        b = one + two
        rows.append(b"".join(w.to_bytes(4, "little") for w in b))
    return rows


def mixed_key(password, salt, r, n, t):
    part = pbkdf2_once(password, salt, 128 * r)
    rows = scrypt_rows(part[:128], 96)
    s = [w for row in rows[:96] for w in simd_row(row)]
    boxed = rows[96] + part[128:]
    turns = (n + 2) // 3 if t == 0 else (2 * n + 2) // 3 if t == 1 else n * (t - 1)
    mixed = plain_bytes(smix(simd_row(boxed), n, turns + turns % 2, (s[1024:], s[512:1024], s[:512], 0), r))
    return pbkdf2_once(hmac(boxed[128 * r - 64:], part[:32]), mixed, 32)


def yescrypt(password, salt, ln, r, t):
    if ln >= 8 and 2 ** ln * r >= 0x20000:
        password = mixed_key(hmac(b"yescrypt-prehash", password), salt, r, 2 ** (ln - 6), 0)
    key = mixed_key(hmac(b"yescrypt", password), salt, r, 2 ** ln, t)
    return hashlib.sha256(hmac(key, b"Client Key")).digest()


# ---- texts

def number_text(v):
    for bound, start, more, base in ((48, 0, 0, 0), (560, 48, 1, 48), (16944, 56, 2, 560), (541232, 60, 3, 16944),
                                     (17318448, 62, 4, 541232), (2 ** 31, 63, 5, 17318448)):
        if v < bound:
            v -= base
            return CHARACTERS[start + v // 64 ** more] + "".join(CHARACTERS[v // 64 ** k % 64] for k in reversed(range(more)))
    return None


def yescrypt_text(password, salt, ln, r, t):
    params = number_text(47) + number_text(ln - 1) + number_text(r - 1)
    params += number_text(1) + number_text(t - 1) if t else ""
    return f"$y${params}${crypt_field(salt)}${crypt_field(yescrypt(password, salt, ln, r, t))}"


def scrypt_text(password, salt, ln, r, p):
    params = CHARACTERS[ln] + "".join(CHARACTERS[v // 64 ** k % 64] for v in (r, p) for k in range(5))
    key = hashlib.scrypt(password, salt=salt.encode(), n=2 ** ln, r=r, p=p, dklen=32)
    return f"$7${params}{salt}${crypt_field(key)}"


def main():
    rnd = random.Random(int(sys.argv[1]) if len(sys.argv) > 1 else 1)
    count = int(sys.argv[2]) if len(sys.argv) > 2 else 60
    call = crypt_r()
    same = 0
    for k in range(2 * count):
        password = "".join(rnd.choice("abcXYZ019 -_äß") for _ in range(rnd.randint(0, 80)))
        if k % 2:
            salt = "".join(rnd.choice(CHARACTERS) for _ in range(rnd.randint(0, 86)))
            text = scrypt_text(password.encode(), salt, rnd.randint(2, 8), rnd.randint(1, 8), rnd.randint(1, 4))
        else:
            salt = rnd.randbytes(rnd.randint(1, 64))
            text = yescrypt_text(password.encode(), salt, rnd.randint(2, 8), rnd.randint(1, 3), rnd.choice([0, 0, 1, 2, 3]))
        found = call(password.encode(), text.encode()).decode()
        if found == text:
            same += 1
        else:
            print("differs:", repr(password), text, found)
    print(f"{2 * count} settings, {same} equal")
    sys.exit(0 if same == 2 * count else 1)


if __name__ == "__main__":
    main()
