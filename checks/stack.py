#!/usr/bin/env python3
"""How much stack each call of the C libraries takes below its caller, and what it leaves of the password and of what is made of
it: on that stack, in the registers, in struct crypt_data, in the libraries' own data, and in memory that it has freed.

    checks/stack.py [--most BYTES] [--clean] [--peer] LIBRARY..

A library is one with the calls of <crypt.h> or of include/pwcheck.h, as dist/libpwcheck.so.1.1 and dist/libpwcrypt.so.1.0. Each
call runs on painted memory of its own (checks/stack.c, which gcc compiles and which is loaded before all else), and the blocks
that it frees are kept until they were searched. Of a secret each eight bytes are sought, as they are and in words of four and
eight bytes turned around, as SHA-2 and bcrypt load them. The columns of the table:

    stack     bytes below the caller, the return address among them
    pw        places with eight bytes of the password;  words  the same in words;  pads  under the pads of HMAC
    early     places with eight bytes of what one or two hashes make of the password: a guess is tried against it in no time
    key       places with eight bytes of the hash or key itself, where the call does not hand it out

Each is told as stack/registers/data/freed, and 0 stands for 0/0/0/0. With --most it ends with 1 where a call takes more stack, with --clean where
anything but `key` is found; in any case where a call takes memory that has no table to keep in it. --peer asks libcrypt.so.1 too. x86-64 and glibc alone.
"""
import base64
import ctypes
import hashlib
import hmac
import mmap
import os
import re
import subprocess
import sys
import tempfile

HERE = os.path.dirname(os.path.abspath(__file__))
TOP = os.path.dirname(HERE)
sys.path.insert(0, os.path.join(TOP, "bench"))
from libxcrypt import CHARACTERS  # noqa: E402

PASSWORD = b"Quixotic-Marzipan-9417-Fjords+"
SALT = bytes(range(100, 116))
SIZE = 1 << 18
OUTPUT, INTERNAL = 384, 2048      # struct crypt_data: where what is behind the output begins, and the internal area
WHOLE = 32768

# ---- SHA-256's function of a block, for the states of HMAC


def primes(count):
    found, n = [], 2
    while len(found) < count:
        if all(n % p for p in found):
            found.append(n)
        n += 1
    return found


def root_bits(n, power, bits=32):
    """The first bits behind the point of the root of n."""
    low, high = 0, 1 << (bits + 8)
    while high - low > 1:
        middle = (low + high) // 2
        low, high = (middle, high) if middle ** power <= n << bits * power else (low, middle)
    return low & ((1 << bits) - 1)


K256 = [root_bits(p, 3) for p in primes(64)]
H256 = [root_bits(p, 2) for p in primes(8)]


def sha256_block(state, block):
    def turned(x, n):
        return (x >> n | x << 32 - n) & 0xFFFFFFFF
    w = [int.from_bytes(block[4 * i:4 * i + 4], "big") for i in range(16)]
    for i in range(16, 64):
        a, b = w[i - 15], w[i - 2]
        w.append((w[i - 16] + (turned(a, 7) ^ turned(a, 18) ^ a >> 3) + w[i - 7] + (turned(b, 17) ^ turned(b, 19) ^ b >> 10))
                 & 0xFFFFFFFF)
    a, b, c, d, e, f, g, h = state
    for i in range(64):
        one = h + (turned(e, 6) ^ turned(e, 11) ^ turned(e, 25)) + (e & f ^ ~e & g) + K256[i] + w[i]
        two = (turned(a, 2) ^ turned(a, 13) ^ turned(a, 22)) + (a & b ^ a & c ^ b & c)
        a, b, c, d, e, f, g, h = (one + two) & 0xFFFFFFFF, a, b, c, (d + one) & 0xFFFFFFFF, e, f, g
    return [(x + y) & 0xFFFFFFFF for x, y in zip(state, (a, b, c, d, e, f, g, h))]


def pad(key, byte, size=64):
    key = hashlib.sha256(key).digest() if len(key) > size else key
    return bytes(b ^ byte for b in key.ljust(size, b"\0"))


def hmac_states(key):
    """The two states of HMAC-SHA-256 behind the key's block, as bytes of a digest."""
    return [b"".join(x.to_bytes(4, "big") for x in sha256_block(H256, pad(key, byte))) for byte in (0x36, 0x5C)]


def sha1_block(state, block):
    """The state of SHA-1 after one block more (FIPS 180-4, section 6.1.2)."""
    rotated = lambda x, n: (x << n | x >> 32 - n) & 0xFFFFFFFF
    w = [int.from_bytes(block[4 * i:4 * i + 4], "big") for i in range(16)]
    for i in range(16, 80):
        w.append(rotated(w[i - 3] ^ w[i - 8] ^ w[i - 14] ^ w[i - 16], 1))
    a, b, c, d, e = state
    for i in range(80):
        f, k = [(b & c | ~b & d, 0x5A827999), (b ^ c ^ d, 0x6ED9EBA1), (b & c | b & d | c & d, 0x8F1BBCDC), (b ^ c ^ d, 0xCA62C1D6)][i // 20]
        a, b, c, d, e = (rotated(a, 5) + (f & 0xFFFFFFFF) + e + k + w[i]) & 0xFFFFFFFF, a, rotated(b, 30), c, d
    return [(x + y) & 0xFFFFFFFF for x, y in zip(state, (a, b, c, d, e))]


# ---- secrets of a scheme: early ones, and the key

def turned(data, size):
    return b"".join(data[i:i + size][::-1] for i in range(0, len(data) - size + 1, size))


def crypt_bytes(text):
    """The bytes of crypt(3)'s characters, three of four, the low bits first."""
    out = b""
    for i in range(0, len(text), 4):
        piece = text[i:i + 4]
        value = sum(CHARACTERS.index(c) << 6 * k for k, c in enumerate(piece))
        out += value.to_bytes(4, "little")[:len(piece) * 6 // 8]
    return out


def permuted(text, order, size):
    """The digest whose bytes a text of groups holds in another order."""
    out = bytearray(size)
    data = crypt_bytes(text)
    for place, at in enumerate(order):
        out[at] = data[place]
    return bytes(out)


def sha_early(name, salt):
    one = hashlib.new(name)
    b = hashlib.new(name, PASSWORD + salt + PASSWORD).digest()
    one.update(PASSWORD + salt + (b * 8)[:len(PASSWORD)])
    n = len(PASSWORD)
    while n:
        one.update(b if n & 1 else PASSWORD)
        n >>= 1
    return [b, one.digest(), hashlib.new(name, PASSWORD * len(PASSWORD)).digest()]


def md5_early(salt):
    b = hashlib.md5(PASSWORD + salt + PASSWORD).digest()
    a = PASSWORD + b"$1$" + salt + (b * 8)[:len(PASSWORD)]
    n = len(PASSWORD)
    while n:
        a += b"\0" if n & 1 else PASSWORD[:1]
        n >>= 1
    return [b, hashlib.md5(a).digest()]


def sha1_early(salt, rounds):
    """The two states of HMAC-SHA-1 behind the key's block, and the first code."""
    first = [0x67452301, 0xEFCDAB89, 0x98BADCFE, 0x10325476, 0xC3D2E1F0]
    states = [b"".join(x.to_bytes(4, "big") for x in sha1_block(first, pad(PASSWORD, byte))) for byte in (0x36, 0x5C)]
    return states + [hmac.new(PASSWORD, salt + b"$sha1$%d" % rounds, "sha1").digest()]


def scrypt_early(salt, r=1, p=1):
    return hmac_states(PASSWORD) + [hashlib.pbkdf2_hmac("sha256", PASSWORD, salt, 1, 128 * r * p)[:128]]


def yescrypt_early(salt):
    found = []
    for name in (b"yescrypt", b"yescrypt-prehash"):
        key = hmac.new(name, PASSWORD, "sha256").digest()
        found += [key, *hmac_states(key), hashlib.pbkdf2_hmac("sha256", key, salt, 1, 128)]
        second = hashlib.pbkdf2_hmac("sha256", key, salt, 1, 32)
        found += hmac_states(second)
    return found


def argon2_early(m, t, p, salt, kind=2, size=32):
    def le(n):
        return n.to_bytes(4, "little")
    return [hashlib.blake2b(le(p) + le(size) + le(m) + le(t) + le(0x13) + le(kind) + le(len(PASSWORD)) + PASSWORD + le(len(salt))
                            + salt + le(0) + le(0)).digest()]


def windows(data, step):
    return {data[i:i + 8] for i in range(0, len(data) - 7, step)}


def shuffled(data, factor):
    """Words of four bytes in the order in which scrypt's block mixing may hold them."""
    blocks = [data[i:i + 64] for i in range(0, len(data) - 63, 64)]
    return b"".join(b[4 * (factor * k % 16):][:4] for b in blocks for k in range(16))


def forms(data, step=8):
    """Eight bytes of a digest as it is, in words of four, of eight, and in scrypt's order."""
    found = windows(data, step) | windows(turned(data, 4), step) | windows(turned(data, 8), step)
    return found | windows(shuffled(data, 5), step) | windows(shuffled(data, 13), step)


def password_forms():
    plain = windows(PASSWORD, 1)
    words = set()
    for start in range(8):
        words |= windows(turned(PASSWORD[start:], 4), 4) | windows(turned(PASSWORD[start:], 8), 8)
    pads = set()
    for byte in (0x36, 0x5C):
        under = bytes(b ^ byte for b in PASSWORD)
        pads |= windows(under, 1) | windows(turned(under, 4), 4) | windows(turned(under, 8), 8)
    return {"pw": plain, "words": words - plain, "pads": pads}


# ---- the call

class Stack:
    """libstack, which this process was started under."""

    def __init__(self):
        self.lib = ctypes.CDLL(os.environ["LD_PRELOAD"])
        self.lib.stack_call.argtypes = [ctypes.c_void_p, ctypes.c_void_p, ctypes.c_size_t, ctypes.c_void_p, ctypes.c_size_t,
                                        ctypes.c_int, ctypes.c_void_p]
        self.lib.stack_call.restype = ctypes.c_size_t
        self.lib.stack_left.restype = ctypes.c_void_p
        self.count = ctypes.c_size_t.in_dll(self.lib, "stack_block_count")
        self.taken = ctypes.c_size_t.in_dll(self.lib, "stack_taken")
        self.memory = mmap.mmap(-1, SIZE)
        self.place = ctypes.addressof(ctypes.c_char.from_buffer(self.memory))

    def call(self, function, args, keep=True):
        """The bytes of stack, the answer, and what was left: stack, registers and freed blocks."""
        words = (ctypes.c_uint64 * max(len(args), 1))(*args)
        answer = ctypes.c_int64()
        address = ctypes.cast(function, ctypes.c_void_p).value
        used = self.lib.stack_call(address, ctypes.addressof(words), len(args), self.place, SIZE, not keep, ctypes.addressof(answer))
        top = SIZE - 256
        left = {"stack": self.memory[top - used:top],
                "registers": ctypes.string_at(self.lib.stack_left(0), 72) + ctypes.string_at(self.lib.stack_left(1), 4096)}
        blocks = (ctypes.c_uint64 * (2 * self.count.value)).in_dll(self.lib, "stack_blocks")
        left["freed"] = [ctypes.string_at(blocks[2 * i], blocks[2 * i + 1]) if keep else (blocks[2 * i], blocks[2 * i + 1])
                         for i in range(self.count.value)]
        left["taken"] = self.taken.value
        self.lib.stack_release()
        return used, answer.value, left


def found_in(data, needles):
    """How many places of the data hold one of the needles."""
    return sum(1 for n in needles for _ in re.finditer(re.escape(n), data)) if data else 0


def writable(path):
    """The writable data of a library that is loaded."""
    out, behind = b"", False
    with open("/proc/self/maps", encoding="ascii") as maps:
        for line in maps:
            fields = line.split()
            named = len(fields) > 5 and os.path.realpath(fields[-1]) == os.path.realpath(path)
            if fields[1].startswith("rw") and (named or (behind and len(fields) == 5)):
                low, high = (int(x, 16) for x in fields[0].split("-"))
                out += ctypes.string_at(low, high - low)
            behind = named
    return out


HELD = []       # what a call was given stays where it is


def address(buffer):
    HELD.append(buffer)
    return ctypes.addressof(buffer)


def bytes_in(data):
    """Bytes at a place of their own, behind which a zero stands."""
    return ctypes.create_string_buffer(data)


ORDER_MD5 = [12, 6, 0, 13, 7, 1, 14, 8, 2, 15, 9, 3, 5, 10, 4, 11]
TEXTS = {
    "$1$": "$1$saltsalt$", "$5$": "$5$rounds=1000$saltsaltsaltsalt$", "$6$": "$6$rounds=1000$saltsaltsaltsalt$",
    "$2b$": "$2b$04$abcdefghijklmnopqrstuu", "$7$": "$7$4/..../....saltsalt$", "$y$ small": "$y$j/.$saltsaltsaltsalt$",
    "$y$": "$y$j9T$saltsaltsaltsalt$", "$sha1$": "$sha1$100$saltsalt$",
}


def crypt_secrets(name):
    if name == "$1$":
        return md5_early(b"saltsalt")
    if name in ("$5$", "$6$"):
        return sha_early("sha256" if name == "$5$" else "sha512", b"saltsaltsaltsalt")
    if name == "$7$":
        return scrypt_early(b"saltsalt")
    if name == "$sha1$":
        return sha1_early(b"saltsalt", 100)
    if name.startswith("$y$"):
        return yescrypt_early(crypt_bytes("saltsaltsaltsalt"))
    return []


def key_of(text):
    """The hash that a text ends with, as bytes: in the order of the text for SHA-crypt."""
    method, field = text.split("$")[1], text.rsplit("$", 1)[1]
    if method == "1":
        return b""
    if method == "2b":
        other = "./ABCDEFGHIJKLMNOPQRSTUVWXYZabcdefghijklmnopqrstuvwxyz0123456789"
        standard = "ABCDEFGHIJKLMNOPQRSTUVWXYZabcdefghijklmnopqrstuvwxyz0123456789+/"
        return base64.b64decode(field[22:].translate(str.maketrans(other, standard)) + "A")[:23]
    if method in ("7", "y"):
        return crypt_bytes(field)
    if method in ("5", "6"):
        return b""
    if method == "sha1":
        return turned(crypt_bytes(field), 3)[:20]
    return base64.b64decode(field + "=" * (-len(field) % 4))


# The calls that may take memory: for a table, or for what they hand out.
TAKERS = re.compile(r"scrypt|pwcheck_make|argon2|\$7\$|\$y\$|crypt_gensalt_ra|crypt_ra")


class Table:
    def __init__(self, most, clean):
        self.most, self.clean, self.bad = most, clean, 0
        self.stack = Stack()

    def row(self, name, function, args, early=(), key=b"", data=None, path="", keep=()):
        self.stack.call(function, args)          # what a first call alone does, as growing the heap
        used, answer, left = self.stack.call(function, args)
        areas = [left["stack"], left["registers"], (data() if data else b"") + (writable(path) if path else b""),
                 b"\0".join(left["freed"])]
        columns = password_forms()
        columns["early"] = set().union(*(forms(e) for e in early)) if early else set()
        columns["key"] = forms(key) if key else set()
        cells = []
        for column, needles in columns.items():
            counts = [found_in(area, needles) for area in areas]
            cells.append("/".join(map(str, counts)) if any(counts) else "0")
            if self.clean and column != "key" and any(counts):
                self.bad += 1
        if self.most and used > self.most:
            self.bad += 1
        if left["taken"] and not TAKERS.search(name):
            print(f"stack.py: {name} takes {left['taken']} bytes of memory", file=sys.stderr)
            self.bad += 1
        freed = ", ".join(str(len(b)) for b in left["freed"][:4]) + (" .." if len(left["freed"]) > 4 else "")
        print(f"| {name} | {used:,} | " + " | ".join(cells) + f" | {answer if abs(answer) < 100 else '-'} | {freed} |", flush=True)
        return answer


HEAD = "| call | stack | pw | words | pads | early | key | answer | freed blocks |\n|---|---|---|---|---|---|---|---|---|"


def crypt_rows(table, path):
    lib = ctypes.CDLL(path)
    lib.crypt_r.restype = ctypes.c_char_p
    print(f"\n{os.path.basename(path)}\n\n{HEAD}")
    phrase = bytes_in(PASSWORD)
    data = bytes_in(bytes(WHOLE - 1))
    behind = lambda: data.raw[OUTPUT:]
    for name, setting in list(TEXTS.items()) + [("$9$ (refused)", "$9$salt")]:
        text = lib.crypt_r(PASSWORD, setting.encode(), data).decode()
        key = key_of(text) if text[0] == "$" else b""
        ctypes.memset(data, 0, WHOLE)
        table.row("crypt_r " + name, lib.crypt_r, [address(phrase), address(bytes_in(setting.encode())), address(data)],
                  crypt_secrets(name), key, behind)
    setting = bytes_in(TEXTS["$6$"].encode())
    early = crypt_secrets("$6$")
    table.row("crypt_rn $6$", lib.crypt_rn, [address(phrase), address(setting), address(data), WHOLE], early, b"", behind)
    table.row("crypt $6$", lib.crypt, [address(phrase), address(setting)], early, b"", None, path)
    where, size = ctypes.c_void_p(), ctypes.c_int()
    table.row("crypt_ra $6$", lib.crypt_ra, [address(phrase), address(setting), address(where), address(size)], early, b"",
              lambda: ctypes.string_at(where.value, WHOLE)[OUTPUT:])
    out = bytes_in(bytes(191))
    for prefix in ("$1$", "$6$", "$2b$", "$7$", "$y$"):
        table.row("crypt_gensalt_rn " + prefix, lib.crypt_gensalt_rn, [address(bytes_in(prefix.encode())), 0, 0, 0, address(out), 192])
    table.row("crypt_gensalt", lib.crypt_gensalt, [0, 0, 0, 0])
    table.row("crypt_gensalt_ra", lib.crypt_gensalt_ra, [0, 0, 0, 0])
    table.row("crypt_checksalt", lib.crypt_checksalt, [address(setting)])
    table.row("crypt_preferred_method", lib.crypt_preferred_method, [])


def check_rows(table, path):
    lib = ctypes.CDLL(path)
    print(f"\n{os.path.basename(path)}\n\n{HEAD}")
    pw, salt, out, length = bytes_in(PASSWORD), bytes_in(SALT), bytes_in(bytes(511)), ctypes.c_size_t()
    front = [address(pw), len(PASSWORD)]
    salted = [address(salt), len(SALT)]
    into = [address(out), 256, address(length)]
    limits = (ctypes.c_uint32 * 13)(52, *[0xFFFFFFFF] * 12)
    made = {}

    def maker(name, args, early, own=None):
        table.row("pwcheck_" + name, getattr(lib, "pwcheck_" + name), front + (own or salted) + args + into, early)
        made[name] = out.raw[:length.value]

    crypt_salt = bytes_in(b"saltsaltsaltsalt")
    chars = [address(crypt_salt), 16]
    shas = {n: sha_early(n, b"saltsaltsaltsalt") for n in ("sha256", "sha512")}
    for n, early in shas.items():
        size = int(n[3:]) // 8
        table.row(f"pwcheck_{n}_crypt", lib[f"pwcheck_{n}_crypt"], front + chars + [1000, address(out), size], early)
        digest = out.raw[:size]
        table.row(f"pwcheck_{n}_crypt_b64", lib[f"pwcheck_{n}_crypt_b64"], front + chars + [1000, address(out), 43 if size == 32 else 86], early, digest)
        maker(n + "_crypt_text", [1000], early, chars)
        stored = bytes_in(made[n + "_crypt_text"])
        table.row(f"pwcheck_{n}_check", lib[f"pwcheck_{n}_check"], front + [address(stored), len(stored) - 1], early, digest)
    hm = hmac_states(PASSWORD)
    table.row("pwcheck_make", lib.pwcheck_make, front + into, [])
    maker("scrypt_text", [4, 1, 1], scrypt_early(SALT))
    maker("bcrypt_text", [4], [])
    maker("yescrypt_text", [12, 32, 0], yescrypt_early(SALT))
    maker("argon2id_text", [64, 1, 1], argon2_early(64, 1, 1, SALT))
    maker("pbkdf2_sha256_text", [1000], hm)
    table.row("pwcheck_scrypt", lib.pwcheck_scrypt, front + salted + [4, 1, 1, address(out), 32], scrypt_early(SALT))
    secrets = {"sha256_crypt_text": shas["sha256"], "sha512_crypt_text": shas["sha512"], "scrypt_text": scrypt_early(SALT), "bcrypt_text": [],
               "yescrypt_text": yescrypt_early(SALT), "argon2id_text": argon2_early(64, 1, 1, SALT), "pbkdf2_sha256_text": hm}
    others = {"$1$": md5_early(b"saltsalt"), "$7$": scrypt_early(b"saltsalt")}
    peer = ctypes.CDLL("libcrypt.so.1").crypt
    peer.restype = ctypes.c_char_p
    for name, early in others.items():
        made[name], secrets[name] = peer(PASSWORD, TEXTS[name].encode()), early
    for kind, name in ((0, "argon2d"), (1, "argon2i")):
        made[name] = made["argon2id_text"].replace(b"argon2id", name.encode())
        secrets[name] = argon2_early(64, 1, 1, SALT, kind)
    key = hashlib.pbkdf2_hmac("sha512", PASSWORD, SALT, 1000, 64)
    made["pbkdf2-sha512"] = b"$pbkdf2-sha512$i=1000,l=64$" + b"$".join(base64.b64encode(x).rstrip(b"=") for x in (SALT, key))
    secrets["pbkdf2-sha512"] = []
    for name, text in made.items():
        stored = bytes_in(text)
        key = b"" if name.startswith(("sha", "$1$")) else key_of(text.decode())
        args = front + [address(stored), len(text)]
        table.row("pwcheck_check_any of " + name.removesuffix("_text"), lib.pwcheck_check_any, args + [address(limits)], secrets[name], key)
        if name in ("argon2id_text", "bcrypt_text", "sha512_crypt_text"):
            table.row("pwcheck_check_login of " + name, lib.pwcheck_check_login, args, secrets[name], key)
        if name in ("sha512_crypt_text", "scrypt_text"):
            table.row("pwcheck_check of " + name, lib.pwcheck_check, args, secrets[name], key)
            table.row("pwcheck_check_limited of " + name, lib.pwcheck_check_limited, args + [0xFFFFFFFF, (1 << 64) - 1], secrets[name], key)
    table.row("pwcheck_word", lib.pwcheck_word, [0, address(out), 18])
    table.row("pwcheck_version", lib.pwcheck_version, [address(out), 18])
    table.row("pwcheck_base64_encoded_len", lib.pwcheck_base64_encoded_len, [0, 30])
    table.row("pwcheck_base64_encode", lib.pwcheck_base64_encode, [0, *front, *into])
    coded = bytes_in(base64.b64encode(PASSWORD))
    table.row("pwcheck_base64_decoded_len", lib.pwcheck_base64_decoded_len, [0, address(coded), 40])
    table.row("pwcheck_base64_decode", lib.pwcheck_base64_decode, [0, address(coded), 40, *into])
    table.row("pwcheck_same_bytes", lib.pwcheck_same_bytes, front + front)


def freed_rows(table, path):
    """Whether freed tables stay in the process, without any keeping: three calls in a row."""
    lib = ctypes.CDLL(path)
    name = "crypt_r" if "crypt" in os.path.basename(path) else "pwcheck_yescrypt_text"
    if name != "crypt_r":
        return
    phrase, data = bytes_in(PASSWORD), bytes_in(bytes(WHOLE - 1))
    room = bytearray(1 << 25)       # before the calls: else the memory that one gives back may be this
    print("\nfreed blocks without keeping: of three calls in a row, and the places of secrets in them")
    for method in ("$7$", "$y$ small", "$y$"):
        setting = bytes_in(TEXTS[method].encode())
        needles = set().union(*(forms(e) for e in crypt_secrets(method))) | set().union(*password_forms().values())
        for turn in range(1, 4):
            _, _, left = table.stack.call(lib.crypt_r, [address(phrase), address(setting), address(data)], keep=False)
            with open("/proc/self/mem", "rb", buffering=0) as memory:
                parts = []
                for place, size in left["freed"]:
                    try:
                        memory.seek(place)
                        block = room[:memory.readinto(memoryview(room)[:size])]
                        parts.append(f"{size:,} bytes, mapped, {len(block) - block.count(0):,} not zero, {found_in(block, needles)} places")
                    except OSError:
                        parts.append(f"{size:,} bytes, given back to the system")
            print(f"  {method} call {turn}: " + "; ".join(parts))


def main(words):
    most = clean = peer = 0
    paths = []
    while words:
        word = words.pop(0)
        if word == "--most":
            most = int(words.pop(0))
        elif word == "--clean":
            clean = 1
        elif word == "--peer":
            peer = 1
        else:
            paths.append(os.path.abspath(word))
    if "STACK_PROBE" not in os.environ:
        with tempfile.TemporaryDirectory() as folder:
            probe = os.path.join(folder, "libstack.so")
            subprocess.run(["gcc", "-std=gnu11", "-O2", "-Wall", "-Wextra", "-Werror", "-fno-builtin", "-fPIC", "-shared", "-o", probe,
                            os.path.join(HERE, "stack.c")], check=True)
            raise SystemExit(subprocess.run([sys.executable, os.path.abspath(__file__), *sys.argv[1:]],
                                            env={**os.environ, "LD_PRELOAD": probe, "STACK_PROBE": "1"}).returncode)
    table = Table(most, clean)
    for path in paths + (["/lib/x86_64-linux-gnu/libcrypt.so.1"] if peer else []):
        if hasattr(ctypes.CDLL(path), "crypt_r"):
            freed_rows(table, path)
            crypt_rows(table, path)
        else:
            check_rows(table, path)
    if table.bad:
        raise SystemExit(1)


if __name__ == "__main__":
    main(sys.argv[1:])
