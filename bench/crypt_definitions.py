#!/usr/bin/env python3
"""The definitions of crates/crypt_text in Python, beside libxcrypt's own answers.

    bench/crypt_definitions.py [N]      (30,000 settings and N / 2 new ones if left out)

Settings, valid and damaged, are read by the definitions: what the text keeps of the setting, or the cause that there is none.
libxcrypt's crypt has to keep the same, or to fail with the errno of that cause; its crypt_gensalt_rn and crypt_checksalt have to
answer as the definitions say. It ends with 1 where an answer differs that docs/DIFFERENCES.md does not list. crypt_differ.py
takes its settings, and its list of differences, from here.
"""
import ctypes
import errno
import os
import random
import re
import sys

sys.path.insert(0, os.path.dirname(os.path.abspath(__file__)))
from libxcrypt import CHARACTERS, crypt_field  # noqa: E402

BCRYPT_CHARACTERS = "./ABCDEFGHIJKLMNOPQRSTUVWXYZabcdefghijklmnopqrstuvwxyz0123456789"
VALUES = {ord(c): v for v, c in enumerate(CHARACTERS)}
REFUSED = frozenset([*range(33), *range(127, 256), *b"!*:;\\"])
PHRASE_MAX, SETTING_MAX = 511, 339
RANDOM_LENS = {"1": 9, "5": 15, "6": 15, "2a": 16, "2b": 16, "2y": 16, "7": 16, "y": 16, "sha1": 20}
# A prefix of each method as crypt(5) has it: that of sha1 has no second `$`.
PREFIXES = {name: b"$" + name.encode() + (b"" if name == "sha1" else b"$") for name in RANDOM_LENS}
SIZE = 32768


# ---- settings (specs/Settings.antt)

def method_of(text):
    """The identifier of a method that is answered, or None."""
    for name, prefix in PREFIXES.items():
        if text.startswith(prefix):
            return name
    return None


def before_last_dollar(text):
    return text[:text.rindex(b"$")] if b"$" in text else text


def sha_kept(prefix, rest):
    if rest.startswith(b"rounds="):
        digits, dollar, rest = rest[7:].partition(b"$")
        if not dollar or not digits.isdigit() or digits.startswith(b"0") or not 1000 <= int(digits) <= 999999999:
            return None
        prefix += b"rounds=" + digits + b"$"
    return prefix + rest.partition(b"$")[0][:16] + b"$"


def sha1_fields(setting):
    """The number as it is written and the salt with what follows, or None."""
    if not setting.startswith(b"$sha1$"):
        return None
    digits, dollar, rest = setting[6:].partition(b"$")
    return (digits, rest) if dollar else None


def sha1_kept(setting):
    fields = sha1_fields(setting)
    if fields is None:
        return None
    digits, salt = fields[0].removeprefix(b"+"), fields[1].partition(b"$")[0]
    if not digits.isdigit() or not 1 <= int(digits) < 2 ** 32 or not 1 <= len(salt) <= 64 or any(c not in VALUES for c in salt):
        return None
    return b"$sha1$%d$" % int(digits) + salt + b"$"


def bcrypt_kept(setting):
    digits, salt = setting[4:6], setting[7:29]
    if len(setting) < 29 or not digits.isdigit() or not 4 <= int(digits) <= 31 or setting[6:7] != b"$":
        return None
    if any(chr(c) not in BCRYPT_CHARACTERS for c in salt):
        return None
    last = BCRYPT_CHARACTERS[16 * (BCRYPT_CHARACTERS.index(chr(salt[21])) // 16)]
    return setting[:28] + last.encode()


def five(text):
    return sum(VALUES[c] << 6 * i for i, c in enumerate(text))


def scrypt_params(rest):
    """ln, r and p, or None."""
    if len(rest) < 11 or any(c not in VALUES for c in rest[:11]):
        return None
    return VALUES[rest[0]], five(rest[1:6]), five(rest[6:11])


def scrypt_taken(params):
    ln, r, p = params
    return (2 <= ln < 16 * r and ln <= 24 and 1 <= r and 1 <= p <= 1024 and r * p <= 131072
            and 128 * r * 2 ** ln <= 2 ** 30)


def are_salt_bytes(text):
    behind_dollar = False
    for c in text:
        if c not in VALUES and c != 36:
            return behind_dollar
        behind_dollar = c == 36
    return True


def number(text, at, least):
    """A number of yescrypt's parameters, and where the text goes on, or None."""
    if at >= len(text) or text[at] not in VALUES:
        return None
    first = VALUES[text[at]]
    for below, start, more, base in ((48, 0, 0, 0), (56, 48, 1, 48), (60, 56, 2, 560), (62, 60, 3, 16944),
                                     (63, 62, 4, 541232), (64, 63, 5, 17318448)):
        if first < below:
            value = first - start
            for c in text[at + 1:at + 1 + more].ljust(more):
                if c not in VALUES:
                    return None
                value = 64 * value + VALUES[c]
            return least + base + value, at + 1 + more
    return None


def yescrypt_params(text):
    """flavor, ln, r, p, t, g, the ROM's size, and the number that says which of the last four follow; or None."""
    values, at = [], 0
    for least in (0, 1, 1):
        found = number(text, at, least)
        if found is None:
            return None
        values.append(found[0])
        at = found[1]
    named = 0
    if at < len(text):
        found = number(text, at, 1)
        if found is None:
            return None
        named, at = found
    for bit, least, absent in ((1, 2, 1), (2, 1, 0), (4, 1, 0), (8, 1, 0)):
        if named & bit:
            found = number(text, at, least)
            if found is None:
                return None
            values.append(found[0])
            at = found[1]
        else:
            values.append(absent)
    return [*values, named] if at == len(text) else None


def yescrypt_taken(params):
    flavor, ln, r, p, t, g, rom, named = params
    return (flavor, p, g, rom) == (47, 1, 0, 0) and named < 16 and 2 <= ln <= 24 and 1 <= r < 2 ** 19 and t <= 1024 \
        and 128 * r * 2 ** ln <= 2 ** 30


def is_salt_field(text):
    """These are the characters of at most 64 bytes, or of none."""
    if len(text) > 86 or any(c not in VALUES for c in text):
        return False
    left = len(text) % 4
    return left == 0 or (left == 2 and VALUES[text[-1]] < 4) or (left == 3 and VALUES[text[-1]] < 16)


def scrypt_kept(setting, taken=scrypt_taken):
    rest = setting[3:]
    params = scrypt_params(rest)
    if params is None or not taken(params) or not are_salt_bytes(rest[11:]):
        return None
    return setting[:14] + before_last_dollar(rest[11:]) + b"$"


def yescrypt_kept(setting, taken=yescrypt_taken):
    params_text, dollar, rest = setting[3:].partition(b"$")
    params = yescrypt_params(params_text)
    salt = before_last_dollar(rest)
    if not dollar or params is None or not taken(params) or not is_salt_field(salt):
        return None
    return b"$y$" + params_text + b"$" + salt + b"$"


def kept(phrase, setting, scrypt_costs=scrypt_taken, yescrypt_costs=yescrypt_taken):
    """What stands before the hash in the text for a phrase and a setting, or the errno of the cause that there is none."""
    if len(phrase) > PHRASE_MAX:
        return errno.ERANGE
    if any(c in REFUSED for c in setting):
        return errno.EINVAL
    method = method_of(setting)
    if method in ("7", "y") and len(setting) > SETTING_MAX:
        return errno.ERANGE
    if method is None:
        front = None
    elif method == "1":
        front = b"$1$" + setting[3:].partition(b"$")[0][:8] + b"$"
    elif method in ("5", "6"):
        front = sha_kept(setting[:3], setting[3:])
    elif method == "sha1":
        front = sha1_kept(setting)
    elif method == "7":
        front = scrypt_kept(setting, scrypt_costs)
    elif method == "y":
        front = yescrypt_kept(setting, yescrypt_costs)
    else:
        front = bcrypt_kept(setting)
    return errno.EINVAL if front is None else front


# ---- new settings and what a setting is (specs/NewSettings.antt, specs/Checks.antt)

def bcrypt_field(data):
    value, length = int.from_bytes(data, "big") << -8 * len(data) % 6, (8 * len(data) + 5) // 6
    return "".join(BCRYPT_CHARACTERS[value >> 6 * (length - 1 - i) & 63] for i in range(length))


def new_setting(prefix, count, data):
    """The setting of crypt_gensalt, or None."""
    method = method_of(prefix)
    if method is None:
        return None
    groups = lambda most: crypt_field(data[:min(most, (len(data) - 1) // 3 * 3)]).encode()
    if method == "1":
        return b"$1$" + groups(6) if count == 0 and len(data) >= 3 else None
    if method in ("5", "6"):
        rounds = min(max(count or 5000, 1000), 999999999)
        named = b"" if rounds == 5000 else b"rounds=%d$" % rounds
        return prefix[:3] + named + groups(12) if len(data) >= 3 else None
    if len(data) < 16:
        return None
    if method == "sha1":
        most = min(max(count or 262144, 4), 2 ** 32 - 1)
        rounds = most - int.from_bytes(data[:4], "little") % (most // 4)
        used = data[4:4 + min(45, (len(data) - 5) // 3 * 3)]
        turned = b"".join(used[i:i + 3][::-1] for i in range(0, len(used), 3))
        return b"$sha1$%d$" % rounds + crypt_field(turned).encode() + b"$"
    if method == "7":
        count = count or 7
        params = CHARACTERS[count + 7:count + 8] + "U..../...."
        return (b"$7$" + (params + crypt_field(data[:64])).encode()) if 6 <= count <= 11 else None
    if method == "y":
        count = count or 5
        if not 1 <= count <= 11:
            return None
        params = "j%s5" % CHARACTERS[count + 8] if count < 3 else "j%sT" % CHARACTERS[count + 6]
        return ("$y$%s$%s" % (params, crypt_field(data[:64]))).encode()
    count = count or 5
    return prefix[:4] + b"%02d$" % count + bcrypt_field(data[:16]).encode() if 4 <= count <= 31 else None


def salt_status(setting):
    """The number of crypt_checksalt."""
    method = None if any(c in REFUSED for c in setting) else method_of(setting)
    return 1 if method is None else 3 if method in ("1", "5", "sha1") else 0


# ---- differences that are listed

def library_scrypt_costs(params):
    ln, r, p = params
    return ln >= 2 and r >= 1 and p >= 1 and r * p < 2 ** 30


def library_yescrypt_costs(params):
    flavor, ln, r, p, t, g, rom, _ = params
    if not 2 <= ln <= 63 or g or rom or r * p >= 2 ** 30:
        return False
    return (flavor == 0 and t == 0) or flavor == 1 or (flavor == 47 and 2 ** ln // p > 3)


def library_takes_sha1(setting):
    """libxcrypt takes this setting of sha1-crypt: a number by C's strtoul, 0 where there is none, and a salt of any length."""
    fields = sha1_fields(setting)
    if fields is None or re.fullmatch(rb"[+-]?[0-9]+|", fields[0]) is None:
        return False
    salt = fields[1].partition(b"$")[0]
    return len(salt) > 0 and all(c in VALUES for c in salt)


def listed(phrase, setting):
    """The name of the difference that docs/DIFFERENCES.md lists for a phrase and a setting, or None."""
    if len(phrase) > PHRASE_MAX or any(c in REFUSED for c in setting):
        return None
    if method_of(setting) is None:
        return "another method"
    if method_of(setting) == "sha1" and sha1_kept(setting) is None and library_takes_sha1(setting):
        return "rounds or a salt that no text of sha1-crypt has"
    if kept(phrase, setting) != kept(phrase, setting, library_scrypt_costs, library_yescrypt_costs):
        return "costs"
    return None


# ---- settings to try

FREE = bytes(c for c in range(256) if c not in REFUSED and c != 36)
SMALL_SCRYPT = [b"0/..../....", b"1/..../....", b"2/..../0....", b"20..../....", b"1/..../3....", b"40..../0...."]
SMALL_YESCRYPT = [b"j/.", b"j0.", b"j/0", b"j1.", b"j/./.", b"j0./0", b"j2/"]


def salt(dice, length, alphabet):
    return bytes(dice.choice(alphabet) for _ in range(length))


def phrase(dice):
    """A phrase: short ones mostly, each length up to a few beyond the limit, any byte but zero."""
    length = dice.choice([dice.randrange(24), dice.randrange(24), dice.randrange(24), dice.randrange(80), dice.randrange(516)])
    if dice.random() < 0.5:
        return bytes(dice.randrange(1, 256) for _ in range(length))
    return bytes(dice.randrange(33, 127) for _ in range(length))


def whole_setting(dice):
    """A setting of one of the methods, mostly valid, with costs that take little time."""
    kind = dice.randrange(9)
    some = lambda most, alphabet: salt(dice, dice.randrange(most + 1), alphabet)
    tail = dice.choice([b"", b"", b"$", b"$" + some(90, FREE), b"$" + some(20, FREE) + b"$" + some(9, FREE)])
    if kind == 0:
        return b"$1$" + some(12, FREE) + tail
    if kind in (1, 2):
        rounds = dice.choice([b"1000", b"1000", b"1001", b"1017", b"999", b"01000", b"+1000", b"-1", b"1000000000", b"", b"1e3",
                              b"18446744073709552616", b"1000x", b"0"])
        return dice.choice([b"$5$", b"$6$"]) + b"rounds=" + rounds + dice.choice([b"$"] * 9 + [b""]) + some(20, FREE) + tail
    if kind in (3, 4):
        prefix = dice.choice([b"$2a$", b"$2b$", b"$2y$", b"$2b$", b"$2x$"])
        cost = dice.choice([b"04"] * 12 + [b"05", b"03", b"32", b"4", b"004", b"+4", b"4x"])
        length = dice.choice([22] * 12 + [21, 20, 0, 23, 40])
        return prefix + cost + dice.choice([b"$"] * 12 + [b"."]) + salt(dice, length, BCRYPT_CHARACTERS.encode()) + tail
    characters = dice.choice([CHARACTERS.encode()] * 9 + [CHARACTERS.encode() + b"-$+"])
    if kind == 8:
        rounds = dice.choice([b"1", b"1", b"2", b"19", b"100", b"01", b"+7", b"+007", b"0", b"", b"-0", b"+", b"1x", b"0x1", b"--1", b"x"])
        length = dice.choice([dice.randrange(70), dice.randrange(12), 64, 65])
        return dice.choice([b"$sha1$"] * 12 + [b"$sha1", b"$sha", b"$sha1x$"]) + rounds + dice.choice([b"$"] * 12 + [b""]) \
            + salt(dice, length, characters) + tail
    if kind == 5:
        params = dice.choice(SMALL_SCRYPT)
        if dice.random() < 0.1:
            params = salt(dice, dice.choice([11, 11, 10, 3]), b"./012-")
        length = dice.choice([dice.randrange(30), dice.randrange(30), dice.randrange(330)])
        return b"$7$" + params + salt(dice, length, characters) + dice.choice([tail, b"$" + some(44, FREE)])
    if kind == 6:
        params = dice.choice(SMALL_YESCRYPT)
        if dice.random() < 0.1:
            params = salt(dice, dice.randrange(1, 8), b"./01j")
        length = dice.choice([4 * dice.randrange(8), dice.randrange(30), dice.randrange(90)])
        return b"$y$" + params + dice.choice([b"$"] * 15 + [b""]) + salt(dice, length, characters) + tail
    return dice.choice([b"", b"$", b"*", b"$1", b"$9$", b"$apr1$", b"$2$", b"$0$", b"x", b"$scrypt$", b"$y", b"1$"]) + some(9, FREE)


def setting(dice):
    """A setting, one in five of them damaged by a byte that is put, changed, or left out."""
    text = whole_setting(dice)
    if dice.random() < 0.2 and text:
        at = dice.randrange(len(text))
        byte = bytes([dice.choice([dice.randrange(1, 256), *b"$./"])])
        text = dice.choice([text[:at] + byte + text[at + 1:], text[:at] + byte + text[at:], text[:at] + text[at + 1:]])
    return text


def is_cheap(text):
    """The setting asks for little time, whoever takes it."""
    if text[:3] in (b"$5$", b"$6$"):
        digits = text[3:].partition(b"$")[0][7:] if text[3:].startswith(b"rounds=") else b""
        return digits.isdigit() and (int(digits) < 2000 or int(digits) > 999999999 or digits.startswith(b"0"))
    if text[:2] == b"$2":
        return not (text[4:6].isdigit() and 6 < int(text[4:6]) <= 31)
    if text[:3] == b"$7$":
        params = scrypt_params(text[3:])
        return params is None or not library_scrypt_costs(params) or (params[0] <= 8 and params[1] * params[2] <= 64)
    if text[:3] == b"$y$":
        params = yescrypt_params(text[3:].partition(b"$")[0])
        return params is None or not library_yescrypt_costs(params) \
            or (params[1] <= 8 and params[2] * params[3] <= 64 and params[4] <= 4)
    if text.startswith(b"$sha1$"):
        # a number below 0 wraps round, and one past the width of a word is the greatest one
        digits = text[6:].partition(b"$")[0]
        number_of = re.match(rb"[+-]?[0-9]*", digits).group()
        return not number_of.strip(b"+-") or b"$" not in text[6:] or (not number_of.startswith(b"-") and int(number_of) < 2000) \
            or int(number_of) == 0
    return text[:1] == b"$" and text[:2] != b"$3" and not text.startswith((b"$md5", b"$gy")) or len(text) < 2


# ---- the library

class Library:
    """crypt(3) of a shared library."""

    def __init__(self, name):
        self.library = ctypes.CDLL(name, use_errno=True)
        self.data = ctypes.create_string_buffer(SIZE)
        for call, result, arguments in (
                ("crypt_rn", ctypes.c_char_p, [ctypes.c_char_p, ctypes.c_char_p, ctypes.c_void_p, ctypes.c_int]),
                ("crypt_gensalt_rn", ctypes.c_char_p, [ctypes.c_char_p, ctypes.c_ulong, ctypes.c_char_p, ctypes.c_int,
                                                       ctypes.c_char_p, ctypes.c_int]),
                ("crypt_checksalt", ctypes.c_int, [ctypes.c_char_p]),
                ("crypt_preferred_method", ctypes.c_char_p, [])):
            getattr(self.library, call).argtypes = arguments
            getattr(self.library, call).restype = result

    def crypt(self, phrase_bytes, setting_bytes):
        """The text, or the errno; and what stands in the output."""
        ctypes.set_errno(0)
        text = self.library.crypt_rn(phrase_bytes, setting_bytes, self.data, SIZE)
        return (ctypes.get_errno() if text is None else text), ctypes.string_at(self.data)

    def gensalt(self, prefix, count, data, length, size=192):
        ctypes.set_errno(0)
        output = ctypes.create_string_buffer(200)
        text = self.library.crypt_gensalt_rn(prefix, count, data, length, output, size)
        return (ctypes.get_errno() if text is None else text), output.value

    def checksalt(self, text):
        return self.library.crypt_checksalt(text)


def front_of(text):
    """What the text keeps of its setting."""
    if isinstance(text, int):
        return text
    return text[:29] if text.startswith(b"$2") else text[:text.rindex(b"$") + 1]


def main():
    count = int(sys.argv[1]) if len(sys.argv) > 1 else 30000
    dice, library = random.Random(3), Library("libcrypt.so.1")
    taken = differ = listed_count = tried = 0
    while tried < count:
        text, password = setting(dice), phrase(dice)
        if not is_cheap(text):
            continue
        tried += 1
        wanted, found = kept(password, text), front_of(library.crypt(password, text)[0])
        taken += isinstance(found, bytes)
        if found != wanted:
            if listed(password, text):
                listed_count += 1
                continue
            differ += 1
            print("differs", password, text, "definition", wanted, "libxcrypt", found)
        if method_of(text) and salt_status(text) != library.checksalt(text):
            differ += 1
            print("checksalt differs", text)
    print(f"settings: {tried}, of them {taken} taken by libxcrypt, {listed_count} listed as different, {differ} differ")
    new_differ = 0
    for _ in range(count // 2):
        prefix = dice.choice(list(PREFIXES.values())) + dice.choice([b"", b"", b"x", b"salt$", b"\xff:"])
        number_of = dice.choice([0, dice.randrange(14), dice.randrange(40), dice.randrange(900, 1100), dice.randrange(4990, 5010),
                                 dice.randrange(10 ** 9 - 3, 10 ** 9 + 3), 2 ** 32 + 5, 2 ** 64 - 1, dice.randrange(2 ** 64)])
        data = bytes(dice.randrange(256) for _ in range(dice.randrange(90)))
        wanted, found = new_setting(prefix, number_of, data), library.gensalt(prefix, number_of, data, len(data))
        if found != ((wanted, wanted) if wanted is not None else (errno.EINVAL, b"*0")):
            new_differ += 1
            print("gensalt differs", prefix, number_of, len(data), wanted, found)
    print(f"new settings: {count // 2}, {new_differ} differ")
    return 1 if differ or new_differ else 0


if __name__ == "__main__":
    sys.exit(main())
