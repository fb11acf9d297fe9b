#!/usr/bin/env python3
"""libpwcrypt beside libxcrypt: the same phrases and settings to both.

    bench/crypt_differ.py LIBRARY [N [SEED]]      (LIBRARY: libpwcrypt.so.1; 50,000 settings and seed 1 if left out)

Settings and phrases come from crypt_definitions.py: valid, damaged, and of other methods. Then each length of phrase and salt up to
beyond the limits, and each byte from 1 to 255 in a phrase, in a salt and behind it, with every method; new settings with each count,
number of random bytes and size of the buffer; crypt_checksalt; null pointers; and crypt_ra and crypt_rn at each size. Texts,
tokens and, on failure, errno have to be the same, or the difference is one that docs/DIFFERENCES.md lists. It ends with 1 where
another one is found.
"""
import collections
import ctypes
import errno
import os
import random
import sys

sys.path.insert(0, os.path.dirname(os.path.abspath(__file__)))
import crypt_definitions as given  # noqa: E402

# A setting of each method, to which a salt is put, with the longest salt that is worth trying.
FRONTS = [(b"$1$", 12), (b"$5$rounds=1000$", 20), (b"$6$rounds=1000$", 20), (b"$7$0/..../....", 330), (b"$y$j/.$", 92), (b"$sha1$2$", 70)]
BCRYPT = [b"$2a$04$", b"$2b$04$", b"$2y$04$"]
SALT22 = b"abcdefghijklmnopqrstuu"
LIBC = ctypes.CDLL(None, use_errno=True)
LIBC.free.argtypes = [ctypes.c_void_p]


class Trial:
    """Both libraries, and what was found."""

    def __init__(self, ours, theirs):
        self.ours, self.theirs = ours, theirs
        self.tried = self.taken = self.differ = 0
        self.listed = collections.Counter()

    def say(self, *what):
        self.differ += 1
        if self.differ < 20:
            print("differs:", *what)

    def crypt(self, phrase, setting):
        if not given.is_cheap(setting):
            return
        self.tried += 1
        ours, theirs = self.ours.crypt(phrase, setting), self.theirs.crypt(phrase, setting)
        self.taken += isinstance(ours[0], bytes)
        if ours == theirs:
            return
        name = given.listed(phrase, setting)
        if name is None or ours[0] != errno.EINVAL:
            self.say(phrase, setting, ours, theirs)
        else:
            self.listed[name] += 1

    def gensalt(self, *arguments):
        self.tried += 1
        ours, theirs = self.ours.gensalt(*arguments), self.theirs.gensalt(*arguments)
        if ours == theirs:
            return
        prefix, count, data, length, size = (*arguments, 192)[:5]
        whole = given.new_setting(prefix, count, data[:max(length, 0)])
        if length < 0 and ours == (errno.EINVAL, b"*0"):
            self.listed["a negative number of random bytes"] += 1
        elif given.method_of(prefix) is None and ours[0] == errno.EINVAL:
            self.listed["another method"] += 1
        elif whole and len(whole) < size < 192 and ours[0] == whole and (
                theirs[0] == errno.ERANGE or whole.startswith(theirs[0])):
            self.listed["room for the whole setting, and not for libxcrypt"] += 1
        elif whole and size <= len(whole) and ours[0] == errno.ERANGE and whole.startswith(theirs[0]):
            self.listed["no room for the whole setting, which libxcrypt cuts"] += 1
        else:
            self.say("gensalt", arguments, ours, theirs)


def settings(trial, dice, count):
    while trial.tried < count:
        trial.crypt(given.phrase(dice), given.setting(dice))


def lengths_and_bytes(trial, dice):
    alphabet = given.CHARACTERS.encode()
    for length in range(0, 516):
        for front, _ in FRONTS:
            trial.crypt(b"p" * length, front + b"saltsalt")
        trial.crypt(given.salt(dice, length, bytes(range(1, 256))), BCRYPT[length % 3] + SALT22)
    for front, most in FRONTS:
        for length in range(most + 1):
            trial.crypt(b"pw", front + given.salt(dice, length, alphabet))
            trial.crypt(b"pw", front + given.salt(dice, length, alphabet) + b"$" + b"x" * 43)
    for byte in range(1, 256):
        one = bytes([byte])
        for front, _ in FRONTS:
            trial.crypt(b"a" + one + b"b", front + b"saltsalt")
            trial.crypt(b"pw", front + b"sa" + one + b"lt0")
            trial.crypt(b"pw", front + b"salt" + one)
            trial.crypt(b"pw", front + b"saltsalt$" + one)
        for front in BCRYPT:
            trial.crypt(b"a" + one + b"b", front + SALT22)
            trial.crypt(b"pw", front + SALT22[:9] + one + SALT22[10:])
            trial.crypt(b"pw", front + SALT22[:21] + one)
            trial.crypt(b"pw", front + SALT22 + one)
        trial.crypt(b"pw", b"$" + one + b"$salt")
        trial.crypt(b"pw", one)


def high_phrases(trial, dice):
    """Phrases of which crypt_blowfish's safety measure gives another hash under `$2a$`, and their neighbours."""
    for _ in range(400):
        length = dice.choice([1, 2, 3, 4, 5, 7, 8, 11, 35, 70, 71, 72, 73, 80, 255, 511])
        phrase = bytearray(dice.choice([255, 255, 255, 128, 0xa3, 127, 97]) for _ in range(length))
        if dice.random() < 0.6:
            phrase = bytearray(dice.randrange(1, 128) for _ in range(length))
            place = 4 * dice.randrange(length // 4 + 1) + dice.choice([0, 0, 0, 1])
            for k, byte in enumerate([255] * dice.randrange(4) + [dice.randrange(128, 256)]):
                if place + k < length:
                    phrase[place + k] = byte
        for front in BCRYPT:
            trial.crypt(bytes(phrase), front + SALT22)


def new_settings(trial, dice):
    data = bytes(dice.randrange(256) for _ in range(90))
    for prefix in given.PREFIXES.values():
        for count in [*range(40), 999, 1000, 1001, 4999, 5000, 5001, 999999999, 1000000000, 2 ** 32 + 6, 2 ** 64 - 1]:
            trial.gensalt(prefix, count, data, 16)
        for length in range(90):
            trial.gensalt(prefix, 0, data, length)
        # Of the sizes at which libxcrypt ends the process by an assertion none is tried: 8, and 20 with rounds.
        for size in [*range(-2, 8), *range(9, 192)]:
            trial.gensalt(prefix, 0, data, 16, size)
    for prefix in (b"$2x$", b"$9$", b"*", b"$", b"$6", b"$6$salt", b"$y$j9T$", b"$2b$12$", b"$1$:", b"$7$\xff", b"$sha1$", b"$sha1x", b"$sha"):
        trial.gensalt(prefix, 0, data, 16)


def drawn(trial):
    """Without random bytes the salts differ, and the rest is the same."""
    for prefix in given.PREFIXES.values():
        pairs = [(library.gensalt(prefix, 0, None, length)[0]) for library in (trial.ours, trial.theirs) for length in (0, 5, -1)]
        trial.tried += 6
        if len({len(text) for text in pairs}) != 1 or len(set(pairs)) != 6 or any(
                given.kept(b"", text) == errno.EINVAL for text in pairs):
            trial.say("drawn", prefix, pairs)
    ours, theirs = (library.gensalt(None, 0, None, 0)[0] for library in (trial.ours, trial.theirs))
    if ours[:7] != theirs[:7] or len(ours) != len(theirs):
        trial.say("drawn without a prefix", ours, theirs)


def statuses(trial, dice):
    fixed = [b"", b"*", b"$", b"$6", b"$9$", b"$1$", b"$5$", b"$6$rounds=1$", b"$6$" + b"x" * 600, b"$7$", b"$y$", b"$2a$",
             b"$2b$99$", b"$2y$", b"$sha1", b"$sha1x", b"$sha", b"$6$a:b", b"$6$a b", b"$6$\xc3\xa9", b"*0", b"$apr1$x"]
    for setting in fixed + [given.setting(dice) for _ in range(3000)]:
        trial.tried += 1
        ours, theirs = trial.ours.checksalt(setting), trial.theirs.checksalt(setting)
        if ours != theirs:
            if ours == 1 and given.method_of(setting) is None:
                trial.listed["another method"] += 1
            else:
                trial.say("checksalt", setting, ours, theirs)
    if (trial.ours.checksalt(None), trial.ours.library.crypt_preferred_method()) \
            != (trial.theirs.checksalt(None), trial.theirs.library.crypt_preferred_method()):
        trial.say("checksalt of null, or the preferred method")


def sized(library, phrase, setting, size):
    """crypt_rn in a buffer of this size, and what stands there then."""
    room = ctypes.create_string_buffer(b"\x07" * 40000, 40000)
    ctypes.set_errno(0)
    text = library.library.crypt_rn(phrase, setting, room, size)
    return (ctypes.get_errno() if text is None else text), room.raw[:8] if text is None else b""


def allocated(library, phrase, setting, start):
    """crypt_ra over memory of malloc of this size, or none; the size after it."""
    call = library.library.crypt_ra
    call.restype = ctypes.c_char_p
    call.argtypes = [ctypes.c_char_p, ctypes.c_char_p, ctypes.POINTER(ctypes.c_void_p), ctypes.POINTER(ctypes.c_int)]
    LIBC.malloc.restype = ctypes.c_void_p
    data = ctypes.c_void_p(LIBC.malloc(ctypes.c_size_t(start)) if start else None)
    size = ctypes.c_int(start)
    ctypes.set_errno(0)
    text = call(phrase, setting, ctypes.byref(data), ctypes.byref(size))
    answer = (ctypes.get_errno() if text is None else text), size.value, ctypes.string_at(data.value)
    LIBC.free(data)
    return answer


def old_calls(trial):
    """crypt and crypt_r, which answer a token in the place of null."""
    for phrase, setting in ((b"pw", b"$1$salt"), (b"pw", b"*0"), (b"pw", b"*1"), (b"pw", b"$9$"), (b"a" * 512, b"$1$salt"),
                            (None, b"$1$salt"), (b"pw", None), (None, None), (None, b"*0")):
        answers = []
        for library in (trial.ours, trial.theirs):
            for name, more in (("crypt", []), ("crypt_r", [ctypes.create_string_buffer(given.SIZE)])):
                call = getattr(library.library, name)
                call.restype, call.argtypes = ctypes.c_char_p, [ctypes.c_char_p, ctypes.c_char_p] + [ctypes.c_void_p] * len(more)
                ctypes.set_errno(0)
                text = call(phrase, setting, *more)
                answers.append((text, ctypes.get_errno() if text.startswith(b"*") else 0))
        trial.tried += 2
        if len(set(answers)) != 1:
            trial.say("crypt or crypt_r", phrase, setting, answers)


def face(trial):
    pairs = [(b"pw", b"$1$salt"), (b"pw", b"$9$"), (b"pw", b"*0"), (b"pw", b"*0x"), (b"pw", b"*1"), (None, b"$1$salt"),
             (b"pw", None), (None, None), (b"a" * 512, b"$1$salt"), (b"a" * 511, b"$1$salt"), (None, b"*0")]
    for phrase, setting in pairs:
        for size in (-2 ** 31, -1, 0, 1, 2, 3, 4, 384, 32767, 32768, 32769, 40000):
            trial.tried += 1
            ours, theirs = sized(trial.ours, phrase, setting, size), sized(trial.theirs, phrase, setting, size)
            if ours != theirs:
                trial.say("crypt_rn", phrase, setting, size, ours, theirs)
        for start in (0, 3, 32767, 32768, 40000):
            trial.tried += 1
            ours, theirs = allocated(trial.ours, phrase, setting, start), allocated(trial.theirs, phrase, setting, start)
            if ours != theirs:
                trial.say("crypt_ra", phrase, setting, start, ours, theirs)
    old_calls(trial)


def main():
    if len(sys.argv) < 2:
        sys.exit(__doc__)
    count = int(sys.argv[2]) if len(sys.argv) > 2 else 50000
    dice = random.Random(int(sys.argv[3]) if len(sys.argv) > 3 else 1)
    trial = Trial(given.Library(os.path.abspath(sys.argv[1])), given.Library("libcrypt.so.1"))
    settings(trial, dice, count)
    lengths_and_bytes(trial, dice)
    high_phrases(trial, dice)
    print(f"settings and phrases: {trial.tried}, a text for {trial.taken}")
    new_settings(trial, dice)
    drawn(trial)
    statuses(trial, dice)
    face(trial)
    print(f"calls: {trial.tried}; listed differences: {dict(trial.listed)}; others: {trial.differ}")
    return 1 if trial.differ else 0


if __name__ == "__main__":
    sys.exit(main())
