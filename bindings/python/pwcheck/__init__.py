"""The exports of libpwcheck.so by ctypes. The file is named by LIBPWCHECK, or found as the loader finds libraries.

Each check returns an `Answer`, of which `MATCH` alone is leave to enter: compare with it, since `MATCH` is 0 and false.
A number or a length that is out of range raises ValueError, a value of another type TypeError, out of memory for a key MemoryError.
Passwords, stored texts and salts are bytes-like objects (bytes, bytearray, memoryview), of which the library keeps none.

    stored = pwcheck.make_recommended(b"correct horse")
    if pwcheck.check_login(b"correct horse", stored) == pwcheck.Answer.MATCH: ...
"""
import ctypes as c
import enum
import os
import secrets
from typing import Any, Callable, Dict, List, Optional, Union

__all__ = ["Answer", "Alphabet", "Data", "LIMITS_LOGIN", "Limits", "PasswordRefused", "RECOMMENDED", "Status", "VERSION", "check", "check_any",
           "check_limited", "check_login", "make", "make_recommended", "needs_remake", "sha_check", "word", "version", "scrypt", "scrypt_text", "sha_digest", "sha_field", "sha_text", "b64encode",
           "b64decode", "same"]


Data = Union[bytes, bytearray, memoryview]


class Answer(enum.IntEnum):
    """What the checks answer: a verdict, or the first cause that there is none."""

    MATCH = 0
    MISMATCH = 1
    NOT_UTF8 = 2
    OUT_OF_MEMORY = 3
    PASSWORD_TOO_LONG = 4
    MCF_DELIMITER = 5
    MCF_IDENTIFIER = 6
    MCF_FIELD = 7
    MCF_ENCODING = 8
    SHA_IDENTIFIER = 9
    SHA_NO_FIELDS = 10
    SHA_NO_SALT = 11
    SHA_ROUNDS_NOT_NUMBER = 12
    SHA_NO_HASH = 13
    SHA_TRAILING = 14
    SHA_ROUNDS = 15
    SHA_SALT_TOO_LONG = 16
    SHA_BASE64 = 17
    PHC_NAME = 18
    PHC_VALUE_LONG = 19
    PHC_VALUE = 20
    PHC_PARAMS_LONG = 21
    PHC_SALT_SHORT = 22
    PHC_SALT_LONG = 23
    PHC_B64 = 24
    PHC_HASH_LONG = 25
    PHC_HASH_SHORT = 26
    PHC_TRAILING = 27
    NO_HASH = 28
    KDF = 29
    OVER_COST = 30
    NO_SCHEME = 31
    MD5_FORMAT = 32
    BCRYPT_OBSOLETE = 33
    BCRYPT_COST = 34
    BCRYPT_B64 = 35
    BCRYPT_FORMAT = 36
    YESCRYPT_FLAVOR = 37
    YESCRYPT_COST = 38
    YESCRYPT_FORMAT = 39
    SCRYPT_COST = 40
    SCRYPT_FORMAT = 41
    ZERO_BYTE = 42
    SHA1_COST = 43
    SHA1_B64 = 44
    SHA1_FORMAT = 45
    SCRAM_COST = 46
    SCRAM_B64 = 47
    SCRAM_FORMAT = 48
    NOT_ASCII = 49
    PHPASS_COST = 50
    PHPASS_B64 = 51
    PHPASS_FORMAT = 52
    DIGEST_B64 = 53
    DIGEST_FORMAT = 54
    MYSQL_COST = 55
    MYSQL_B64 = 56
    MYSQL_FORMAT = 57


class Alphabet(enum.IntEnum):
    """The alphabets of Base64."""

    BASE64 = 0
    BASE64_UNPADDED = 1
    BASE64_URL = 2
    BASE64_URL_UNPADDED = 3
    BASE64_BCRYPT = 4
    BASE64_CRYPT = 5
    BASE64_PBKDF2 = 6
    BASE64_SHA_CRYPT = 7


class Status(enum.IntEnum):
    """What the other calls of the library answer; the functions here raise an exception instead."""

    DONE = 0
    OUT_OF_RANGE = -1
    NO_MEMORY = -2
    NO_ROOM = -3
    NOT_BASE64 = -4
    REFUSED_LENGTH = -5
    REFUSED_UTF8 = -6
    REFUSED_ZERO = -7
    NO_RANDOM = -8


class PasswordRefused(ValueError):
    """No text is made of a password; `status` says why, REFUSED_LENGTH, REFUSED_UTF8 or REFUSED_ZERO."""

    def __init__(self, status: Status) -> None:
        super().__init__({Status.REFUSED_LENGTH: "the password is too long", Status.REFUSED_UTF8: "the password isn't UTF-8",
                          Status.REFUSED_ZERO: "the password has a zero byte"}[status])
        self.status = status


class Limits(c.Structure):
    """The most that a valid stored text may ask for, scheme by scheme; a limit that is left out bounds nothing.

    `Limits(bcrypt_cost=12, argon2_memory=65536)` takes bcrypt up to cost 12 and Argon2 up to 64 MiB.
    """

    _fields_ = [(name, c.c_uint32) for name in (
        "size", "sha_rounds", "bcrypt_cost", "yescrypt_ln", "yescrypt_r", "yescrypt_t", "pbkdf2_rounds", "scrypt_ln", "scrypt_r",
        "scrypt_p", "argon2_memory", "argon2_passes", "argon2_lanes")]

    def __init__(self, **limits: int) -> None:
        super().__setattr__("size", c.sizeof(type(self)))
        for name, _ in self._fields_[1:]:
            super().__setattr__(name, (1 << 32) - 1)
        for name, number in limits.items():
            setattr(self, name, number)

    def __setattr__(self, name: str, number: int) -> None:
        if name not in dict(self._fields_[1:]):
            raise TypeError(f"{name} is no limit")
        super().__setattr__(name, _natural(number))


WORD_SIZE = 18
SHA256_DIGEST_SIZE, SHA512_DIGEST_SIZE = 32, 64
SHA256_FIELD_SIZE, SHA512_FIELD_SIZE = 43, 86
SHA256_TEXT_MAX, SHA512_TEXT_MAX, SCRYPT_TEXT_MAX = 80, 123, 93
SCRYPT_SALT_SIZE, PASSWORD_MAX = 16, 4096
TEXT_MAX, SALT_SIZE, BCRYPT_PASSWORD_MAX = 123, 16, 72
RECOMMENDED_SHA256_CRYPT_ROUNDS, RECOMMENDED_SHA512_CRYPT_ROUNDS = 535000, 656000
RECOMMENDED_SCRYPT_LN, RECOMMENDED_SCRYPT_R, RECOMMENDED_SCRYPT_P = 17, 8, 1
RECOMMENDED_BCRYPT_COST, RECOMMENDED_PBKDF2_SHA256_ROUNDS = 12, 600000
RECOMMENDED_YESCRYPT_LN, RECOMMENDED_YESCRYPT_R, RECOMMENDED_YESCRYPT_T = 12, 32, 0
RECOMMENDED_ARGON2ID_MEMORY, RECOMMENDED_ARGON2ID_PASSES, RECOMMENDED_ARGON2ID_LANES = 65536, 3, 4
VERSION_MAJOR, VERSION_MINOR = 1, 1
VERSION = f"{VERSION_MAJOR}.{VERSION_MINOR}"

_FILE = os.environ.get("LIBPWCHECK", f"libpwcheck.so.{VERSION_MAJOR}")
try:
    _lib = c.CDLL(_FILE)
except OSError as _error:
    raise ImportError(f"{_FILE} isn't found or can't be loaded ({_error}): LIBPWCHECK names the file of the library") from None
_bytes = [c.c_char_p, c.c_size_t]
_len = c.POINTER(c.c_size_t)
_sha = [*_bytes, *_bytes, c.c_uint32, *_bytes]
_cost = [c.c_uint32, c.c_uint32, c.c_uint32]


def _export(name: str, result: Any, *arguments: Any) -> Callable[..., int]:
    call: Any = getattr(_lib, "pwcheck_" + name)
    call.restype, call.argtypes = result, list(arguments)
    entry: Callable[..., int] = call
    return entry


_check = _export("check", c.c_int32, *_bytes, *_bytes)
_check_limited = _export("check_limited", c.c_int32, *_bytes, *_bytes, c.c_uint32, c.c_uint64)
_check_any = _export("check_any", c.c_int32, *_bytes, *_bytes, c.POINTER(Limits))
_check_login = _export("check_login", c.c_int32, *_bytes, *_bytes)
_make = _export("make", c.c_int32, *_bytes, *_bytes, _len)
_needs_remake = _export("needs_remake", c.c_bool, *_bytes)
_word = _export("word", c.c_size_t, c.c_int32, *_bytes)
_version = _export("version", c.c_size_t, *_bytes)
_scrypt = _export("scrypt", c.c_int32, *_bytes, *_bytes, *_cost, *_bytes)
_scrypt_text = _export("scrypt_text", c.c_int32, *_bytes, *_bytes, *_cost, *_bytes, _len)
_checks = {bits: _export(f"sha{bits}_check", c.c_int32, *_bytes, *_bytes) for bits in (256, 512)}
_digests = {bits: _export(f"sha{bits}_crypt", c.c_int32, *_sha) for bits in (256, 512)}
_fields = {bits: _export(f"sha{bits}_crypt_b64", c.c_int32, *_sha) for bits in (256, 512)}
_texts = {bits: _export(f"sha{bits}_crypt_text", c.c_int32, *_sha, _len) for bits in (256, 512)}
_makers = {
    "bcrypt": _export("bcrypt_text", c.c_int32, *_bytes, *_bytes, c.c_uint32, *_bytes, _len),
    "yescrypt": _export("yescrypt_text", c.c_int32, *_bytes, *_bytes, *_cost, *_bytes, _len),
    "argon2id": _export("argon2id_text", c.c_int32, *_bytes, *_bytes, *_cost, *_bytes, _len),
    "pbkdf2-sha256": _export("pbkdf2_sha256_text", c.c_int32, *_bytes, *_bytes, c.c_uint32, *_bytes, _len),
}
_encoded_len = _export("base64_encoded_len", c.c_size_t, c.c_uint32, c.c_size_t)
_decoded_len = _export("base64_decoded_len", c.c_size_t, c.c_uint32, *_bytes)
_decode = _export("base64_decode", c.c_int32, c.c_uint32, *_bytes, *_bytes, _len)
_encode = _export("base64_encode", c.c_int32, c.c_uint32, *_bytes, *_bytes, _len)
_same = _export("same_bytes", c.c_bool, *_bytes, *_bytes)

_DIGEST_SIZES = {256: SHA256_DIGEST_SIZE, 512: SHA512_DIGEST_SIZE}
_FIELD_SIZES = {256: SHA256_FIELD_SIZE, 512: SHA512_FIELD_SIZE}
_TEXT_MAX = {256: SHA256_TEXT_MAX, 512: SHA512_TEXT_MAX}

# What a new text should cost, by the names of the schemes and of the numbers that `make` takes; `include/pwcheck.h` names the sources.
RECOMMENDED: Dict[str, Dict[str, int]] = {
    "argon2id": {"memory": RECOMMENDED_ARGON2ID_MEMORY, "passes": RECOMMENDED_ARGON2ID_PASSES, "lanes": RECOMMENDED_ARGON2ID_LANES},
    "yescrypt": {"ln": RECOMMENDED_YESCRYPT_LN, "r": RECOMMENDED_YESCRYPT_R, "t": RECOMMENDED_YESCRYPT_T},
    "bcrypt": {"cost": RECOMMENDED_BCRYPT_COST},
    "scrypt": {"ln": RECOMMENDED_SCRYPT_LN, "r": RECOMMENDED_SCRYPT_R, "p": RECOMMENDED_SCRYPT_P},
    "pbkdf2-sha256": {"rounds": RECOMMENDED_PBKDF2_SHA256_ROUNDS},
    "sha512-crypt": {"rounds": RECOMMENDED_SHA512_CRYPT_ROUNDS},
    "sha256-crypt": {"rounds": RECOMMENDED_SHA256_CRYPT_ROUNDS},
}
_SHA_BITS = {"sha256-crypt": 256, "sha512-crypt": 512}
# SHA-crypt's 16 characters of a salt stand for so many bytes.
_SHA_SALT_SIZE = 16 * 6 // 8


def _natural(n: int, bits: int = 32) -> int:
    """The number, which ctypes would otherwise take modulo 2^bits."""
    if not isinstance(n, int):
        raise TypeError(f"a number is wanted, not {type(n).__name__}")
    if not 0 <= n < 1 << bits:
        raise ValueError(f"{n} is out of range")
    return n


def _data(*data: Data) -> List[Any]:
    """Each of the bytes-like objects as bytes, with its length."""
    words: List[Any] = []
    for one in data:
        if not isinstance(one, (bytes, bytearray, memoryview)):
            raise TypeError(f"a bytes-like object is needed, not {type(one).__name__}")
        words += [bytes(one), len(bytes(one))]
    return words


# The limits of a login, whose sources include/pwcheck.h names.
LIMITS_LOGIN = Limits(sha_rounds=5248000, bcrypt_cost=15, yescrypt_ln=15, yescrypt_r=32, yescrypt_t=0, pbkdf2_rounds=4800000, scrypt_ln=17,
                      scrypt_r=32, scrypt_p=10, argon2_memory=262144, argon2_passes=8, argon2_lanes=8)


def _of(calls: Dict[int, Any], bits: int) -> Any:
    """The entry of SHA-256-crypt or SHA-512-crypt."""
    if _natural(bits) not in calls:
        raise ValueError(f"{bits} is neither 256 nor 512")
    return calls[bits]


def _done(number: int) -> None:
    status = Status(number)
    if status == Status.NO_MEMORY:
        raise MemoryError("no memory for the key")
    if status == Status.NO_RANDOM:
        raise OSError("the system gave no random bytes")
    if status in (Status.REFUSED_LENGTH, Status.REFUSED_UTF8, Status.REFUSED_ZERO):
        raise PasswordRefused(status)
    if status != Status.DONE:
        raise ValueError(status.name.lower().replace("_", " "))


def _filled(size: int, call: Callable[..., int], *arguments: Any) -> bytes:
    out = c.create_string_buffer(max(size, 1))
    _done(call(*arguments, out, size))
    return out.raw[:size]


def _written(room: int, call: Callable[..., int], *arguments: Any) -> bytes:
    out, n = c.create_string_buffer(max(room, 1)), c.c_size_t(0)
    _done(call(*arguments, out, room, c.byref(n)))
    return out.raw[: n.value]


def _told(room: int, call: Callable[..., int], *arguments: Any) -> str:
    out = c.create_string_buffer(room)
    call(*arguments, out, room)
    return out.value.decode()


def check(password: Data, stored: Data) -> Answer:
    """Checks a password against a stored text, SHA-crypt or a PHC record of scrypt."""
    return Answer(_check(*_data(password, stored)))


def check_limited(password: Data, stored: Data, max_rounds: int, max_bytes: int) -> Answer:
    """Checks as `check`, but answers OVER_COST, and computes nothing, for a valid text of more than `max_rounds` rounds
    of SHA-crypt, or of scrypt that mixes more than `max_bytes` bytes (128 r p 2^ln)."""
    return Answer(_check_limited(*_data(password, stored), _natural(max_rounds),
                                 _natural(max_bytes, 64)))


def check_any(password: Data, stored: Data, limits: Optional[Limits] = None) -> Answer:
    """Checks a password against a stored text of every scheme, and answers OVER_COST, and hashes nothing, for a valid text
    that asks for more than a limit. Without limits a text of another's choice may ask for hours and for gigabytes."""
    if not isinstance(limits, (Limits, type(None))):
        raise TypeError(f"limits are Limits or None, not {type(limits).__name__}")
    return Answer(_check_any(*_data(password, stored), c.byref(Limits() if limits is None else limits)))


def check_login(password: Data, stored: Data) -> Answer:
    """Checks a password against a stored text of every scheme within `LIMITS_LOGIN`: what a login service asks."""
    return Answer(_check_login(*_data(password, stored)))


def needs_remake(stored: Data) -> bool:
    """Whether a text of `make_recommended` is to take the place of a stored text: this one is weak, of another scheme than Argon2id, or
    without a verdict. Nothing is hashed. Ask after a match, and then store the text that `make_recommended` makes of the same password."""
    return bool(_needs_remake(*_data(stored)))


def sha_check(bits: int, password: Data, stored: Data) -> Answer:
    """Checks a password against a text of SHA-256-crypt or SHA-512-crypt alone (`bits` is 256 or 512)."""
    return Answer(_of(_checks, bits)(*_data(password, stored)))


def word(answer: int) -> str:
    """The word of an answer, as `pwcheck check` writes it."""
    if not isinstance(answer, int):
        raise TypeError(f"a number is wanted, not {type(answer).__name__}")
    if not -1 << 31 <= answer < 1 << 31:
        raise ValueError(f"{answer} is out of range")
    told = _told(WORD_SIZE, _word, answer)
    if not told:
        raise ValueError(f"{answer} is no answer")
    return told


def version() -> str:
    """The version of the library that is loaded."""
    return _told(32, _version)


def scrypt(password: Data, salt: Data, ln: int, r: int, p: int, size: int) -> bytes:
    """The key of scrypt (RFC 7914) of 1 to 64 bytes, with N = 2^ln."""
    return _filled(_natural(size, 16), _scrypt, *_data(password, salt), _natural(ln), _natural(r), _natural(p))


def scrypt_text(password: Data, salt: Data, ln: int = 14, r: int = 8, p: int = 1) -> bytes:
    """The PHC text of a password of at most 4,096 bytes of UTF-8, for a salt of 16 bytes, as `os.urandom(16)`."""
    return _written(SCRYPT_TEXT_MAX, _scrypt_text, *_data(password, salt), _natural(ln), _natural(r), _natural(p))


def sha_digest(bits: int, password: Data, salt: Data, rounds: int = 5000) -> bytes:
    """The digest of SHA-256-crypt or SHA-512-crypt, of which the first 16 bytes of the salt count."""
    return _filled(_of(_DIGEST_SIZES, bits), _digests[bits], *_data(password, salt), _natural(rounds))


def sha_field(bits: int, password: Data, salt: Data, rounds: int = 5000) -> bytes:
    """The hash field of that digest."""
    return _filled(_of(_FIELD_SIZES, bits), _fields[bits], *_data(password, salt), _natural(rounds))


def sha_text(bits: int, password: Data, salt: Data, rounds: int = 5000) -> bytes:
    """The text `$5$..` or `$6$..` of a password of at most 4,096 bytes of UTF-8, for a salt of 1 to 16 characters of
    [./0-9A-Za-z] that the caller draws, as by `secrets.choice`."""
    return _written(_of(_TEXT_MAX, bits), _texts[bits], *_data(password, salt), _natural(rounds))


def _fit(password: Data, zero: bool) -> None:
    """Refuses a password as the library's newer calls do, for SHA-crypt and scrypt, whose older ones say out of range."""
    whole = _data(password)[0]
    if len(whole) > PASSWORD_MAX:
        raise PasswordRefused(Status.REFUSED_LENGTH)
    try:
        whole.decode()
    except UnicodeDecodeError:
        raise PasswordRefused(Status.REFUSED_UTF8) from None
    if not zero and b"\0" in whole:
        raise PasswordRefused(Status.REFUSED_ZERO)


def _made(scheme: str, password: Data, salt: Data, numbers: Dict[str, int]) -> bytes:
    if scheme in _makers:
        return _written(TEXT_MAX, _makers[scheme], *_data(password, salt), *map(_natural, numbers.values()))
    _fit(password, zero=scheme == "scrypt")
    if scheme == "scrypt":
        return scrypt_text(password, salt, **numbers)
    return sha_text(_SHA_BITS[scheme], password, b64encode(Alphabet.BASE64_SHA_CRYPT, salt), **numbers)


def make(scheme: str, password: Data, salt: Optional[Data] = None, **costs: int) -> bytes:
    """The text to store of a password, which `check_any` answers with MATCH.

    The scheme is one of `RECOMMENDED`, which says what the text costs where a number is left out: `make("bcrypt", password,
    cost=13)`. The salt is drawn by `secrets` unless it is given: 16 bytes, for SHA-crypt 12. A password of more than 4,096 bytes
    (bcrypt: 72), that isn't UTF-8, or has a zero byte (SHA-crypt, bcrypt, yescrypt) raises PasswordRefused.
    """
    if not isinstance(scheme, str):
        raise TypeError(f"the name of a scheme is wanted, not {type(scheme).__name__}")
    if scheme not in RECOMMENDED:
        raise ValueError(f"no texts of {scheme} are made")
    numbers = {**RECOMMENDED[scheme], **costs}
    if len(numbers) > len(RECOMMENDED[scheme]):
        raise TypeError(f"{scheme} costs {', '.join(RECOMMENDED[scheme])}")
    size = _SHA_SALT_SIZE if scheme in _SHA_BITS else SALT_SIZE
    if salt is None:
        salt = secrets.token_bytes(size)
    if _data(salt)[1] != size:
        raise ValueError(f"a salt of {scheme} has {size} bytes")
    return _made(scheme, password, salt, numbers)


def make_recommended(password: Data) -> bytes:
    """The text to store of a password by the scheme and the cost that the library recommends, with a salt that it draws. A password is
    refused as by `make`; OSError where the system gives no random bytes."""
    return _written(TEXT_MAX, _make, *_data(password))


def b64encode(alphabet: int, data: Data) -> bytes:
    """The encoding of bytes in an alphabet."""
    n = _natural(alphabet)
    return _written(_encoded_len(n, _data(data)[1]), _encode, n, *_data(data))


def b64decode(alphabet: int, text: Data) -> bytes:
    """The bytes whose one encoding in an alphabet is this text."""
    n = _natural(alphabet)
    return _written(_decoded_len(n, *_data(text)), _decode, n, *_data(text))


def same(a: Data, b: Data) -> bool:
    """Whether two lists of bytes are the same, by steps that depend on their lengths alone."""
    return bool(_same(*_data(a, b)))
