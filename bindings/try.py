#!/usr/bin/env python3
"""Builds the C library and one small program in C, Python and Rust over it, and compares their words with pwcheck's.

    bindings/try.py [FOLDER]

What is missing is built by `rt lib` and `rt run`. The library is laid out (bindings/library.py) in a new folder, or in
the one that is named. Each line of examples/passwords.txt and of the lines below is answered by `pwcheck check`, by the
C caller (static and shared, by pkg-config), by Python and by Rust, and the words have to be the same. What Python's own
library knows, scrypt, Base64 and texts by `crypt`, is compared too, and texts that others made of every other scheme; what is
refused has to be refused, and leave `out` as it was; a key under too little memory has to be answered by out of memory. What this
machine lacks is said and left out.
"""
import base64
import ctypes
import hashlib
import os
import resource
import shutil
import subprocess
import sys
import tempfile
import warnings

from library import HERE, TOP, laid_out, need, program, run, version

EXAMPLES = os.path.join(TOP, "examples", "passwords.txt")
SHA = b"$5$saltstring$5B8vYYiY.CVt1RlTTf8KbXBH3hsxY/GNooZaBBGWEc5"
SCRYPT = b"$scrypt$ln=4,r=8,p=1$aM15713r3Xsvxbi31lqr1Q$nFNh2CVHVjNldFVKDHDlm4CbdRSCdEBsjjJxD+iCs5E"
LINES = [b"Hello world!\t" + SHA, b"Hello world!\r\t" + SHA, b"Hello world!\t" + SHA + b"\r", b"\t" + SHA,
         b"Hello world!\t", b"\t", b"", b"Hello world!\x00\t" + SHA, b"\xff\t" + SHA, b"Hello world!\t" + SHA + b"\xc3",
         "pässwört\t".encode() + SHA, b"a" * 4096 + b"\t" + SHA, b"a" * 4097 + b"\t" + SHA, b"a" * 8192, b"a" * 8193]
LINES += [b"x\t" + text for text in [
    b"$", b"$5", b"$5$rounds=1000", b"$5$rounds=1000$salt", b"$5$rounds=x$salt$hash",
    b"$5$rounds=01000$salt$" + b"." * 43,
    b"$5$salt$" + b"." * 42, b"$5$salt$" + b"." * 43 + b"$more", b"$5$12345678901234567$" + b"." * 43,
    b"$6$salt$" + b"." * 86, b"$5$rounds=999$salt$" + b"." * 43, b"$-a$b", b"$a$$b", b"$a$b\x7f",
    b"$" + b"a" * 33 + b"$b=c",
    b"$scrypt$a=b=c$" + b"a" * 22, b"$scrypt$v=" + b"1" * 65, b"$scrypt$v=01", b"$scrypt$a=" + b"1" * 126,
    b"$scrypt$ln=4$short", b"$scrypt$ln=4$" + b"a" * 65, b"$scrypt$ln=4$" + b"a" * 13,
    b"$scrypt$ln=4$" + b"a" * 11 + b"$" + b"a" * 87, b"$scrypt$ln=4$" + b"a" * 11 + b"$" + b"A" * 8,
    SCRYPT.replace(b",r=8,p=1", b"") + b"$x", SCRYPT.replace(b",p=1", b""),
    SCRYPT.replace(b"ln=4,r=8,p=1", b"r=8,p=1,ln=4"), SCRYPT]]


def callers(folder, lib):
    """The commands that answer lines, with the variables that they need."""
    found = {}
    if shutil.which("pkg-config"):
        options = run("pkg-config", "--cflags", "--libs", "pwcheck", capture_output=True, text=True,
                      env={**os.environ, "PKG_CONFIG_PATH": os.path.join(lib, "pkgconfig")}).stdout.split()
        for name, more in [("C_static", ["-Wl,-Bstatic", *options, "-Wl,-Bdynamic"]), ("C_shared", options)]:
            binary = os.path.join(folder, name)
            source = os.path.join(HERE, "c", "check_lines.c")
            run("gcc", "-O2", "-Wall", "-Wextra", "-Werror", source, "-o", binary, *more)
            found[name] = ([binary], {"LD_LIBRARY_PATH": lib})
    else:
        print("try: no pkg-config, so no C")
    found["Python"] = ([sys.executable, os.path.join(HERE, "python", "check_lines.py")],
                       {"LIBPWCHECK": os.path.join(lib, "libpwcheck.so")})
    if shutil.which("cargo"):
        crate, target = os.path.join(HERE, "rust"), os.path.join(folder, "target")
        for work in (["test", "--quiet"], ["check", "--quiet", "--lib", "--no-default-features"], ["build", "--quiet", "--release"]):
            run("cargo", *work, "--offline", "--target-dir", target, cwd=crate, stdout=subprocess.DEVNULL,
                env={**os.environ, "PWCHECK_LIB": os.path.abspath(lib)})
        found["Rust"] = ([os.path.join(target, "release", "check_lines")], {})
    else:
        print("try: no cargo, so no Rust")
    return found


def faults_told(found):
    """The C caller says where it can't read or write."""
    for name in found:
        if name.startswith("C_"):
            command, more = found[name]
            env = {**os.environ, **more}
            with open("/dev/full", "wb") as full:
                done = subprocess.run(command, input=b"\t" + SHA + b"\n", stdout=full, stderr=subprocess.DEVNULL,
                                      env=env, check=False)
            need(done.returncode == 4, f"{name} ends with {done.returncode} on /dev/full")
            folder = os.open(HERE, os.O_RDONLY)
            done = subprocess.run(command, stdin=folder, capture_output=True, env=env, check=False)
            os.close(folder)
            need(done.returncode == 3, f"{name} ends with {done.returncode} on a folder")


def words(command, source, more=None):
    done = subprocess.run(command, input=source, capture_output=True, env={**os.environ, **(more or {})}, check=False)
    need(done.returncode in (0, 1), f"{command[0]} ended with {done.returncode}: {done.stderr.decode()}")
    return done.stdout.decode().splitlines()


def compare_words(found):
    with open(EXAMPLES, "rb") as source:
        lines = source.read() + b"\n".join(LINES) + b"\n"
    wanted = words([program(), "check"], lines)
    need(len(wanted) == lines.count(b"\n"), "the program didn't answer each line")
    for name, (command, more) in found.items():
        got = words(command, lines, more)
        for line, want, have in zip(lines.split(b"\n"), wanted, got):
            need(want == have, f"{name}: {have} for {want}: {line[:80]!r}")
        need(len(got) == len(wanted), f"{name}: {len(got)} answers for {len(wanted)} lines")
        print(f"{name}: {len(got)} lines, {len(set(got))} words, as the program")


# Texts of the password "secret", by openssl, libxcrypt, Python's hashlib and the program argon2.
ANY = {
    b"$1$abcdefgh$cHJi5PXp/ki/ktXzqlk6I1": {},
    b"$5$abcdefgh$gruCpC7VkOTspMQTTSAR8mtlO9Upms.fwqE5y16JVM.": {"sha_rounds": 4999},
    b"$2b$04$abcdefghijklmnopqrstuu2r9OfJnfCsdneAXAGHnS4UpFFP8WIrW": {"bcrypt_cost": 3},
    b"$scrypt$ln=4,r=8,p=1$c2FsdHNhbHRzYWx0$09/untC+3Bg44eiJQ8bqhTXgE2ali+ykLaojkJZlF9U": {"scrypt_r": 7},
    b"$pbkdf2-sha256$i=1000,l=32$c2FsdHNhbHRzYWx0$sVaWem31qy3rw+Ldi3plA/XzhMSNi9/XHnnD1Ytj05o": {"pbkdf2_rounds": 999},
    b"$pbkdf2-sha512$i=1000,l=64$c2FsdHNhbHRzYWx0$bePzWo/796SGZ2lBKpZcU2FQhQXnjiEADnvU8yLzaxu1BwlSR076rTWeGRrvgBz757DxNPmtAZpVls5xSi9daw":
        {"pbkdf2_rounds": 999},
    b"$argon2id$v=19$m=64,t=1,p=1$c2FsdHNhbHRzYWx0$Sm3MnLdCFk0Af+croKgebRoqqmhbKd88iiW3yUOXn78": {"argon2_memory": 63},
    b"$y$j75$0123456789ab$kb1fsIrDP1wOa4Q3gNpxZkfwQ3ce8kmPbnemuN65IT2": {"yescrypt_ln": 1},
}


def compare_any(pwcheck):
    """Texts of every scheme, their verdicts, the words of causes, and a limit below each."""
    answer = pwcheck.Answer
    for text, limits in ANY.items():
        need(pwcheck.check_any(b"secret", text) == answer.MATCH, f"no match for {text}")
        need(pwcheck.check_any(b"Secret", text) == answer.MISMATCH, f"no mismatch for {text}")
        if limits:
            need(pwcheck.check_any(b"secret", text, pwcheck.Limits(**limits)) == answer.OVER_COST, f"no bound for {text}")
    for text, word in [(b"*", "no-scheme"), (b"$1$abcdefgh", "md5-format"), (b"$2b$03$x", "bcrypt-cost"), (b"$2b$04$x", "bcrypt-format"),
                       (b"$y$j75$0123456789ab", "yescrypt-format"), (b"$5$a", "sha-format"), (b"\xff", "not-utf8")]:
        need(pwcheck.word(pwcheck.check_any(b"secret", text)) == word, f"another word than {word} for {text}")


def refused(call, *arguments, **more):
    try:
        call(*arguments, **more)
    except ValueError:
        return
    sys.exit(f"try: {call.__name__} took {arguments} {more}")


# Texts of the password "correct horse" and the salt "0123456789abcdef", by libxcrypt (crypt_gensalt and crypt), Python's hashlib and the
# program argon2, and the numbers that each is made of.
MADE = {
    "bcrypt": ({"cost": 4}, b"$2b$04$KBCwKxOzLha2MUDgW0PjXexGfB5dmDvvvgEVjeeXiTo87i0yXWYau"),
    "yescrypt": ({"ln": 10, "r": 8, "t": 0}, b"$y$j75$k2XAnEHBqQ1Ct2aMXFKNa/$E9XAySfP6N2THWdzNKesSVmhpcmhNusa8y5TMfT668."),
    "argon2id": ({"memory": 64, "passes": 3, "lanes": 2},
                 b"$argon2id$v=19$m=64,t=3,p=2$MDEyMzQ1Njc4OWFiY2RlZg$J4kPJI8w65Je5kJ2G7RTwG+seaIDuxomFJ+FRQCXmpY"),
    "pbkdf2-sha256": ({"rounds": 1000},
                      b"$pbkdf2-sha256$i=1000,l=32$MDEyMzQ1Njc4OWFiY2RlZg$cBg8D2DungRB9k76szThf5ehfyBz991ay6PT8Srwk4M"),
}


def compare_types(pwcheck):
    """What isn't a limit, a number of 32 bits or bytes is refused, and bytes-like objects are taken."""
    limits = pwcheck.Limits()
    for attempt in (lambda: setattr(limits, "bcrypt_cots", 3), lambda: pwcheck.Limits(bcrypt_cots=3), lambda: setattr(limits, "bcrypt_cost", 2.5),
                    lambda: pwcheck.check_any(b"a", b"b", {}), lambda: pwcheck.check_any(b"a", b"b", 0), lambda: pwcheck.check_any("a", b"b"),
                    lambda: pwcheck.make("sha512-crypt", "a"), lambda: pwcheck.make("bcrypt", b"a", salt="a" * 16), lambda: pwcheck.same("a", b"a"),
                    lambda: pwcheck.make(5, b"a"), lambda: pwcheck.make(b"bcrypt", b"a"), lambda: pwcheck.word(1.5), lambda: pwcheck.word(None),
                    lambda: pwcheck.sha_check("256", b"a", b"b")):
        try:
            attempt()
        except TypeError:
            continue
        sys.exit("try: a value of another type was taken")
    refused(setattr, limits, "bcrypt_cost", (1 << 32) + 5)
    limits.bcrypt_cost = 4
    need(limits.bcrypt_cost == 4, "a limit that isn't the one assigned")
    text = MADE["bcrypt"][1]
    for kind in (bytes, bytearray, memoryview):
        need(pwcheck.check_any(kind(b"correct horse"), kind(text), limits) == pwcheck.Answer.MATCH, f"no match of {kind.__name__}")
    limits.bcrypt_cost = 3
    need(pwcheck.check_any(b"correct horse", text, limits) == pwcheck.Answer.OVER_COST, "a bound that isn't kept")


def compare_login(pwcheck):
    """The calls of a login: a text that is made, and what is above the limits."""
    texts = {pwcheck.make_recommended(b"correct horse") for _ in range(3)}
    need(len(texts) == 3 and all(text.startswith(b"$argon2id$v=19$m=65536,t=3,p=4$") for text in texts), "not the recommended text")
    for text in texts:
        need(pwcheck.check_login(b"correct horse", text) == pwcheck.Answer.MATCH, "no match of a recommended text")
        need(pwcheck.check_login(b"Correct horse", text) == pwcheck.Answer.MISMATCH, "no mismatch of a recommended text")
        need(not pwcheck.needs_remake(text) and pwcheck.needs_remake(text[:-2]), "a recommended text isn't one")
        need(pwcheck.check_any(b"correct horse", text, pwcheck.LIMITS_LOGIN) == pwcheck.Answer.MATCH, "above the limits of a login")
    for text in ANY:
        need(pwcheck.check_login(b"secret", text) == pwcheck.Answer.MATCH, f"no match for {text}")
    dear = b"$2b$16$abcdefghijklmnopqrstuu2r9OfJnfCsdneAXAGHnS4UpFFP8WIrW"
    need(pwcheck.check_login(b"secret", dear) == pwcheck.Answer.OVER_COST, "no bound of a login")
    refused(pwcheck.make_recommended, b"\xff")
    for name in ("size", "argon2_memory_kib"):
        try:
            setattr(pwcheck.Limits(), name, 4)
        except TypeError:
            continue
        sys.exit(f"try: {name} was taken for a limit")


def compare_made(pwcheck):
    """Texts of each scheme, beside those of others; and what is refused, by its status. bench/made_c.py makes more of them."""
    for scheme, (numbers, text) in MADE.items():
        need(pwcheck.make(scheme, b"correct horse", b"0123456789abcdef", **numbers) == text, f"another text of {scheme}")
        for name, number in numbers.items():
            refused(pwcheck.make, scheme, b"a", **{**numbers, name: (1 << 32) + number})
            refused(pwcheck.make, scheme, b"a", **{**numbers, name: -1})
        for password, status in [(b"a" * 4097, "REFUSED_LENGTH"), (b"\xff", "REFUSED_UTF8"), (b"a\0", "REFUSED_ZERO")]:
            try:
                made = pwcheck.make(scheme, password, **numbers)
                need(status == "REFUSED_ZERO" and scheme in ("argon2id", "pbkdf2-sha256"), f"{scheme} took {password[:9]}")
                need(pwcheck.check_any(password, made) == pwcheck.Answer.MATCH, f"no match of {scheme} with a zero byte")
            except pwcheck.PasswordRefused as why:
                need(why.status.name == status, f"{scheme} refuses {password[:9]} by {why.status!r}")
    need(pwcheck.make("scrypt", b"a", bytes(16), ln=4, r=8, p=1) == pwcheck.scrypt_text(b"a", bytes(16), 4, 8, 1), "another text of scrypt")
    need(pwcheck.make("sha512-crypt", b"a", b"\xff" * 12, rounds=1000) == pwcheck.sha_text(512, b"a", b"z" * 16, 1000), "another salt")
    need(len({pwcheck.make("pbkdf2-sha256", b"a", rounds=1) for _ in range(100)}) == 100, "a salt is drawn twice")
    refused(pwcheck.make, "md5-crypt", b"a")
    refused(pwcheck.make, "scrypt", b"a", bytes(15))


def compare_scrypt(pwcheck):
    for ln, r, p, size in [(4, 8, 1, 64), (10, 8, 16, 64), (14, 8, 1, 32), (1, 1, 1, 1)]:
        want = hashlib.scrypt(b"password", salt=b"NaCl", n=1 << ln, r=r, p=p, dklen=size, maxmem=1 << 28)
        need(pwcheck.scrypt(b"password", b"NaCl", ln, r, p, size) == want, "scrypt differs")
    for cost in [(0, 8, 1, 32), (25, 8, 1, 32), (4, 0, 1, 32), (4, 8, 0, 32), (4, 8, 1, 0), (4, 8, 1, 65),
                 (22, 8, 1, 32), ((1 << 32) + 4, 8, 1, 32), (4, (1 << 32) + 8, 1, 32), (4, 8, -1, 32),
                 (4, 8, 1, 1 << 64)]:
        refused(pwcheck.scrypt, b"password", b"NaCl", *cost)


def compare_base64(pwcheck):
    for n in range(100):
        data = bytes(7 * k % 256 for k in range(n))
        for alphabet, coder in [(0, base64.b64encode), (2, base64.urlsafe_b64encode)]:
            text = coder(data)
            need(pwcheck.b64encode(alphabet, data) == text, "Base64 differs")
            need(pwcheck.b64encode(alphabet + 1, data) == text.rstrip(b"="), "Base64 differs")
            need(pwcheck.b64decode(alphabet, text) == data, "Base64 differs")
            need(pwcheck.b64decode(alphabet + 1, text.rstrip(b"=")) == data, "Base64 differs")
        for alphabet in range(4, 8):
            need(pwcheck.b64decode(alphabet, pwcheck.b64encode(alphabet, data)) == data, "Base64 isn't taken back")
    for alphabet, text in [(0, b"Zg="), (0, b"Zh=="), (1, b"Z"), (3, b"Zg+/"), (8, b""), (1 << 32, b""), (-1, b"")]:
        refused(pwcheck.b64decode, alphabet, text)
    for alphabet in (8, 1 << 32, -1):
        refused(pwcheck.b64encode, alphabet, b"")


def compare_text(pwcheck, crypt, bits, password, salt, rounds):
    """A text and its field, against libxcrypt, and its verdicts."""
    data = password.encode()
    text = pwcheck.sha_text(bits, data, salt.encode(), rounds)
    setting = f"${'5' if bits == 256 else '6'}${f'rounds={rounds}$' if rounds != 5000 else ''}{salt}$"
    need(not crypt or crypt.crypt(password, setting).encode() == text, "a text differs")
    need(pwcheck.sha_field(bits, data, salt.encode(), rounds) == text.rpartition(b"$")[2], "a field differs")
    for asked, answer in [(data, pwcheck.Answer.MATCH), (data + b"a", pwcheck.Answer.MISMATCH)]:
        need(pwcheck.check(asked, text) == pwcheck.sha_check(bits, asked, text) == answer, "not the verdict on a text")
    need(pwcheck.sha_check(768 - bits, data, text) == pwcheck.Answer.SHA_IDENTIFIER, "the other family isn't told")
    limited = [pwcheck.check_limited(data, text, bound, 0) for bound in (rounds - 1, rounds)]
    need(limited == [pwcheck.Answer.OVER_COST, pwcheck.Answer.MATCH], "the bound on rounds isn't kept")


def compare_texts(pwcheck):
    warnings.filterwarnings("ignore", category=DeprecationWarning)
    try:
        import crypt
    except ImportError:
        crypt = None
        print("try: no module crypt, so made texts are only checked by the library itself")
    for bits in (256, 512):
        for password in ["", "Hello world!", "pässwört", "a" * 100]:
            for salt in ["x", "./AZaz09", "1234567890123456"]:
                for rounds in [1000, 5000, 10_000]:
                    compare_text(pwcheck, crypt, bits, password, salt, rounds)
        for salt, rounds in [(b"", 5000), (b"a$b", 5000), (b"=", 5000), (b"a" * 17, 5000), (b"a", 999), (b"a", 10**9),
                             (b"a", (1 << 32) + 1000), (b"a", -1)]:
            refused(pwcheck.sha_text, bits, b"a", salt, rounds)
        for password in (b"p\xe4ss", b"a" * 4097):
            refused(pwcheck.sha_text, bits, password, b"a", 1000)
        refused(pwcheck.sha_digest, bits, b"a", b"a", 999)
        refused(pwcheck.sha_digest, bits, b"a" * 4097, b"a", 1000)
        refused(pwcheck.sha_field, bits, b"a" * 4097, b"a", 1000)
        need(pwcheck.sha_check(bits, b"a" * 4097, b"$") == pwcheck.Answer.PASSWORD_TOO_LONG, "a long password")
    refused(pwcheck.sha_text, 384, b"a", b"a")


def compare_scrypt_texts(pwcheck):
    """Texts of scrypt, beside hashlib's keys, their verdicts, and the bound on their cost."""
    for k, (ln, r, p) in enumerate([(14, 8, 1), (4, 8, 1), (1, 1, 1), (10, 1, 16), (2, 2048, 1)]):
        salt, password = bytes((17 * k + i) % 256 for i in range(16)), f"pässwört {k}".encode()
        key = hashlib.scrypt(password, salt=salt, n=1 << ln, r=r, p=p, dklen=32, maxmem=1 << 28)
        fields = [base64.b64encode(part).rstrip(b"=") for part in (salt, key)]
        want = b"$scrypt$ln=%d,r=%d,p=%d$%b$%b" % (ln, r, p, *fields)
        need(pwcheck.scrypt_text(password, salt, ln, r, p) == want, "a text of scrypt differs")
        need(pwcheck.check(password, want) == pwcheck.Answer.MATCH, "a text of scrypt doesn't match")
        cost = 128 * r * p << ln
        limited = [pwcheck.check_limited(password, want, 0, bound) for bound in (cost - 1, cost)]
        need(limited == [pwcheck.Answer.OVER_COST, pwcheck.Answer.MATCH], "the bound on bytes isn't kept")
    for password, salt, cost in [(b"\xe4", bytes(16), (4, 8, 1)), (b"a" * 4097, bytes(16), (4, 8, 1)),
                                 (b"a", bytes(15), (4, 8, 1)), (b"a", bytes(17), (4, 8, 1)),
                                 (b"a", bytes(16), (0, 8, 1)), (b"a", bytes(16), (4, 8, 1025)),
                                 (b"a", bytes(16), ((1 << 32) + 4, 8, 1))]:
        refused(pwcheck.scrypt_text, password, salt, *cost)


def compare_limits(pwcheck):
    """A text that takes hours is answered at once, and faults come before the bound."""
    costly = b"$5$rounds=999999999$x$kIBhdUvT3pHpfTjzR8s1XJu3y/HRJeFxMSffBtF8jx9"
    need(pwcheck.check_limited(b"", costly, 999_999_998, 1 << 63) == pwcheck.Answer.OVER_COST, "no bound on rounds")
    for line in LINES:
        password, tab, stored = line.rpartition(b"\t")
        answer = pwcheck.check_limited(password, stored, 0, 0)
        want = pwcheck.check(password, stored)
        if want in (pwcheck.Answer.MATCH, pwcheck.Answer.MISMATCH):
            want = pwcheck.Answer.OVER_COST
        need(answer == want, f"{answer!r} for {want!r} within no cost: {line[:60]!r}")
    refused(pwcheck.check_limited, b"", costly, 1 << 32, 0)
    refused(pwcheck.check_limited, b"", costly, 0, 1 << 64)


def compare_memory(pwcheck):
    big = SCRYPT.replace(b"ln=4", b"ln=16")
    soft, hard = resource.getrlimit(resource.RLIMIT_AS)
    with open("/proc/self/statm", encoding="ascii") as source:
        now = int(source.read().split()[0]) * resource.getpagesize()
    resource.setrlimit(resource.RLIMIT_AS, (now + (16 << 20), hard))
    out, n, call = (ctypes.c_uint8 * 97)(*range(97)), ctypes.c_size_t(77), pwcheck._lib
    answers = [pwcheck.check(b"password", big), pwcheck.check_limited(b"password", big, 0, 1 << 40)]
    statuses = [pwcheck._scrypt(b"password", 8, b"salt", 4, 16, 8, 1, ctypes.cast(out, ctypes.c_char_p), 64),
                call.pwcheck_scrypt_text(b"password", 8, bytes(16), 16, 16, 8, 1, ctypes.cast(out, ctypes.c_char_p), 97,
                                         ctypes.byref(n)),
                call.pwcheck_yescrypt_text(b"password", 8, bytes(16), 16, 14, 32, 0, ctypes.cast(out, ctypes.c_char_p), 97,
                                           ctypes.byref(n)),
                call.pwcheck_argon2id_text(b"password", 8, bytes(16), 16, 65536, 1, 1, ctypes.cast(out, ctypes.c_char_p), 97,
                                           ctypes.byref(n))]
    resource.setrlimit(resource.RLIMIT_AS, (soft, hard))
    need([pwcheck.word(answer) for answer in answers] == ["no-memory"] * 2, "out of memory isn't answered")
    need(statuses == [-2] * 4, "out of memory isn't answered")
    need(bytes(out) == bytes(range(97)) and n.value == 77, "out of memory leaves something in `out`")
    need(pwcheck.check_limited(b"password", big, 0, 1) == pwcheck.Answer.OVER_COST, "a bound on bytes isn't kept")


def compare_python(lib):
    os.environ["LIBPWCHECK"] = os.path.join(lib, "libpwcheck.so")
    sys.path.insert(0, os.path.join(HERE, "python"))
    import pwcheck

    compare_types(pwcheck)
    compare_scrypt(pwcheck)
    compare_base64(pwcheck)
    compare_texts(pwcheck)
    compare_scrypt_texts(pwcheck)
    compare_limits(pwcheck)
    compare_any(pwcheck)
    compare_made(pwcheck)
    compare_login(pwcheck)
    need(pwcheck.version() == pwcheck.VERSION == version(), "another version")
    need(pwcheck.same(b"abc", b"abc") and not pwcheck.same(b"abc", b"abd") and not pwcheck.same(b"abc", b"ab"), "same")
    for number in (-1, max(pwcheck.Answer) + 1, 1 << 30, 1 << 32, -1 << 31):
        refused(pwcheck.word, number)
    need(len({pwcheck.word(answer) for answer in pwcheck.Answer}) == 52, "not the words of the header")
    print("Python: scrypt, Base64 and SHA-crypt as its own library has them")
    compare_memory(pwcheck)
    print("Python: out of memory is answered")


def main():
    if not (shutil.which("gcc") and shutil.which("ar")):
        print("try: no gcc and binutils, so nothing was built")
        return
    with tempfile.TemporaryDirectory() as scratch:
        lib = laid_out(sys.argv[1] if len(sys.argv) > 1 else scratch)
        found = callers(scratch, lib)
        compare_words(found)
        faults_told(found)
        compare_python(lib)


main()
