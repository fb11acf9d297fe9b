"""What each maker of `pwtool --from` writes, in Python: the stored text that a text is read as, or the word of its first fault.

`converted(maker, text)` gives ("text", stored) or ("word", fault). The definitions are written by the makers' forms (docs/PROGRAMS.md) and
not by the code: Python's own Base64, int and regular expressions read the fields. maker_texts.py compares them with the program.
"""
import base64
import re

SALT, KEY, FIELD = range(8, 49), range(10, 65), 128
# The bytes of a digest by its tag; of the salt of a salted one; and the characters of a field that has both, for the longest digest.
DIGESTS = {"smd5": 16, "ssha": 20, "ssha256": 32, "ssha512": 64}
DIGEST_SALT, DIGEST_FIELD = range(1, 49), 152
PLAIN = "ABCDEFGHIJKLMNOPQRSTUVWXYZabcdefghijklmnopqrstuvwxyz0123456789+/"
CRYPT = "./0123456789ABCDEFGHIJKLMNOPQRSTUVWXYZabcdefghijklmnopqrstuvwxyz"


class Fault(Exception):
    pass


def need(holds, word):
    if not holds:
        raise Fault(word)


# ---- fields: each gives its value or raises the word

def number(field, word):
    need(re.fullmatch("0|[1-9][0-9]{0,9}", field, re.ASCII) and int(field) < 2 ** 32, word)
    return int(field)


def base64_of(field, padded, most=FIELD):
    need(len(field) <= most and re.fullmatch("[A-Za-z0-9+/]*" + ("={0,2}" if padded else ""), field, re.ASCII), None)
    whole = field if padded else field + "=" * (-len(field) % 4)
    try:
        got = base64.b64decode(whole, validate=True)
    except ValueError:
        raise Fault(None) from None
    need(base64.b64encode(got).decode() == whole, None)
    return got


def padded(field):
    return base64_of(field, True)


def unpadded(field):
    return base64_of(field, False)


def adapted(field):
    need("+" not in field, None)
    return base64_of(field.replace(".", "+"), False)


def in_crypt(field):
    need(re.fullmatch("[./0-9A-Za-z]*", field, re.ASCII), None)
    return base64_of(field.translate(str.maketrans(CRYPT, PLAIN)), False)


def digits(pattern):
    def read(field):
        need(len(field) <= FIELD and len(field) % 2 == 0 and re.fullmatch(pattern, field, re.ASCII), None)
        return bytes.fromhex(field)
    return read


small = digits("[0-9a-f]*")
small_or_capital = digits("[0-9a-f]*|[0-9A-F]*")


def characters(field):
    return field.encode()


def cut(text, mark, count):
    got = text.split(mark)
    need(len(got) == count, "foreign-form")
    return got


# ---- records

def bare(data):
    return base64.b64encode(data).decode().rstrip("=")


def record(front, salt, read_salt, key, read_key):
    """A salt, its length, a key, its length."""
    salt = read(read_salt, salt, "foreign-salt")
    need(len(salt) in SALT, "foreign-salt-length")
    key = read(read_key, key, "foreign-hash")
    need(len(key) in KEY, "foreign-hash-length")
    return f"${front}${bare(salt)}${bare(key)}"


def read(reader, field, word):
    try:
        return reader(field)
    except Fault:
        raise Fault(word) from None


def pbkdf2(name, rounds):
    return f"pbkdf2-{name}$i={number(rounds, 'foreign-rounds')}"


def scrypt(n, r, p):
    n = number(n, "foreign-cost")
    need(n >= 2 and bin(n).count("1") == 1, "foreign-cost")
    return f"scrypt$ln={n.bit_length() - 1},r={number(r, 'foreign-cost')},p={number(p, 'foreign-cost')}"


def as_it_is(text, sign):
    need(text.startswith(sign), "foreign-form")
    return text


def crypts(text):
    need(text.startswith("$") or (not text.startswith(("*", "!")) and len(text) >= 2), "locked")
    need(text.startswith("$"), "unsupported-des-crypt")
    return text


def unread(text, rows):
    """The word of the first front that a text has, of rows of a word and fronts."""
    for word, *fronts in rows:
        if text.startswith(tuple(fronts)):
            raise Fault(word if word.startswith("foreign") else "unsupported-" + word)
    raise Fault("unsupported-scheme")


def after(text, *fronts):
    for front in fronts:
        if text.startswith(front):
            return text[len(front):]
    return None


def tagged(text, *tags):
    """What comes after a tag in capital or in small letters."""
    return after(text, *(form for tag in tags for form in ("{" + tag + "}", "{" + tag.lower() + "}")))


# ---- makers

def django(text):
    for name in ("sha256", "sha1"):
        if (rest := after(text, f"pbkdf2_{name}$")) is not None:
            rounds, salt, key = cut(rest, "$", 3)
            return record(pbkdf2(name, rounds), salt, characters, key, padded)
    if (rest := after(text, "scrypt$")) is not None:
        n, salt, r, p, key = cut(rest, "$", 5)
        return record(scrypt(n, r, p), salt, characters, key, padded)
    if (rest := after(text, "argon2")) is not None:
        return as_it_is(rest, "$argon2")
    if (rest := after(text, "bcrypt$")) is not None:
        return as_it_is(rest, "$2")
    if (rest := after(text, "bcrypt_sha256$")) is not None:
        need(rest.startswith("$2") and len(rest.encode()) == 60, "foreign-form")
        return "$bcrypt-sha256-hex" + rest
    return unread(text, [("sha1", "sha1$", "unsalted_sha1$"), ("md5", "md5$", "unsalted_md5$"), ("des-crypt", "crypt$")])


def werkzeug(text):
    method, salt, key = cut(text, "$", 3)
    words = method.split(":")
    if words[0] == "scrypt" and len(words) > 1:
        cost = scrypt(*cut(":".join(words[1:]), ":", 3))
    elif words[0] == "pbkdf2" and len(words) > 2 and words[1] in ("sha1", "sha256", "sha512"):
        need(len(words) == 3, "foreign-form")
        cost = pbkdf2(words[1], words[2])
    else:
        unread(method, [("foreign-form", "pbkdf2", "scrypt"), ("sha1", "sha1"), ("sha2", "sha"), ("md5", "md5"), ("cleartext", "plain")])
    return record(cost, salt, characters, key, small)


def mattermost(rest):
    name = rest[:7]
    need(name in ("SHA256,", "SHA512,"), "unsupported-scheme")
    need(rest[7:9] == "w=", "foreign-form")
    numbers, salt, key = cut(rest[9:], "$", 3)
    rounds, size = cut(numbers, ",", 2)
    need(size.startswith("l="), "foreign-form")
    made = record(pbkdf2(name[:6].lower(), rounds), salt, unpadded, key, unpadded)
    need(number(size[2:], "foreign-hash-length") == len(unpadded(key)), "foreign-hash-length")
    return made


def passlib(text):
    for name in ("sha256", "sha512"):
        rest = after(text, f"$pbkdf2-{name}$")
        if rest is not None and re.match("[0-9]", rest, re.ASCII):
            rounds, salt, key = cut(rest, "$", 3)
            return record(pbkdf2(name, rounds), salt, adapted, key, adapted)
    if (rest := after(text, "$pbkdf2$f=")) is not None:
        return mattermost(rest)
    if (rest := after(text, "$pbkdf2$")) is not None:
        rounds, salt, key = cut(rest, "$", 3)
        return record(pbkdf2("sha1", rounds), salt, adapted, key, adapted)
    need(text.startswith("$"), "unsupported-scheme")
    return text


def salted(name, field):
    """A digest and the salt after it, in one field."""
    size = DIGESTS[name]
    need(len(field) <= DIGEST_FIELD, "foreign-salt-length")
    got = read(lambda given: base64_of(given, True, DIGEST_FIELD), field, "foreign-hash")
    need(len(got) >= size, "foreign-hash-length")
    need(len(got) - size in DIGEST_SALT, "foreign-salt-length")
    return digest_text(name, got[size:], got[:size])


def bare_digest(name, field):
    """A digest alone, which is one with an empty salt."""
    need(len(field) <= DIGEST_FIELD, "foreign-hash-length")
    got = read(lambda given: base64_of(given, True, DIGEST_FIELD), field, "foreign-hash")
    need(len(got) == DIGESTS[name], "foreign-hash-length")
    return digest_text(name, b"", got)


def digest_text(name, salt, got):
    return "$".join(["", name, *(base64.b64encode(part).decode() for part in (salt, got))])


def digest_of(text, *more):
    """The text of a digest by its tag, of those that LDAP and Dovecot have and of more; None where it has another."""
    for tag, reader, name in (*more, ("SHA", bare_digest, "ssha"), ("SHA256", bare_digest, "ssha256"), ("SHA512", bare_digest, "ssha512"),
                              ("SMD5", salted, "smd5"), ("SSHA", salted, "ssha"), ("SSHA256", salted, "ssha256"), ("SSHA512", salted, "ssha512")):
        if (field := tagged(text, tag)) is not None:
            return reader(name, field)
    return None


def unread_tag(text):
    need(text.startswith("{"), "unsupported-cleartext")
    rows = [("cleartext", "CLEARTEXT"), ("sha2", "SSHA256", "SSHA384", "SSHA512", "SHA256", "SHA384", "SHA512"),
            ("sha1", "SSHA", "SHA"), ("md5", "SMD5", "MD5")]
    return unread(text, [(word, *(form for tag in tags for form in ("{" + tag + "}", "{" + tag.lower() + "}"))) for word, *tags in rows])


AIX = {"sha1": 20, "sha256": 32, "sha512": 64}


def aix_bytes(size):
    """Reads a key of AIX's: numbers of 24 bits, of three bytes with the first one highest, in characters of which the first has the lowest bits.
    What has no three bytes at the end is filled up with bytes of zero, and of its characters one more than of its bytes is written."""
    def read_key(field):
        need(len(field) == size // 3 * 4 + size % 3 + 1 and all(one in CRYPT for one in field), None)
        key = bytearray()
        for at in range(0, len(field), 4):
            number_24 = sum(CRYPT.index(one) << 6 * place for place, one in enumerate(field[at:at + 4]))
            if at // 4 < size // 3:
                key += number_24.to_bytes(3, "big")
            else:
                need(number_24 & (0xff if size % 3 == 2 else 0xffff) == 0, None)
        return bytes(key)
    return read_key


def aix(name, rest):
    cost, salt, key = cut(rest, "$", 3)
    need(re.fullmatch("[0-2][0-9]|3[01]", cost, re.ASCII), "foreign-rounds")
    return record(f"pbkdf2-{name}$i={2 ** int(cost)}", salt, characters, key, aix_bytes(AIX[name]))


def ldap(text):
    if (rest := tagged(text, "CRYPT")) is not None:
        return crypts(rest)
    if (rest := tagged(text, "ARGON2")) is not None:
        return as_it_is(rest, "$argon2")
    if (rest := tagged(text, "BCRYPT")) is not None:
        return as_it_is(rest, "$2")
    for name, *tags in (("sha256", "PBKDF2-SHA256"), ("sha512", "PBKDF2-SHA512"), ("sha1", "PBKDF2-SHA1", "PBKDF2")):
        if (rest := tagged(text, *tags)) is not None:
            rounds, salt, key = cut(rest, "$", 3)
            reader = padded if key.endswith("=") else adapted
            return record(pbkdf2(name, rounds), salt, reader, key, reader)
    for name in AIX:
        if (rest := after(text, "{s" + name + "}")) is not None and "$" in rest:
            return aix(name, rest)
    return digest_of(text, ("MD5", bare_digest, "smd5")) or unread_tag(text)


def elasticsearch(text):
    if (rest := after(text, "{PBKDF2}")) is not None:
        rounds, salt, key = cut(rest, "$", 3)
        return record(pbkdf2("sha512", rounds), salt, padded, key, padded)
    return unread_tag(text)


def read_as(field, word):
    try:
        return padded(field)
    except Fault:
        raise Fault(word) from None


def scram(identifier, rounds, salt, stored, server):
    need(number(rounds, "foreign-rounds") > 0, "foreign-rounds")
    salt = read_as(salt, "foreign-salt")
    need(1 <= len(salt) <= 48, "foreign-salt-length")
    keys = [read_as(key, "foreign-hash") for key in (stored, server)]
    need(all(len(key) == 32 for key in keys), "foreign-hash-length")
    return "$".join(["", identifier, rounds, *(base64.b64encode(part).decode() for part in (salt, *keys))])


def postgres(text):
    if (rest := after(text, "SCRAM-SHA-256$")) is not None:
        cost, keys = cut(rest, "$", 2)
        rounds, salt = cut(cost, ":", 2)
        return scram("scram-sha-256", rounds, salt, *cut(keys, ":", 2))
    need(not text.startswith("md5"), "unsupported-md5")
    need(text.startswith("$"), "unsupported-scheme")
    return text


DOVECOT = {"SHA512-CRYPT": "$6$", "SHA256-CRYPT": "$5$", "MD5-CRYPT": "$1$", "BLF-CRYPT": "$2", "ARGON2I": "$argon2i$", "ARGON2ID": "$argon2id$"}


def dovecot(text):
    for tag, sign in DOVECOT.items():
        if (rest := tagged(text, tag)) is not None:
            return as_it_is(rest, sign)
    if (rest := tagged(text, "CRYPT")) is not None:
        return crypts(rest)
    if (rest := tagged(text, "SCRAM-SHA-256")) is not None:
        return scram("scram-sha-256-raw", *cut(rest, ",", 4))
    if (rest := tagged(text, "PBKDF2")) is not None:
        need(rest.startswith("$1$"), "foreign-form")
        salt, rounds, key = cut(rest[3:], "$", 3)
        made = record(pbkdf2("sha1", rounds), salt, characters, key, small)
        need(len(key) == 40, "foreign-hash-length")
        return made
    made = digest_of(text, ("LDAP-MD5", bare_digest, "smd5"), ("SHA1", bare_digest, "ssha"))
    if made is not None:
        return made
    for word, tags in (("scram", ("SCRAM-SHA-1",)), ("des-crypt", ("DES-CRYPT",)), ("cleartext", ("PLAIN", "CLEAR", "PLAIN-TRUNC")),
                       ("md5", ("PLAIN-MD5", "CRAM-MD5", "HMAC-MD5", "DIGEST-MD5"))):
        need(tagged(text, *tags) is None, "unsupported-" + word)
    return unread_tag(text)


def spring_cost(field):
    need(re.fullmatch("[1-9a-f][0-9a-f]{4,5}", field, re.ASCII), "foreign-cost")
    cost = int(field, 16)
    return f"scrypt$ln={cost >> 16},r={cost >> 8 & 255},p={cost & 255}"


def spring(text):
    if (rest := after(text, "{BCRYPT}", "{bcrypt}")) is not None:
        return as_it_is(rest, "$2")
    if (rest := after(text, "{argon2@SpringSecurity_v5_8}", "{argon2}")) is not None:
        return as_it_is(rest, "$argon2")
    if (rest := after(text, "{scrypt@SpringSecurity_v5_8}", "{scrypt}")) is not None:
        front, cost, salt, key = cut(rest, "$", 4)
        need(not front, "foreign-form")
        return record(spring_cost(cost), salt, padded, key, padded)
    for tag, cost, size in (("{pbkdf2@SpringSecurity_v5_8}", "pbkdf2-sha256$i=310000", 32), ("{pbkdf2}", "pbkdf2-sha1$i=185000", 16)):
        if (rest := after(text, tag)) is not None:
            need(len(rest.encode()) == size + 64, "foreign-form")
            salt, key = rest.encode()[:size].decode("latin-1"), rest.encode()[size:].decode("latin-1")
            return record(cost, salt, small, key, small)
    need(text.startswith("{"), "foreign-form")
    return unread(text, [("sha1", "{SHA-1}"), ("sha2", "{SHA-256}", "{sha256}"), ("md5", "{MD5}"), ("cleartext", "{noop}")])


def aspnet(text):
    data = read(padded, text, "foreign-form")
    if data[:1] == b"\0":
        need(len(data) == 49, "foreign-form")
        return record("pbkdf2-sha1$i=1000", data[1:17], bytes, data[17:], bytes)
    need(data[:1] == b"\1" and len(data) >= 13, "foreign-form")
    prf, rounds, size = (int.from_bytes(data[at:at + 4], "big") for at in (1, 5, 9))
    need(prf in (0, 1, 2) and size <= len(data) - 13, "foreign-form")
    need(rounds != 0, "foreign-rounds")
    return record(f"pbkdf2-{('sha1', 'sha256', 'sha512')[prf]}$i={rounds}", data[13:13 + size], bytes, data[13 + size:], bytes)


def cisco(text):
    for front, cost in (("$8$", "pbkdf2-sha256$i=20000"), ("$9$", "scrypt$ln=14,r=1,p=1")):
        if (rest := after(text, front)) is not None:
            need(re.fullmatch(r"[./0-9A-Za-z]{14}\$[./0-9A-Za-z]{43}", rest, re.ASCII), "foreign-form")
            return record(cost, rest[:14], characters, rest[15:], in_crypt)
    need(text.startswith("$"), "unsupported-scheme")
    return text


def mosquitto(text):
    if (rest := after(text, "$7$")) is not None:
        rounds, salt, key = cut(rest, "$", 3)
        return record(pbkdf2("sha512", rounds), salt, padded, key, padded)
    need(not text.startswith("$6$"), "unsupported-sha2")
    need(text.startswith("$"), "unsupported-scheme")
    return text


def mediawiki(text):
    rest = after(text, ":pbkdf2:")
    if rest is None:
        return unread(text, [("md5", ":A:", ":B:")])
    name, rounds, size, salt, key = cut(rest, ":", 5)
    need(name in ("sha1", "sha256", "sha512"), "unsupported-scheme")
    made = record(pbkdf2(name, rounds), salt, padded, key, padded)
    need(number(size, "foreign-hash-length") == len(padded(key)), "foreign-hash-length")
    return made


def grub(text):
    rest = after(text, "grub.pbkdf2.sha512.")
    need(rest is not None, "unsupported-scheme")
    rounds, salt, key = cut(rest, ".", 3)
    return record(pbkdf2("sha512", rounds), salt, small_or_capital, key, small_or_capital)


def jenkins(text):
    if (rest := after(text, "#jbcrypt:")) is not None:
        return as_it_is(rest, "$2")
    if (rest := after(text, "$PBKDF2$HMACSHA512:")) is not None:
        cost, key = cut(rest, "$", 2)
        rounds, salt = cut(cost, ":", 2)
        return record(pbkdf2("sha512", rounds), salt, small, key, small)
    need(text.startswith("$"), "unsupported-scheme")
    return text


def nextcloud(text):
    for front, sign in (("1|", "$2"), ("2|", "$argon2i$"), ("3|", "$argon2id$")):
        if (rest := after(text, front)) is not None:
            return as_it_is(rest, sign)
    raise Fault("unsupported-scheme")


def home_assistant(text):
    stored = read_as(text, "foreign-form")
    need(re.fullmatch(rb"\$2[$./0-9A-Za-z]*", stored), "foreign-form")
    return stored.decode()


def couchdb(text):
    for name in ("sha256", "sha512", "sha"):
        if (rest := after(text, f"-pbkdf2-{name},")) is not None:
            break
    else:
        name = "sha"
        need(not text.startswith(("-pbkdf2-sha224,", "-pbkdf2-sha384,")), "unsupported-sha2")
        rest = after(text, "-pbkdf2-")
        need(rest is not None, "unsupported-sha1" if text.startswith("-hashed-") else "unsupported-cleartext")
    key, salt, rounds = cut(rest, ",", 3)
    return record(pbkdf2("sha1" if name == "sha" else name, rounds), salt, characters, key, small)


def grafana(text):
    key, salt = cut(text, ":", 2)
    made = record("pbkdf2-sha256$i=10000", salt, characters, key, small)
    need(len(key) == 100, "foreign-hash-length")
    return made


def mysql(text):
    digits = text[2:] if text.startswith("0x") else text
    need(digits.startswith("244124"), "unsupported-sha1" if digits.startswith(("*", "2A", "2a")) else "unsupported-scheme")
    # a character that isn't ASCII is as many as it has bytes
    rest = digits[6:].encode().decode("latin-1")
    need(len(rest) >= 48 and rest[6:8] == "24", "foreign-form")
    need(re.fullmatch("(3[0-9]|4[1-6]){3}", rest[:6]), "foreign-rounds")
    need(re.fullmatch("[0-9a-fA-F]{40}", rest[8:48]), "foreign-salt")
    need(re.fullmatch("[0-9a-fA-F]*", rest[48:]), "foreign-hash")
    need(len(rest) == 134, "foreign-hash-length")
    return f"$mysql$A${bytes.fromhex(rest[:6]).decode()}*{rest[8:48].upper()}*{rest[48:].upper()}"


def raw_or_small(field):
    return field.encode() if len(field.encode()) == 10 else small(field)


def gitea(text):
    front, size = None, "50"
    for name, rounds in (("pbkdf2", 10000), ("pbkdf2_v1", 10000), ("pbkdf2_v2", 50000), ("pbkdf2_hi", 320000)):
        if (rest := after(text, f"{name}:")) is not None:
            (key, salt), front = cut(rest, ":", 2), f"pbkdf2-sha256$i={rounds}"
    if (rest := after(text, "scrypt:")) is not None:
        (key, salt), front = cut(rest, ":", 2), "scrypt$ln=16,r=16,p=2"
    if (rest := after(text, "pbkdf2$")) is not None:
        numbers, key, salt = cut(rest, ":", 3)
        rounds, size = cut(numbers, "$", 2)
        front = pbkdf2("sha256", rounds)
    if (rest := after(text, "scrypt$")) is not None:
        numbers, key, salt = cut(rest, ":", 3)
        n, r, p, size = cut(numbers, "$", 4)
        front = scrypt(n, r, p)
    if (rest := after(text, "bcrypt:")) is not None:
        return as_it_is(cut(rest, ":", 2)[0], "$2")
    if (rest := after(text, "bcrypt$")) is not None:
        return as_it_is(cut(rest, ":", 3)[1], "$2")
    need(front, "unsupported-scheme")
    made = record(front, salt, raw_or_small, key, small)
    need(number(size, "foreign-hash-length") == len(small(key)), "foreign-hash-length")
    return made


MAKERS = {maker.__name__.replace("_", "-"): maker for maker in (django, werkzeug, passlib, ldap, elasticsearch, dovecot, spring, aspnet, cisco, mosquitto,
                                                                mediawiki, grub, postgres, jenkins, nextcloud, home_assistant, couchdb, grafana, mysql,
                                                                gitea)}
OWN_DOLLAR = ("passlib", "cisco", "mosquitto", "jenkins")


def converted(maker, text):
    """The stored text, or the word of the first fault."""
    if text.startswith("$") and maker not in OWN_DOLLAR:
        return "text", text
    try:
        return "text", MAKERS[maker](text)
    except Fault as fault:
        return "word", str(fault)
