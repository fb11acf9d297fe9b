"""docs/FORMAT.md and the commands of `pwstore` as a model in Python, for the scripts beside it. It shares nothing with the program."""
import binascii
import hashlib

HEADER = b"#pwstore 1\n"
USERS_MAX = 1_000_000
HELLO = "$5$saltstring$5B8vYYiY.CVt1RlTTf8KbXBH3hsxY/GNooZaBBGWEc5"
PASSWORD = "Hello world!"


def is_name(user):
    """A name of passwd(5): 1 to 64 bytes of UTF-8 without control characters and colons."""
    try:
        text = user.decode("utf-8")
    except UnicodeDecodeError:
        return False
    return 1 <= len(user) <= 64 and all(ord(c) >= 32 and c != ":" and not 127 <= ord(c) <= 159 for c in text)


def is_text(text):
    return len(text) <= 1024 and all(32 <= b <= 126 and b != 58 for b in text)


def taken_away(table, user):
    """The users without this one: the last one takes its place."""
    rows = list(table.items())
    rows[list(table).index(user)] = rows[-1]
    return dict(rows[:-1])


def is_set(line):
    """The user and the text of a line that is a `set` with a name and a text that are taken."""
    parts = line.split(b"\t", 2)
    if len(line) > 8192 or len(parts) != 3 or parts[0] != b"set" or not is_name(parts[1]) or not is_text(parts[2]):
        return None
    return parts[1], parts[2]


def read(data):
    """What a file stands for: its users with their texts, or the name of its fault and the place."""
    if not data.startswith(HEADER):
        return "no-header", 0
    table, place = {}, len(HEADER)
    while data[place:place + 1] == b"s" and b"\n" in data[place:]:
        end = data.index(b"\n", place)
        line = data[place:end]
        user = line[4:]
        if line.startswith(b"set\t") and b"\t" not in user and user in table:
            table = taken_away(table, user)
            place = end + 1
            continue
        row = is_set(line)
        if row is None or (row[0] not in table and len(table) == USERS_MAX):
            return "bad-line", place
        table[row[0]] = row[1]
        place = end + 1
    end = data[place:]
    if len(end) > 16385 or (len(end) > 1 and end[:1] == b"s"):
        return "bad-end", place
    return table


def listing(table):
    return b"".join(b"set\t" + user + b"\t" + text + b"\n" for user, text in table.items())


# The words by which upgrades make texts of scrypt, which Python's hashlib makes too.
TO_SCRYPT = ["--upgrade-to", "scrypt"]
OLD, NEW = b"$scrypt$ln=14,r=8,p=1$", b"$scrypt$ln=17,r=8,p=1$"


def salt_bytes(salt):
    """The bytes of a salt: 16, in Base64 without padding."""
    try:
        raw = binascii.a2b_base64(salt + b"=" * (-len(salt) % 4))
    except binascii.Error:
        return None
    return raw if len(raw) == 16 and binascii.b2a_base64(raw).strip().rstrip(b"=") == salt else None


def fresh(password, salt, ln=17):
    """The text of scrypt with N = 2^ln, r = 8, p = 1: 2^17 is what `pwtool make` recommends."""
    key = hashlib.scrypt(password.encode(), salt=salt_bytes(salt), n=2**ln, r=8, p=1, maxmem=2**28, dklen=32)
    return b"$scrypt$ln=%d,r=8,p=1$" % ln + salt + b"$" + binascii.b2a_base64(key).strip().rstrip(b"=")


class Model:
    """The replies to commands over the lines before them, where upgrades are to scrypt. A text is HELLO's, one of its upgrades (of today's cost
    or of an older one), a locked one, or no text of a scheme."""

    def __init__(self, table=None):
        self.table = dict(table or {})
        self.known = {HELLO.encode()}

    def judge(self, user, password):
        text = self.table.get(user)
        if text is None:
            return "no-user"
        if text[:1] in (b"*", b"!"):
            return "locked"
        if text in self.known or text.startswith((OLD, NEW)):
            return "match" if password == PASSWORD.encode() else "mismatch"
        return "invalid"

    def reply(self, line):
        words = line.split(b"\t")
        if words[0] == b"set":
            user, text = line.split(b"\t", 2)[1:]
            if len(text) > 1024:
                return "text-long"
            if not is_text(text):
                return "bad-text"
            if user not in self.table and len(self.table) == USERS_MAX:
                return "full"
            self.table[user] = text
            return "ok"
        if words[0] == b"remove":
            if words[1] not in self.table:
                return "no-user"
            self.table = taken_away(self.table, words[1])
            return "ok"
        if words[0] == b"check":
            return self.judge(words[1], words[2])
        word = self.judge(words[1], words[3])
        if word not in ("no-user", "locked") and salt_bytes(words[2]) is None:
            return "bad-salt"
        if word != "match":
            return word
        if self.table[words[1]].startswith(NEW):
            return "kept"
        self.table[words[1]] = fresh(PASSWORD, words[2])
        return "upgraded"
