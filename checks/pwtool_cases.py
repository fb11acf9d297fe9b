#!/usr/bin/env python3
"""Runs the built `pwtool` over each form and each option, and compares what it writes, its status and its messages.

No contract speaks of the words of a command line, of opened files and of the salt that the system gives: this check does. Stored texts
are libxcrypt's, htpasswd's, argon2's and passlib's, or made here by Python's hashlib; rows of a survey are those of docs/PROGRAMS.md.

usage: checks/pwtool_cases.py [PROGRAM]
       (by default what the gate built, or dist/pwtool; it ends with 1 where a case differs)
"""
import base64
import csv
import hashlib
import io
import json
import os
import re
import resource
import shutil
import subprocess
import sys
import tempfile
import time

TOP = os.path.dirname(os.path.dirname(os.path.abspath(__file__)))
sys.path.insert(0, os.path.join(TOP, "bench"))
import libxcrypt  # noqa: E402


def b64(data):
    return base64.b64encode(data).decode().rstrip("=")


def pbkdf2(name, password, rounds, salt=b"saltsalt"):
    return hashlib.pbkdf2_hmac(name, password, salt, rounds, 64 if name == "sha512" else 32)


def scrypt_record(password, ln, r, p, salt=b"saltsaltsalt"):
    key = hashlib.scrypt(password, salt=salt, n=2 ** ln, r=r, p=p, dklen=32)
    return f"$scrypt$ln={ln},r={r},p={p}${b64(salt)}${b64(key)}"


# The texts of the password `secret`, by what made them: libxcrypt, htpasswd, the program argon2, hashlib.
MD5 = "$1$abcdefgh$cHJi5PXp/ki/ktXzqlk6I1"
APR1 = "$apr1$abcdefgh$h9FWgUz3n9YxylKLlR5SQ/"
SHA256 = "$5$abcdefgh$gruCpC7VkOTspMQTTSAR8mtlO9Upms.fwqE5y16JVM."
SHA256_1500 = "$5$rounds=1500$abcdefgh$qXUmNmbLEOn5YPWvewYoPCAAHp5vzLn73xcpCUC256C"
SHA512 = "$6$abcdefgh$ltjgWl6579NluT/Vi1nwEvcil.G5Nbc4NiXZaNGStk8PSwGfQv72N2CKPPrVACtLtip/cZ/1GM/O6IND4WQhG."
BCRYPT = "$2y$04$aDPa3Hq0Por/2oZ07XtAJuub7pIetWyvJMS9l42nLCrcPcx6IWqu6"
YESCRYPT = "$y$j75$abcdefgh$uMUXG79B2cFpoAYyDccUnsaH/aGTyBYMlnQidzyag01"
SCRYPT_CRYPT = "$7$4/..../....saltsalt$igPP2Af6tc/NuAUIkmqxXdyJJ3gP8gHGvlyEH4hRaZ8"
SCRYPT = scrypt_record(b"secret", 4, 8, 2)
PBKDF2_SHA256 = f"$pbkdf2-sha256$i=1000${b64(b'saltsalt')}${b64(pbkdf2('sha256', b'secret', 1000))}"
PBKDF2_SHA512 = f"$pbkdf2-sha512$i=999${b64(b'saltsalt')}${b64(pbkdf2('sha512', b'secret', 999))}"
ARGON2ID = "$argon2id$v=19$m=8,t=1,p=1$c2FsdHNhbHQ$vk+JgWgZGbXHtEqPQPhzXbD+QxxkJR5Fq2AXLhDyYaY"
TEXTS = [MD5, APR1, SHA256, SHA256_1500, SHA512, BCRYPT, YESCRYPT, SCRYPT_CRYPT, SCRYPT, PBKDF2_SHA256, PBKDF2_SHA512, ARGON2ID]


def of_table():
    """The texts of `secret` that match in the table of texts of every scheme, pwtool's stored run."""
    with open(os.path.join(TOP, "crates/pwtool/data/lines.txt"), encoding="utf-8") as lines, \
            open(os.path.join(TOP, "crates/pwtool/stdout"), encoding="utf-8") as words:
        rows = list(zip(lines.read().splitlines(), words.read().splitlines(), strict=True))
    return [line.removeprefix("secret\t") for line, word in rows if line.startswith("secret\t") and word == "match"]


TEXTS += [text for text in of_table() if text not in TEXTS]

DJANGO = f"pbkdf2_sha256$1000$saltsalt${base64.b64encode(pbkdf2('sha256', b'secret', 1000)).decode()}"
LDAP = f"{{PBKDF2-SHA512}}1000${b64(b'saltsalt').replace('+', '.')}${b64(pbkdf2('sha512', b'secret', 1000)).replace('+', '.')}"
PASSLIB = f"$pbkdf2-sha256$1000${b64(b'saltsalt').replace('+', '.')}${b64(pbkdf2('sha256', b'secret', 1000)).replace('+', '.')}"

def padded(data):
    return base64.b64encode(data).decode()


# The characters of crypt(3) by their values.
CRYPT = "./0123456789ABCDEFGHIJKLMNOPQRSTUVWXYZabcdefghijklmnopqrstuvwxyz"


def in_aix(key):
    """64 bytes as AIX writes them: three are a number of 24 bits, whose lowest six bits come first. No bit of the last byte is written."""
    numbers = [int.from_bytes(key[place : place + 3], "big") for place in range(0, 63, 3)]
    return "".join(CRYPT[number >> shift & 63] for number in numbers for shift in (0, 6, 12, 18)) + ".."


def scrypt_key(ln, r, p, salt, length=64):
    return hashlib.scrypt(b"secret", salt=salt, n=2 ** ln, r=r, p=p, dklen=length, maxmem=2 ** 28)


def in_crypt(data):
    """RFC 4648's Base64 in the characters of crypt(3)."""
    plain = "ABCDEFGHIJKLMNOPQRSTUVWXYZabcdefghijklmnopqrstuvwxyz0123456789+/"
    return b64(data).translate(str.maketrans(plain, CRYPT))


# Texts of `secret` in the spelling of a maker: the maker, the text, the scheme and the costs that a survey tells.
ASPNET_FRONT = b"\1" + b"".join(number.to_bytes(4, "big") for number in (2, 1000, 8))
SHA1_KEY = hashlib.pbkdf2_hmac("sha1", b"secret", b"saltsalt", 1000, 20)
MAKERS = [
    ("django", DJANGO, "pbkdf2-sha256", "rounds=1000"),
    ("django", f"pbkdf2_sha1$1000$saltsalt${padded(SHA1_KEY)}", "pbkdf2-sha1", "rounds=1000"),
    ("werkzeug", f"pbkdf2:sha1:1000$saltsalt${SHA1_KEY.hex()}", "pbkdf2-sha1", "rounds=1000"),
    ("passlib", f"$pbkdf2$1000${b64(b'saltsalt')}${b64(SHA1_KEY).replace('+', '.')}", "pbkdf2-sha1", "rounds=1000"),
    ("ldap", f"{{PBKDF2}}1000${b64(b'saltsalt')}${b64(SHA1_KEY).replace('+', '.')}", "pbkdf2-sha1", "rounds=1000"),
    ("ldap", f"{{PBKDF2-SHA1}}1000${padded(b'saltsalt')}${padded(SHA1_KEY)}", "pbkdf2-sha1", "rounds=1000"),
    ("ldap", f"{{SSHA}}{padded(hashlib.sha1(b'secretsalt').digest() + b'salt')}", "salted-digest", ""),
    ("ldap", f"{{md5}}{padded(hashlib.md5(b'secret').digest())}", "salted-digest", ""),
    ("dovecot", f"{{SSHA512}}{padded(hashlib.sha512(b'secretsalt').digest() + b'salt')}", "salted-digest", ""),
    ("dovecot", f"{{SHA256}}{padded(hashlib.sha256(b'secret').digest())}", "salted-digest", ""),
    ("dovecot", f"{{PBKDF2}}$1$saltsalt$1000${SHA1_KEY.hex()}", "pbkdf2-sha1", "rounds=1000"),
    ("spring", f"{{pbkdf2}}{b'saltsalt'.hex()}{hashlib.pbkdf2_hmac('sha1', b'secret', b'saltsalt', 185000, 32).hex()}", "pbkdf2-sha1", "rounds=185000"),
    ("aspnet", padded(bytes(1) + b"0123456789abcdef" + pbkdf2("sha1", b"secret", 1000, b"0123456789abcdef")), "pbkdf2-sha1", "rounds=1000"),
    ("mediawiki", f":pbkdf2:sha1:1000:20:{padded(b'saltsalt')}:{padded(SHA1_KEY)}", "pbkdf2-sha1", "rounds=1000"),
    ("django", f"scrypt$16$saltsalt$8$2${padded(scrypt_key(4, 8, 2, b'saltsalt'))}", "scrypt", "ln=4"),
    ("werkzeug", f"scrypt:32:4:3$saltsalt${scrypt_key(5, 4, 3, b'saltsalt').hex()}", "scrypt", "ln=5"),
    ("werkzeug", f"pbkdf2:sha256:1000$saltsalt${pbkdf2('sha256', b'secret', 1000).hex()}", "pbkdf2-sha256", "rounds=1000"),
    ("werkzeug", f"pbkdf2:sha512:1000$saltsalt${pbkdf2('sha512', b'secret', 1000).hex()}", "pbkdf2-sha512", "rounds=1000"),
    ("passlib", PASSLIB, "pbkdf2-sha256", "rounds=1000"),
    ("ldap", LDAP, "pbkdf2-sha512", "rounds=1000"),
    ("ldap", f"{{PBKDF2-SHA256}}1000${padded(b'saltsalt')}${padded(pbkdf2('sha256', b'secret', 1000))}", "pbkdf2-sha256", "rounds=1000"),
    ("ldap", f"{{BCRYPT}}{BCRYPT}", "bcrypt", "cost=4"),
    ("elasticsearch", f"{{PBKDF2}}1000${padded(b'saltsalt')}${padded(pbkdf2('sha512', b'secret', 1000))}", "pbkdf2-sha512", "rounds=1000"),
    ("dovecot", f"{{SHA512-CRYPT}}{SHA512}", "sha512-crypt", "rounds=5000"),
    ("dovecot", f"{{SHA256-CRYPT}}{SHA256_1500}", "sha256-crypt", "rounds=1500"),
    ("dovecot", f"{{MD5-CRYPT}}{MD5}", "md5-crypt", "-"),
    ("dovecot", f"{{BLF-CRYPT}}{BCRYPT}", "bcrypt", "cost=4"),
    ("dovecot", f"{{ARGON2ID}}{ARGON2ID}", "argon2id", "m=8"),
    ("dovecot", f"{{CRYPT}}{YESCRYPT}", "yescrypt", "ln=10"),
    ("spring", f"{{bcrypt}}{BCRYPT}", "bcrypt", "cost=4"),
    ("spring", f"{{argon2@SpringSecurity_v5_8}}{ARGON2ID}", "argon2id", "m=8"),
    ("spring", f"{{scrypt@SpringSecurity_v5_8}}$40802${padded(b'saltsalt')}${padded(scrypt_key(4, 8, 2, b'saltsalt', 32))}", "scrypt", "ln=4"),
    ("spring", f"{{pbkdf2@SpringSecurity_v5_8}}{b'0123456789abcdef'.hex()}{pbkdf2('sha256', b'secret', 310000, b'0123456789abcdef').hex()}",
     "pbkdf2-sha256", "rounds=310000"),
    ("aspnet", padded(ASPNET_FRONT + b"saltsalt" + pbkdf2("sha512", b"secret", 1000)), "pbkdf2-sha512", "rounds=1000"),
    ("cisco", f"$8$saltsaltsaltsa${in_crypt(pbkdf2('sha256', b'secret', 20000, b'saltsaltsaltsa'))}", "pbkdf2-sha256", "rounds=20000"),
    ("cisco", f"$9$saltsaltsaltsa${in_crypt(scrypt_key(14, 1, 1, b'saltsaltsaltsa', 32))}", "scrypt", "ln=14"),
    ("mosquitto", f"$7$1000${padded(b'saltsalt')}${padded(pbkdf2('sha512', b'secret', 1000))}", "pbkdf2-sha512", "rounds=1000"),
    ("mediawiki", f":pbkdf2:sha512:1000:64:{padded(b'saltsalt')}:{padded(pbkdf2('sha512', b'secret', 1000))}", "pbkdf2-sha512", "rounds=1000"),
    ("mediawiki", f":pbkdf2:sha256:1000:32:{padded(b'saltsalt')}:{padded(pbkdf2('sha256', b'secret', 1000))}", "pbkdf2-sha256", "rounds=1000"),
    ("grub", f"grub.pbkdf2.sha512.1000.{b'saltsalt'.hex().upper()}.{pbkdf2('sha512', b'secret', 1000).hex().upper()}", "pbkdf2-sha512", "rounds=1000"),
    ("passlib", f"$pbkdf2$f=SHA256,w=1000,l=32${b64(b'saltsalt')}${b64(pbkdf2('sha256', b'secret', 1000))}", "pbkdf2-sha256", "rounds=1000"),
    ("passlib", f"$pbkdf2$f=SHA512,w=1000,l=64${b64(b'saltsalt')}${b64(pbkdf2('sha512', b'secret', 1000))}", "pbkdf2-sha512", "rounds=1000"),
    ("ldap", f"{{ssha512}}06$saltsalt${in_aix(pbkdf2('sha512', b'secret', 64))}", "pbkdf2-sha512", "rounds=64"),
    ("jenkins", f"#jbcrypt:{BCRYPT}", "bcrypt", "cost=4"),
    ("jenkins", f"$PBKDF2$HMACSHA512:1000:{b'saltsalt'.hex()}${pbkdf2('sha512', b'secret', 1000).hex()}", "pbkdf2-sha512", "rounds=1000"),
    ("nextcloud", f"1|{BCRYPT}", "bcrypt", "cost=4"),
    ("nextcloud", f"3|{ARGON2ID}", "argon2id", "m=8"),
    ("home-assistant", padded(BCRYPT.encode()), "bcrypt", "cost=4"),
    ("couchdb", f"-pbkdf2-sha256,{pbkdf2('sha256', b'secret', 1000).hex()},saltsalt,1000", "pbkdf2-sha256", "rounds=1000"),
    ("couchdb", f"-pbkdf2-{SHA1_KEY.hex()},saltsalt,1000", "pbkdf2-sha1", "rounds=1000"),
    ("grafana", f"{hashlib.pbkdf2_hmac('sha256', b'secret', b'saltsalt', 10000, 50).hex()}:saltsalt", "pbkdf2-sha256", "rounds=10000"),
    ("mysql", "24412430303524303132333435363738396162636465666768696A447A785739547671597A576C75492E633054454B476976315746327A7074567363696743326450654B5032", "mysql-sha2", "rounds=5000"),
    ("mysql", "0x24412430303524303132333435363738396162636465666768696a447a785739547671597a576c75492e633054454b476976315746327a7074567363696743326450654b5032", "mysql-sha2", "rounds=5000"),
    ("gitea", f"pbkdf2:{hashlib.pbkdf2_hmac('sha256', b'secret', b'saltsaltsa', 10000, 50).hex()}:saltsaltsa", "pbkdf2-sha256", "rounds=10000"),
    ("gitea", f"pbkdf2$1000$32:{pbkdf2('sha256', b'secret', 1000).hex()}:{b'saltsalt'.hex()}", "pbkdf2-sha256", "rounds=1000"),
    ("gitea", f"bcrypt:{BCRYPT}:saltsaltsa", "bcrypt", "cost=4"),
    ("postgres", "SCRAM-SHA-256$4096:KKuwZV6QTiARVwYpYRdEYA==$mzeyc9wh1vO3fszeKs/ZRrWSBYkiSD6EsahtoLJMark=:ARZ3AEQM7sKRkXahGQ6nE9PZKKhYG/fuFpDLcFlPaO4=", "scram-sha-256", "rounds=4096"),
    ("dovecot", "{SCRAM-SHA-256}4096,eT2ALwn9J59lS3e95d5cLA==,j/FIwttGABb6lm2Kv4iqJL899KAtCC0OrWnpsjzb6Pg=,MTJUwcrMkj9kd8P1ZtdphHl8Zd/6MgTytFkP1bRsy94=", "scram-sha-256", "rounds=4096"),
]

# Texts that aren't converted, and the words.
REFUSED = [
    ("django", "scrypt$16$seasalt$8$2$x", "foreign-salt-length"), ("django", "scrypt$15$saltsalt$8$2$x", "foreign-cost"),
    ("django", "bcrypt_sha256$$2b$04$x", "foreign-form"), ("werkzeug", "pbkdf2:sha1:1$saltsalt$00", "foreign-hash-length"),
    ("werkzeug", "scrypt$saltsalt$00", "foreign-form"), ("ldap", "{PBKDF2}1$c2FsdHNhbHQ$x", "foreign-hash"),
    ("ldap", "{SSHA}5en6G6MezRroT3XKqkdPOmY/BfQ=", "foreign-salt-length"), ("ldap", "{SHA}5en6G6MezRroT3XKqkdPOmY/BfR4", "foreign-hash-length"),
    ("ldap", "{SHA384}x", "unsupported-sha2"), ("dovecot", "{SSHA.HEX}00", "unsupported-scheme"),
    ("elasticsearch", "{PBKDF2_STRETCH}1$x$y", "unsupported-scheme"), ("dovecot", "{SHA512-CRYPT.HEX}24", "unsupported-scheme"),
    ("dovecot", "{SCRAM-SHA-1}4096,x,y,z", "unsupported-scram"), ("dovecot", "{SCRAM-SHA-256}4096,x,y,z", "foreign-salt"),
    ("postgres", "SCRAM-SHA-256$4096:c2FsdA==", "foreign-form"), ("postgres", "md5a3556571e93b0d20722ba62be61e8c2d", "unsupported-md5"), ("spring", "{pbkdf2}00", "foreign-form"),
    ("aspnet", "AAAA", "foreign-form"), ("cisco", "$8$short$short", "foreign-form"), ("mosquitto", "$6$x$y", "unsupported-sha2"),
    ("mediawiki", f":pbkdf2:sha512:1:64:{padded(b'saltsalt')}:{padded(bytes(32))}", "foreign-hash-length"),
    ("grub", "grub.pbkdf2.sha512.1." + "00" * 64 + ".00", "foreign-salt-length"),
    ("mysql", "*14E65567ABDB5135D0CFD9A70B3032C179A49EE7", "unsupported-sha1"), ("mysql", "244124303035", "foreign-form"),
    ("gitea", "argon2$2$65536$8$50:00:saltsaltsa", "unsupported-scheme"), ("gitea", "pbkdf2:00:saltsaltsa", "foreign-hash-length"),
]

ARGON2ID_16 = "$argon2id$v=19$m=16,t=2,p=2$c2FsdHNhbHQ$cYIhcX/yw9+Fe/LRiNi1ZfO+iCwlvV9r7DJCySU9t5M"
YESCRYPT_T = "$y$j51/.$Pho4B8xrvPqs2jN78cthf.$MazTksSjZ2bYrNS7y2f2IFAh67IlkliYGHXrIJU/KE2"
SHA1_1001 = "$sha1$1001$abcdefgh$JsPQDjLVlZTj1P/EQe/58nGhl7Zb"
BCRYPT_5 = "$2b$05$abcdefghijklmnopqrstuuOQiyCxlgf/oeuTqixKmWdcYUh4Hjl0a"
PHPASS_8 = "$P$63CSgRZlssLJbqxzpCXYPhDoROG16t0"
PBKDF2_SHA1 = f"$pbkdf2-sha1$i=998${b64(b'saltsalt')}${b64(pbkdf2('sha1', b'secret', 998))}"

# An option of `check` and `join`, the number of a text and the text: the number itself is allowed, one below is too-costly. The least
# number that an option takes has no row.
BOUNDS = [
    ("--max-sha-rounds", 1500, SHA256_1500), ("--max-sha-rounds", 5000, SHA512), ("--max-sha-rounds", 1001, SHA1_1001), ("--max-bcrypt-cost", 5, BCRYPT_5),
    ("--max-bcrypt-cost", 8, PHPASS_8), ("--max-pbkdf2-rounds", 998, PBKDF2_SHA1),
    ("--max-yescrypt-ln", 10, YESCRYPT), ("--max-yescrypt-r", 8, YESCRYPT), ("--max-yescrypt-t", 1, YESCRYPT_T),
    ("--max-pbkdf2-rounds", 1000, PBKDF2_SHA256), ("--max-pbkdf2-rounds", 999, PBKDF2_SHA512),
    ("--max-scrypt-ln", 4, SCRYPT), ("--max-scrypt-r", 8, SCRYPT), ("--max-scrypt-p", 2, SCRYPT), ("--max-scrypt-ln", 6, SCRYPT_CRYPT),
    ("--max-argon2-memory", 16, ARGON2ID_16), ("--max-argon2-passes", 2, ARGON2ID_16), ("--max-argon2-lanes", 2, ARGON2ID_16),
]

# A text whose number is just the least of docs/PROGRAMS.md, the same with less, the scheme, the option and both numbers; nothing is
# hashed for these.
FIELD_43, FIELD_86 = "A" * 42 + "A", "." * 86


def record(costs):
    return f"${costs}$c2FsdHNhbHQ$" + FIELD_43


LEASTS = [
    ("$5$rounds=535000$salt$" + "." * 43, "$5$rounds=534999$salt$" + "." * 43, "sha256-crypt", "--least-sha256-rounds", 535000, 534999),
    ("$6$rounds=656000$salt$" + FIELD_86, "$6$rounds=655999$salt$" + FIELD_86, "sha512-crypt", "--least-sha512-rounds", 656000, 655999),
    ("$2b$10$" + "." * 53, "$2b$09$" + "." * 53, "bcrypt", "--least-bcrypt-cost", 10, 9),
    ("$y$j9T$salt$" + "." * 43, "$y$j8T$salt$" + "." * 43, "yescrypt", "--least-yescrypt-memory", 16384, 8192),
    ("$7$B6....8....salt$" + "." * 43, "$7$A6....I....salt$" + "." * 43, "scrypt-crypt", "--least-scrypt-memory", 8192, 4096),
    ("$7$C6....3....salt$" + "." * 43, "$7$C6....2....salt$" + "." * 43, "scrypt-crypt", "--least-scrypt-work", 81920, 65536),
    (record("scrypt$ln=13,r=8,p=10"), record("scrypt$ln=12,r=8,p=20"), "scrypt", "--least-scrypt-memory", 8192, 4096),
    (record("scrypt$ln=14,r=8,p=5"), record("scrypt$ln=14,r=8,p=4"), "scrypt", "--least-scrypt-work", 81920, 65536),
    (record("pbkdf2-sha256$i=600000"), record("pbkdf2-sha256$i=599999"), "pbkdf2-sha256", "--least-pbkdf2-rounds", 600000, 599999),
    (record("pbkdf2-sha512$i=210000"), record("pbkdf2-sha512$i=209999"), "pbkdf2-sha512", "--least-pbkdf2-sha512-rounds", 210000, 209999),
    (record("argon2id$v=19$m=7168,t=5,p=1"), record("argon2id$v=19$m=7167,t=6,p=1"), "argon2id", "--least-argon2-memory", 7168, 7167),
    (record("argon2id$v=19$m=17920,t=2,p=1"), record("argon2id$v=19$m=17919,t=2,p=1"), "argon2id", "--least-argon2-work", 35840, 35838),
]

# The settings that OWASP's Password Storage Cheat Sheet calls equal: log2 of N and p of scrypt with r = 8; m and t of Argon2id.
EQUAL_SCRYPT = [(17, 1), (16, 2), (15, 3), (14, 5), (13, 10)]
EQUAL_ARGON2 = [(47104, 1), (19456, 2), (12288, 3), (9216, 4), (7168, 5)]

# Texts without a verdict, and the form that a survey names: of `secret` by libxcrypt 4.4.33 and by passlib 1.7.4; shapes of those that
# neither makes.
UNSUPPORTED = [
    ("abNANd1rDfiNc", "descrypt"), ("q7R9hlXwfgnuE", "descrypt"), ("_J9..saltLXKE4peqNCg", "bsdicrypt"), ("_N...Fqh7PJqM0RZJtI6", "bsdicrypt"),
    ("$3$$878d8014606cda29677a44efa1353fc7", "nt"), ("$md5,rounds=5000$salt$$lkvEZR4zhmpUWLWgqfd7a0", "sunmd5"),
    ("$gy$j75$0123456789ab$mC3YjagUyvzAJ5CA/Fp0nFqQHGoO82aZKIXoVvjQaT9", "gost-yescrypt"),
    ("$sm3$salt$x", "sm3crypt"), ("$sm3y$j9T$salt$x", "sm3-yescrypt"),
    ("$pbkdf2$20$cq61lvJey1kLodTam7NWCg$x37x/kfK1wss1PY/3KUJIAzZXi8", "passlib $pbkdf2$"), ("$scram$20$wphTqrV27j0n5Lz3$sha-1=x", "scram"),
    ("{SHA}5en6G6MezRroT3XKqkdPOmY/BfQ=", "ldap {SHA}"),
    ("{SSHA}DffeBf7vCTlc7hCF9FEi6uR9CVjxvpdS", "ldap {SSHA}"), ("{MD5}Xr4ilOzQ4PCOq3aQ0qbuaQ==", "ldap {MD5}"),
    ("{SMD5}3SU+TmEkJfPDUHOlzzm3DYjR+p8=", "ldap {SMD5}"), ("{SSHA256}Md4WXrn6ko/L5T3NTH75ms2oEuxmxihl1pT424srjlyyVsq5N6bUOg==", "ldap"),
    ("secret", "clear text or unknown"), ("$9$x", "clear text or unknown"),
]

# Users that a spreadsheet would run or a terminal obeys, as CSV, the rows for people and JSON have them.
HARMLESS = [("=1+1", "'=1+1", "=1+1"), ("+1", "'+1", "+1"), ("-1", "'-1", "-1"), ("@a", "'@a", "@a"), ("a=1", "a=1", "a=1"),
            ("\r=\x1b[2J", "?=?[2J", "?=?[2J"), ("\x7f\x9b\xa0", "??\xa0", "??\xa0"), ("a\"b", "a\"b", "a\"b")]

# The words of `make`, what its text begins with, the bytes of its salt; the recommended numbers are docs/PROGRAMS.md's.
MADE = [
    (["yescrypt"], r"\$y\$j9T\$([./A-Za-z0-9]{22})\$[./A-Za-z0-9]{43}"),
    (["yescrypt", "--ln", "9", "--r", "5", "--t", "3"], r"\$y\$j[./A-Za-z0-9]+\$([./A-Za-z0-9]{22})\$[./A-Za-z0-9]{43}"),
    (["bcrypt", "--cost", "5"], r"\$2b\$05\$([./A-Za-z0-9]{22})[./A-Za-z0-9]{31}"),
    (["sha256-crypt", "--rounds", "1234"], r"\$5\$rounds=1234\$([./A-Za-z0-9]{16})\$[./A-Za-z0-9]{43}"),
    (["sha512-crypt", "--rounds", "5000"], r"\$6\$([./A-Za-z0-9]{16})\$[./A-Za-z0-9]{86}"),
    (["scrypt", "--ln", "5", "--r", "7", "--p", "3"], r"\$scrypt\$ln=5,r=7,p=3\$([+/A-Za-z0-9]{22})\$[+/A-Za-z0-9]{43}"),
    (["pbkdf2-sha256", "--rounds", "1001"], r"\$pbkdf2-sha256\$i=1001,l=32\$([+/A-Za-z0-9]{22})\$[+/A-Za-z0-9]{43}"),
    (["pbkdf2-sha512", "--rounds", "1002"], r"\$pbkdf2-sha512\$i=1002,l=32\$([+/A-Za-z0-9]{22})\$[+/A-Za-z0-9]{43}"),
    (["pbkdf2-sha512"], r"\$pbkdf2-sha512\$i=210000,l=32\$([+/A-Za-z0-9]{22})\$[+/A-Za-z0-9]{43}"),
    (["argon2id", "--memory", "48", "--passes", "2", "--lanes", "3"], r"\$argon2id\$v=19\$m=48,t=2,p=3\$([+/A-Za-z0-9]{22})\$[+/A-Za-z0-9]{43}"),
    (["argon2id"], r"\$argon2id\$v=19\$m=65536,t=3,p=4\$([+/A-Za-z0-9]{22})\$[+/A-Za-z0-9]{43}"),
    (["scrypt"], r"\$scrypt\$ln=17,r=8,p=1\$([+/A-Za-z0-9]{22})\$[+/A-Za-z0-9]{43}"),
    (["bcrypt"], r"\$2b\$12\$([./A-Za-z0-9]{22})[./A-Za-z0-9]{31}"),
]


class Tool:
    """The program in a folder of its own, with each case counted."""

    def __init__(self, program, folder):
        self.program, self.folder, self.count, self.faults = program, folder, 0, []

    def file(self, name, text):
        with open(os.path.join(self.folder, name), "wb") as file:
            file.write(text if isinstance(text, bytes) else text.encode())
        return name

    def run(self, words, given=b"", out=subprocess.PIPE, source=None, **how):
        done = subprocess.run([self.program, *words], cwd=self.folder, input=None if source else given, stdin=source, stdout=out,
                              stderr=subprocess.PIPE, timeout=60, check=False, **how)
        return (done.stdout or b"").decode(errors="replace"), done.returncode, done.stderr.decode(errors="replace")

    def case(self, words, given, wanted, status, said="", **how):
        """One case: `wanted` is the output or a test of it, `said` a part of what standard error has to have."""
        self.count += 1
        got, ended, told = self.run(words, given.encode() if isinstance(given, str) else given, **how)
        fits = wanted(got) if callable(wanted) else got == wanted
        ends = status(ended) if callable(status) else ended == status
        if not fits or not ends or said not in told:
            answer = wanted if isinstance(wanted, str) else "another output"
            self.faults.append(f"pwtool {' '.join(words)}: {got[:200]!r}, status {ended}, {told[:200]!r}; wanted {answer!r}, {status}, {said!r}")


def scheme_of(text):
    """The scheme for which an option bounds a text."""
    name = text.split("$")[1]
    return {"1": "md5", "apr1": "md5", "5": "sha", "6": "sha", "sha1": "sha", "mysql": "sha", "7": "scrypt", "P": "2", "H": "2"}.get(name) or name[:6].rstrip("aby")


def checks(tool):
    """`check`: each scheme, a user in front, a file or standard input, each bound, the spellings of others."""
    lines = "".join(f"secret\t{text}\n" for text in TEXTS)
    others = "".join(f"Secret\t{text}\n" for text in TEXTS)
    counted = f"pwtool: lines: {len(TEXTS)}; match: {len(TEXTS)}, mismatch: 0, other: 0"
    tool.case(["check"], lines, "match\n" * len(TEXTS), 0, counted)
    tool.case(["check", "-"], others, "mismatch\n" * len(TEXTS), 1)
    tool.case(["check", "--quiet", tool.file("lines", lines)], "", "match\n" * len(TEXTS), 0)
    tool.case(["check", "--users"], f"ann:secret\t{MD5}\nbob:x\t{MD5}\nno user\n", "ann\tmatch\nbob\tmismatch\nbadline\n", 1)
    tool.case(["check"], "no tab\nsecret\t*0\nsecret\t$1$a\nx\t$2x$04$" + "." * 53 + "\n", "badline\nno-scheme\nmd5-format\nbcrypt-obsolete\n", 1)
    for option, number, text in BOUNDS:
        tool.case(["check", option, str(number)], f"secret\t{text}\n", "match\n", 0)
        tool.case(["check", option, str(number - 1)], f"secret\t{text}\n", "too-costly\n", 1)
        # A bound on one number leaves the texts of all other schemes as they are.
        rest = [one for one in TEXTS if scheme_of(one) != scheme_of(text)]
        tool.case(["check", option, str(number - 1)], "".join(f"secret\t{one}\n" for one in rest), "match\n" * len(rest), 0)
    tool.case(["check", "--max-bcrypt-cost", "10"], f"secret\t{SCRYPT}\n", "match\n", 0)
    for maker, text, _, _ in MAKERS:
        tool.case(["check", "--from", maker], f"secret\t{text}\nsecreT\t{text}\n", "match\nmismatch\n", 1)
        tool.case(["check", "--from", maker, "--users"], f"ann:secret\t{text}\n", "ann\tmatch\n", 0)
    for maker, text, word in REFUSED:
        tool.case(["check", "--from", maker], f"secret\t{text}\n", f"{word}\n", 1)
    for spelling, text in (("django", DJANGO), ("ldap", LDAP), ("passlib", PASSLIB)):
        tool.case(["check", "--from", spelling, "--max-pbkdf2-rounds", "999"], f"secret\t{text}\n", "too-costly\n", 1)


def joins(tool):
    """`join`: which file is which, by either size; users without a password or a text; bounds; the spellings of others."""
    texts = tool.file("texts", f"ann:{MD5}:1:2\nbob:{BCRYPT}\nzoe:!\neve:\nmax:{SHA512}\n")
    few = tool.file("few", "bob:secret\nann:secret\n")
    many = tool.file("many", "bob:wrong\nann:secret\n" + "".join(f"user{n}:x\n" for n in range(50)) + "bob:secret\n")
    answers = "ann\tmatch\nbob\tmatch\nzoe\tlocked\neve\tempty\nmax\tno-password\n"
    tool.case(["join", texts, few], "", answers, 1)
    tool.case(["join", texts, many], "", answers, 1, "pwtool: lines: 5; match: 2, mismatch: 0, other: 3")
    tool.case(["join", texts, "-"], "bob:secret\nann:other\n", "ann\tmismatch\nbob\tmatch\nzoe\tlocked\neve\tempty\nmax\tno-password\n", 1)
    tool.case(["join", "-", few], f"ann:{MD5}\n", "ann\tmatch\n", 0)
    tool.case(["join", "--no-text", texts, many], "", "".join(f"user{n}\tno-text\n" for n in range(50)), 1)
    tool.case(["join", "--no-text", texts, few], "", "", 0)
    for option, number, text in BOUNDS:
        one = tool.file("one", f"ann:{text}\n")
        tool.case(["join", option, str(number), one, few], "", "ann\tmatch\n", 0)
        tool.case(["join", option, str(number - 1), one, few], "", "ann\ttoo-costly\n", 1)
        tool.case(["join", option, str(number - 1), one, many], "", "ann\ttoo-costly\n", 1)
    for maker, text, _, _ in MAKERS:
        one = tool.file("one", f"ann:{text}\n")
        tool.case(["join", "--from", maker, one, few], "", "ann\tmatch\n", 0)
    for maker, text, word in REFUSED:
        tool.case(["join", "--from", maker, tool.file("one", f"ann:{text}\n"), few], "", f"ann\t{word}\n", 1)
    for spelling, text in (("django", DJANGO), ("ldap", LDAP), ("passlib", PASSLIB)):
        tool.case(["join", "--from", spelling, tool.file("one", f"ann:{text}\n"), many], "", "ann\tmatch\n", 0)


def survey_leasts(tool):
    """`survey`: the least of each scheme and its option; each of OWASP's equal settings is `ok`, half of one isn't; what `make` makes is."""
    rows = lambda judgement: lambda got: [line.split("\t")[0::3] for line in got.split("\n\n")[0].split("\n")] == judgement  # noqa: E731
    for enough, less, scheme, option, number, lower in LEASTS:
        tool.case(["survey"], f"ann:{enough}\n", lambda got, scheme=scheme: got.split("\t")[1] == scheme and got.endswith(f"\tok\n\n1\t{scheme} ok\n"), 0)
        tool.case(["survey"], f"ann:{less}\n", lambda got, scheme=scheme: "\tweak: " in got and got.endswith(f"\n\n1\t{scheme} weak\n"), 1)
        tool.case(["survey", option, str(lower)], f"ann:{less}\n", rows([["ann", "ok"]]), 0)
        tool.case(["survey", option, str(number + 1)], f"ann:{enough}\n", lambda got: "\tweak: " in got, 1)
    weak = lambda got: all("\tweak: " in line for line in got.split("\n\n")[0].split("\n"))  # noqa: E731
    for ln, p in EQUAL_SCRYPT:
        tool.case(["survey"], f"ann:{record(f'scrypt$ln={ln},r=8,p={p}')}\n", rows([["ann", "ok"]]), 0)
        halves = [record(f"scrypt$ln={ln - 1},r=8,p={p}"), record(f"scrypt$ln={ln},r=4,p={p}"), *([record(f"scrypt$ln={ln},r=8,p={p // 2}")] if p > 1 else [])]
        tool.case(["survey"], "".join(f"ann:{half}\n" for half in halves), weak, 1)
    for m, t in EQUAL_ARGON2:
        tool.case(["survey"], f"ann:{record(f'argon2id$v=19$m={m},t={t},p=1')}\n", rows([["ann", "ok"]]), 0)
        halves = [record(f"argon2id$v=19$m={m // 2},t={t},p=1"), *([record(f"argon2id$v=19$m={m},t={t // 2},p=1")] if t > 1 else [])]
        tool.case(["survey"], "".join(f"ann:{half}\n" for half in halves), weak, 1)
    for scheme in ("yescrypt", "argon2id", "scrypt", "bcrypt", "pbkdf2-sha256", "sha512-crypt", "sha256-crypt"):
        text = subprocess.run([tool.program, "make", scheme], input="secret\n", capture_output=True, text=True, check=True).stdout
        tool.case(["survey"], f"ann:{text}", rows([["ann", "ok"]]), 0)


def survey_columns(tool):
    """`survey`: rows for people, CSV and JSON; users that are made harmless; the counts after the rows; unsupported forms."""
    names = ["user", "scheme", "cost", "judgement"]
    file = tool.file("shadow", f"a,\"b:{MD5}\nbob:!x\ncec:\ndan:$9$x\neve:$2b$04$short\nno user\nfay:{SCRYPT}\n")
    wanted = [["a,\"b", "md5-crypt", "-", "weak: md5-crypt"], ["bob", "-", "-", "locked"], ["cec", "-", "-", "empty"],
              ["dan", "-", "-", "unsupported: clear text or unknown"], ["eve", "-", "-", "invalid"], ["", "-", "-", "badline"],
              ["fay", "scrypt", "ln=4,r=8,p=2", "weak: 16 KiB"]]
    cells = [names] + [[user] + ["" if cell == "-" else cell for cell in row] for user, *row in wanted]
    tool.case(["survey", "--csv", file], "", lambda got: list(csv.reader(io.StringIO(got))) == cells, 1)
    objects = [{"user": user, "scheme": None if scheme == "-" else scheme, "cost": {"ln": 4, "r": 8, "p": 2} if scheme == "scrypt" else None,
                "judgement": judgement, "weak": judgement.startswith("weak: ")} for user, scheme, _, judgement in wanted]
    tool.case(["survey", "--json", file], "", lambda got: [json.loads(line) for line in got.splitlines()] == objects, 1)
    counts = "1\tmd5-crypt weak\n1\tscrypt weak\n1\tunsupported: clear text or unknown\n1\tempty\n1\tlocked\n1\tinvalid\n1\tbadline\n"
    tool.case(["survey", file], "", "".join("\t".join(row) + "\n" for row in wanted) + "\n" + counts, 1)
    tool.case(["survey", "--csv"], "", "user,scheme,cost,judgement\n", 0)
    tool.case(["survey", "--json"], "", "", 0)
    for user, in_csv, shown in HARMLESS:
        tool.case(["survey", "--csv"], f"{user}:!\n", lambda got, user=in_csv: list(csv.reader(io.StringIO(got)))[1][0] == user, 0)
        tool.case(["survey"], f"{user}:!\n", f"{shown}\t-\t-\tlocked\n\n1\tlocked\n", 0)
        tool.case(["survey", "--json"], f"{user}:!\n",
                  lambda got, user=user: json.loads(got)["user"] == user and not re.search("[\x00-\x09\x0b-\x1f\x7f-\x9f]", got), 0)
    for text, form in UNSUPPORTED:
        tool.case(["survey"], f"ann:{text}\n", f"ann\t-\t-\tunsupported: {form}\n\n1\tunsupported: {form}\n", 1)
        tool.case(["check", "--quiet"], f"secret\t{text}\n", "no-scheme\n", 1)


def surveys(tool):
    """`survey`: the leasts, the columns, and texts of other makers."""
    survey_leasts(tool)
    survey_columns(tool)
    for maker, text, scheme, cost in MAKERS:
        tool.case(["survey", "--from", maker, "--csv"], f"ann:{text}\n",
                  lambda got, scheme=scheme, cost=cost: list(csv.reader(io.StringIO(got)))[1][1] == scheme and cost in got, lambda status: status in (0, 1))
    for maker, text, word in REFUSED:
        form = word.removeprefix("unsupported-").replace("des-crypt", "descrypt").replace("cleartext", "clear text").replace("scheme", "another scheme")
        form = "foreign text with a fault" if word.startswith("foreign-") else form
        tool.case(["survey", "--from", maker], f"ann:{text}\n", f"ann\t-\t-\tunsupported: {form}\n\n1\tunsupported: {form}\n", 1)
    for spelling, text in (("django", DJANGO), ("ldap", LDAP), ("passlib", PASSLIB)):
        tool.case(["survey", "--from", spelling, "--least-pbkdf2-rounds", "1000", "--least-pbkdf2-sha512-rounds", "1000"], f"ann:{text}\n",
                  lambda got: got.split("\t")[2] == "rounds=1000" and got.split("\n")[0].endswith("\tok"), 0)


def brought(tool):
    """Files as people bring them: carriage returns, a byte order mark, comments and empty lines, kept as they are or left out."""
    mark = b"\xef\xbb\xbf"
    lines = mark + f"# of ann\r\n\r\nsecret\t{MD5}\r\nwrong\t{MD5}\r\nsecret\t{MD5}".encode()
    both = "the first line begins with a byte order mark, 4 lines end with a carriage return: try --crlf\n"
    tool.case(["check"], lines, "badline\nbadline\nmcf-encoding\nmcf-encoding\nmatch\n", 1, "pwtool: standard input: " + both)
    tool.case(["check", "--crlf"], lines, "badline\nbadline\nmatch\nmismatch\nmatch\n", 1)
    tool.case(["check", "--htpasswd"], lines, "badline\nbadline\nmcf-encoding\nmcf-encoding\nmatch\n", 1, both)
    tool.case(["check", "--crlf", "--htpasswd", tool.file("lines", lines)], "", "match\nmismatch\nmatch\n", 1)
    comments = f"# old\n\nann:{MD5}\n#bob:x\n"
    tool.case(["survey"], comments, lambda got: got.count("badline") == 3, 1, "pwtool: standard input: 3 lines are empty or begin with #: try --htpasswd")
    tool.case(["survey"], f"ann:{MD5}\n\n", lambda got: got.count("badline") == 2, 1, "pwtool: standard input: 1 line is empty or begins with #: try --htpasswd")
    tool.case(["survey", "--crlf"], "#\n" + comments, lambda got: got.count("badline") == 4, 1, "4 lines are empty or begin with #: try --htpasswd")
    tool.case(["survey"], f"ann:{MD5}\r\n#bob:x", lambda got: True, 1,
              "pwtool: standard input: 1 line ends with a carriage return: try --crlf; 1 line is empty or begins with #: try --htpasswd")
    tool.case(["normalize"], f"\n{MD5}\n#x", lambda got: True, 0, "2 lines are empty or begin with #: try --htpasswd")
    tool.case(["check", "--users"], f"#ann:secret\t{MD5}\n", lambda got: True, 0, "1 line is empty or begins with #: try --htpasswd")
    for words, given in ((["check"], f"#secret\t{MD5}\n\n"), (["survey", "--htpasswd"], comments), (["survey", "--quiet"], comments),
                         (["survey"], f"ann#:{MD5}\nbob:#{MD5}\n")):
        tool.count += 1
        told = tool.run(words, given.encode())[2]
        if "try --htpasswd" in told:
            tool.faults.append(f"pwtool {' '.join(words)}: {told!r} though nothing is to be told")
    tool.case(["check"], f"secret\t{MD5}\r\n", "mcf-encoding\n", 1, "standard input: 1 line ends with a carriage return: try --crlf")
    tool.case(["check"], mark + f"secret\t{MD5}\n".encode(), "mismatch\n", 1, "the first line begins with a byte order mark: try --crlf")
    for words, given in ((["check", "--quiet"], lines), (["check", "--crlf"], lines), (["check"], f"secret\t{MD5}\n"),
                         (["check"], f"a\rb\t{MD5}\nsecret\t{MD5}\r"), (["survey", "--quiet"], "ann:!\r\n"), (["normalize", "--quiet"], "x\r\n")):
        tool.count += 1
        told = tool.run(words, given if isinstance(given, bytes) else given.encode())[2]
        if "try --crlf" in told:
            tool.faults.append(f"pwtool {' '.join(words)}: {told!r} though nothing is to be told")
    texts = tool.file("windows.t", mark + f"# texts\r\n\r\nann:{MD5}\r\nbob:\r\n#zoe:{MD5}\r\n".encode())
    few = tool.file("windows.p", mark + b"#ann:wrong\r\nann:secret\r\n")
    many = tool.file("many.p", mark + b"#ann:wrong\r\nann:secret\r\n" + b"".join(b"user%d:x\r\n" % n for n in range(50)))
    for passwords, count in ((few, 2), (many, 52)):
        tool.case(["join", "--crlf", "--htpasswd", texts, passwords], "", "ann\tmatch\nbob\tempty\n", 1)
        tool.case(["join", "--crlf", texts, passwords], "", "badline\nbadline\nann\tmatch\nbob\tempty\n#zoe\tno-password\n", 1)
        for name, met in (("windows.t", 5), (passwords, count)):
            tool.case(["join", texts, passwords], "", lambda got: "ann\tmcf-encoding\n" in got, 1,
                      f"pwtool: {name}: the first line begins with a byte order mark, {met} lines end with a carriage return: try --crlf"
                      + ("; 1 line is empty or begins with #: try --htpasswd" if name == "windows.t" else ""))
    tool.case(["join", "--crlf", "--htpasswd", texts, "-"], "#c\nann:secret\r\n", "ann\tmatch\nbob\tempty\n", 1)
    tool.case(["join", "--no-text", "--crlf", "--htpasswd", texts, few], "", "", 0)
    tool.case(["join", "--no-text", "--crlf", texts, few], "", "#ann\tno-text\n", 1)
    rows = f"ann\tmd5-crypt\t-\tweak: md5-crypt\nbob\t-\t-\tempty\n\n1\tmd5-crypt weak\n1\tempty\n"
    tool.case(["survey", "--crlf", "--htpasswd", texts], "", rows, 1)
    tool.case(["survey"], "ann:\r\n", lambda got: not got.startswith("ann\t-\t-\tempty"), 1, "1 line ends with a carriage return: try --crlf")
    tool.case(["survey", "--from", "ldap", "--crlf"], f"ann:{{CRYPT}}{MD5}\r\n", "ann\tmd5-crypt\t-\tweak: md5-crypt\n\n1\tmd5-crypt weak\n", 1)
    tool.case(["check", "--from", "ldap", "--users", "--crlf", "--htpasswd"], f"#\r\nann:secret\t{{CRYPT}}{MD5}\r\n", "ann\tmatch\n", 0)
    tool.case(["normalize", "--crlf", "--htpasswd"], f"# old\r\n\r\n{MD5}\r\n", f"{MD5}\n", 0)
    tool.case(["normalize"], f"{MD5}\r\n", lambda got: got == f"{MD5}\r\n", 0, "1 line ends with a carriage return: try --crlf")
    # A comment of more bytes than a read or a line has, and a text that is cut at every place by a slow pipe.
    tool.case(["check", "--htpasswd"], "#" + "x" * 100000 + f"\nsecret\t{MD5}\n", "match\n", 0)
    tool.case(["check", "--crlf"], "x" * 8192 + "\r\n" + "x" * 8193 + "\r\n", "badline\ntoolong\n", 1)


# A dump of a directory: its lines, and the rows of a survey of it. Texts in Base64 are Python's.
DUMPS = [
    (f"dn: 1\nuid: ann\nuserPassword: {{CRYPT}}{MD5}\n", [("ann", "md5")]),
    (f"dn: 1\nuserPassword:: {padded(b'{CRYPT}' + MD5.encode())}\nuid: ann\n\ndn: 2\nuid:: {padded('jörg'.encode())}\nuserPassword: {{SSHA384}}x\n",
     [("ann", "md5"), ("jörg", "sha2")]),
    (f"version: 1\r\n\r\ndn: 1\r\nuid: ann\r\nuserPassword:: {padded(b'{CRYPT}' + MD5.encode())[:20]}\r\n {padded(b'{CRYPT}' + MD5.encode())[20:]}\r\n",
     [("ann", "md5")]),
    ("dn: 1\nuserPassword: {SSHA384}x\nUID;lang-de: ann\nuserpassword;x-old: geheim\nuid: bob\nUSERPASSWORD: !geheim\n",
     [("ann", "sha2"), ("ann", "clear"), ("ann", "clear")]),
    ("# uid: no\ndn: cn=sync,dc=x\nuserPassword: {SSHA384}x\n\ndn: 2\nuid: none\ncn: x\n", [("cn=sync,dc=x", "sha2")]),
    # Entries that no empty line parts, and an entry whose name an empty line parts from its text.
    ("dn: 1\nuid: ann\nuserPassword: {SSHA384}x\ndn: 2\nuserPassword: {SMD5}x\nuid: bob\n", [("ann", "sha2"), ("bob", "form")]),
    ("dn: 1\nuid: ann\n\nuserPassword: {SSHA}x\n\ndn: 3\nuid: bob\n", [("", "badline")]),
    # What isn't in the dump, and what no line has.
    ("dn: 1\nuid: ann\nuserPassword:< file:///etc/shadow\nuserPassword:: e0NS!\nuserPassword:: " + padded(b"{CRYPT}" + MD5.encode() + b"\nroot:x") + "\n",
     [("ann", "invalid")] * 3),
    (f"dn: 1\nuid: ann\nuserPassword: {{CRYPT}}{MD5}:x\nuserPassword: {MD5}:x\nuserPassword: ge:heim\n", [("ann", "form"), ("ann", "form"), ("ann", "clear")]),
    ("dn: 1\nuid: root:x\nuserPassword: {SSHA}x\n", [("", "badline")]),
    (f"dn: 1\nuid: ann\nuserPassword: {'x' * 8189}\nuserPassword: {'x' * 8188}\n", [("", "toolong")]),
    (f"dn: 1\nuid: ann\nuserPassword: {'x' * 8189}\n\ndn: 2\nuid: bob\nuserPassword: {'x' * 8188}\n\n", [("", "toolong"), ("bob", "clear")]),
    ("dn: 1\nuid: ann\nuserPassword: {CRYPT}!$6$x\nuserPassword: {CRYPT}*\nuserPassword: {crypt}x\nuserPassword: {CRYPT}xx\nuserPassword:\n",
     [("ann", "locked")] * 3 + [("ann", "des"), ("ann", "empty")]),
]
KINDS = {"md5": "md5-crypt\t-\tweak: md5-crypt", "sha2": "-\t-\tunsupported: sha2",
         "clear": "-\t-\tunsupported: clear text", "badline": "-\t-\tbadline", "toolong": "-\t-\ttoolong", "invalid": "-\t-\tinvalid",
         "locked": "-\t-\tlocked", "des": "-\t-\tunsupported: descrypt", "empty": "-\t-\tempty",
         "form": "-\t-\tunsupported: foreign text with a fault"}


def realms(tool):
    """A realm's export of Keycloak, as examples/keycloak.jq writes it. The keys are hashlib's and those of the program argon2."""
    if not shutil.which("jq"):
        print("pwtool_cases.py: jq isn't here, so examples/keycloak.jq isn't run")
        return
    words = ["jq", "-r", "-f", os.path.join(TOP, "examples/keycloak.jq"), os.path.join(TOP, "examples/keycloak-realm.json")]
    lines = subprocess.run(words, capture_output=True, check=True).stdout
    texts = tool.file("texts", lines)
    passwords = tool.file("passwords", "".join(f"{user}:secret-{user}\n" for user in ("alice", "bob", "carol", "dora")))
    others = tool.file("others", "alice:secret-bob\nbob:secret-alice\ncarol:secret\ndora:secret-dora\n")
    tool.case(["join", texts, passwords], "", "alice\tmatch\nbob\tmatch\ncarol\tmatch\ndora\tmatch\n", 0)
    tool.case(["join", texts, others], "", "alice\tmismatch\nbob\tmismatch\ncarol\tmismatch\ndora\tmatch\n", 1)
    rows = ("alice\tpbkdf2-sha256\trounds=27500\tweak: 27500 rounds\nbob\tpbkdf2-sha512\trounds=30000\tweak: 30000 rounds\n"
            "carol\tpbkdf2-sha1\trounds=20000\tweak: pbkdf2-sha1\ndora\targon2id\tm=7168,t=5,p=1\tok\n\n")
    tool.case(["survey", texts], "", lambda got: got.startswith(rows), 1)


def directories(tool):
    """A dump of a directory, and what LDAP calls a locked account."""
    for dump, rows in DUMPS:
        wanted = "".join(f"{user}\t{KINDS[kind]}\n" for user, kind in rows)
        tool.case(["survey", "--from", "ldif"], dump, lambda got, wanted=wanted: got.startswith(wanted + "\n"), lambda got: got in (0, 1))
        tool.case(["survey", "--from", "ldif", "--quiet", tool.file("dump", dump)], "", lambda got, wanted=wanted: got.startswith(wanted + "\n"), lambda got: got in (0, 1))
    with open(os.path.join(TOP, "examples/dump.ldif"), "rb") as file:
        dump = tool.file("dump", file.read())
    rows = ("ann\tsha512-crypt\trounds=5000\tweak: 5000 rounds\nbob\tsalted-digest\t-\tweak: salted-digest\ncarl\t-\t-\tlocked\n"
            "dora\targon2i\tm=4096,t=3,p=1\tweak: 4096 KiB\neve\t-\t-\tunsupported: clear text\nfrank\t-\t-\tlocked\n"
            "cn=replicator,dc=example,dc=com\tsalted-digest\t-\tweak: salted-digest\n\n")
    tool.case(["survey", "--from", "ldif", dump], "", lambda got: got.startswith(rows), 1)
    answers = "ann\tmatch\nbob\tno-password\ncarl\tlocked\ndora\tmatch\neve\tunsupported-cleartext\nfrank\tlocked\ncn=replicator,dc=example,dc=com\tno-password\n"
    few = tool.file("few", "# c\n\nann:correct horse\ndora:open sesame\nzoe:x\n")
    many = tool.file("many", "ann:correct horse\ndora:open sesame\nzoe:x\n" + "".join(f"user{n}:x\n" for n in range(500)))
    for passwords in (few, many):
        tool.case(["join", "--from", "ldif", dump, passwords], "", answers, 1)
        tool.case(["join", "--from", "ldif", "--htpasswd", "--crlf", dump, passwords], "", answers, 1)
    with open(os.path.join(tool.folder, dump), "rb") as file:
        tool.case(["join", "--from", "ldif", "-", few], file.read(), answers, 1)
    tool.case(["join", "--no-text", "--htpasswd", "--from", "ldif", dump, few], "", "zoe\tno-text\n", 1)
    tool.case(["check", "--from", "ldif"], "", "", 64, "pwtool: invalid value 'ldif'")
    # A clear text isn't locked; a text of MySQL isn't, either.
    tool.case(["survey", "--from", "ldap"], "ann:!geheim\n", "ann\t-\t-\tunsupported: clear text\n\n1\tunsupported: clear text\n", 1)
    tool.case(["check", "--from", "ldap"], "x\t{CRYPT}!$6$x\nx\t{crypt}x\nx\t*x\n", "locked\nlocked\nunsupported-cleartext\n", 1)
    tool.case(["check", "--from", "ldap", "--good", "locked"], "x\t{crypt}x\n", "locked\n", 0)
    tool.case(["join", "--from", "ldap", tool.file("texts", "ann:{CRYPT}*\nbob:*\n"), few], "", "ann\tlocked\nbob\tunsupported-cleartext\n", 1)
    mysql = "*" + hashlib.sha1(hashlib.sha1(b"secret").digest()).hexdigest().upper()
    tool.case(["survey"], f"ann:{mysql}\nbob:{mysql[:-1]}\n", "ann\t-\t-\tunsupported: mysql_native_password\nbob\t-\t-\tlocked\n\n"
              "1\tunsupported: mysql_native_password\n1\tlocked\n", 1)
    tool.case(["check"], f"secret\t{mysql}\n", "no-scheme\n", 1)
    tool.case(["join", tool.file("texts", f"ann:{mysql}\n"), few], "", "ann\tno-scheme\n", 1)


def statuses(tool):
    """`--good`: which answers count as good; the options that `join --no-text` doesn't use."""
    lines = f"secret\t{MD5}\nwrong\t{MD5}\nx\t*0\nno tab\n{'x' * 9000}\nsecret\t$1$a\n"
    names = "match,mismatch,no-scheme,invalid,badline,toolong"
    words = "match\nmismatch\nno-scheme\nbadline\ntoolong\nmd5-format\n"
    tool.case(["check", "--good", names], lines, words, 0)
    for name in names.split(","):
        tool.case(["check", "--good", ",".join(other for other in names.split(",") if other != name)], lines, words, 1)
    tool.case(["check", "--good", "mismatch"], f"secret\t{MD5}\n", "match\n", 1)
    tool.case(["check", "--users", "--good", "mismatch"], f"match:x\t{MD5}\n", "match\tmismatch\n", 0)
    tool.case(["check", "--max-bcrypt-cost", "4", "--good", "too-costly"], f"secret\t{BCRYPT_5}\n", "too-costly\n", 0)
    tool.case(["check", "--from", "ldap", "--good", "unsupported"], "x\t{SHA384}x\n", "unsupported-sha2\n", 0)
    tool.case(["check", "--from", "ldap", "--good", "invalid"], "x\t{SHA384}x\n", "unsupported-sha2\n", 1)
    tool.case(["check", "--good", "match,empty"], "", "", 64, "pwtool: --good: 'empty' is not one of match, mismatch, no-scheme, ")
    tool.case(["check", "--good", ""], "", "", 64, "pwtool: --good: '' is not one of match, ")
    texts = tool.file("texts", f"ann:{MD5}\nbob:\nzoe:!\nmax:{MD5}\n")
    few = tool.file("few", "ann:secret\n")
    many = tool.file("many", "ann:secret\n" + "".join(f"user{n}:x\n" for n in range(50)))
    answers = "ann\tmatch\nbob\tempty\nzoe\tlocked\nmax\tno-password\n"
    for passwords in (few, many):
        tool.case(["join", "--good", "match,locked,empty,no-password", texts, passwords], "", answers, 0)
        for left in ("match,locked,empty", "match,locked,no-password", "match,empty,no-password", "locked,empty,no-password"):
            tool.case(["join", "--good", left, texts, passwords], "", answers, 1)
    tool.case(["join", "--good", "weak", texts, few], "", "", 64, "'weak' is not one of match, ")
    tool.case(["join", "--good", "match", texts, "absent"], "", "", 66)
    for option in (["--max-sha-rounds", "1000"], ["--max-argon2-lanes", "1"], ["--from", "ldap"], ["--good", "match"]):
        tool.case(["join", "--no-text", *option, texts, few], "", "", 64, f"pwtool: {option[0]}: join --no-text checks no password")
    rows = f"ann:{MD5}\nbob:\nzoe:!\neve:$2b$04$short\nmax:{record('argon2id$v=19$m=7168,t=5,p=1')}\ndan:$9$x\nno user\n{'x' * 9000}\n"
    names = "ok,weak,empty,locked,unsupported,invalid,badline,toolong"
    for form in ([], ["--csv"], ["--json"]):
        tool.case(["survey", *form, "--good", names], rows, lambda got: True, 0)
        for name in names.split(","):
            tool.case(["survey", *form, "--good", ",".join(other for other in names.split(",") if other != name)], rows, lambda got: True, 1)
    tool.case(["survey", "--from", "ldap", "--good", "weak"], f"ann:{{CRYPT}}{MD5}\n", lambda got: True, 0)
    tool.case(["survey", "--good", "match"], "", "", 64, "'match' is not one of ok, weak, ")
    # A run that ends early keeps its status.
    folder = os.open(tool.folder, os.O_RDONLY)
    tool.case(["check", "--good", "match"], "", "", 3, source=folder)
    os.close(folder)


def is_text_of(password, text):
    """Whether a text is one of the password, by libxcrypt and hashlib; of Argon2 nothing is known here."""
    if text.startswith("$scrypt$"):
        _, _, numbers, salt, key = text.split("$")
        ln, r, p = (int(number.split("=")[1]) for number in numbers.split(","))
        made = hashlib.scrypt(password, salt=base64.b64decode(salt + "=="), n=2 ** ln, r=r, p=p, dklen=32, maxmem=2 ** 28)
        return b64(made) == key
    if text.startswith("$pbkdf2-"):
        _, name, numbers, salt, key = text.split("$")
        rounds = int(numbers.split(",")[0].split("=")[1])
        made = hashlib.pbkdf2_hmac(name.removeprefix("pbkdf2-"), password, base64.b64decode(salt + "=="), rounds, 32)
        return b64(made) == key
    return text.startswith("$argon2id$") or libxcrypt.crypt_r()(password, text.encode()) == text.encode()


def makes(tool):
    """`make`: the text, its numbers, two salts that differ; and why none is made."""
    for words, form in MADE:
        found = []
        for _ in range(2):
            def fits(got, form=form, found=found):
                match = re.fullmatch(form + r"\n", got)
                found.append(match and match[1])
                return match is not None and is_text_of("pässwört".encode(), got.rstrip("\n"))
            tool.case(["make", *words], "pässwört\nanother line\n", fits, 0)
        tool.count += 1
        if None in found or found[0] == found[1] or len(set(found[0])) < 4:
            tool.faults.append(f"pwtool make {' '.join(words)}: the salts {found}")
    tool.case(["make", "md5-crypt"], "x\n", "", 64)
    tool.case(["make", "sha1"], "x\n", "", 64)
    tool.case(["make", "bcrypt", "--cost", "3"], "x\n", "", 64)
    tool.case(["make", "bcrypt"], "x" * 73 + "\n", "", 1)
    tool.case(["make", "bcrypt", "--cost", "4"], b"\xff\n", "", 1)
    tool.case(["make", "bcrypt", "--cost", "4"], b"a\0b\n", "", 1)
    tool.case(["make", "bcrypt", "--cost", "4"], "", "", 1, "there is no line")
    tool.case(["make", "bcrypt", "--cost", "4"], "\nx\n", "", 1, "the password is empty")
    tool.case(["make", "bcrypt", "--cost", "4", "--empty"], "\nx\n", lambda got: got.startswith("$2b$04$") and len(got) == 61, 0)
    tool.case(["make", "bcrypt", "--cost", "4", "--empty"], "", "", 1, "there is no line")
    # However long the first line is, no more is read than the longest line, its line feed and a byte.
    for line, ended in ((b"secret\n", 0), (b"x" * 8193 + b"\n", 1), (b"x" * 1000000 + b"\n", 1)):
        with open(os.path.join(tool.folder, tool.file("password", line + b"x" * 1000000)), "rb") as file:
            tool.case(["make", "bcrypt", "--cost", "4"], "", lambda got: True, ended, source=file)
            place = os.lseek(file.fileno(), 0, os.SEEK_CUR)
        tool.count += 1
        if place > 8194:
            tool.faults.append(f"pwtool make: {place} bytes are read of a line of {len(line)}")
    with open("/dev/zero", "rb") as zeros:
        tool.case(["make", "bcrypt", "--cost", "4"], "", "", 1, "the first line has more than 8192 bytes", source=zeros)


def streams(tool):
    """`wrap`, `unwrap` and `normalize`, beside Python's base64."""
    data = bytes(range(256)) * 5
    text = base64.b64encode(data).decode()
    wrapped = "\n".join(text[at:at + 20] for at in range(0, len(text), 20))
    tool.case(["wrap", "20"], data, lambda got: got.rstrip("\n") == wrapped, 0)
    tool.case(["unwrap", "20"], wrapped, lambda got: got == data.decode(errors="replace"), 0)
    tool.case(["unwrap", "4"], "AAAA\nAA?A", lambda got: got == "\0\0\0", 7)
    tool.case(["wrap", "3"], "x", "", 64)
    tool.case(["normalize"], f"$5$rounds=+01000$salt$x\n{MD5}\n", lambda got: got.endswith(f"{MD5}\n"), 0)


def tables(tool):
    """`table`: commands, what a second run finds, the file made anew."""
    path = os.path.join(tool.folder, "table")
    tool.case(["table", path], f"set\tann\t{MD5}\ncheck\tann\tsecret\ncheck\tann\tx\ncheck\tbob\tx\n", "ok\nmatch\nmismatch\nno-user\n", 1)
    tool.case(["table", path], "list\n", f"set\tann\t{MD5}\n", 0)
    tool.case(["table", path], f"set\tann\t*\nset\tann\t{MD5}\n", "ok\nok\n", 0)
    os.chmod(path, 0o600)
    tool.case(["table", path, "compact"], "", "", 0)
    tool.count += 1
    with open(path, encoding="utf-8") as file:
        lines = file.read()
    if lines != f"#pwstore 1\nset\tann\t{MD5}\n#":
        tool.faults.append(f"pwtool table FILE compact: {lines[:200]!r}")
    tool.case(["table", path], "check\tann\tsecret\n", "match\n", 0)
    tool.case(["table", path, "expand"], "", "", 64)
    rules(tool)
    imports(tool, os.path.join(tool.folder, "moved"))


def base64_of(data):
    """Base64 without padding."""
    return base64.b64encode(data).decode().rstrip("=")


def rules(tool):
    """`table` by rules: texts that no password matches, upgrades, bounds on cost."""
    path = os.path.join(tool.folder, "ruled")
    salt = bytes(range(16))
    text = f"$pbkdf2-sha256$i=600000,l=32${base64_of(salt)}${base64_of(hashlib.pbkdf2_hmac('sha256', b'secret', salt, 600000))}"
    upgrade = f"upgrade\tann\t{base64_of(salt)}\tsecret\n"
    tool.case(["table", "--strict", path], f"set\tann\tx\nset\tann\t*\nset\tann\t{MD5}\n", "invalid\nok\nok\n", 1)
    tool.case(["table", path], "set\tbob\tx\ncheck\tbob\tsecret\n", "ok\ninvalid\n", 1)
    tool.case(["table", "--strict", path], "list\n", f"set\tann\t{MD5}\nset\tbob\tx\n", 0)
    tool.case(["table", "--upgrade-to", "pbkdf2-sha256", path], upgrade + upgrade + "check\tann\tsecret\nlist\n",
              f"upgraded\nkept\nmatch\nset\tann\t{text}\nset\tbob\tx\n", 0)
    tool.case(["table", path], "upgrade\tann\tabcdabcdabc\tsecret\n" + upgrade.replace("secret", "other"), "bad-salt\nmismatch\n", 1)
    tool.case(["table", "--max-pbkdf2-rounds", "599999", path], "check\tann\tsecret\n" + upgrade, "too-costly\ntoo-costly\n", 1)
    tool.case(["table", "--max-pbkdf2-rounds", "600000", path], "check\tann\tsecret\n", "match\n", 0)
    tool.case(["table", "--upgrade-to", "md5-crypt", path], "", "", 64)
    for scheme, size, front in (("argon2id", 16, "$argon2id$v=19$m=65536,t=3,p=4$"), ("yescrypt", 16, "$y$j9T$"), ("scrypt", 16, "$scrypt$ln=17,r=8,p=1$"),
                                ("bcrypt", 16, "$2b$12$"), ("pbkdf2-sha512", 16, "$pbkdf2-sha512$i=210000,l=32$"),
                                ("sha256-crypt", 12, "$5$rounds=535000$"), ("sha512-crypt", 12, "$6$rounds=656000$")):
        table = os.path.join(tool.folder, f"to-{scheme}")
        asked = f"set\tann\t{MD5}\nupgrade\tann\t{base64_of(bytes(range(size)))}\tsecret\ncheck\tann\tsecret\nlist\n"
        tool.case(["table", "--upgrade-to", scheme, table], asked,
                  lambda got, front=front: got.startswith("ok\nupgraded\nmatch\nset\tann\t" + front), 0)
    users = tool.file("strict-users", f"ann:x:1::\nbob:{MD5}\neve:!x\n")
    tool.case(["table", "--strict", os.path.join(tool.folder, "strict"), "import", users], "", "invalid\nok\nok\n", 1)


def imports(tool, path):
    """`table FILE import`: lines of a shadow file, of other makers, and of a dump of a directory; a closed standard stream."""
    users = tool.file("users", f"ann:{MD5}:1:2:::\nbob:*\nno colon\n")
    for streams in ("<&-", ">&-", "2>&-", "<&- >&-"):
        tool.count += 1
        command = f'exec "$0" table "$1" import "$2" {streams}'
        done = subprocess.run(["sh", "-c", command, tool.program, path, users], cwd=tool.folder, capture_output=True, check=False)
        if done.returncode != 66 or done.stdout or os.path.exists(path):
            tool.faults.append(f"pwtool table FILE import USERS {streams}: status {done.returncode}")
    tool.case(["table", path, "import", users], "", "ok\nok\nbad-command\n", 1)
    tool.case(["table", path, "export"], "", f"ann:{MD5}\nbob:*\n", 0)
    key = hashlib.pbkdf2_hmac("sha256", b"secret", b"saltsalt", 1000)
    django = f"carl:pbkdf2_sha256$1000$saltsalt${base64.b64encode(key).decode()}\neve:sha1$a$b\nbob:!x\n"
    tool.case(["table", path, "import", "--from", "django"], django, "ok\nbad-command\nok\n", 1)
    werkzeug = f"dora:pbkdf2:sha256:1000$saltsalt${key.hex()}\n"
    tool.case(["table", path, "import", "-", "--from", "werkzeug"], werkzeug, "ok\n", 0)
    tool.case(["table", path], "check\tcarl\tsecret\ncheck\tdora\tsecret\ncheck\tdora\tx\ncheck\tbob\tx\ncheck\teve\tx\n",
              "match\nmatch\nmismatch\nlocked\nno-user\n", 1)
    text = f"$pbkdf2-sha256$i=1000${b64(b'saltsalt')}${b64(key)}"
    tool.case(["table", path, "export"], "", f"ann:{MD5}\nbob:!x\ncarl:{text}\ndora:{text}\n", 0)
    with open(os.path.join(TOP, "examples/dump.ldif"), "rb") as file:
        dump = tool.file("dump", file.read())
    tool.case(["table", path, "import", dump, "--from", "ldif"], "", "ok\nok\nok\nok\nbad-command\nok\nok\n", 1)
    tool.case(["table", path], "check\tann\tcorrect horse\ncheck\tcarl\tx\ncheck\tdora\topen sesame\ncheck\tcn=replicator,dc=example,dc=com\tx\n",
              "match\nlocked\nmatch\nmismatch\n", 1)
    for words in (["export", "--from", "ldap"], ["--from", "ldap"], ["export", users], ["import", users, "--from", "nobody"]):
        tool.case(["table", path, *words], "", "", 64)


# What `make` refuses, and the rule that its message names: those of pwtool(1).
RULES = [
    ("scrypt", ["--ln", "19"], "128 r 2^ln is at most 2^28"), ("scrypt", ["--ln", "16", "--r", "1"], "--ln is below 16 r"),
    ("scrypt", ["--p", "1025"], "--p is at most 1024"), ("scrypt", ["--ln", "1", "--r", "131073"], "r p is at most 131072"),
    ("scrypt", ["--r", "0"], "--ln, --r and --p are at least 1"), ("yescrypt", ["--ln", "1"], "--ln is at least 2"),
    ("yescrypt", ["--r", "524288"], "--r is from 1 to 524287"), ("yescrypt", ["--t", "1025"], "--t is at most 1024"),
    ("yescrypt", ["--ln", "19"], "128 r 2^ln is at most 2^30"), ("argon2id", ["--memory", "31"], "--memory is at least 8 KiB for each lane"),
    ("argon2id", ["--memory", "2097153"], "--memory is at most 2097152 KiB"), ("argon2id", ["--passes", "257"], "passes times memory is at most 2^24 KiB"),
    ("argon2id", ["--lanes", "0"], "--passes and --lanes are at least 1"), ("bcrypt", ["--cost", "32"], "--cost is from 4 to 31"),
    ("sha512-crypt", ["--rounds", "999"], "--rounds is from 1000 to 999999999"), ("pbkdf2-sha512", ["--rounds", "0"], "--rounds is from 1 to 10000000"),
]

# Texts whose numbers are the greatest that their schemes take: no bound on another scheme refuses them.
GREATEST = [record("argon2id$v=19$m=2097152,t=8,p=262144"), record("scrypt$ln=20,r=2,p=1024"), record("scrypt$ln=11,r=1024,p=128")]


def told(tool):
    """What is said: the word that is missing, the rule of a cost, what wanted memory, help and version, a pipe whose reader has gone."""
    lines = tool.file("lines", f"secret\t{MD5}\n")
    for words, missing in ((["join", lines], "<PASSWORDS>"), (["make"], "<SCHEME>"), (["table"], "<FILE>"), (["wrap"], "<W>"), (["unwrap"], "<W>")):
        tool.case(words, "", "", 64, f"required arguments were not provided: {missing}\n")
    for scheme, words, rule in RULES:
        tool.case(["make", scheme, *words], "secret\n", "", 64, f"pwtool: {scheme}: the cost isn't taken: {rule}\n")
    bounds = {bound for _, _, rule in RULES for bound in re.findall(r"2\^\d+|\d\d+|16 r|r p|128 r 2\^ln", rule)}
    tool.case(["make", "--help"], "", lambda got: all(bound in got for bound in bounds), 0)
    tool.case([], "", "", 64, "pwtool: 'pwtool' requires a subcommand but one was not provided: 'pwtool --help' has more\n")
    with open(os.path.join(TOP, "CHANGELOG.md"), encoding="utf-8") as file:
        version = re.search(r"^## ([0-9.]+)", file.read(), re.M)[1]
    tool.case(["--version"], "", f"pwtool {version}\n", 0)
    for form in ("check", "join", "survey", "make", "table", "normalize", "wrap", "unwrap"):
        help_of_form = tool.run([form, "--help"])[0]
        tool.case(["help", form], "", help_of_form, 0)
        tool.case([form, "--version"], "", lambda got: got.endswith(f" {version}\n"), 0)
    # With little memory.
    few = {"preexec_fn": lambda: resource.setrlimit(resource.RLIMIT_AS, (1 << 25, 1 << 25))}
    for text in GREATEST:
        tool.case(["check", "--max-bcrypt-cost", "4"], f"secret\t{text}\n", "", 5, "pwtool: standard input: out of memory for the key of a line\n", **few)
    tool.case(["make", "argon2id"], "secret\n", "", 5, "pwtool: out of memory for the key\n", **few)
    many = tool.file("many", "".join(f"user{n}:{'x' * 40}\n" for n in range(300000)))
    tool.case(["join", "-", many], f"ann:{MD5}\n", "", 5, f"pwtool: {many}: out of memory for the table of users\n", **few)
    tool.case(["join", "--no-text", many, "-"], "ann:secret\n", "", 5, f"pwtool: {many}: out of memory for the table of users\n", **few)
    # The reader of a pipe has gone.
    wrapped = tool.file("wrapped", "AAAA\n" * 50000 + "AAAA")
    table = os.path.join(tool.folder, "left")
    for words, given in ((["survey", many], ""), (["normalize", many], ""), (["wrap", "76", many], ""), (["unwrap", "4", wrapped], ""), (["check", many], ""),
                         (["check", "--users"], f"ann:secret\t{MD5}\n"), (["join", many, lines], ""), (["join", lines, many], ""),
                         (["join", "--no-text", lines, many], ""), (["make", "bcrypt", "--cost", "4"], "secret\n"),
                         (["table", table], f"set\tann\t{MD5}\nlist\n")):
        reader, writer = os.pipe()
        os.close(reader)
        tool.count += 1
        _, status, said = tool.run(words, given.encode(), out=writer)
        os.close(writer)
        if status != 4 or said:
            tool.faults.append(f"pwtool {' '.join(words)}, a pipe without a reader: status {status}, {said!r}")


def progresses(tool):
    """`--progress`: a named pipe is opened once; each second a line that names what is read."""
    path = os.path.join(tool.folder, "pipe")
    os.mkfifo(path)
    for words, given, wanted in ((["check", "--progress", path], f"secret\t{MD5}\n", "match\n"),
                                 (["survey", "--progress", path], "ann:!\n", "ann\t-\t-\tlocked\n\n1\tlocked\n")):
        for _ in range(4):
            with subprocess.Popen(["sh", "-c", 'cat >"$1"', "sh", path], stdin=subprocess.PIPE) as writer:
                writer.stdin.write(given.encode())
                writer.stdin.close()
                tool.case(words, "", wanted, 0)
    slow = ["sh", "-c", "for n in 1 2 3; do echo 'ann:secret'; sleep 1.1; done"]
    texts = tool.file("texts", f"ann:{MD5}\n")
    for words, wanted in ((["survey", "--quiet", "--progress"], lambda got: got.count("ann\t") == 3), (["join", "--progress", texts, "-"], "ann\tmatch\n")):
        with subprocess.Popen(slow, stdout=subprocess.PIPE) as source:
            tool.case(words, "", wanted, lambda status: status in (0, 1), "pwtool: standard input: lines: ", source=source.stdout)


def faults(tool):
    """What can't be read, written or understood, each with its status."""
    lines = tool.file("lines", f"secret\t{MD5}\n")
    for words in (["check"], ["survey"], ["normalize"], ["wrap", "4"], ["unwrap", "4"]):
        tool.case([*words, "absent"], "", "", 66, "pwtool: absent")
        tool.case([*words, "."], "", "", 66)
        folder = os.open(tool.folder, os.O_RDONLY)
        tool.case(words, "", lambda got: True, 3, source=folder)
        os.close(folder)
        with open("/dev/full", "wb") as full:
            tool.case([*words], f"secret\t{MD5}\n" if words != ["unwrap", "4"] else "AAAA", lambda got: True, 4, out=full)
    for words in (["join", "absent", lines], ["join", lines, "absent"], ["join", ".", lines], ["join", lines, "."]):
        tool.case(words, "", "", 66)
    for words in ([], ["nothing"], ["check", "--nothing"], ["check", "a", "b"], ["join", lines], ["make"], ["check", "--max-bcrypt-cost", "32"],
                  ["check", "--from", "nobody"], ["survey", "--csv", "--json"], ["table"]):
        tool.case(words, "", "", 64, "pwtool: ")
    tool.case([b"check\xff".decode(errors="surrogateescape")], "", "", 8)
    for form in ("check", "join", "survey", "make", "table", "normalize", "wrap", "unwrap"):
        tool.case([form, "--help"], "", lambda got, form=form: f"Usage: pwtool {form}" in got, 0)
    tool.case(["--version"], "", lambda got: re.fullmatch(r"pwtool \d+\.\d+\.\d+\n", got) is not None, 0)


def main():
    places = [os.path.join(TOP, place) for place in ("crates/pwtool/out/pwtool", "dist/pwtool")]
    program = (sys.argv[1:] + [place for place in places if os.access(place, os.X_OK)])[0]
    begin = time.time()
    with tempfile.TemporaryDirectory() as folder:
        tool = Tool(os.path.abspath(program), folder)
        for part in (checks, joins, surveys, brought, directories, realms, statuses, makes, streams, tables, told, progresses, faults):
            part(tool)
    print("\n".join(f"pwtool_cases.py: {fault}" for fault in tool.faults) or f"pwtool_cases.py: {tool.count} cases, {time.time() - begin:.0f} s")
    return 1 if tool.faults else 0


if __name__ == "__main__":
    sys.exit(main())
