#!/usr/bin/env python3
"""Checks that the built program `pwlegacy` answers 300 htpasswd lines right.

The texts are made by `openssl passwd -apr1` with salts of its own, for passwords of 1 to 64 bytes, drawn from a seed.
In each third line the password that is asked is another: one letter changed, added or taken away, or the case turned
round. The answer must be `mismatch` for these, `match` for the others, and the status 1; and over the right lines
alone 0.

The lines of an htpasswd file are `user:text`; a line that `pwlegacy` reads has the password that is tried, a tab and
the text behind the first colon. It needs openssl and the program, which
    (cd crates/pwlegacy && rt run </dev/null)
proves and builds as crates/pwlegacy/out/pwlegacy. It installs nothing.

usage: bench/htpasswd_lines.py [SEED]      (1 if left out)
"""
import os
import random
import string
import subprocess
import sys

HERE = os.path.dirname(os.path.abspath(__file__))
PROGRAM = os.environ.get("PWLEGACY", os.path.join(HERE, "..", "crates", "pwlegacy", "out", "pwlegacy"))
COUNT = 300
LETTERS = string.ascii_letters + string.digits + string.punctuation + " "


def need(condition, text):
    if not condition:
        sys.exit("bench: " + text)


def drawn(source):
    """A password; openssl reads it as a line, so none begins or ends with a blank."""
    return "".join(source.choice(LETTERS) for _ in range(source.randint(1, 64))).strip() or "p"


def htpasswd(passwords):
    """The lines of an htpasswd file, by openssl."""
    made = subprocess.run(["openssl", "passwd", "-apr1", "-stdin"], input="\n".join(passwords) + "\n",
                          capture_output=True, text=True, check=True).stdout.splitlines()
    need(len(made) == len(passwords), "openssl made another number of texts")
    return [f"user{i}:{text}" for i, text in enumerate(made)]


def another(source, password):
    """A password that is near, and another."""
    place = source.randrange(len(password))
    near = [password + "x", password[:place] + password[place + 1:], password.swapcase(),
            password[:place] + chr(33 + (ord(password[place]) - 31) % 94) + password[place + 1:]]
    return source.choice([wrong for wrong in near if wrong != password])


def answers(lines):
    """What the program writes for lines, and its status."""
    run = subprocess.run([PROGRAM], input="".join(line + "\n" for line in lines), capture_output=True, text=True)
    return run.stdout.splitlines(), run.returncode


def main():
    seed = int(sys.argv[1]) if len(sys.argv) > 1 else 1
    need(os.path.exists(PROGRAM), "build the program first: (cd crates/pwlegacy && rt run </dev/null)")
    source = random.Random(seed)
    passwords = [drawn(source) for _ in range(COUNT)]
    texts = [line.split(":", 1)[1] for line in htpasswd(passwords)]
    asked = [another(source, password) if i % 3 == 2 else password for i, password in enumerate(passwords)]
    wanted = ["mismatch" if i % 3 == 2 else "match" for i in range(COUNT)]
    lines = [f"{password}\t{text}" for password, text in zip(asked, texts)]
    words, status = answers(lines)
    wrong = [i for i, (word, want) in enumerate(zip(words, wanted)) if word != want]
    need(len(words) == COUNT and not wrong, f"answered wrongly: {[lines[i] for i in wrong][:5]}")
    need(status == 1, f"status {status} for lines of which some mismatch")
    words, status = answers([line for line, want in zip(lines, wanted) if want == "match"])
    need(set(words) == {"match"} and status == 0, f"status {status} for lines that match")
    print(f"seed {seed}: {COUNT} htpasswd lines of openssl, {wanted.count('mismatch')} with a wrong password,"
          " all answered right")


main()
