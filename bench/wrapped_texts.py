#!/usr/bin/env python3
"""Compares `wrapstream unwrap` with the definition over 200 texts, each cut and damaged at every place.

The texts come from a seed: bytes of 0 to 40, in lines of 4 to 20 characters with every ending (CR, LF, CR LF, mixed, with
or without one at the end). The definition is retraced and no machine: a text is in lines of W where all but its last
line have W characters, the last 1 to W, and their characters are the one padded Base64 of some bytes; a beginning is
good where some further characters make it such a text, which is tried; the front is the bytes of the whole blocks
without padding of the longest good beginning. Each text is also made again by `wrapstream wrap`.

The program is crates/wrapstream/out/wrapstream, or what WRAPSTREAM names:
    (cd crates/wrapstream && rt run -- wrap 4 </dev/null)

usage: bench/wrapped_texts.py [SEED] [TEXTS]      (1 and 200 if left out)
"""
import binascii
import functools
import os
import random
import re
import subprocess
import sys

HERE = os.path.dirname(os.path.abspath(__file__))
PROGRAM = os.environ.get("WRAPSTREAM", os.path.join(HERE, "..", "crates", "wrapstream", "out", "wrapstream"))
DAMAGE = b"A/=\r\n *-\x80"


def decoded(characters):
    """The bytes whose padded encoding the characters are, or None."""
    try:
        found = binascii.a2b_base64(characters)
    except binascii.Error:
        return None
    return found if binascii.b2a_base64(found, newline=False) == characters else None


@functools.lru_cache(maxsize=100_000)
def unwrapped(text, width):
    """The bytes whose encoding in lines the text is, or None."""
    lines = re.split(b"\r\n|\r|\n", text)
    if len(lines) > 1 and not lines[-1]:
        lines.pop()
    if any(len(line) != width for line in lines[:-1]) or not 1 <= len(lines[-1]) <= width:
        return None
    return decoded(b"".join(lines))


@functools.lru_cache(maxsize=100_000)
def is_beginning(text, width):
    """Whether some wrapped encoding begins with the text: by trying what may follow."""
    for more in (b"", b"A", b"AA", b"AAA", b"AAAA", b"=", b"==", b"A=", b"A=="):
        whole = text
        for character in more:
            if len(re.split(b"[\r\n]", whole)[-1]) == width:
                whole += b"\n"
            whole += bytes([character])
        if unwrapped(whole, width) is not None:
            return True
    return False


def wanted(text, width):
    if not text:
        return 0, b""
    whole = unwrapped(text, width)
    if whole is not None:
        return 0, whole
    good = next(n for n in range(len(text), -1, -1) if n == 0 or is_beginning(text[:n], width))
    characters = re.sub(b"[\r\n]", b"", text[:good])
    blocks = characters[:len(characters) // 4 * 4]
    if blocks.endswith(b"="):
        blocks = blocks[:-4]
    return 7, binascii.a2b_base64(blocks)


def answered(form, data, width):
    done = subprocess.run([PROGRAM, form, str(width)], input=data, capture_output=True, timeout=20, check=False)
    return done.returncode, done.stdout


def made(chance):
    """A text in lines, its bytes, its width, and the text with LF between lines alone."""
    data = chance.randbytes(chance.randrange(1, 41))
    width = chance.randrange(4, 21)
    characters = binascii.b2a_base64(data, newline=False)
    lines = [characters[i:i + width] for i in range(0, len(characters), width)]
    endings = chance.choice([[b"\n"], [b"\r"], [b"\r\n"], [b"\n", b"\r", b"\r\n"]])
    text = b"".join(line + chance.choice(endings) for line in lines[:-1]) + lines[-1]
    # CR and LF of two endings side by side would be one; lines are never empty, so that can't be.
    return text + chance.choice([b"", *endings]), data, width, b"\n".join(lines)


def main():
    seed = int(sys.argv[1]) if len(sys.argv) > 1 else 1
    count = int(sys.argv[2]) if len(sys.argv) > 2 else 200
    chance = random.Random(seed)
    runs = differences = 0
    for _ in range(count):
        text, data, width, plain = made(chance)
        cases = [text] + [text[:n] for n in range(len(text))]
        for place in range(len(text)):
            other = chance.choice(DAMAGE.replace(text[place:place + 1], b""))
            cases.append(text[:place] + bytes([other]) + text[place + 1:])
            cases.append(text[:place] + bytes([chance.choice(DAMAGE)]) + text[place:])
        if answered("wrap", data, width) != (0, plain) or wanted(text, width) != (0, data):
            differences += 1
            print(f"wrap {width} of {data.hex()} differs")
        for case in cases:
            runs += 1
            got, want = answered("unwrap", case, width), wanted(case, width)
            if got != want:
                differences += 1
                print(f"unwrap {width} of {case!r}: {got} in place of {want}")
    print(f"seed {seed}: {count} texts, {runs} runs, {differences} differences")
    sys.exit(differences > 0)


main()
