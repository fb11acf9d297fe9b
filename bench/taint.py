#!/usr/bin/env python3
"""Looks in the built library for jumps and addresses that depend on secret bytes, and says where they are and why.

    bench/taint.py [--own] [--places]

Each case calls one export under valgrind's memcheck, with the secret bytes marked as undefined (bench/taint.c). REASONS
below says which places may depend on them, and why: another place, or more places than a reason allows, fail the check,
and so does a reason that nothing was found for. The control cases have to be reported, else the tool sees nothing. What
is looked at is one build on one machine, on the inputs below: it is no proof, and memcheck knows nothing of how long an
instruction takes, nor of caches.

It needs gcc, binutils and valgrind; without them it says so and ends with status 0. It takes the archive that `rt lib`
makes in crates/pwcheck_c (bindings/library.py makes it where it isn't there). With --own it looks at the build by the
kit's own compiler, and makes that by LLVM again. With --places each place is printed, with its instruction.
"""
import collections
import os
import re
import shutil
import subprocess
import sys
import tempfile
import xml.etree.ElementTree

HERE = os.path.dirname(os.path.abspath(__file__))
TOP = os.path.dirname(HERE)
sys.path.insert(0, os.path.join(TOP, "bindings"))
from library import ARCHIVE, CRATES, archives, need, run  # noqa: E402

SHA256 = "$5$saltstring$5B8vYYiY.CVt1RlTTf8KbXBH3hsxY/GNooZaBBGWEc5"
SHA512 = (
    "$6$Zq3xVb8N$Jk0t7wWvY5VtP5PsIwWrKMoBmnmLIR5gV6zF7meOCKO5TIFfuO4GuEWNB565WT/rBbMCzjDWkofeim8EG1YrC0"
)
SCRYPT = "$scrypt$ln=4,r=8,p=1$aM15713r3Xsvxbi31lqr1Q$nFNh2CVHVjNldFVKDHDlm4CbdRSCdEBsjjJxD+iCs5E"

Reason = collections.namedtuple("Reason", "kind function most why")
BOTH, LLVM, OWN = {"LLVM", "own"}, {"LLVM"}, {"own"}
# kind: J for a jump, A for an address. function: those of both builds, which lay out different calls in place. most:
# the most places in one case. The second part names the builds in which it has to be found.
REASONS = {
    "fault": (Reason("J", r"(.*::)?pwcheck_base64_decode|pwcheck_c::alphabets::decode_in\b.*", 1,
                     "the one look at the gathered fault"), BOTH),
    "counted": (Reason("J", r"base64ct::(counts|tables)::.*", 1, "the one look at the gathered fault"), BOTH),
    "copies": (Reason("J", r"sha_crypt::digest::.*", 5, "the scheme's own: the salt is taken 16 + a[0] times"), BOTH),
    "rows": (Reason("A", r"scrypt_plain::ro_mix::.*", 6,
                    "the scheme's own: the row of the table is named by the block"), BOTH),
    # The kit's search of eight bytes a step is a function of its own in the build by LLVM: of a byte that isn't ASCII, or of a `$`.
    "utf8": (Reason("J", r"pwcheck_c::check::text_of|core::str::str::from_utf8|core::slice::words::first::.*", 10,
                    "whether bytes are ASCII, and UTF-8"), BOTH),
    "utf8_place": (Reason("A", r"pwcheck_c::check::text_of", 8, "where bytes aren't ASCII"), OWN),
    "cuts": (Reason("J", r"pieces::.*|core::iter::words::find_ascii|sha_crypt::fields::(from_salt|text_parts)", 4,
                    "where the stored text has a `$`"), BOTH),
    "grammar": (Reason("J", r"pwcheck_check(_limited)?|pwcheck_c::(check|cost)::.*|(mcf|phc)::.*|sha_crypt::record::ShaRecord::new", 12,
                       "the grammar of stored texts"), BOTH),
    "verdict": (Reason("J", r"stored_check::names::sha_verdict|pwcheck_check(_limited)?|pwcheck_c::(sha_)?check::.*"
                       r"|pwcheck_sha(256|512)_check", 3,
                       "match, mismatch or refused"), BOTH),
}

UNPADDED, PADDED = [1, 3, 4, 5, 6, 7], [0, 2]
# whole blocks, one and two characters more; then a character outside, and bits left over
TEXTS = ["AAAA" * 10, "5B8vYYiYACVt1RlTTf8KbXBH3hsxYAGNooZaBBGWEc", "5B8vYYiYACVt1RlTTf8KbXBH3hsxYAGNooZaBBGWEcA",
         "AAAA!AAAAAAA", "AAA\x7f", "zzz", "zz", "A", ""]
# how many `=` there are is the length of the bytes, so the last two characters are for everyone
PADDED_TEXTS = ["AAAA" * 10, "5B8vYYiYACVt1RlTTf8KbXBH3hsxYAGNooZaBBGWEcA=", "AAAA!AAAAAA=", "AA=="]
CHECKS = [("check", "Hello world!", SHA256), ("check", "Hello world", SHA256),
          ("check", "correct horse battery staple", SHA512),
          ("check256", "Hello world!", SHA256), ("check256", "Hello world", SHA256),
          ("check512", "correct horse battery staple", SHA512), ("check_limited", "Hello world!", SHA256)]
CONTROLS = [["control_compare", "aaaa", "aaab"], ["control_table", "AB"]]


def cases():
    """The words of each case, and the reasons that hold there."""
    for alphabets, what, texts in [(UNPADDED, "decode", TEXTS), (PADDED, "decode_ending_public", PADDED_TEXTS)]:
        for alphabet in alphabets:
            for text in texts:
                yield [what, str(alphabet), text], ["fault"]
            yield ["encode", str(alphabet), "47"], []
    for other in ["a" * 64, "b" + "a" * 63, "a" * 63 + "b", "a" * 63]:
        yield ["same", "a" * 64, other], []
    for password in ["", "password", "p" * 100]:
        for what in ["sha256", "sha512", "field256", "field512"]:
            yield [what, password], ["copies"]
        for what in ["text256", "text512"]:
            yield [what, password], ["copies", "utf8", "utf8_place"]
        yield ["scrypt", password], ["rows"]
        yield ["scrypt_text", password], ["rows", "utf8", "utf8_place"]
    for what, password, stored in CHECKS:
        yield [what, "password", password, stored], ["utf8", "utf8_place", "copies", "verdict"]
        yield [what, "hash", password, stored], ["utf8", "utf8_place", "cuts", "grammar", "counted", "verdict"]
    yield ["check", "password", "password", SCRYPT], ["utf8", "utf8_place", "rows", "verdict"]
    yield ["check", "hash", "password", SCRYPT], ["utf8", "utf8_place", "cuts", "grammar", "counted", "verdict"]


def built(folder, own):
    """The program of the cases, over the build by LLVM or by the kit's own compiler."""
    paths = archives()
    if own:
        crate = os.path.join(CRATES, "pwcheck_c")
        run("rt", "lib", "--backend", "rattle", cwd=crate, stdout=subprocess.DEVNULL)
        paths[0] = shutil.copy(ARCHIVE, folder)
        run("rt", "lib", cwd=crate, stdout=subprocess.DEVNULL)
    binary = os.path.join(folder, "taint")
    run("gcc", "-O1", "-Wall", "-Wextra", "-Werror", "-no-pie", "-I", os.path.join(TOP, "include"),
        os.path.join(HERE, "taint.c"), *paths, "-o", binary)
    return binary


def places(folder, binary, words):
    """What memcheck reports of a case: for each kind and function the addresses."""
    # without chasing, two jumps in a row are two reports
    report = os.path.join(folder, "report")
    done = subprocess.run(["valgrind", "--error-limit=no", "--vex-guest-chase=no", "--xml=yes", "--xml-file=" + report,
                           "--num-callers=4", binary, *words], capture_output=True, text=True, check=False)
    need(done.returncode == 0, f"{words}: ended with {done.returncode}: {done.stderr[:200]}")
    found = collections.defaultdict(set)
    for error in xml.etree.ElementTree.parse(report).getroot().iter("error"):
        kind = error.findtext("kind")
        if kind.startswith("Leak"):
            continue
        kind = {"UninitCondition": "J", "UninitValue": "A"}.get(kind, kind)
        # the C library's own functions stand for their caller
        frame = next((f for f in error.find("stack") if f.findtext("obj") == binary), error.find("stack")[0])
        found[kind, frame.findtext("fn") or "?"].add(frame.findtext("ip"))
    return found


def instruction(binary, at):
    stop = hex(int(at, 16) + 8)
    command = ["objdump", "-d", "--no-show-raw-insn", f"--start-address={at}", f"--stop-address={stop}", binary]
    text = subprocess.run(command, capture_output=True, text=True, check=False).stdout
    line = next((l for l in text.splitlines() if l.strip().startswith(at[2:].lower() + ":")), "")
    return re.sub(r"\s+", " ", line.partition(":")[2]).strip()


def explains(reason, kind, function, at):
    return reason.kind == kind and re.fullmatch(reason.function, function) and len(at) <= reason.most


def judged(folder, binary, printed):
    """How many places no reason explains, and what each reason explains."""
    faults, explained, number = 0, collections.defaultdict(lambda: [0, set()]), 0
    for words, names in cases():
        number += 1
        for (kind, function), at in sorted(places(folder, binary, words).items()):
            name = next((n for n in names if explains(REASONS[n][0], kind, function, at)), None)
            if name:
                explained[name, function][0] += 1
                explained[name, function][1] |= at
            else:
                faults += 1
                print(f"FOUND in {' '.join(words)}: {kind} {function} {sorted(at)}")
    print(f"{number} cases, {len(CONTROLS)} controls")
    for (name, function), (count, at) in sorted(explained.items()):
        reason = REASONS[name][0]
        kind = "jump" if reason.kind == "J" else "address"
        print(f"{kind}  {function}: {reason.why} ({count} cases, {len(at)} places)")
        for ip in sorted(at) if printed else []:
            print(f"    {ip}  {instruction(binary, ip)}")
    return faults, {name for name, _ in explained}


def main():
    if not (shutil.which("valgrind") and shutil.which("gcc") and shutil.which("ar")):
        print("taint: no valgrind, gcc and binutils, so nothing was looked at")
        return
    own = "--own" in sys.argv
    with tempfile.TemporaryDirectory() as folder:
        binary = built(folder, own)
        print(f"the build by {'the kit' + chr(39) + 's own compiler' if own else 'LLVM'}")
        for words in CONTROLS:
            found = places(folder, binary, words)
            need(any(name == words[0] for _, name in found), f"{words[0]} isn't reported, so the tool sees nothing")
        faults, used = judged(folder, binary, "--places" in sys.argv)
    build = "own" if own else "LLVM"
    unused = [name for name, (_, builds) in REASONS.items() if build in builds and name not in used]
    need(faults == 0, f"{faults} places that no reason explains")
    need(not unused, f"reasons that nothing was found for: {', '.join(unused)}")
    print("each place has its reason, and each reason a place")


main()
