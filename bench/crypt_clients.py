#!/usr/bin/env python3
"""Real programs with libpwcrypt: Perl, Python's crypt, mkpasswd, htpasswd, Dovecot, a program that was linked long ago, pamtester
over a real shadow entry, and su in the place of whose libcrypt.so.1 the library is. PHP has a crypt of its own and calls no library.

    bench/crypt_clients.py LIBRARY      (libpwcrypt.so.1)

Each is asked about the right password and a wrong one, with each method that it calls crypt for; a program that is not installed is
named and left out. That the library answered, and not the system's, is seen by the loader (LD_DEBUG=bindings). The loader preloads
nothing for su, which has another user's rights: there libpwcrypt is mounted in the place of the system's library, and a user
whose text libpwcrypt alone refuses shows which one answers. The parts of PAM and su need root: they work in a mount namespace of
their own, so that the machine's own files are not touched. It ends with 1 where an answer is another one.
"""
import glob
import os
import re
import shutil
import subprocess
import sys
import tempfile

# Texts of libxcrypt 4.4.33 for the phrase `pw`.
TEXTS = {
    "$1$": "$1$saltsalt$6SNdNaZLKst2LlSm7oPPL1",
    "$5$": "$5$rounds=1000$saltsaltsaltsalt$b70IZgXpYBdEyQ9arjbSW5KAXdl57mX1OCyvh8WRHNC",
    "$6$": "$6$rounds=1000$saltsaltsaltsalt$4x9kufhwkJaKtf4seIqE/TZk6G/DqOFk3orVgpNzyiLnBpKBJ14TokK23FWMAFQcK07nQ3huf2NpOJsQOFudB/",
    "$2a$": "$2a$04$abcdefghijklmnopqrstuuyvPXIbu7xe6/CED2DzX8z6Si09MlzlW",
    "$2b$": "$2b$04$abcdefghijklmnopqrstuuyvPXIbu7xe6/CED2DzX8z6Si09MlzlW",
    "$2y$": "$2y$04$abcdefghijklmnopqrstuuyvPXIbu7xe6/CED2DzX8z6Si09MlzlW",
    "$7$": "$7$4/..../....saltsalt$Z/4xy7iP6BmJW9gLqd81LpC5qU1GP4WZHNIq28Q/Ma5",
    "$y$": "$y$j/.$saltsaltsaltsalt$0QK5vjXWIOINdNK61h/g1nAOvWo0exKNSvV/Cie1u4D",
    "$sha1$": "$sha1$1019$saltsalt$gJltIDRcsQ261rW9vde97WX7bHb5",
}
FAULTS = []
LIBRARY = ""


def need(condition, what):
    if not condition:
        FAULTS.append(what)
        print("WRONG:", what)


def preloaded(*command, **more):
    """A run with the library preloaded, and the symbols of crypt that were bound to it."""
    with tempfile.TemporaryDirectory() as folder:
        log = os.path.join(folder, "log")
        environment = {**os.environ, "LD_PRELOAD": LIBRARY, "LD_DEBUG": "bindings", "LD_DEBUG_OUTPUT": log, "LC_ALL": "C"}
        done = subprocess.run(command, env=environment, capture_output=True, text=True, check=False, **more)
        bound = set()
        for name in glob.glob(log + ".*"):
            with open(name, encoding="utf-8", errors="replace") as lines:
                for line in lines:
                    found = re.search(r"binding file (\S+) \[0\] to (\S+) \[0\]: normal symbol `(crypt\w*)'", line)
                    if found and found.group(2) == LIBRARY != found.group(1):
                        bound.add(found.group(3))
    return done, sorted(bound)


def there(program):
    if shutil.which(program):
        return True
    print(f"{program}: not installed, left out")
    return False


def perl():
    if not there("perl"):
        return
    code = 'for my $t (@ARGV) { print crypt("pw", $t) eq $t ? 1 : 0, crypt("pW", $t) eq $t ? 1 : 0, " "; }' \
        ' print crypt("pw", "\\$9\\$x"), " ", crypt("pw", "*0");'
    done, bound = preloaded("perl", "-e", code, *TEXTS.values())
    need(done.stdout == "10 " * len(TEXTS) + "*0 *1", f"perl: {done.stdout} {done.stderr}")
    need(bound, "perl: bound nothing")
    print(f"perl: {len(TEXTS)} methods, right and wrong; bound {bound}")


def python():
    program = "/usr/bin/python3"
    code = "import crypt, sys\n" \
        "print(''.join('%d%d ' % (crypt.crypt('pw', t) == t, crypt.crypt('pW', t) == t) for t in sys.argv[1:]), end='')\n" \
        "print(*[m.name for m in crypt.methods])"
    if subprocess.run([program, "-W", "ignore", "-c", "import crypt"], capture_output=True, check=False).returncode:
        print(f"{program}: no module crypt, left out")
        return
    done, bound = preloaded(program, "-W", "ignore", "-c", code, *TEXTS.values())
    need(done.stdout.startswith("10 " * len(TEXTS)), f"python: {done.stdout} {done.stderr}")
    need(bound, "python: bound nothing")
    print(f"python3: {len(TEXTS)} methods, right and wrong; methods it finds: {done.stdout.split(' ', len(TEXTS))[-1].strip()}; bound {bound}")


def mkpasswd():
    if not there("mkpasswd"):
        return
    methods = {"md5crypt": "$1$", "sha256crypt": "$5$", "sha512crypt": "$6$", "bcrypt": "$2b$", "bcrypt-a": "$2a$", "scrypt": "$7$",
               "yescrypt": "$y$"}
    for method, prefix in methods.items():
        done, bound = preloaded("mkpasswd", "-m", method, "pw")
        text = done.stdout.strip()
        need(text.startswith(prefix) and {"crypt", "crypt_gensalt"} <= set(bound), f"mkpasswd {method}: {text} {done.stderr} {bound}")
        # The system's own library checks what was made.
        check = 'exit(crypt("pw", $ARGV[0]) eq $ARGV[0] && crypt("pW", $ARGV[0]) ne $ARGV[0] ? 0 : 1)'
        need(subprocess.run(["perl", "-e", check, text], check=False).returncode == 0, f"mkpasswd {method}: libxcrypt refuses {text}")
    print(f"mkpasswd: {len(methods)} methods, each text matches by libxcrypt; bound crypt, crypt_gensalt")


def htpasswd():
    if not there("htpasswd"):
        return
    with tempfile.TemporaryDirectory() as folder:
        name = os.path.join(folder, "passwords")
        for prefix in ("$1$", "$5$", "$6$"):
            with open(name, "w", encoding="utf-8") as file:
                file.write(f"user:{TEXTS[prefix]}\n")
            right, bound = preloaded("htpasswd", "-vb", name, "user", "pw")
            wrong, _ = preloaded("htpasswd", "-vb", name, "user", "pW")
            need(right.returncode == 0 and wrong.returncode == 3 and bound, f"htpasswd {prefix}: {right.stderr} {wrong.stderr} {bound}")
    print(f"htpasswd -v: $1$, $5$, $6$, right and wrong; bound {bound}")


def dovecot():
    if not there("doveadm"):
        return
    for text in TEXTS.values():
        right, bound = preloaded("doveadm", "pw", "-t", "{CRYPT}" + text, "-p", "pw")
        wrong, _ = preloaded("doveadm", "pw", "-t", "{CRYPT}" + text, "-p", "pW")
        need("(verified)" in right.stdout and "(verified)" not in wrong.stdout and bound, f"doveadm {text}: {right} {wrong} {bound}")
    print(f"doveadm pw -t: {len(TEXTS)} methods, right and wrong; bound {bound}")


# As a program that was linked against the GNU C library's own libcrypt: it asks for crypt@GLIBC_2.2.5 and crypt_r@GLIBC_2.2.5.
OLD = r"""
#include <crypt.h>
#include <stdio.h>
#include <string.h>
char *old_crypt(const char *, const char *);
char *old_crypt_r(const char *, const char *, struct crypt_data *);
__asm__(".symver old_crypt, crypt@GLIBC_2.2.5");
__asm__(".symver old_crypt_r, crypt_r@GLIBC_2.2.5");
static struct crypt_data data;
int main(int count, char **texts)
{
    for (int i = 1; i < count; i++)
        printf("%d%d%d ", !strcmp(old_crypt("pw", texts[i]), texts[i]), !strcmp(old_crypt_r("pw", texts[i], &data), texts[i]),
               !strcmp(old_crypt_r("pW", texts[i], &data), texts[i]));
    return 0;
}
"""


def old_program():
    if not there("gcc") or not os.path.exists("/usr/include/crypt.h"):
        print("an old program: no gcc or no <crypt.h>, left out")
        return
    with tempfile.TemporaryDirectory() as folder:
        program = os.path.join(folder, "old")
        made = subprocess.run(["gcc", "-x", "c", "-", "-o", program, "-lcrypt"], input=OLD, text=True, capture_output=True, check=False)
        need(made.returncode == 0, f"an old program: {made.stderr}")
        done, bound = preloaded(program, *TEXTS.values())
    need(done.stdout == "110 " * len(TEXTS) and bound == ["crypt", "crypt_r"], f"an old program: {done.stdout} {done.stderr} {bound}")
    print(f"a program with crypt@GLIBC_2.2.5: {len(TEXTS)} methods, right and wrong; bound {bound}")


# A getrandom that fails with ENOSYS, or that gives the first so many bytes.
NO_RANDOM = r"""
#define _GNU_SOURCE
#include <errno.h>
#include <stdlib.h>
#include <sys/syscall.h>
#include <unistd.h>
ssize_t getrandom(void *bytes, size_t count, unsigned flags)
{
    /* Python itself draws 24 bytes as it begins. */
    if (count > 20)
        return syscall(SYS_getrandom, bytes, count, flags);
    const char *given = getenv("GIVEN");
    if (given)
        return (size_t)atoi(given) < count ? (ssize_t)atoi(given) : (ssize_t)count;
    errno = ENOSYS;
    return -1;
}
"""


def no_random():
    """Where the system refuses random bytes, or gives fewer, there is no setting."""
    if not there("gcc"):
        return
    code = "import ctypes, sys\nlibrary = ctypes.CDLL(sys.argv[1], use_errno=True)\nlibrary.crypt_gensalt.restype = ctypes.c_char_p\n" \
        "for prefix in (b'$1$', b'$5$', b'$6$', b'$2b$', b'$7$', b'$y$', b'$sha1', None):\n" \
        "    print(library.crypt_gensalt(prefix, 0, None, 0), ctypes.get_errno(), end=' ')"
    with tempfile.TemporaryDirectory() as folder:
        shim = os.path.join(folder, "shim.so")
        made = subprocess.run(["gcc", "-x", "c", "-", "-shared", "-fPIC", "-o", shim], input=NO_RANDOM, text=True, capture_output=True,
                              check=False)
        need(made.returncode == 0, f"no random bytes: {made.stderr}")
        for given, error in (({}, 38), ({"GIVEN": "0"}, 5), ({"GIVEN": "8"}, 5)):
            done = subprocess.run([sys.executable, "-c", code, LIBRARY], env={**os.environ, "LD_PRELOAD": shim, **given},
                                  capture_output=True, text=True, check=False, timeout=60)
            need(done.stdout == f"None {error} " * 8, f"no random bytes {given}: {done.stdout} {done.stderr}")
    print("no random bytes, or fewer: no setting, and errno says so")


# In a mount namespace: users with the texts in shadow, then each line of standard input `user<blank>password<blank>wanted`.
PAM = r"""
set -e; T=$(mktemp -d); mount --make-rprivate /
cp -a /etc/passwd /etc/shadow "$T"; cp -a /etc/pam.d "$T/pam.d"
cat "$1" >> "$T/passwd"; cat "$2" >> "$T/shadow"; chmod 640 "$T/shadow"
printf 'auth required pam_unix.so\naccount required pam_unix.so\npassword required pam_unix.so yescrypt\n' > "$T/pam.d/pwcrypt-try"
mount --bind "$T/passwd" /etc/passwd; mount --bind "$T/shadow" /etc/shadow; mount --bind "$T/pam.d" /etc/pam.d
set +e
while read -r user password; do
  if printf '%s\n' "$password" | LD_PRELOAD=$3 LD_DEBUG=bindings LD_DEBUG_OUTPUT=$T/log timeout 60 pamtester pwcrypt-try "$user" \
    authenticate acct_mgmt >/dev/null 2>&1
  then echo "$user $password in"; else echo "$user $password out"; fi
done
cat "$T"/log.* 2>/dev/null | grep -v "binding file $3" | grep -o "to $3 \[0\]: normal symbol .crypt[a-z_]*" | sed "s/.*symbol .//" | sort -u | sed 's/^/bound /'
umount /etc/passwd /etc/shadow /etc/pam.d; rm -rf "$T"
"""


def pam():
    if not there("pamtester") or not there("unshare"):
        return
    if os.geteuid():
        print("pamtester: not root, left out")
        return
    users = {f"pwtry{i}": text for i, text in enumerate(TEXTS.values())}
    users["pwtrybad"], users["pwtrylock"] = "$9$x", "!" + TEXTS["$6$"]
    with tempfile.TemporaryDirectory() as folder:
        passwd, shadow = os.path.join(folder, "passwd"), os.path.join(folder, "shadow")
        with open(passwd, "w", encoding="utf-8") as file:
            file.writelines(f"{user}:x:{6000 + i}:{6000 + i}::/nonexistent:/bin/false\n" for i, user in enumerate(users))
        with open(shadow, "w", encoding="utf-8") as file:
            file.writelines(f"{user}:{text}:20000:0:99999:7:::\n" for user, text in users.items())
        asked = "".join(f"{user} {password}\n" for user in users for password in ("pw", "pW"))
        done = subprocess.run(["unshare", "-m", "bash", "-c", PAM, "pam", passwd, shadow, LIBRARY], input=asked, capture_output=True,
                              text=True, check=False)
    lines = done.stdout.splitlines()
    wanted = [f"{user} {password} {'in' if password == 'pw' and text.startswith('$') and text[1] != '9' else 'out'}"
              for user, text in users.items() for password in ("pw", "pW")]
    need(lines[:len(wanted)] == wanted, f"pamtester: {lines} {done.stderr}")
    bound = [line[6:] for line in lines[len(wanted):]]
    need("crypt_r" in bound and "crypt_checksalt" in bound, f"pamtester: bound {bound}")
    print(f"pamtester, pam_unix: {len(TEXTS)} methods, an unknown one and a locked user, right and wrong; bound {bound}")


# The same with the library in the place of the system's, and su, which an ordinary user calls.
SU = r"""
set -e; T=$(mktemp -d); mount --make-rprivate /
cp -a /etc/passwd /etc/shadow "$T"
cat "$1" >> "$T/passwd"; cat "$2" >> "$T/shadow"; chmod 640 "$T/shadow"
mount --bind "$T/passwd" /etc/passwd; mount --bind "$T/shadow" /etc/shadow
[ -z "$3" ] || mount --bind "$3" "$4"
set +e
while read -r user password; do
  if printf '%s\n' "$password" | timeout 60 setpriv --reuid 65534 --regid 65534 --clear-groups su -s /bin/true "$user" >/dev/null 2>&1
  then echo "$user $password in"; else echo "$user $password out"; fi
done
[ -z "$3" ] || umount "$4"
umount /etc/passwd /etc/shadow; rm -rf "$T"
"""


def su():
    if os.geteuid() or not all(map(there, ("su", "unshare", "setpriv"))):
        print("su: not root, or no su, unshare, setpriv: left out")
        return
    listed = subprocess.run(["ldconfig", "-p"], capture_output=True, text=True, check=False).stdout
    system = os.path.realpath(re.search(r"libcrypt\.so\.1 .*x86-64.*=> (\S+)", listed).group(1))
    users = {f"sutry{i}": text for i, text in enumerate(TEXTS.values())}
    # A text of DES, which libxcrypt takes and libpwcrypt refuses.
    users["sutrydes"], users["sutrylock"] = "abzlUXK5ed5rs", "!" + TEXTS["$6$"]
    answers = []
    for library in (LIBRARY, ""):
        with tempfile.TemporaryDirectory() as folder:
            os.chmod(folder, 0o755)
            passwd, shadow, copy = (os.path.join(folder, name) for name in ("passwd", "shadow", "libpwcrypt"))
            with open(passwd, "w", encoding="utf-8") as file:
                file.writelines(f"{user}:x:{6100 + i}:{6100 + i}::/nonexistent:/bin/sh\n" for i, user in enumerate(users))
            with open(shadow, "w", encoding="utf-8") as file:
                file.writelines(f"{user}:{text}:20000:0:99999:7:::\n" for user, text in users.items())
            if library:
                shutil.copy(library, copy)
                os.chmod(copy, 0o755)
            asked = "".join(f"{user} {password}\n" for user in users for password in ("pw", "pW"))
            done = subprocess.run(["unshare", "-m", "bash", "-c", SU, "su", passwd, shadow, copy if library else "", system], input=asked,
                                  capture_output=True, text=True, check=False)
        answers.append(done.stdout.splitlines())
    lines = [f"{user} {password}" for user in users for password in ("pw", "pW")]
    wanted = [f"{line} {'in' if line.endswith(' pw') and not line.startswith(('sutrydes', 'sutrylock')) else 'out'}" for line in lines]
    need(answers[0] == wanted, f"su: {answers[0]} {done.stderr}")
    need(answers[1] == [line.replace("sutrydes pw out", "sutrydes pw in") for line in wanted], f"su with libxcrypt: {answers[1]}")
    print(f"su, as an ordinary user: {len(TEXTS)} methods and a locked user, right and wrong; a text of DES is taken with libxcrypt alone")


def main():
    global LIBRARY
    if len(sys.argv) != 2:
        sys.exit(__doc__)
    LIBRARY = os.path.realpath(sys.argv[1])
    for client in (perl, python, mkpasswd, htpasswd, dovecot, old_program, no_random, pam, su):
        client()
    return 1 if FAULTS else 0


if __name__ == "__main__":
    sys.exit(main())
