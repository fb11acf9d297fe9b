#!/usr/bin/env python3
"""Runs every example of the manual pages: the C of section 3 in a program that says what each ended with, and the commands of section 1.

    checks/man_examples.py [FOLDER]      (the folder that packaging/dist.sh made; dist/ if left out)

A block with `$ ` is a session: what a command prints has to be what the page has; `$ cat NAME` says what a file has. Commands whose
output a page leaves out have it below, and the files that they leave. The one with `stty` needs a terminal, and is left out.
"""
import os
import re
import shutil
import subprocess
import sys
import tempfile

from page_texts import TOP, end

# What the examples read that no page shows.
FILES = {
    "htpasswd": "ann:$1$abcdefgh$cHJi5PXp/ki/ktXzqlk6I1\n",
    "shadow": "ann:$1$abcdefgh$cHJi5PXp/ki/ktXzqlk6I1:19700:0:99999:7:::\n",
    "passwords": "Hello world!\t$5$saltstring$5B8vYYiY.CVt1RlTTf8KbXBH3hsxY/GNooZaBBGWEc5\n"
                 "Hello\t$5$saltstring$5B8vYYiY.CVt1RlTTf8KbXBH3hsxY/GNooZaBBGWEc5\n"
                 "Hello\t$scrypt$ln=4,r=8,p=1$c2FsdHNhbHRzYWx0$09/untC+3Bg44eiJQ8bqhTXgE2ali+ykLaojkJZlF9U\n",
    "old-texts": "$5$rounds=+01000$saltsaltsaltsalt-and-more$b70IZgXpYBdEyQ9arjbSW5KAXdl57mX1OCyvh8WRHNC\n",
    "image": "not an image\n" * 9,
}
# What files a command leaves.
LEFT = {
    "normalize": ("new-texts", "$5$rounds=1000$saltsaltsaltsalt$b70IZgXpYBdEyQ9arjbSW5KAXdl57mX1OCyvh8WRHNC\n"),
    "unwrap": ("image", FILES["image"]),
}
# What the commands print whose output a page leaves out, by a word of the command; None: anything.
PRINTED = {
    "pwcheck check <": "      1 match\n      2 mismatch\n",
    "pwkdf <": "      1 match\n      2 mismatch\n",
    "pwfile": "ok\nmatch\nset\tann\t$5$saltstring$5B8vYYiY.CVt1RlTTf8KbXBH3hsxY/GNooZaBBGWEc5\n",
    "cut -d:": "ok\n",
    "check\\tann\\tsecret": "match\n",
}
# A literal block, or a line of one command.
EXAMPLE = re.compile(r"^\.Bd -literal[^\n]*\n(.*?)^\.Ed$|^\.Dl ([^\n]*)$", re.M | re.S)

# The harness of the examples in C: what keep() was given, and how an example ended.
C_FRONT = """
#include <pwcheck.h>
#include <stdio.h>
#include <string.h>
static uint8_t kept[PWCHECK_TEXT_MAX];
static size_t kept_len;
static void keep(const uint8_t *text, size_t n) { memcpy(kept, text, n); kept_len = n; }
static int enter(void) { return 1; }
static int refuse(void) { return 2; }
static int try_later(void) { return 3; }
"""
C_END = """
static const char *const STORED[] = {
    "$2b$04$abcdefghijklmnopqrstuuyvPXIbu7xe6/CED2DzX8z6Si09MlzlW",
    "$2b$14$abcdefghijklmnopqrstuuyvPXIbu7xe6/CED2DzX8z6Si09MlzlW",
    "$2b$16$abcdefghijklmnopqrstuuyvPXIbu7xe6/CED2DzX8z6Si09MlzlW",
};
int main(void)
{
    static const char *const WORDS[] = {"pw", "pW"};
    for (size_t k = 0; k < sizeof EXAMPLES / sizeof *EXAMPLES; k++)
        for (size_t i = 0; i < 3; i++)
            for (size_t j = 0; j < 2; j++) {
                if (i == 1 && k != 2)
                    continue;
                const uint8_t *word = (const uint8_t *)WORDS[j];
                kept_len = 0;
                int ended = EXAMPLES[k](word, 2, (const uint8_t *)STORED[i], strlen(STORED[i]));
                printf("%zu%zu%zu:%d%d ", k, i, j, ended, kept_len && pwcheck_check_login(word, 2, kept, kept_len) == PWCHECK_MATCH);
            }
    return 0;
}
"""
# Example, stored text, right or wrong password: how it ended (entered, refused, later, or went on), and whether it kept a text.
C_ENDS = ("000:11 001:20 020:30 021:30 " "100:01 101:01 120:01 121:01 " "200:10 201:00 210:00 211:00 220:00 221:00 ")


def page(name):
    with open(os.path.join(TOP, "man", name), encoding="utf-8") as source:
        text = source.read()
    examples = text.partition(".Sh EXAMPLES\n")[2]
    examples = re.split(r"^\.Sh ", examples, maxsplit=1, flags=re.M)[0]
    for block, line in EXAMPLE.findall(examples):
        yield (block or line + "\n").replace("\\e", "\\").replace("\\&", ""), bool(block)


def try_c(folder, work, faults):
    blocks = [block.replace("#include <pwcheck.h>\n", "") for block, whole in page("pwcheck.3") if whole]
    arguments = "const uint8_t *password, size_t password_len, const uint8_t *stored, size_t stored_len"
    code = C_FRONT
    for k, block in enumerate(blocks):
        code += f"static int example_{k}({arguments})\n{{\n(void)stored; (void)stored_len; (void)refuse;\n{block}\nreturn 0;\n}}\n"
    code += f"static int (*const EXAMPLES[])({arguments}) = {{" + ", ".join(f"example_{k}" for k in range(len(blocks))) + "};\n" + C_END
    program = os.path.join(work, "examples")
    # A switch whose cases all return has nothing after it.
    made = subprocess.run(["gcc", "-std=gnu99", "-Wall", "-Wextra", "-Werror", "-x", "c", "-", "-x", "none", "-I", folder, os.path.join(folder, "libpwcheck.a"),
                           "-o", program], input=code, text=True, capture_output=True, check=False)
    if made.returncode:
        faults.append("pwcheck(3): the examples don't compile: " + made.stderr)
        return len(blocks)
    ended = subprocess.run([program], capture_output=True, text=True, check=False).stdout
    if ended != C_ENDS:
        faults.append(f"pwcheck(3): the examples end with {ended} and not {C_ENDS}")
    return len(blocks)


def commands(block):
    """Each command of a session, with what the page says that it prints."""
    command, printed = None, ""
    for line in block.replace("<tab>", "\t").splitlines():
        if line.startswith("$ "):
            if command is not None:
                yield command, printed
            command, printed = line[2:], ""
        elif command is not None and (command.endswith(("\\", "|"))) and not printed:
            command += "\n" + line
        else:
            printed += line + "\n"
    if command is not None:
        yield command, printed


def try_commands(name, work, environment, faults):
    count = 0
    for file, text in FILES.items():
        with open(os.path.join(work, file), "w", encoding="utf-8") as out:
            out.write(text)
    status = 0
    for block, whole in page(name):
        if whole and not block.startswith("$ "):
            continue
        for command, printed in commands(block) if whole else [(block.strip(), "")]:
            if command.startswith("cat "):
                with open(os.path.join(work, command[4:]), "w", encoding="utf-8") as out:
                    out.write(printed)
                continue
            if "stty" in command:
                continue
            count += 1
            done = subprocess.run(["bash", "-c", f"(exit {status}); {command}"], cwd=work, env=environment, stdout=subprocess.PIPE,
                                  stderr=subprocess.STDOUT, text=True, check=False)
            status = done.returncode
            known = [text for word, text in PRINTED.items() if word in command]
            wanted = printed or (known[0] if known else "")
            if done.stdout != wanted:
                faults.append(f"{name}: {command}\nprints\n{done.stdout}where the page or this script has\n{wanted}")
            for word, (file, text) in LEFT.items():
                if word in command:
                    with open(os.path.join(work, file), encoding="utf-8") as source:
                        left = source.read()
                    if left != text:
                        faults.append(f"{name}: {command} leaves in {file}\n{left}and not\n{text}")
    return count


def main():
    folder = os.path.abspath(sys.argv[1] if len(sys.argv) > 1 else os.path.join(TOP, "dist"))
    environment = {**os.environ, "PATH": folder + ":" + os.environ["PATH"], "LC_ALL": "C.UTF-8"}
    faults, count = [], 0
    for name in sorted(os.listdir(os.path.join(TOP, "man"))):
        with tempfile.TemporaryDirectory() as work:
            if name == "pwcheck.3" and shutil.which("gcc"):
                count += try_c(folder, work, faults)
            elif name.endswith(".1"):
                count += try_commands(name, work, environment, faults)
    end(faults, f"man_examples: {count} examples of the manual pages")


if __name__ == "__main__":
    main()
