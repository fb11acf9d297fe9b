"""What the timing scripts share: programs of ours and peers of Debian's crate base64ct, built outside of the checkout, in a folder of the
temporary files with a copy of crates/. `rt ci` refuses a checkout in which a crate is built that crates.txt doesn't name."""
import filecmp
import glob
import hashlib
import os
import shutil
import subprocess
import sys
import tempfile

HERE = os.path.dirname(os.path.abspath(__file__))
TOP = os.path.dirname(HERE)
WORK = os.path.join(tempfile.gettempdir(), f"bench-{os.getuid()}-{hashlib.sha256(TOP.encode()).hexdigest()[:12]}")


def need(condition, text):
    if not condition:
        sys.exit("bench: " + text)


def _write(folder, name, text):
    os.makedirs(folder, exist_ok=True)
    with open(os.path.join(folder, name), "w", encoding="utf-8") as file:
        file.write(text)


def answers(program, lines):
    """The lines that a program writes for lines on its standard input, one for each."""
    out = subprocess.run([program], input="".join(line + "\n" for line in lines), capture_output=True, text=True,
                         check=True).stdout.splitlines()
    need(len(out) == len(lines), "another number of answers")
    return out


def copied():
    """Brings the copy of crates/ up to date. What was built there stays, and files that are gone here go there too."""
    for at, folders, names in os.walk(os.path.join(TOP, "crates")):
        folders[:] = [name for name in folders if name not in ("out", "must-fail")]
        there = os.path.join(WORK, os.path.relpath(at, TOP))
        os.makedirs(there, exist_ok=True)
        for name in set(os.listdir(there)) - set(names) - set(folders) - {"out"}:
            path = os.path.join(there, name)
            if os.path.isfile(path):
                os.remove(path)
            elif at != os.path.join(TOP, "crates"):
                shutil.rmtree(path)
        for name in names:
            new, old = os.path.join(at, name), os.path.join(there, name)
            if not os.path.exists(old) or not filecmp.cmp(new, old, shallow=False):
                shutil.copy(new, old)


def built(name, source, *crates):
    """Proves and builds the program of a source in bench/ over crates of the repository, or of the kit where they begin
    with `@rattle//`, and answers its file."""
    copied()
    folder = os.path.join(WORK, "crates", name)
    with open(os.path.join(TOP, "crates.txt"), encoding="utf-8") as file:
        _write(WORK, "crates.txt", f"{file.read()}{name}: {' '.join(os.path.basename(crate) for crate in crates)}\n")
    os.makedirs(os.path.join(folder, "src"), exist_ok=True)
    shutil.copy(os.path.join(HERE, source), os.path.join(folder, "src", "main.rt"))
    made = subprocess.run(["rt", "run"], cwd=folder, input="", capture_output=True, text=True, check=False)
    program = os.path.join(folder, "out", name)
    need(made.returncode == 0 and os.path.exists(program), "rt run failed:\n" + made.stdout[-2000:] + made.stderr[-2000:])
    return program


def peer(name):
    """Builds bench/NAME.rs by cargo over Debian's crate base64ct, and answers its file."""
    found = [os.environ["BASE64CT"]] if "BASE64CT" in os.environ else glob.glob("/usr/share/cargo/registry/base64ct-1*")
    need(found, "no librust-base64ct-dev; see the head of the script")
    folder = os.path.join(WORK, "peers", name)
    os.makedirs(os.path.join(folder, "src"), exist_ok=True)
    _write(folder, "Cargo.toml", f'[package]\nname = "{name}"\nversion = "0.0.0"\nedition = "2021"\n\n[workspace]\n\n'
           f'[dependencies]\nbase64ct = {{ path = "{os.path.abspath(found[-1])}", features = ["alloc"] }}\n')
    shutil.copy(os.path.join(HERE, name + ".rs"), os.path.join(folder, "src", "main.rs"))
    made = subprocess.run(["cargo", "build", "--release", "--offline"], cwd=folder, capture_output=True, text=True, check=False)
    need(made.returncode == 0, "cargo failed:\n" + made.stderr)
    return os.path.join(folder, "target", "release", name)
