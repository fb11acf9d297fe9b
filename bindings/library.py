#!/usr/bin/env python3
"""Lays out the C library in a folder as a package would: include/pwcheck.h, lib/libpwcheck.a, lib/libpwcheck.so.1.1
with the links libpwcheck.so.1 and libpwcheck.so, and lib/pkgconfig/pwcheck.pc; and where packaging/newer.py made its archive,
lib/glibc-hwcaps/x86-64-v3/libpwcheck.so.1.1, which the loader takes on a processor that has these instructions.

    bindings/library.py FOLDER [PREFIX]
    bindings/library.py --proved ARCHIVE     (the proved calls alone, without the face: what the kit made)
    bindings/library.py --newer ARCHIVE      (the same for x86-64-v3; nothing where that isn't built)

PREFIX is what pwcheck.pc names, where the folder is to be moved there (else the folder itself). libpwcheck.a is the
archive that `rt lib` makes in crates/pwcheck_c, joined with the kit's allocator for C programs and with the face in C (face/), which
wipes after each call, to one object that defines the exports alone, so that it needs the C library only. Where rt is there, `rt lib` is run always: it does
nothing where nothing changed. Without it (or with PWCHECK_AS_BUILT=1) the archive is taken as it stands, unless a
source is newer. It needs gcc and binutils. With PWCHECK_DIST=1 the libraries of dist/ are laid out, and nothing is built.
"""
import os
import re
import shlex
import shutil
import subprocess
import sys
import tempfile

HERE = os.path.dirname(os.path.abspath(__file__))
TOP = os.path.dirname(HERE)
CRATES = os.path.join(TOP, "crates")
PROGRAM = os.environ.get("PWCHECK", os.path.join(CRATES, "pwcheck", "out", "pwcheck"))
DIST = os.path.join(TOP, "dist") if os.environ.get("PWCHECK_DIST") else None
FACE = os.path.join(TOP, "face")
PROGRAMS = ("pwcheck", "pwtool", "wrapstream", "pwkdf", "pwlegacy", "pwfile", "pwstore")
# The processors of the second build, and the folder where the loader looks for it.
CPU = "x86-64-v3"
NEWER = os.path.join("glibc-hwcaps", CPU)
# How the faces in C are compiled: as Debian 12 does with hardening=+all, and two flags that its later releases have. The folder stays out of
# what is built.
FLAGS = [f"-ffile-prefix-map={TOP}=.", "-std=c11", "-D_GNU_SOURCE", "-O2", "-Wall", "-Wextra", "-Werror", "-fPIC",
         "-fstack-protector-strong", "-fstack-clash-protection", "-fcf-protection", "-Wformat", "-Werror=format-security",
         "-D_FORTIFY_SOURCE=2", "-I" + FACE, "-I" + os.path.join(TOP, "include")]
# The names of malloc's family in a proved archive, and those of face/memory.c.
MEMORY = {name: "face_" + name for name in ("malloc", "realloc", "free")}
# The exports that pass the face by: they take no password.
PLAIN = ("word", "version", "base64_encoded_len", "base64_decoded_len", "base64_decode", "base64_encode", "same_bytes", "needs_remake")
ARCHIVE = os.environ.get("LIBPWCHECK_C", os.path.join(CRATES, "pwcheck_c", "out", "libpwcheck_c.a"))


def need(condition, text):
    if not condition:
        sys.exit(os.path.basename(sys.argv[0]) + ": " + text)


def run(*command, **more):
    done = subprocess.run(command, **more)
    need(done.returncode == 0, f"{' '.join(command)[:200]} ended with {done.returncode}")
    return done


def newer_source(path):
    """A source under crates/ that is newer than this file, if there is one."""
    built = os.path.getmtime(path)
    for folder, folders, files in os.walk(CRATES):
        folders[:] = [name for name in folders if name not in ("out", "must-fail")]
        for name in files:
            source = os.path.join(folder, name)
            if name.endswith((".rt", ".antt")) and os.path.getmtime(source) > built:
                return os.path.relpath(source, TOP)
    return None


def made(path, crate, *command):
    """This file, made anew by the command in the folder of a crate where rt is there. Without rt it is taken as it is,
    and refused where a source is newer: it would be another program than the one that is proved."""
    if shutil.which("rt") and not os.environ.get("PWCHECK_AS_BUILT"):
        print(f"{' '.join(command)} in crates/{crate}", file=sys.stderr)
        run(*command, cwd=os.path.join(CRATES, crate), stdin=subprocess.DEVNULL, stdout=subprocess.DEVNULL)
        return path
    need(os.path.exists(path), f"{os.path.relpath(path)} isn't there, and no rt that makes it")
    newer = newer_source(path)
    need(not newer, f"{os.path.relpath(path)} is older than {newer}: build it anew by rt")
    return path


def allocator():
    """The kit's allocator for an archive."""
    kit = os.environ.get("KIT") or os.path.dirname(run("rt", "doc", capture_output=True, text=True).stdout.strip())
    return os.path.join(kit, "c", "liblibc_c.a")


def archives():
    """The crate's archive, and the kit's allocator for it."""
    return [ARCHIVE if "LIBPWCHECK_C" in os.environ else made(ARCHIVE, "pwcheck_c", "rt", "lib"), allocator()]


def newer_archive(crate):
    """The crate's archive for x86-64-v3, made anew by packaging/newer.py where rt is there; none where it isn't built. One that is older
    than a source is refused."""
    if "LIB" + crate.upper() in os.environ:
        return None
    path = os.path.join(CRATES, crate, "out", CPU, f"lib{crate}.a")
    if shutil.which("rt") and not os.environ.get("PWCHECK_AS_BUILT"):
        run(sys.executable, os.path.join(TOP, "packaging", "newer.py"), TOP, crate, stdout=subprocess.DEVNULL)
    if not os.path.exists(path):
        return None
    newer = newer_source(path)
    need(not newer, f"{os.path.relpath(path)} is older than {newer}: packaging/newer.py makes it anew")
    return path


def program():
    return PROGRAM if "PWCHECK" in os.environ else made(PROGRAM, "pwcheck", "rt", "run", "--", "check")


def version():
    """The version, as the header has it."""
    with open(os.path.join(TOP, "include", "pwcheck.h"), encoding="utf-8") as source:
        return re.search(r'^#define PWCHECK_VERSION "([0-9]+\.[0-9]+)"$', source.read(), re.M).group(1)


def joined(static, exports, parts):
    """One object with all of some archives, of which the exports alone are global, in an archive."""
    with tempfile.TemporaryDirectory() as scratch:
        whole = os.path.join(scratch, os.path.basename(static)[3:-2] + ".o")
        run("ld", "-r", "-o", whole, "--whole-archive", *map(os.path.abspath, parts))
        run("objcopy", "--wildcard", "--keep-global-symbol=" + exports, whole)
        if os.path.exists(static):
            os.remove(static)
        run("ar", "rcsD", static, whole)


def renamed(core, names, path):
    """The object of an archive with other names for some of its symbols."""
    run("ld", "-r", "-o", path, "--whole-archive", os.path.abspath(core))
    run("objcopy", *(f"--redefine-sym={old}={new}" for old, new in names.items()), path)


def with_face(core, static):
    """libpwcheck.a: the proved calls under other names, and the face in C over them."""
    exports = {line.split()[-1] for line in run("nm", "--defined-only", "--extern-only", core, capture_output=True, text=True).stdout.splitlines()
               if len(line.split()) == 3}
    names = {name: "core_" + name[len("pwcheck_"):] for name in exports if name[len("pwcheck_"):] not in PLAIN}
    with tempfile.TemporaryDirectory() as scratch:
        parts = [os.path.join(scratch, name + "_face.o") for name in ("pwcheck", "wipe", "memory")]
        for part in parts:
            source = os.path.join(FACE, os.path.basename(part).replace("_face.o", ".c"))
            run("gcc", *FLAGS, *shlex.split(os.environ.get("CFLAGS", "")), "-c", source, "-o", part, cwd=TOP)
        parts.append(os.path.join(scratch, "proved.o"))
        renamed(core, {**names, **MEMORY}, parts[-1])
        whole = os.path.join(scratch, os.path.basename(static)[3:-2] + ".o")
        run("ld", "-r", "-o", whole, *parts)
        run("objcopy", "--wildcard", "--keep-global-symbol=pwcheck_*", whole)
        if os.path.exists(static):
            os.remove(static)
        run("ar", "rcsD", static, whole)


def make_core(core):
    """libpwcheck_c.a: the proved calls below the face, which the kit alone made."""
    if DIST:
        shutil.copy(os.path.join(DIST, "libpwcheck_c.a"), core)
    else:
        joined(core, "pwcheck_*", archives())


def make_newer_core(core, crate, exports):
    """The same archive for x86-64-v3, if it was built. The answer says whether it was."""
    if DIST:
        archive = os.path.join(DIST, CPU, f"lib{crate}.a")
        if os.path.exists(archive):
            shutil.copy(archive, core)
        return os.path.exists(archive)
    archive = newer_archive(crate)
    if archive:
        joined(core, exports, [archive, allocator()])
    return archive is not None


def make_static(static):
    if DIST:
        shutil.copy(os.path.join(DIST, "libpwcheck.a"), static)
        return
    with tempfile.TemporaryDirectory() as scratch:
        core = os.path.join(scratch, "libpwcheck_c.a")
        make_core(core)
        with_face(core, static)


def make_links(lib, name, full, soname):
    """The links that the loader and the linker look for."""
    for link, target in [(soname, full), (name + ".so", soname)]:
        path = os.path.join(lib, link)
        if os.path.lexists(path):
            os.remove(path)
        os.symlink(target, path)


def make_shared(lib, static):
    """The shared library under its full version, with its links."""
    full = "libpwcheck.so." + version()
    soname = "libpwcheck.so." + version().split(".", maxsplit=1)[0]
    if DIST:
        shutil.copy(os.path.join(DIST, full), lib)
    else:
        link_shared(os.path.join(lib, full), soname, static)
    make_links(lib, "libpwcheck", full, soname)
    make_newer(lib, full, soname)


def newer_folder(lib, full, soname):
    """The folder of the second build, with the link that the loader looks for. The library of dist/ is put there, if it has one."""
    folder = os.path.join(lib, NEWER)
    os.makedirs(folder, exist_ok=True)
    link = os.path.join(folder, soname)
    if os.path.lexists(link):
        os.remove(link)
    os.symlink(full, link)
    if DIST:
        shutil.copy(os.path.join(DIST, CPU, full), folder)
    return os.path.join(folder, full)


def make_newer(lib, full, soname):
    """The shared library for x86-64-v3, where it was built."""
    with tempfile.TemporaryDirectory() as scratch:
        core, static = os.path.join(scratch, "libpwcheck_c.a"), os.path.join(scratch, "libpwcheck.a")
        if not make_newer_core(core, "pwcheck_c", "pwcheck_*"):
            return
        shared = newer_folder(lib, full, soname)
        if not DIST:
            with_face(core, static)
            link_shared(shared, soname, static)


def link_shared(path, soname, static):
    run("gcc", "-shared", "-o", path, "-Wl,-soname," + soname, "-Wl,--whole-archive", static,
        "-Wl,--no-whole-archive", "-Wl,--version-script," + os.path.join(HERE, "exports.map"), "-Wl,-z,defs,-z,text",
        "-Wl,-z,relro,-z,now,-z,noexecstack")


def pkg_config(name, prefix):
    """The text of pwcheck.pc or pwcrypt.pc. A blank, a quotation mark and the like are escaped: pkg-config reads a shell's words. A
    prefix that begins with ${pcfiledir} goes with the file."""
    with open(os.path.join(TOP, "include", name + ".pc.in"), encoding="utf-8") as source:
        text = source.read()
    escaped = prefix if prefix.startswith("${pcfiledir}") else re.sub(r"([^A-Za-z0-9_./+@%,:=~-])", r"\\\1", prefix)
    rpath = "" if prefix in ("/usr", "/usr/local") else "-Wl,-rpath,${libdir} "
    return text.replace("@VERSION@", version()).replace("@PREFIX@", escaped).replace("@RPATH@", rpath)


def laid_out(folder, prefix=None):
    """The folder of the libraries, laid out."""
    lib, include = os.path.join(folder, "lib"), os.path.join(folder, "include")
    os.makedirs(os.path.join(lib, "pkgconfig"), exist_ok=True)
    os.makedirs(include, exist_ok=True)
    shutil.copy(os.path.join(TOP, "include", "pwcheck.h"), include)
    static = os.path.join(lib, "libpwcheck.a")
    make_static(static)
    make_shared(lib, static)
    for name in ("pwcheck", "pwcrypt"):
        with open(os.path.join(lib, "pkgconfig", name + ".pc"), "w", encoding="utf-8") as out:
            out.write(pkg_config(name, prefix or os.path.abspath(folder)))
    return lib


if __name__ == "__main__":
    need(len(sys.argv) in (2, 3), "usage: library.py FOLDER [PREFIX], or library.py --proved ARCHIVE, or library.py --newer ARCHIVE")
    need(DIST or shutil.which("gcc") and shutil.which("ld") and shutil.which("objcopy"), "it needs gcc and binutils")
    if sys.argv[1] == "--proved":
        make_core(sys.argv[2])
    elif sys.argv[1] == "--newer":
        make_newer_core(sys.argv[2], "pwcheck_c", "pwcheck_*")
    else:
        laid_out(*sys.argv[1:])
