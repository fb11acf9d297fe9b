#!/usr/bin/env python3
"""Builds libpwcrypt, crypt(3) over the proved calls, in a folder: lib/libpwcrypt.so.1.0 with the links libpwcrypt.so.1 and
libpwcrypt.so, and lib/libpwcrypt_c.a, the proved calls below its face in C; and the same for x86-64-v3 in lib/glibc-hwcaps/x86-64-v3,
where packaging/newer.py made its archive.

    crypt3/library.py FOLDER

It takes the archive that `rt lib` makes in crates/pwcrypt_c, as bindings/library.py takes that of pwcheck_c; the variable
LIBPWCRYPT_C names another one. It needs gcc, binutils and libxcrypt's <crypt.h> (Debian's libcrypt-dev). CFLAGS are put behind
the flags of Debian's hardening. With PWCHECK_DIST=1 the library of dist/ is laid out, and nothing is built.
"""
import os
import shlex
import shutil
import sys
import tempfile

HERE = os.path.dirname(os.path.abspath(__file__))
TOP = os.path.dirname(HERE)
sys.path.insert(0, os.path.join(TOP, "bindings"))
import library  # noqa: E402

VERSION = "1.0"
ARCHIVE = os.environ.get("LIBPWCRYPT_C", os.path.join(TOP, "crates", "pwcrypt_c", "out", "libpwcrypt_c.a"))
# No call of crypt(3) takes more stack than is wiped after it: checks/stack.py.
FLAGS = [*library.FLAGS, "-fvisibility=default", "-DFACE_STACK=7552"]
LINK = ["-Wl,-z,relro", "-Wl,-z,now", "-Wl,-z,defs", "-Wl,-z,text", "-Wl,-z,noexecstack", "-Wl,-Bsymbolic", "-Wl,--strip-debug",
        "-Wl,--version-script=" + os.path.join(HERE, "exports.map")]


def archives():
    """The crate's archive, and the kit's allocator for it."""
    return [ARCHIVE if "LIBPWCRYPT_C" in os.environ else library.made(ARCHIVE, "pwcrypt_c", "rt", "lib"), library.allocator()]


def link(path, soname, calls):
    """The face in C over the proved calls, as a shared library."""
    with tempfile.TemporaryDirectory() as scratch:
        proved = os.path.join(scratch, "proved.o")
        library.renamed(calls, library.MEMORY, proved)
        library.run("gcc", *FLAGS, *shlex.split(os.environ.get("CFLAGS", "")), "-shared", "-o", path, "-Wl,-soname," + soname, *LINK,
                    os.path.join(HERE, "pwcrypt.c"), os.path.join(library.FACE, "wipe.c"), os.path.join(library.FACE, "memory.c"), proved,
                    cwd=TOP)


def laid_out(folder):
    """The shared library under its full version, with its links; the answer is its path."""
    lib = os.path.join(os.path.abspath(folder), "lib")
    os.makedirs(lib, exist_ok=True)
    full, soname = "libpwcrypt.so." + VERSION, "libpwcrypt.so." + VERSION.split(".", maxsplit=1)[0]
    calls = os.path.join(lib, "libpwcrypt_c.a")
    if library.DIST:
        shutil.copy(os.path.join(library.DIST, full), lib)
        shutil.copy(os.path.join(library.DIST, "libpwcrypt_c.a"), lib)
    else:
        library.joined(calls, "pwcrypt_*", archives())
        link(os.path.join(lib, full), soname, calls)
    library.make_links(lib, "libpwcrypt", full, soname)
    newer_calls = os.path.join(lib, library.CPU + ".a")
    if library.make_newer_core(newer_calls, "pwcrypt_c", "pwcrypt_*"):
        shared = library.newer_folder(lib, full, soname)
        if not library.DIST:
            link(shared, soname, newer_calls)
        os.replace(newer_calls, os.path.join(os.path.dirname(shared), "libpwcrypt_c.a"))
    return os.path.join(lib, full)


if __name__ == "__main__":
    library.need(len(sys.argv) == 2, "usage: library.py FOLDER")
    laid_out(sys.argv[1])
