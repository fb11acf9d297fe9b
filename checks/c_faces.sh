#!/usr/bin/env bash
# The C of this repository over the libraries of dist/: what their faces in C answer, and whether the shared libraries are what the
# compiler makes of the archives. Nothing is proved or built by the kit: dist/SOURCES says of which sources the archives are.
#
#     checks/c_faces.sh [FOLDER]      (the folder that packaging/dist.sh made; dist/ if left out)
#
# 1. The exports of libpwcheck; its calls over exact buffers, with numbers that differ (checks/c_calls.c); what memory they take, and what
#    they answer without any (checks/memory.c); its callers in C, Python and Rust (bindings/try.py).
# 2. crypt3/pwcrypt.c, compiled here over libpwcrypt_c.a, and libpwcrypt.so.1.0: crypt3/try.c, and calls beside libxcrypt.
# 3. libpwcheck.a made anew from libpwcheck_c.a and face/, libpwcheck.so.1.1 from that, and libpwcrypt.so.1.0 from crypt3/pwcrypt.c and
#    libpwcrypt_c.a, are the same bytes, where the compiler and the linker are those that COMPILER names.
# 4. What stack each call takes, and that it leaves nothing of a password (checks/stack.py).
# 5. The same of FOLDER/x86-64-v3, where it is there and the processor has these instructions. Both builds of a library define the same
#    symbols, and the loader takes that of glibc-hwcaps/x86-64-v3 unless it is told not to.
set -eu
top=$(cd "$(dirname "$0")/.." && pwd)
folder=$(cd "${1:-$top/dist}" && pwd)
work=$(mktemp -d)
trap 'rm -rf "$work"' EXIT
export PYTHONDONTWRITEBYTECODE=1

fail() {
  echo "c_faces.sh: $*" >&2
  exit 1
}

for command in gcc ld objcopy; do
  command -v "$command" >/dev/null 2>&1 || { echo "c_faces.sh: no $command, so nothing was tried"; exit 0; }
done
mkdir -p "$work/tree"
cp -r "$top"/{bindings,include,crypt3,examples,face} "$work/tree"
cp -r "$folder" "$work/tree/dist"
export PWCHECK_DIST=1 PWCHECK=$work/tree/dist/pwcheck
python3 "$work/tree/bindings/library.py" "$work/lib"
python3 "$top/checks/exports.py" "$work/lib"

try_calls() { # STATIC LIBRARY
  gcc -std=c99 -O1 -Wall -Wextra -Werror -I "$work/lib/include" "$top/checks/c_calls.c" "$1" -o "$work/c_calls"
  "$work/c_calls" "$top/crates/pwtool/data/lines.txt" "$top/crates/pwtool/stdout" short
  gcc -std=gnu99 -O1 -Wall -Wextra -Werror -I "$work/lib/include" "$top/checks/memory.c" "$1" -Wl,--wrap=malloc,--wrap=mmap,--wrap=munmap,--wrap=madvise -o "$work/memory"
  "$work/memory"
}

with_face() { # ARCHIVE STATIC SHARED: libpwcheck.a and libpwcheck.so made of the proved calls
  PWCHECK_DIST='' python3 - "$work" "$@" <<'PY'
import sys
sys.path.insert(0, sys.argv[1] + "/tree/bindings")
import library
library.with_face(sys.argv[2], sys.argv[3])
library.link_shared(sys.argv[4], "libpwcheck.so.1", sys.argv[3])
PY
}

with_crypt_face() { # ARCHIVE SHARED: libpwcrypt made of the proved calls
  PWCHECK_DIST='' python3 - "$work" "$@" <<'PY'
import importlib.util
import sys
sys.path.insert(0, sys.argv[1] + "/tree/crypt3")
spec = importlib.util.spec_from_file_location("crypt_library", sys.argv[1] + "/tree/crypt3/library.py")
crypt = importlib.util.module_from_spec(spec)
spec.loader.exec_module(crypt)
crypt.link(sys.argv[3], "libpwcrypt.so.1", sys.argv[2])
PY
}

try_crypt() { # FOLDER with libpwcrypt.so.1
  [ -e "$1/libpwcrypt.so" ] || ln -s libpwcrypt.so.1 "$1/libpwcrypt.so"
  gcc -std=c11 -D_GNU_SOURCE -O1 -Wall -Wextra -Werror "$top/crypt3/try.c" -L"$1" -lpwcrypt -Wl,-rpath,"$1" -lpthread -o "$work/crypt_try"
  "$work/crypt_try"
}

same_compiler() { { gcc --version; ld --version; } | grep -E '^(gcc|GNU ld)' | cmp -s - "$folder/COMPILER"; }

try_calls "$work/lib/lib/libpwcheck.a"
python3 "$work/tree/bindings/try.py" "$work/try"

if [ -e /usr/include/crypt.h ]; then
  python3 "$work/tree/crypt3/library.py" "$work/crypt"
  with_crypt_face "$work/tree/dist/libpwcrypt_c.a" "$work/libpwcrypt.so.1"
  for library in "$work" "$work/crypt/lib"; do try_crypt "$library"; done
  python3 "$top/bench/crypt_differ.py" "$work/libpwcrypt.so.1" 100
  peer=$(ldconfig -p | awk '/libcrypt\.so\.1 .*x86-64/ { print $NF; exit }')
  versions() { nm -D --defined-only "$1" | awk '$2 == "T" { print $3 }' | LC_ALL=C sort; }
  versions "$work/libpwcrypt.so.1" >"$work/ours"
  versions "$peer" >"$work/theirs"
  [ -s "$work/ours" ] && [ -z "$(LC_ALL=C comm -23 "$work/ours" "$work/theirs")" ] || fail "a symbol of libpwcrypt has another version than libxcrypt's"
  echo "c_faces.sh: $(wc -l <"$work/ours") symbols of libpwcrypt have libxcrypt's versions"
else
  echo "c_faces.sh: no <crypt.h>, so crypt(3) was not tried"
fi

if same_compiler; then
  with_face "$work/tree/dist/libpwcheck_c.a" "$work/libpwcheck.a" "$work/libpwcheck.so"
  cmp "$work/libpwcheck.a" "$folder/libpwcheck.a" || fail "libpwcheck.a isn't what libpwcheck_c.a and the face give"
  cmp "$work/libpwcheck.so" "$folder/libpwcheck.so.1.1" || fail "libpwcheck.so.1.1 isn't what libpwcheck.a gives"
  [ ! -e "$work/libpwcrypt.so.1" ] || cmp "$work/libpwcrypt.so.1" "$folder/libpwcrypt.so.1.0" || fail "libpwcrypt.so.1.0 isn't what pwcrypt.c gives"
  echo "c_faces.sh: both shared libraries are what this compiler makes of the archives"
else
  echo "c_faces.sh: another compiler than that of $folder/COMPILER, so the shared libraries weren't linked anew: $(tr '\n' ';' <"$folder/COMPILER" 2>/dev/null)"
fi

stack() { # LIBRARY BYTES
  python3 "$top/checks/stack.py" --clean --most "$2" "$folder/$1" >"$work/stack" || {
    cat "$work/stack" >&2
    fail "a call of $1 takes more than $2 bytes of stack, or leaves something of a password"
  }
  echo "c_faces.sh: no call of $1 takes more than $2 bytes of stack, or leaves anything of a password"
}
stack libpwcheck.so.1.1 8192
stack libpwcrypt.so.1.0 8192

newer=$folder/x86-64-v3
[ -e "$newer" ] || { echo "c_faces.sh: no x86-64-v3 in $(basename "$folder"), so the second build wasn't tried"; exit 0; }
/lib64/ld-linux-x86-64.so.2 --help | grep -q 'x86-64-v3 (supported' || { echo "c_faces.sh: this processor isn't x86-64-v3, so that build wasn't tried"; exit 0; }
mkdir "$work/newer"
with_face "$newer/libpwcheck_c.a" "$work/newer/libpwcheck.a" "$work/newer/libpwcheck.so"
try_calls "$work/newer/libpwcheck.a"
if [ -e /usr/include/crypt.h ]; then
  with_crypt_face "$newer/libpwcrypt_c.a" "$work/newer/libpwcrypt.so.1"
  try_crypt "$work/newer"
  python3 "$top/bench/crypt_differ.py" "$newer/libpwcrypt.so.1.0" 100
fi
for library in libpwcheck.so.1.1 libpwcrypt.so.1.0; do
  cmp <(nm -D "$folder/$library" | cut -c18- | LC_ALL=C sort) <(nm -D "$newer/$library" | cut -c18- | LC_ALL=C sort) || fail "$library for x86-64-v3 has other symbols"
  stack "x86-64-v3/$library" 8192
done
if same_compiler; then
  cmp "$work/newer/libpwcheck.so" "$newer/libpwcheck.so.1.1" || fail "libpwcheck.so.1.1 for x86-64-v3 isn't what its archive and the face give"
  [ ! -e "$work/newer/libpwcrypt.so.1" ] || cmp "$work/newer/libpwcrypt.so.1" "$newer/libpwcrypt.so.1.0" || fail "libpwcrypt.so.1.0 for x86-64-v3 isn't what pwcrypt.c gives"
fi
printf '#include <pwcheck.h>\n#include <stdio.h>\nint main(void) { uint8_t out[8]; return pwcheck_version(out, sizeof out) == 0; }\n' >"$work/loaded.c"
gcc -I "$work/lib/include" "$work/loaded.c" -L"$work/lib/lib" -lpwcheck -Wl,-rpath,"$work/lib/lib" -o "$work/loaded"
LD_DEBUG=libs "$work/loaded" 2>&1 | grep -q 'calling init: .*/glibc-hwcaps/x86-64-v3/libpwcheck.so.1' || fail "the loader doesn't take the library for x86-64-v3"
LD_DEBUG=libs /lib64/ld-linux-x86-64.so.2 --glibc-hwcaps-mask x86-64-v2 "$work/loaded" 2>&1 | grep 'calling init: .*/libpwcheck.so.1' | grep -qv hwcaps || fail "the loader takes no other library"
echo "c_faces.sh: the same of the libraries for x86-64-v3, which the loader takes"
