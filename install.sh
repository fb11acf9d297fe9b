#!/usr/bin/env bash
# Installs the programs, the C library and libpwcrypt (crypt(3)), the header and pkg-config files, the manual pages, the pages of docs/
# and the licences under a prefix.
#
#     ./install.sh [PREFIX]      (/usr/local if left out; DESTDIR is put before it; PREFIX may be relative)
#     ./install.sh --help
#
# Where the kit's rt is there, it is asked for each build (`rt run`, `rt lib`): that proves what isn't proved, and does
# nothing where nothing changed. Without rt, or with PWCHECK_AS_BUILT=1, what stands in crates/*/out is installed as it
# is, unless a source is newer: that is refused. With PWCHECK_DIST=1 what dist/ holds is installed, by its SHA256SUMS, and nothing is
# built: that needs no kit. Each way needs python3; a build needs gcc and binutils too. It says what it did, and what a C program
# needs to find the library there.
#
# Where they are built for x86-64-v3 too, the shared libraries go to lib/glibc-hwcaps/x86-64-v3 beside the others, and the loader chooses. Of a
# program one build can be there: that for x86-64-v3 where the loader says that this processor has it and no DESTDIR is set, and else the
# other. PWCHECK_CPU=x86-64-v2 or x86-64-v3 says which; on a processor that lacks an instruction a program for x86-64-v3 ends with 127.
set -eu
top=$(cd "$(dirname "$0")" && pwd)
programs="pwcheck pwtool wrapstream pwkdf pwlegacy pwfile pwstore"

fail() {
  echo "install.sh: $*" >&2
  exit 1
}

case ${1:-} in
  --help)
    sed -n '2,/^set -eu$/{/^set -eu$/d; s/^# \{0,1\}//; p}' "$0"
    exit 0 ;;
  -*) fail "$1 is no option and no PREFIX (a folder of that name is ./$1); install.sh --help says more" ;;
esac
[ $# -le 1 ] || fail "one PREFIX at most"
case ${PWCHECK_CPU:-} in
  x86-64-v3) newer=1 ;;
  x86-64-v2) newer= ;;
  '') newer=
    [ -n "${DESTDIR:-}" ] || ! /lib64/ld-linux-x86-64.so.2 --help 2>/dev/null | grep -q 'x86-64-v3 (supported' || newer=1 ;;
  *) fail "PWCHECK_CPU is x86-64-v2 or x86-64-v3, and no $PWCHECK_CPU" ;;
esac
prefix=$(realpath -m -- "${1:-/usr/local}")
root=${DESTDIR:-}$prefix
command -v python3 >/dev/null 2>&1 || fail "it needs python3, which isn't here"
if [ -z "${PWCHECK_DIST:-}" ]; then
  for command in gcc ld objcopy; do
    command -v "$command" >/dev/null 2>&1 || fail "a build needs gcc and binutils, and $command isn't here; PWCHECK_DIST=1 installs what dist/ holds"
  done
fi

put() { # MODE FILE FOLDER
  install -d "$root/$3"
  install -m "$1" "$2" "$root/$3/"
  echo "installed $root/$3/$(basename "$2")"
}

from_dist() { [ -n "${PWCHECK_DIST:-}" ]; }

may_build() { [ -z "${PWCHECK_AS_BUILT:-}" ] && command -v rt >/dev/null 2>&1; }

built() { # PROGRAM
  local out=$top/crates/$1/out newer
  if may_build; then
    echo "building $1, which proves what isn't proved: this may take minutes"
    # rt says which program it runs once that is proved and built. The program's own status is no matter.
    (cd "$top/crates/$1" && rt run </dev/null 2>&1 >/dev/null || true) | grep -q "^rt: running out/$1" \
      || fail "$1 isn't proved or not built: see (cd crates/$1 && rt run)"
    return
  fi
  [ -e "$out/$1" ] || fail "$out/$1 isn't built, and the kit's rt isn't here; PWCHECK_DIST=1 installs what dist/ holds"
  newer=$(find "$top"/crates/*/src "$top"/crates/*/specs -name '*.[ra]*t' -newer "$out/$1" -print -quit)
  [ -z "$newer" ] || fail "$out/$1 is older than $newer: build it anew by rt"
}

if from_dist; then
  (cd "$top/dist" && sha256sum --quiet -c SHA256SUMS) || fail "dist/ isn't what its SHA256SUMS says"
else
  for program in $programs; do
    built "$program"
  done
  # shellcheck disable=SC2086
  ! may_build || python3 "$top/packaging/newer.py" "$top" $programs
fi
library=$(mktemp -d)
trap 'rm -rf "$library"' EXIT
python3 "$top/bindings/library.py" "$library" "${PWCHECK_PC_PREFIX:-$prefix}"
program_file() { # PROGRAM: the build that is to be installed
  local place=$top/crates/$1/out
  ! from_dist || place=$top/dist
  if [ -n "$newer" ] && [ -e "$place/x86-64-v3/$1" ]; then
    from_dist || [ "$place/x86-64-v3/$1" -nt "$place/$1" ] || fail "$place/x86-64-v3/$1 is older than $place/$1: packaging/newer.py makes it anew"
    place=$place/x86-64-v3
  fi
  echo "$place/$1"
}

for program in $programs; do
  file=$(program_file "$program")
  put 755 "$file" bin
done
if [ -n "$newer" ]; then
  case $file in
    */x86-64-v3/*) echo "the programs are those for x86-64-v3" ;;
    *) echo "no program is built for x86-64-v3: the programs are those for every processor of x86-64-v2" ;;
  esac
fi
put 644 "$library/lib/libpwcheck.a" lib
put_shared() { # NAME
  local folder shared
  # The loader would take what an earlier version left there in the place of this one.
  rm -f "$root/lib/glibc-hwcaps/x86-64-v3/$1".so*
  for folder in lib lib/glibc-hwcaps/x86-64-v3; do
    for shared in "$library/$folder/$1".so*; do
      if [ -L "$shared" ]; then
        install -d "$root/$folder"
        cp -P "$shared" "$root/$folder/"
        echo "linked $root/$folder/$(basename "$shared")"
      elif [ -e "$shared" ]; then
        put 644 "$shared" "$folder"
      fi
    done
  done
}

put_shared libpwcheck
# crypt(3) under a name of its own, where libxcrypt's header is there to build its face.
if from_dist || [ -e /usr/include/crypt.h ]; then
  python3 "$top/crypt3/library.py" "$library"
  put_shared libpwcrypt
else
  echo "libpwcrypt: <crypt.h> isn't here, left out" >&2
fi
from_dist && header=$top/dist/pwcheck.h || header=$top/include/pwcheck.h
put 644 "$header" include
for name in pwcheck pwcrypt; do
  [ "$name" = pwcrypt ] && [ ! -e "$root/lib/libpwcrypt.so.1" ] && continue
  put 644 "$library/lib/pkgconfig/$name.pc" lib/pkgconfig
done
for page in "$top"/man/*.[135]; do
  put 644 "$page" "share/man/man${page##*.}"
done
for text in README.md SECURITY.md CHANGELOG.md LICENSE-MIT LICENSE-APACHE NOTICE; do
  put 644 "$top/$text" share/doc/pwcheck
done
for text in "$top"/docs/*.md "$top"/docs/*.svg "$top"/docs/internals/*.md; do
  text=${text#"$top"/}
  put 644 "$top/$text" "share/doc/pwcheck/$(dirname "$text")"
done

# What a program needs to find the libraries: the loader's list made anew where it has the folder, and else the two lines.
if [ -z "${DESTDIR:-}" ]; then
  if ldconfig -v -N 2>/dev/null | grep -q "^$prefix/lib:"; then
    if [ "$(id -u)" = 0 ]; then
      ldconfig
      echo "the loader's list of libraries is renewed (ldconfig)"
    else
      echo "run ldconfig as root, so that programs find the libraries"
    fi
  fi
  [ "$prefix" = /usr ] || [ "$prefix" = /usr/local ] || echo "pkg-config finds them by: export PKG_CONFIG_PATH=$(printf %q "$prefix")/lib/pkgconfig"
fi
