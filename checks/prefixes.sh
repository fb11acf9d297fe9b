#!/usr/bin/env bash
# Installs under prefixes with a blank, `&`, `|`, a quotation mark, under a relative one and below DESTDIR, builds a
# caller by pkg-config, runs it, and takes everything away again.
#
#     checks/prefixes.sh FOLDER
set -eu
top=$(cd "$(dirname "$0")/.." && pwd)
mkdir -p "$1"
folder=$(cd "$1" && pwd)
cd "$folder"

fail() {
  echo "prefixes.sh: $*" >&2
  exit 1
}

# What the caller answers, built by pkg-config against what is installed under a prefix.
try_prefix() { # PREFIX
  local prefix=$1 options
  "$top/install.sh" "$prefix" >"$folder/log" 2>&1 || fail "install.sh $prefix: $(tail -n 1 "$folder/log")"
  prefix=$(realpath -m -- "$prefix")
  options=$(PKG_CONFIG_PATH="$prefix/lib/pkgconfig" pkg-config --cflags --libs pwcheck)
  eval "gcc -o caller $(printf %q "$top/bindings/c/check_lines.c") $options"
  ./caller <"$top/examples/passwords.txt" >answers
  "$prefix/bin/pwcheck" check <"$top/examples/passwords.txt" >words || true
  cmp -s answers words || fail "the caller and pwcheck under $prefix answer otherwise"
  "$top/uninstall.sh" "$1" >"$folder/log"
  [ -z "$(find "$prefix" -not -type d)" ] || fail "uninstall.sh leaves $(find "$prefix" -not -type d | head -n 1)"
}

command -v pkg-config >/dev/null 2>&1 || { echo "prefixes.sh: no pkg-config, so nothing was tried"; exit 0; }
count=0
for prefix in "$folder/plain" "$folder/a b" "$folder/a&b" "$folder/a|b" "$folder/it's" relative ./a/../b; do
  try_prefix "$prefix"
  count=$((count + 1))
done
DESTDIR="$folder/root" "$top/install.sh" /usr >log 2>&1 || fail "DESTDIR: $(tail -n 1 log)"
grep -qx 'prefix=/usr' root/usr/lib/pkgconfig/pwcheck.pc || fail "pwcheck.pc below DESTDIR names another prefix"
DESTDIR="$folder/root" "$top/uninstall.sh" /usr >log
[ -z "$(find root -not -type d)" ] || fail "uninstall.sh leaves files below DESTDIR"
# A library of an earlier version that the loader would take before the new one.
mkdir -p stale/lib/glibc-hwcaps/x86-64-v3
echo stale >stale/lib/glibc-hwcaps/x86-64-v3/libpwcheck.so.1
"$top/install.sh" stale >log 2>&1 || fail "stale: $(tail -n 1 log)"
! grep -qsx stale stale/lib/glibc-hwcaps/x86-64-v3/libpwcheck.so.1 || fail "install.sh leaves a library for x86-64-v3 of an earlier version"
"$top/uninstall.sh" stale >log
echo "prefixes.sh: $count prefixes and DESTDIR, each with a caller built by pkg-config"
