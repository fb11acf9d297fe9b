#!/usr/bin/env bash
# Takes away what install.sh put under a prefix, and nothing else.
#
#     ./uninstall.sh [PREFIX]      (/usr/local if left out; DESTDIR is put before it; PREFIX may be relative)
#     ./uninstall.sh --help
set -eu
top=$(cd "$(dirname "$0")" && pwd)
case ${1:-} in
  --help)
    sed -n '2,/^set -eu$/{/^set -eu$/d; s/^# \{0,1\}//; p}' "$0"
    exit 0 ;;
  -*)
    echo "uninstall.sh: $1 is no option and no PREFIX (a folder of that name is ./$1); uninstall.sh --help says more" >&2
    exit 1 ;;
esac
[ $# -le 1 ] || {
  echo "uninstall.sh: one PREFIX at most" >&2
  exit 1
}
root=${DESTDIR:-}$(realpath -m -- "${1:-/usr/local}")

take() { # FILE
  if [ -e "$root/$1" ] || [ -L "$root/$1" ]; then
    rm "$root/$1"
    echo "took away $root/$1"
  fi
}

version=$(sed -n 's/^#define PWCHECK_VERSION "\(.*\)"$/\1/p' "$top/include/pwcheck.h")
for file in bin/pwcheck bin/pwtool bin/wrapstream bin/pwkdf bin/pwlegacy bin/pwfile bin/pwstore include/pwcheck.h \
  lib/pkgconfig/pwcheck.pc lib/pkgconfig/pwcrypt.pc lib/libpwcheck.a lib/libpwcheck.so "lib/libpwcheck.so.${version%%.*}" "lib/libpwcheck.so.$version" \
  lib/libpwcrypt.so lib/libpwcrypt.so.1 lib/libpwcrypt.so.1.0 \
  "lib/glibc-hwcaps/x86-64-v3/libpwcheck.so.${version%%.*}" "lib/glibc-hwcaps/x86-64-v3/libpwcheck.so.$version" \
  lib/glibc-hwcaps/x86-64-v3/libpwcrypt.so.1 lib/glibc-hwcaps/x86-64-v3/libpwcrypt.so.1.0; do
  take "$file"
done
for text in README.md SECURITY.md CHANGELOG.md LICENSE-MIT LICENSE-APACHE NOTICE; do
  take "share/doc/pwcheck/$text"
done
for text in "$top"/docs/*.md "$top"/docs/*.svg "$top"/docs/internals/*.md; do
  take "share/doc/pwcheck/${text#"$top"/}"
done
for page in "$top"/man/*.[135]; do
  take "share/man/man${page##*.}/$(basename "$page")"
done
