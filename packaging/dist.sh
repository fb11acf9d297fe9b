#!/usr/bin/env bash
# Makes the folder of what is built, for those who don't have the kit: programs, C libraries, header, SHA256SUMS, in SOURCES the
# checksum of the sources that they are of, and in COMPILER the compiler and the linker of the shared libraries. In x86-64-v3 are the
# programs, the shared libraries and the archives that packaging/newer.py makes, where it made them.
#
#     packaging/dist.sh [FOLDER]      (dist/ if left out)
#
# What isn't built is built first, and so proved (see install.sh); with PWCHECK_AS_BUILT=1 what the gate built is taken as it is. dist/ is
# renewed with each version, not with each change:
# checks/dist.py says whether it is of the sources that stand here.
set -eu
unset PWCHECK_DIST
top=$(cd "$(dirname "$0")/.." && pwd)
folder=${1:-$top/dist}
work=$(mktemp -d)
trap 'rm -rf "$work"' EXIT
DESTDIR=$work "$top/install.sh" /usr >&2
rm -rf "$folder"
mkdir -p "$folder"
install -m 755 "$work"/usr/bin/* "$folder"
install -m 644 "$work/usr/lib/libpwcheck.a" "$top/include/pwcheck.h" "$folder"
find "$work/usr/lib" -maxdepth 1 -type f -name '*.so.*' -exec install -m 644 {} "$folder" \;
python3 "$top/crypt3/library.py" "$work/crypt" >&2
python3 "$top/bindings/library.py" --proved "$work/libpwcheck_c.a" >&2
install -m 644 "$work/crypt/lib/libpwcrypt_c.a" "$work/libpwcheck_c.a" "$folder"
newer=$work/usr/lib/glibc-hwcaps/x86-64-v3
if [ -e "$newer" ]; then
  mkdir "$folder/x86-64-v3"
  find "$newer" -type f -name '*.so.*' -exec install -m 644 {} "$folder/x86-64-v3" \;
  [ ! -e "$work/crypt/lib/glibc-hwcaps/x86-64-v3" ] || install -m 644 "$work/crypt/lib/glibc-hwcaps/x86-64-v3/libpwcrypt_c.a" "$folder/x86-64-v3"
  python3 "$top/bindings/library.py" --newer "$work/newer.a" >&2
  install -m 644 "$work/newer.a" "$folder/x86-64-v3/libpwcheck_c.a"
  for program in "$work"/usr/bin/*; do
    program=$(basename "$program")
    [ -e "$top/crates/$program/out/x86-64-v3/$program" ] || { echo "dist.sh: $program isn't built for x86-64-v3, as the libraries are: packaging/newer.py" >&2; exit 1; }
    install -m 755 "$top/crates/$program/out/x86-64-v3/$program" "$folder/x86-64-v3"
  done
fi
python3 "$top/packaging/sources.py" > "$folder/SOURCES"
{ gcc --version; ld --version; } | grep -E '^(gcc|GNU ld)' > "$folder/COMPILER"
(cd "$folder" && find . -type f ! -name SHA256SUMS -printf '%P\0' | LC_ALL=C sort -z | xargs -0 sha256sum -- > SHA256SUMS)
cat "$folder/SHA256SUMS"
