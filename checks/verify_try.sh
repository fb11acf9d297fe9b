#!/usr/bin/env bash
# Tries packaging/verify.sh on a dist/ in which one byte is changed and the sums are made anew, with each variable set that makes
# install.sh copy in place of building. verify.sh has to find the byte. Nothing is proved here: in a copy of the scripts install.sh and
# both library.py are such as lay out the true files where they are to build, and those of dist/ where a variable is set.
#
#     checks/verify_try.sh
set -eu
top=$(cd "$(dirname "$0")/.." && pwd)
work=$(mktemp -d)
trap 'rm -rf "$work"' EXIT
mkdir "$work/top"
cp -r "$top"/{crates.txt,packaging,include,bindings,crypt3,dist} "$work/top"
mkdir "$work/top/crates"
for archive in libpwcrypt_c.a libpwcheck_c.a; do [ -e "$work/top/dist/$archive" ] || echo none >"$work/top/dist/$archive"; done
cp "$top/include/pwcheck.h" "$work/top/dist/pwcheck.h"
programs="pwcheck pwtool wrapstream pwkdf pwlegacy pwfile pwstore"
# A dist/ without a second build gets one here, of the same bytes.
[ -e "$work/top/dist/x86-64-v3" ] || {
  mkdir "$work/top/dist/x86-64-v3"
  for file in $programs libpwcheck_c.a libpwcrypt_c.a libpwcheck.so.1.1 libpwcrypt.so.1.0; do cp "$work/top/dist/$file" "$work/top/dist/x86-64-v3"; done
}
cp -r "$work/top/dist" "$work/true"
cat >"$work/top/install.sh" <<SH
#!/usr/bin/env bash
set -eu
from=$work/true
[ -z "\${PWCHECK_DIST:-}" ] || from=$work/top/dist
[ -z "\${PWCHECK_AS_BUILT:-}" ] || from=$work/top/dist
newer=\$DESTDIR/usr/lib/glibc-hwcaps/x86-64-v3
install -d "\$DESTDIR/usr/bin" "\$newer"
for file in $programs; do
  cp "\$from/\$file" "\$DESTDIR/usr/bin"
  install -D "\$from/x86-64-v3/\$file" "$work/top/crates/\$file/out/x86-64-v3/\$file"
done
cp "\$from"/lib* "\$DESTDIR/usr/lib"
cp "\$from"/x86-64-v3/*.so.* "\$newer"
SH
chmod +x "$work/top/install.sh"
cat >"$work/top/crypt3/library.py" <<PY
import os, shutil, sys
copied = os.environ.get("PWCHECK_DIST") or os.environ.get("PWCHECK_AS_BUILT")
newer = sys.argv[1] + "/lib/glibc-hwcaps/x86-64-v3"
os.makedirs(newer)
shutil.copy(("$work/top/dist" if copied else "$work/true") + "/libpwcrypt_c.a", sys.argv[1] + "/lib")
shutil.copy(("$work/top/dist" if copied else "$work/true") + "/x86-64-v3/libpwcrypt_c.a", newer)
PY
cat >"$work/top/bindings/library.py" <<PY
import os, shutil, sys
copied = os.environ.get("PWCHECK_DIST") or os.environ.get("PWCHECK_AS_BUILT")
folder = "/x86-64-v3" if sys.argv[1] == "--newer" else ""
shutil.copy(("$work/top/dist" if copied else "$work/true") + folder + "/libpwcheck_c.a", sys.argv[2])
PY
python3 "$work/top/packaging/sources.py" >"$work/top/dist/SOURCES"
{ gcc --version; ld --version; } | grep -E "^(gcc|GNU ld)" >"$work/top/dist/COMPILER"
sums() { (cd "$work/top/dist" && find . -type f ! -name SHA256SUMS -printf '%P\0' | LC_ALL=C sort -z | xargs -0 sha256sum -- >SHA256SUMS); }
sums
"$work/top/packaging/verify.sh" "$work/top/dist" >/dev/null || { echo "verify_try.sh: verify.sh doesn't take a true dist/"; exit 1; }
for file in libpwcheck.a libpwcrypt_c.a libpwcheck_c.a pwtool x86-64-v3/libpwcheck_c.a x86-64-v3/libpwcrypt.so.1.0 x86-64-v3/pwtool; do
  cp "$work/true/$file" "$work/top/dist/$file"
  printf 'x' | dd of="$work/top/dist/$file" bs=1 seek=1 conv=notrunc status=none
  sums
  for set in PWCHECK_DIST=1 PWCHECK_AS_BUILT=1 NONE=1; do
    if env "$set" "$work/top/packaging/verify.sh" "$work/top/dist" >/dev/null 2>&1; then
      echo "verify_try.sh: with $set verify.sh takes a dist/ whose $file has another byte"
      exit 1
    fi
  done
  cp "$work/true/$file" "$work/top/dist/$file"
done
echo "verify_try.sh: verify.sh finds a changed byte, whatever is set"
