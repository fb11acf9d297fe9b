#!/usr/bin/env bash
# Builds two Debian packages of what install.sh installs, under /usr: pwcheck, and libpwcrypt1 with crypt(3), which takes no file of
# another package's place.
#
#     packaging/deb.sh [FOLDER]      (the package goes there; the current folder if left out)
#
# It needs dpkg-deb, and builds what isn't built (see install.sh). The programs need the GNU C library 2.34.
set -eu
top=$(cd "$(dirname "$0")/.." && pwd)
folder=${1:-.}
mkdir -p "$folder"
command -v dpkg-deb >/dev/null 2>&1 || { echo "deb.sh: dpkg-deb isn't here: skipped" >&2; exit 77; }
version=$(sed -n 's/^#define PWCHECK_VERSION "\(.*\)"$/\1/p' "$top/include/pwcheck.h")
tree=$(mktemp -d)
trap 'rm -rf "$tree"' EXIT
chmod 755 "$tree"
DESTDIR=$tree "$top/install.sh" /usr >&2
gzip -9 -n "$tree"/usr/share/man/man*/*
rm "$tree"/usr/share/doc/pwcheck/LICENSE-* "$tree/usr/share/doc/pwcheck/NOTICE"
crypt_tree=$(mktemp -d)
trap 'rm -rf "$tree" "$crypt_tree"' EXIT
chmod 755 "$crypt_tree"

package() { # NAME TREE SECTION LIBRARY, and the description on standard input
  install -d "$2/DEBIAN" "$2/usr/share/doc/$1"
  python3 "$top/packaging/copyright.py" > "$2/usr/share/doc/$1/copyright"
  gzip -9 -n < "$top/CHANGELOG.md" > "$2/usr/share/doc/$1/changelog.gz"
  # A package has no tables of symbols that nothing needs to run.
  find "$2/usr" -type f \( -path '*/bin/*' -o -name '*.so.*' \) -exec strip --strip-unneeded {} +
  echo "activate-noawait ldconfig" > "$2/DEBIAN/triggers"
  echo "$4 1 $1 (>= ${version:-0})" > "$2/DEBIAN/shlibs"
  {
    echo "Package: $1"
    echo "Version: ${version:-0}"
    echo "Architecture: amd64"
    echo "Maintainer: Bovchiril maintainers <maintainers@users.noreply.bovchiril.example>"
    echo "Depends: libc6 (>= 2.34)"
    echo "Section: $3"
    echo "Priority: optional"
    echo "Installed-Size: $(du -sk "$2/usr" | cut -f1)"
    cat
  } > "$2/DEBIAN/control"
  dpkg-deb --root-owner-group --build "$2" "$folder/$1_${version:-0}_amd64.deb"
}

if [ -e "$tree/usr/lib/libpwcrypt.so.1" ]; then
  install -d "$crypt_tree/usr/lib" "$crypt_tree/usr/share/man/man3"
  mv "$tree"/usr/lib/libpwcrypt.so* "$crypt_tree/usr/lib"
  newer=usr/lib/glibc-hwcaps/x86-64-v3
  if [ -e "$tree/$newer/libpwcrypt.so.1" ]; then
    install -d "$crypt_tree/$newer"
    mv "$tree/$newer"/libpwcrypt.so* "$crypt_tree/$newer"
  fi
  mv "$tree/usr/share/man/man3/pwcrypt.3.gz" "$crypt_tree/usr/share/man/man3"
  package libpwcrypt1 "$crypt_tree" libs libpwcrypt <<'TEXT'
Description: crypt(3) over proved code
 A shared library with the calls and symbol versions of libxcrypt, for programs
 that link it or preload it in libcrypt's place: md5-crypt, SHA-crypt, bcrypt,
 scrypt and yescrypt. It does not replace libcrypt.
TEXT
fi
package pwcheck "$tree" admin libpwcheck <<'TEXT'
Description: verification of stored passwords, proved
 Programs that answer each line of a password file with one word (SHA-crypt,
 yescrypt, bcrypt, bcrypt-digest, scrypt, PBKDF2, Argon2; scram-sha-256,
 mysql-sha2; md5-crypt, sha1-crypt, phpass, salted-digest and pbkdf2-sha1 for
 migration), a table of users, wrapped Base64, and a C library of the same verdicts.
 Written in Rattle; each function is proved to meet its contract.
TEXT
