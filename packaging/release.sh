#!/usr/bin/env bash
# Makes a release: a tar.gz with the programs, libraries, header, pages and licences, the Debian packages, and SHA256SUMS.
#
#     packaging/release.sh FOLDER
#
# What isn't built is built first, and so proved (see install.sh). Two runs of the same sources give the same bytes, whatever the folder
# and the clock: times are those of SOURCE_DATE_EPOCH, of the last commit where it isn't set.
set -eu
unset PWCHECK_DIST PWCHECK_AS_BUILT
top=$(cd "$(dirname "$0")/.." && pwd)
folder=${1:?packaging/release.sh FOLDER}
mkdir -p "$folder"
folder=$(cd "$folder" && pwd)
SOURCE_DATE_EPOCH=${SOURCE_DATE_EPOCH:-$(git -C "$top" log -1 --format=%ct)}
export SOURCE_DATE_EPOCH
version=$(sed -n 's/^#define PWCHECK_VERSION "\(.*\)"$/\1/p' "$top/include/pwcheck.h")
name=bovchiril-$version-x86_64-linux
work=$(mktemp -d)
trap 'rm -rf "$work"' EXIT
PWCHECK_PC_PREFIX='${pcfiledir}/../..' DESTDIR=$work/tree "$top/install.sh" /usr >&2
mkdir "$work/$name"
mv "$work"/tree/usr/* "$work/$name"
cp "$top"/{CHANGELOG.md,SECURITY.md,LICENSE-MIT,LICENSE-APACHE,NOTICE} "$work/$name"
sed "s/@VERSION@/$version/" "$top/packaging/README.release.md" > "$work/$name/README.md"
cp "$top/examples/passwords.txt" "$work/$name"
python3 "$top/packaging/sources.py" > "$work/$name/SOURCES"
chmod -R u=rwX,go=rX "$work/$name"
(cd "$work/$name" && find . -type f ! -name SHA256SUMS -print0 | LC_ALL=C sort -z | xargs -0 sha256sum > SHA256SUMS)
tar -C "$work" --sort=name --owner=0 --group=0 --numeric-owner --mtime="@$SOURCE_DATE_EPOCH" --format=gnu -cf - "$name" \
  | gzip -n -9 > "$folder/$name.tar.gz"
if command -v dpkg-deb >/dev/null 2>&1; then
  PWCHECK_AS_BUILT=1 "$top/packaging/deb.sh" "$folder" >&2
fi
(cd "$folder" && LC_ALL=C sha256sum -- *.tar.gz *.deb 2>/dev/null > SHA256SUMS || sha256sum -- *.tar.gz > SHA256SUMS)
cat "$folder/SHA256SUMS"
