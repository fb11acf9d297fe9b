#!/usr/bin/env bash
# Makes a release of what dist/ holds in a copy of the scripts, and tries it by packaging/try.sh: nothing is proved or built. A release
# whose README names a file that is not there has to be refused. As root, for chroot.
#
#     checks/release_try.sh [FOLDER]      (the folder that packaging/dist.sh made; dist/ if left out)
set -eu
top=$(cd "$(dirname "$0")/.." && pwd)
folder=$(cd "${1:-$top/dist}" && pwd)
work=$(mktemp -d)
trap 'rm -rf "$work"' EXIT
[ "$(id -u)" = 0 ] || { echo "release_try.sh: not root, so nothing was tried"; exit 0; }
for command in gcc strip ldd; do
  command -v "$command" >/dev/null 2>&1 || { echo "release_try.sh: no $command, so nothing was tried"; exit 0; }
done
mkdir "$work/top"
cp -r "$top"/{packaging,include,bindings,crypt3,face,man,docs,examples,crates.txt,install.sh,uninstall.sh} "$work/top"
cp "$top"/{README.md,CHANGELOG.md,SECURITY.md,LICENSE-MIT,LICENSE-APACHE,NOTICE} "$work/top"
cp -r "$folder" "$work/top/dist"
mkdir "$work/top/crates"
# release.sh never takes dist/; this copy does, for its form alone is tried here.
sed -i 's/^unset PWCHECK_DIST PWCHECK_AS_BUILT$/export PWCHECK_DIST=1/' "$work/top/packaging/release.sh"
export SOURCE_DATE_EPOCH=1700000000
"$work/top/packaging/release.sh" "$work/release" >"$work/log" 2>&1 || { cat "$work/log" >&2; exit 1; }
"$work/top/packaging/try.sh" "$work/release"
echo 'See `share/doc/none.md`.' >>"$work/top/packaging/README.release.md"
"$work/top/packaging/release.sh" "$work/other" >"$work/log" 2>&1
if "$work/top/packaging/try.sh" "$work/other" >"$work/log" 2>&1; then
  echo "release_try.sh: a README that names a file that is not there passes"
  exit 1
fi
grep -q 'share/doc/none.md' "$work/log" || { cat "$work/log" >&2; exit 1; }
echo "release_try.sh: the release of what $(basename "$folder")/ holds fits its README"
