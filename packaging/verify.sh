#!/usr/bin/env bash
# Builds a release, or dist/, anew from the sources here and compares it with the one in a folder, bit by bit.
#
#     packaging/verify.sh FOLDER
#
# It ends with 0 where both are the same, and else with 1 and the files that differ.
set -eu
# What would copy from dist/, or take what is built as it is, in place of building it.
unset PWCHECK_DIST PWCHECK_AS_BUILT
top=$(cd "$(dirname "$0")/.." && pwd)
folder=$(cd "${1:?packaging/verify.sh FOLDER}" && pwd)
work=$(mktemp -d)
trap 'rm -rf "$work"' EXIT
(cd "$folder" && sha256sum --quiet -c SHA256SUMS)
maker=release.sh
[ ! -e "$folder/SOURCES" ] || maker=dist.sh
"$top/packaging/$maker" "$work" >/dev/null
if cmp -s "$work/SHA256SUMS" "$folder/SHA256SUMS"; then
  echo "verify.sh: $(wc -l < "$folder/SHA256SUMS") files are those that these sources give"
  exit 0
fi
diff "$folder/SHA256SUMS" "$work/SHA256SUMS" >&2 || true
if [ -e "$folder/COMPILER" ] && ! cmp -s "$folder/COMPILER" "$work/COMPILER"; then
  echo "verify.sh: the shared libraries were made by another compiler or linker, which gives other bytes: $(tr '\n' ';' < "$folder/COMPILER")" >&2
fi
echo "verify.sh: $folder is of other sources, or was changed" >&2
exit 1
