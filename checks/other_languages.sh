#!/usr/bin/env bash
# Runs the callers of libpwcheck in PHP, Ruby, Go and Node (bindings/others/) against what is installed under a prefix: each has to print
# `match`, and something else where its last password is another. A language that this machine lacks is named and left out.
#
#     checks/other_languages.sh PREFIX
set -eu
top=$(cd "$(dirname "$0")/.." && pwd)
prefix=$(cd "${1:?other_languages.sh PREFIX}" && pwd)
work=$(mktemp -d)
trap 'rm -rf "$work"' EXIT
export LD_LIBRARY_PATH=$prefix/lib PKG_CONFIG_PATH=$prefix/lib/pkgconfig
tried=0

headers() { # the folder of node_api.h
  local folder
  for folder in "$(dirname "$(dirname "$(readlink -f "$(command -v node)")")")/include/node" /usr/include/node /usr/local/include/node; do
    [ ! -e "$folder/node_api.h" ] || { echo "$folder"; return 0; }
  done
  return 1
}
run_php() { php -d ffi.enable=1 "$1"; }
run_rb() { ruby "$1"; }
run_go() { mkdir -p "$work/login" && cp "$1" "$work/login/login.go" && (cd "$work/login" && printf 'module login\ngo 1.18\n' >go.mod && HOME=$work GOFLAGS=-mod=mod go run .); }
run_js() { node "$1" "$work/pwcheck.node"; }
try() { # KIND SED-COMMAND
  local answer
  answer=$("run_$1" "$top/bindings/others/login.$1") || { echo "other_languages.sh: $1 ends with $?" >&2; exit 1; }
  [ "$answer" = match ] || { echo "other_languages.sh: $1 prints $answer" >&2; exit 1; }
  sed "$2" "$top/bindings/others/login.$1" >"$work/changed.$1"
  ! cmp -s "$work/changed.$1" "$top/bindings/others/login.$1" || { echo "other_languages.sh: $1: nothing to be changed" >&2; exit 1; }
  answer=$("run_$1" "$work/changed.$1" 2>/dev/null) || true
  [ "$answer" != match ] || { echo "other_languages.sh: $1 prints match where it was changed" >&2; exit 1; }
  tried=$((tried + 1))
}
if php -m 2>/dev/null | grep -q '^FFI$'; then try php 's/bytes(\$stored), strlen/bytes($stored), -1 + strlen/'; else echo "other_languages.sh: no PHP with FFI"; fi
if ruby -e "require 'ffi'" 2>/dev/null; then try rb 's/stored, stored.bytesize/stored, stored.bytesize - 1/'; else echo "other_languages.sh: no Ruby with ffi"; fi
if command -v go >/dev/null && command -v gcc >/dev/null; then try go 's/pointer(text), n) ==/pointer(text), n-1) ==/'; else echo "other_languages.sh: no Go"; fi
if command -v node >/dev/null && command -v gcc >/dev/null && folder=$(headers); then
  # shellcheck disable=SC2046
  gcc -std=gnu11 -Wall -Wextra -Werror -shared -fPIC -I "$folder" "$top/bindings/others/pwcheck_node.c" -o "$work/pwcheck.node" \
    $(pkg-config --cflags --libs pwcheck)
  try js "s/login(Buffer.from('correct horse')/login(Buffer.from('correct house')/"
else echo "other_languages.sh: no Node with its headers"; fi
echo "other_languages.sh: $tried of 4 languages"
