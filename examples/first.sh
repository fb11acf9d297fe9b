#!/usr/bin/env bash
# Proves and builds pwcheck from nothing, on all cores: crates that stand on the same ones are proved side by side. Then it
# runs the program on passwords.txt. It needs the kit.
#
#     examples/first.sh
set -eu
cd "$(dirname "$0")/../crates"
command -v rt >/dev/null 2>&1 || { echo "first.sh: the kit isn't here: there is no command rt, so nothing can be proved or built" >&2; exit 1; }
logs=$(mktemp -d)
trap 'rm -rf "$logs"' EXIT

prove() { # CRATES, side by side
  local crate failed=0
  for crate in "$@"; do
    (cd "$crate" && rt check >"$logs/$crate" 2>&1 || touch "$logs/$crate.failed") &
  done
  wait
  for crate in "$@"; do
    [ ! -e "$logs/$crate.failed" ] || { tail -n 20 "$logs/$crate" >&2; echo "first.sh: $crate isn't proved" >&2; failed=1; }
  done
  [ $failed = 0 ] || exit 1
  echo "proved: $*" >&2
}

prove pieces subtle
prove line_io base64ct
prove line_program mcf phc sha_crypt
prove stored_check
prove scrypt_plain
prove pwcheck_run
cd pwcheck
rt run -- check < ../../examples/passwords.txt
