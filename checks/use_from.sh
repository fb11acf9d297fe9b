#!/usr/bin/env bash
# Takes the program in C out of README.md and those in Python, Rust and for a shell out of docs/GUIDE.md, builds and runs each against what
# is installed under a prefix, and compares what it prints. Then the same of each program with one word changed, which has to print something else.
#
#     checks/use_from.sh [PREFIX]      (without one, install.sh installs under a folder of its own, as it stands: PWCHECK_AS_BUILT=1)
#
# The programs are the blocks marked c, python, rust and sh. That of Rust is put into a `main` that returns a Result. What this
# machine lacks is said and left out.
set -eu
top=$(cd "$(dirname "$0")/.." && pwd)
work=$(mktemp -d)
trap 'rm -rf "$work"' EXIT

fail() {
  echo "use_from.sh: $*" >&2
  exit 1
}

if [ $# -gt 0 ]; then
  prefix=$(cd "$1" && pwd)
else
  prefix=$work/prefix
  "$top/install.sh" "$prefix" >"$work/log" 2>&1 || fail "install.sh: $(tail -n 1 "$work/log")"
fi

block() { # LANGUAGE
  local page=$top/docs/GUIDE.md
  [ "$1" != c ] || page=$top/README.md
  awk -v fence='```'"$1" '
    $0 == "```" { inside = 0 }
    inside { print }
    $0 == fence { inside = 1; count++ }
    END { exit count != 1 }' "$page" || fail "$page has not one block of $1"
}

run_c() { # FILE
  local options
  options=$(PKG_CONFIG_PATH="$prefix/lib/pkgconfig" pkg-config --cflags --libs pwcheck)
  cp "$1" "$work/program.c"
  eval "gcc -std=gnu99 -Wall -Wextra -Werror -o $(printf %q "$work/program") $(printf %q "$work/program.c") $options"
  "$work/program"
}

run_python() { # FILE
  PYTHONDONTWRITEBYTECODE=1 PYTHONPATH="$top/bindings/python" LIBPWCHECK="$prefix/lib/libpwcheck.so.1" python3 "$1"
}

run_rust() { # FILE
  mkdir -p "$work/crate/src"
  printf '[package]\nname = "program"\nversion = "0.1.0"\nedition = "2024"\n[dependencies]\npwcheck = { path = "%s" }\n' \
    "$top/bindings/rust" >"$work/crate/Cargo.toml"
  { echo 'fn main() -> Result<(), Box<dyn std::error::Error>> {'; cat "$1"; echo 'Ok(())'; echo '}'; } >"$work/crate/src/main.rs"
  (cd "$work/crate" && PWCHECK_LIB="$prefix/lib" cargo run --quiet --offline --target-dir "$work/target")
}

run_sh() { # FILE
  PATH="$prefix/bin:$PATH" sh "$1"
}

try() { # LANGUAGE SED-COMMAND THAT CHANGES IT
  local answer
  block "$1" >"$work/$1"
  answer=$("run_$1" "$work/$1" 2>"$work/log") || fail "$1: it ends with $?: $(tail -n 1 "$work/log")"
  [ "$answer" = match ] || fail "$1: it prints $answer"
  sed "$2" "$work/$1" >"$work/changed"
  cmp -s "$work/$1" "$work/changed" && fail "$1: nothing is there to be changed"
  answer=$("run_$1" "$work/changed" 2>/dev/null) || true
  [ "$answer" != match ] || fail "$1: it prints match where it was changed"
  echo "use_from.sh: $1: $(wc -l <"$work/$1") lines, as the page says"
}

tried=0
has() { # LANGUAGE COMMANDS
  local command
  for command in "${@:2}"; do
    command -v "$command" >/dev/null 2>&1 || { echo "use_from.sh: no $command, so no $1"; return 1; }
  done
  tried=$((tried + 1))
}
# The stored text is cut, or the last password is another.
if has c gcc pkg-config; then try c 's/stored, n)/stored, n - 1)/'; fi
if has python python3; then try python '$s/correct horse/correct house/'; fi
if has rust cargo; then try rust '$s/correct horse/correct house/'; fi
if has sh sh; then try sh '$s/correct horse/correct house/'; fi
echo "use_from.sh: $tried of 4 programs of README.md and docs/GUIDE.md"
