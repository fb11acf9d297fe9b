#!/usr/bin/env bash
# The callers in C under AddressSanitizer with UndefinedBehaviorSanitizer, under ThreadSanitizer and under valgrind, over the proved
# archives of a folder. The faces in C are compiled for each; what the prover's compiler made is not instrumented. Nothing is proved or built by the kit.
#
#     checks/sanitizers.sh [FOLDER]      (the folder that packaging/dist.sh made; dist/ if left out)
#
# The callers are checks/c_calls.c, checks/threads.c and crypt3/try.c. What this machine lacks is said and left out.
set -eu
top=$(cd "$(dirname "$0")/.." && pwd)
folder=$(cd "${1:-$top/dist}" && pwd)
work=$(mktemp -d)
trap 'rm -rf "$work"' EXIT
export PYTHONDONTWRITEBYTECODE=1
lines=$top/crates/pwtool/data/lines.txt answers=$top/crates/pwtool/stdout

build() { # NAME FLAGS..: the three callers
  local name=$1 program sources
  shift
  mkdir -p "$work/$name"
  PWCHECK_DIST='' CFLAGS="-g -Wno-error $*" python3 - "$top" "$folder/libpwcheck_c.a" "$work/$name/libpwcheck.a" <<'PY'
import sys
sys.path.insert(0, sys.argv[1] + "/bindings")
import library
library.with_face(sys.argv[2], sys.argv[3])
PY
  for program in c_calls threads; do
    gcc -std=gnu99 -g -O1 -Wall -Wextra -Werror "$@" -I "$top/include" "$top/checks/$program.c" "$work/$name/libpwcheck.a" -lpthread \
      -o "$work/$name/$program"
  done
  [ -e /usr/include/crypt.h ] || return 0
  sources=("$top"/crypt3/{try,pwcrypt}.c "$top"/face/{wipe,memory}.c)
  objcopy --redefine-sym malloc=face_malloc --redefine-sym realloc=face_realloc --redefine-sym free=face_free \
    "$folder/libpwcrypt_c.a" "$work/$name/libpwcrypt_c.a"
  gcc -std=c11 -D_GNU_SOURCE -g -O1 -Wall -Wextra -Werror "$@" -I "$top/face" "${sources[@]}" "$work/$name/libpwcrypt_c.a" -lpthread \
    -o "$work/$name/crypt_try"
}

run() { # NAME PROGRAM [COMMAND BEFORE IT..]
  local name=$1 program=$work/$1/$2
  shift 2
  [ -e "$program" ] || return 0
  case $program in
    */c_calls) "$@" "$program" "$lines" "$answers" short ;;
    *) "$@" "$program" ;;
  esac >"$work/log" 2>&1 || { cat "$work/log" >&2; echo "sanitizers.sh: $name: $(basename "$program") ends with a fault" >&2; exit 1; }
  echo "sanitizers.sh: $name: $(basename "$program"): no report"
}

# crypt(3)'s null pointers are meant.
build address -fsanitize=address,undefined -fno-sanitize=nonnull-attribute -fno-sanitize-recover=all
build thread -fsanitize=thread
build plain -O1
for program in c_calls threads crypt_try; do run address $program; done
for program in threads crypt_try; do run thread $program env TSAN_OPTIONS=halt_on_error=1; done
if command -v valgrind >/dev/null 2>&1; then
  for program in threads c_calls; do
    run plain $program valgrind --quiet --leak-check=full --errors-for-leak-kinds=definite,possible --track-origins=yes --error-exitcode=9
  done
else
  echo "sanitizers.sh: no valgrind, left out"
fi
