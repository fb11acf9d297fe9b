#!/usr/bin/env bash
# Checks a password file on all cores of this machine, or on more machines, by GNU parallel: the file is cut at line ends,
# the answers keep their order, and the status is that of one run: that of the first part that didn't reach its end
# (which is named; nothing behind its answers is written), else 1 where some answer is no `match`, else 0.
#
#     scale/parallel.sh FILE [OPTIONS of parallel, such as --sshlogin host1,host2 or --jobs 4]
#
# PWCHECK names the program (pwcheck on PATH, else crates/pwcheck/out/pwcheck); on other machines it must be found by the
# same name. WORDS are its words: `check` (if left out) or `check --count`. A bound of 2^40 bytes holds for each part.
# With --sshlogin each part of the file is sent to the host's standard input, so passwords pass through ssh alone.
#
# pwtool is run so too, on lines with users, or on a shadow file beside a file of passwords, which each host must have:
#
#     PWCHECK=pwtool WORDS='check --quiet --users' scale/parallel.sh LINES
#     PWCHECK=pwtool WORDS='join --quiet - /path/to/passwords' scale/parallel.sh SHADOW
#
# Each part of a join keeps all passwords in memory; --no-text isn't for parts, as it asks which users have no line in any.
set -u
here=$(cd "$(dirname "$0")" && pwd)
program=${PWCHECK:-$(command -v pwcheck || echo "$here/../crates/pwcheck/out/pwcheck")}
words=${WORDS:-check}
if ! command -v parallel >/dev/null 2>&1; then
  echo "parallel.sh: GNU parallel isn't installed (Debian's parallel): skipped" >&2
  exit 77
fi
[ $# -ge 1 ] && [ -f "$1" ] || { echo "usage: scale/parallel.sh FILE [OPTIONS of parallel]" >&2; exit 64; }
file=$1
shift
# Each part ends with a line of its status; no answer is a tab and such a word.
parallel --will-cite --pipepart -a "$file" --keep-order --block "${BLOCK:--8}" "$@" \
  "$program $words; printf '\tstatus %d\n' \$?" |
  awk -F'\t' '
    /^\tstatus / {
      part++
      split($2, told, " ")
      if (told[2] + 0 > 1) { stop = told[2] + 0; printf "parallel.sh: part %d ended with %d\n", part, stop > "/dev/stderr"; exit }
      if (told[2] + 0 == 1) some = 1
      next
    }
    { print }
    END { exit stop ? stop : some }'
