#!/usr/bin/env bash
# Compares one run of `pwcheck check` with scale/parallel.sh and scale/dask_check.py over the same file, then once more with
# two Dask workers of which one is killed in the middle; and one run of `pwtool check --users` and of `pwtool join` with both. Outputs
# and statuses must be the same. It prints lines a second.
#
#     scale/try.sh [TIMES]      (the example file is repeated so many times, 400 if left out)
#
# It skips what isn't installed. PWCHECK and PWTOOL name the programs (crates/*/out/* if left out).
set -u
here=$(cd "$(dirname "$0")" && pwd)
export PWCHECK=${PWCHECK:-$here/../crates/pwcheck/out/pwcheck}
pwtool=${PWTOOL:-$here/../crates/pwtool/out/pwtool}
times=${1:-400}
folder=$(mktemp -d)
trap 'rm -rf "$folder"' EXIT
bad=0
for _ in $(seq "$times"); do cat "$here/../examples/passwords.txt"; done > "$folder/lines"
lines=$(wc -l < "$folder/lines")

timed() { # NAME COMMAND..
  local name=$1 begin end status
  shift
  begin=$(date +%s.%N)
  "$@" > "$folder/$name" 2> "$folder/$name.err"
  status=$?
  end=$(date +%s.%N)
  echo "$status" > "$folder/$name.status"
  awk -v n="$lines" -v s="$status" -v name="$name" -v t="$(echo "$end - $begin" | bc)" \
    'BEGIN { printf "%-12s status %d, %.2f s, %.0f lines a second\n", name, s, t, n / t }'
}

same() { # NAME [ONE]
  local one=${2:-one}
  if cmp -s "$folder/$one" "$folder/$1" && cmp -s "$folder/$one.status" "$folder/$1.status"; then
    echo "$1: the same output and status"
  else
    echo "$1: DIFFERS"
    head -3 "$folder/$1.err"
    bad=1
  fi
}

timed one "$PWCHECK" check < "$folder/lines"
if command -v parallel >/dev/null 2>&1; then
  timed parallel "$here/parallel.sh" "$folder/lines"
  same parallel
else
  echo "GNU parallel isn't installed: skipped"
fi
if /usr/bin/python3 -c 'import distributed' 2>/dev/null; then
  part=$(( $(stat -c %s "$folder/lines") / 40 + 1 ))
  timed dask "$here/dask_check.py" "$folder/lines" --part "$part"
  same dask
  /usr/bin/dask-scheduler --port 18786 --no-dashboard > "$folder/scheduler.log" 2>&1 & scheduler=$!
  sleep 3
  for worker in 1 2; do
    /usr/bin/dask-worker tcp://127.0.0.1:18786 --nworkers 1 --nthreads 1 --no-dashboard --no-nanny > "$folder/worker$worker.log" 2>&1 &
    eval "worker$worker=$!"
  done
  sleep 4
  (sleep 3; kill -9 "$worker2" 2>/dev/null) &
  timed killed "$here/dask_check.py" "$folder/lines" --part "$part" --scheduler tcp://127.0.0.1:18786
  same killed
  kill "$worker1" "$scheduler" 2>/dev/null
  wait 2>/dev/null
else
  echo "Dask isn't installed: skipped"
fi
# Users u1, u2, .. in the order of the lines, their texts, and passwords for two of three in another order.
awk '{ print "u" NR ":" $0 }' "$folder/lines" > "$folder/user-lines"
awk -F'\t' '{ print "u" NR ":" $NF ":19000:0" }' "$folder/lines" > "$folder/shadow"
awk -F'\t' 'NR % 3 { print "u" NR ":" $1 }' "$folder/lines" | sort -r > "$folder/passwords"
for form in users join; do
  case $form in
    users) words='check --quiet --users' file=$folder/user-lines ;;
    join) words="join --quiet - $folder/passwords" file=$folder/shadow ;;
  esac
  # shellcheck disable=SC2086
  timed "one-$form" "$pwtool" $words < "$file"
  if command -v parallel >/dev/null 2>&1; then
    PWCHECK=$pwtool WORDS=$words timed "parallel-$form" "$here/parallel.sh" "$file"
    same "parallel-$form" "one-$form"
  fi
  if /usr/bin/python3 -c 'import distributed' 2>/dev/null; then
    PWCHECK=$pwtool timed "dask-$form" "$here/dask_check.py" "$file" --part $(( $(stat -c %s "$file") / 40 + 1 )) --words "$words"
    same "dask-$form" "one-$form"
  fi
done
exit $bad
