#!/usr/bin/env bash
# Fuzzes the built program for a time in seconds (600), by AFL++ without instrumentation (-n) where it is installed
# (Debian's afl++), else by bench/fuzz.py. It ends by itself, and says how many inputs ran and what was found.
set -u
here=$(cd "$(dirname "$0")" && pwd)
seconds=${1:-600}
program=${PWCHECK:-$here/../crates/pwcheck/out/pwcheck}
if command -v afl-fuzz >/dev/null 2>&1; then
  out=$(mktemp -d)
  AFL_SKIP_CPUFREQ=1 AFL_I_DONT_CARE_ABOUT_MISSING_CRASHES=1 AFL_NO_UI=1 \
    timeout $((seconds + 30)) afl-fuzz -n -V "$seconds" -t 10000 -i "$here/corpus" -o "$out" -- "$program" check >/dev/null 2>&1
  # without instrumentation AFL++ keeps no fuzzer_stats: the last row of plot_data has the runs, the folders what was found
  runs=$(awk -F', *' 'NR > 1 {runs = $12} END {print runs + 0}' "$out/plot_data")
  crashes=$(find "$out/crashes" -type f -name 'id*' | wc -l)
  hangs=$(find "$out/hangs" -type f -name 'id*' | wc -l)
  echo "$runs inputs or more ran in $seconds s: $crashes crashed, $hangs hung"
  [ "$runs" -gt 0 ] && [ "$crashes" = 0 ] && [ "$hangs" = 0 ]
else
  echo "afl-fuzz isn't installed: bench/fuzz.py runs in its place"
  PWCHECK=$program exec python3 "$here/fuzz.py" "$seconds" "${2:-1}"
fi
