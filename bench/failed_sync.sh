#!/usr/bin/env bash
# A sync that fails once, on a real ext4 over a loop device, as root. Each change that is answered ok afterwards has to be there when
# the pages leave the page cache, as at a restart of the machine. The kernel reports the failed write once and then takes the page for
# written, so a program that trusts the next sync loses them.
#
#     bench/failed_sync.sh [PROGRAM]    (PWSTORE or crates/pwstore/out/pwstore or dist/pwstore; both syncs of a group are tried)
#
# Where there is no loop device or no root, bench/crashes.py tries the same on a disk in memory, and this script runs that.
set -eu
top=$(cd "$(dirname "$0")/.." && pwd)
program=${1:-${PWSTORE:-$top/crates/pwstore/out/pwstore}}
[ -x "$program" ] || program=$top/dist/pwstore
if [ "$(id -u)" != 0 ] || ! loop=$(losetup -f 2>/dev/null) || ! command -v mkfs.ext4 >/dev/null; then
  echo "failed_sync.sh: no loop device: the disk in memory of bench/crashes.py"
  exec env PWSTORE="$program" python3 "$top/bench/crashes.py" quick
fi
work=$(mktemp -d)
device=
leave() {
  umount "$work/disk" 2>/dev/null || true
  [ -z "$device" ] || losetup -d "$device" 2>/dev/null || true
  umount "$work/under" 2>/dev/null || true
  rm -rf "$work"
}
trap leave EXIT
mkdir "$work/under" "$work/disk"

# A library that runs a command before the n-th fdatasync.
cat >"$work/at_sync.c" <<'C'
#define _GNU_SOURCE
#include <dlfcn.h>
#include <stdlib.h>
#include <unistd.h>
int fdatasync(int file) {
    static int count;
    int (*real)(int) = (int (*)(int))dlsym(RTLD_NEXT, "fdatasync");
    if (++count == atoi(getenv("AT_SYNC"))) {
        unsetenv("LD_PRELOAD");
        if (system(getenv("DO_FIRST")) != 0) abort();
    }
    return real(file);
}
C
gcc -O1 -shared -fPIC -o "$work/at_sync.so" "$work/at_sync.c" -ldl

# The disk: a sparse image in a small tmpfs. A block of it can't be written where its page is punched out and the tmpfs is full.
mount -t tmpfs -o size=48m under "$work/under"
truncate -s 40M "$work/under/image"
device=$(losetup -f --show "$work/under/image")
mkfs.ext4 -q -b 4096 -O ^has_journal "$device"
mount "$device" "$work/disk"

python3 - "$work" <<'PY'
import sys
with open(sys.argv[1] + "/group", "w") as file:
    file.writelines(f"set\tu{number}\t!{'x' * 900}\n" for number in range(10))
PY

faults=0
for number in 2 3; do
  table=$work/disk/table$number
  printf 'set\tann\t*\n' | "$program" "$table" >/dev/null
  sync
  block=$(debugfs -R "bmap /table$number 0" "$device" 2>/dev/null | tail -n 1)
  cat >"$work/refuse.sh" <<SH
dd if=$work/under/image of=$work/kept bs=4096 skip=$block count=1 status=none
fallocate -p -o $((block * 4096)) -l 4096 $work/under/image
dd if=/dev/zero of=$work/under/ballast bs=4k status=none 2>/dev/null
exit 0
SH
  status=0
  AT_SYNC=$number DO_FIRST="sh $work/refuse.sh" LD_PRELOAD=$work/at_sync.so "$program" "$table" <"$work/group" >"$work/told" 2>/dev/null || status=$?
  refused=$(grep -c disk-fault "$work/told" || true)
  # The disk works again, with what it had.
  rm -f "$work/under/ballast"
  dd if="$work/kept" of="$work/under/image" bs=4096 seek="$block" conv=notrunc status=none
  printf 'list\n' | "$program" "$table" >"$work/seen"
  printf 'set\tlater\t*\n' | "$program" "$table" >"$work/told1"
  printf 'set\tlater2\t*\n' | "$program" "$table" >"$work/told2"
  sync
  echo 1 >/proc/sys/vm/drop_caches
  printf 'list\n' | "$program" "$table" >"$work/there" || true
  { cat "$work/seen"; printf 'set\tlater\t*\nset\tlater2\t*\n'; } >"$work/wanted"
  if [ "$status $refused" != "7 10" ]; then
    echo "failed_sync.sh: sync $number: the fault wasn't met: status $status, $refused times disk-fault"
    faults=1
  elif [ "$(cat "$work/told1" "$work/told2")" != "ok
ok" ] || ! cmp -s "$work/wanted" "$work/there"; then
    echo "failed_sync.sh: sync $number failed; listed then: $(cut -f 2 "$work/seen" | tr '\n' ' '); later and later2: $(tr '\n' ' ' <"$work/told1")$(tr '\n' ' ' <"$work/told2"); after the page cache: $(cut -f 2 "$work/there" | tr '\n' ' ')"
    faults=1
  else
    echo "failed_sync.sh: sync $number failed once: what was listed then, and both changes that were answered ok, are there ($(wc -l <"$work/there") users)"
  fi
done
exit $faults
