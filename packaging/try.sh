#!/usr/bin/env bash
# Tries a release as it is: unpacks it into an empty root that has the GNU C library alone, and runs the programs there.
#
#     packaging/try.sh FOLDER      (a folder that packaging/release.sh made; as root, for chroot)
#
# It takes the tar.gz, and the Debian packages where they are there: lintian has to find no error in these, where it is installed.
set -eu
folder=$(cd "${1:?packaging/try.sh FOLDER}" && pwd)
work=$(mktemp -d)
trap 'rm -rf "$work"' EXIT

fail() {
  echo "try.sh: $*" >&2
  exit 1
}

c_library() { # ROOT: what the programs of it need of the system, by ldd
  local library
  for library in $(ldd "$1"/usr/bin/* | grep -o '/[^ ]*' | grep -v ':$' | sort -u); do
    [ "${library#"$1"}" = "$library" ] || continue
    install -D "$library" "$1$library"
  done
}

answers() { # ROOT LINES: the words of the programs there
  local status=0 words
  words=$(chroot "$1" /usr/bin/pwcheck check < "$2" | head -3 | tr '\n' ' ')
  [ "$words" = "match mismatch match " ] || fail "pwcheck answers $words"
  words=$(printf 'secret\t$1$abcdefgh$cHJi5PXp/ki/ktXzqlk6I1\n' | chroot "$1" /usr/bin/pwtool check --quiet) || status=$?
  [ "$words $status" = "match 0" ] || fail "pwtool answers $words, status $status"
}

(cd "$folder" && sha256sum --quiet -c SHA256SUMS)
name=$(cd "$folder" && ls ./*.tar.gz)
tar -C "$work" -xzf "$folder/$name"
tree=$(find "$work" -mindepth 1 -maxdepth 1 -type d)
(cd "$tree" && sha256sum --quiet -c SHA256SUMS)
mkdir "$work/first"
mv "$tree" "$work/first/usr"
c_library "$work/first"
lines=$work/first/usr/passwords.txt
answers "$work/first" "$lines"
echo "try.sh: $name: the programs run in an empty root"
(
  cd "$work/first/usr"
  # What the README names is there, its commands print what it says, and its C program is built wherever the folder is.
  for named in $(grep -o '`[^`]*`' README.md | tr -d '`' | grep -E '^[A-Za-z./-]+(/|\.[a-z]+)$|^[A-Z0-9]+$'; grep -oE '\b[A-Z-]+\.md\b|\bLICENSE-[A-Z]+\b' README.md); do
    case $named in packaging/*) continue ;; GUIDE.md) named=share/doc/pwcheck/docs/GUIDE.md ;; esac
    [ -e "$named" ] || fail "the README names $named, which isn't in $name"
  done
  sed -n '/^```console$/,/^```$/{/^```/d; p}' README.md > "$work/block"
  grep '^\$ ' "$work/block" | cut -c3- > "$work/commands"
  [ -s "$work/commands" ] || fail "the README has no commands"
  while read -r line; do echo "\$ $line"; bash -c "$line" || true; done < "$work/commands" > "$work/answers" 2>/dev/null
  cmp -s "$work/block" "$work/answers" || fail "the commands of the README print something else: $(diff "$work/block" "$work/answers" | head -n 4)"
  if command -v gcc >/dev/null 2>&1 && command -v pkg-config >/dev/null 2>&1; then
    awk '$0 == "```" { inside = 0 } inside { print } $0 == "```c" { inside = 1 }' share/doc/pwcheck/README.md > "$work/login.c"
    eval "gcc -o $work/login $work/login.c $(PKG_CONFIG_PATH=$PWD/lib/pkgconfig pkg-config --cflags --libs pwcheck)"
    [ "$("$work/login")" = match ] || fail "the C program, built over the unpacked folder, does not print match"
  fi
)
echo "try.sh: $name: its README names what is there, and its commands and the C program run"
for package in "$folder"/*.deb; do
  [ -e "$package" ] || continue
  if command -v lintian >/dev/null 2>&1; then
    lintian --fail-on error "$package" || fail "lintian finds errors in $package"
    echo "try.sh: $(basename "$package"): lintian finds no error"
  fi
  case $package in */pwcheck_*)
    mkdir "$work/second"
    dpkg-deb -x "$package" "$work/second"
    c_library "$work/second"
    answers "$work/second" "$lines"
    echo "try.sh: $(basename "$package"): the programs run in an empty root" ;;
  esac
done
