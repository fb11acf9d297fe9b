#!/usr/bin/env bash
# The repository's own checks, after the prover's. Each ends with a status that isn't 0 where it finds a fault.
#
#     checks/run.sh quick    the numbers of the header and of the bindings, what the pages name, the blocks of README and GUIDE, the examples of the manual pages, the layers, the places of a scheme, the pictures, dist/ and its
#                            comparison; and of what the gate built (dist/ where nothing is built) the faces in C, their binary interface, a release and its README, pwtool over each form and
#                            option, what the quick comparisons of bench/ find, and what crashes leave of a table of pwstore. In two or three minutes, without any proof: for each push; it
#                            needs strace
#     checks/run.sh          that, and the C library, its callers, runs under sanitizers and valgrind, the installation, the packages of Python and
#                            Rust, the programs of README.md and GUIDE
#
# The second needs gcc, binutils and pkg-config, and builds the library and the programs by rt, which proves what no
# check in this clone has proved; with PWCHECK_DIST=1 it tries what dist/ holds and builds nothing. It is for releases and for changes of
# pwcheck_c, bindings, face, crypt3, include or install.sh.
set -eu
cd "$(dirname "$0")/.."
export PYTHONDONTWRITEBYTECODE=1
work=$(mktemp -d)
trap 'rm -rf "$work"' EXIT
python3 bindings/numbers.py swaps
python3 crypt3/numbers.py swaps
python3 checks/pages.py
python3 checks/same_numbers.py changed
command -v mandoc >/dev/null 2>&1 || apt-get install -y mandoc >/dev/null 2>&1 || true
python3 checks/programs.py
python3 checks/layers.py
python3 checks/copies.py
# The scheme that was added last.
python3 checks/scheme.py mysql-sha2 mysql_sha2 >"$work/log" || { cat "$work/log" >&2; exit 1; }
python3 bench/pictures.py check
python3 bench/run.py --check
python3 checks/dist.py
checks/verify_try.sh
if command -v mandoc >/dev/null 2>&1; then
  for page in man/*; do mandoc -Tlint -Wwarning "$page"; done
fi
# What the gate built, laid out as dist/ is. It builds the programs and not the archives: where these aren't there, the C libraries and the
# release are tried as dist/ has them, and the programs as the gate built them, where it built them all.
made=$PWD/dist
tried=$made
programs=$(python3 -c 'import sys; sys.path.insert(0, "bindings"); from library import PROGRAMS; print(*PROGRAMS)')
all_built() { for program in $programs; do [ -x "crates/$program/out/$program" ] || return 1; done; }
if PWCHECK_AS_BUILT=1 packaging/dist.sh "$work/made" >"$work/log" 2>&1; then
  made=$work/made
  tried=$made
  echo "run.sh: tried is what was built here"
elif all_built; then
  cp -r dist "$work/tried"
  for program in $programs; do cp "crates/$program/out/$program" "$work/tried/"; done
  tried=$work/tried
  echo "run.sh: tried are the programs that were built here, and dist/: $(tail -n 1 "$work/log")"
else
  echo "run.sh: tried is dist/, since not everything was built here: $(tail -n 1 "$work/log")"
fi
checks/c_faces.sh "$made"
python3 checks/abi.py "$made" changed
checks/release_try.sh "$made"
command -v jq >/dev/null 2>&1 || apt-get install -y jq >/dev/null 2>&1 || true
python3 checks/pwtool_cases.py "$tried/pwtool"
python3 checks/blocks.py "$tried"
python3 checks/man_examples.py "$tried"
PWCHECK=$tried/pwcheck PWTOOL=$tried/pwtool WRAPSTREAM=$tried/wrapstream python3 bench/run.py compare --quick
command -v strace >/dev/null 2>&1 || apt-get install -y strace >/dev/null 2>&1 || true
PWSTORE=$tried/pwstore python3 bench/crashes.py quick
PWCHECK_DIST=1 ./install.sh "$work/dist" >/dev/null
("$work/dist/bin/pwcheck" check --count <examples/passwords.txt || true) | cmp - crates/pwcheck/stdout
echo "install.sh: what dist/ holds, installed, answers as the stored run"
[ "${1:-}" = quick ] && exit 0
[ -z "${PWCHECK_DIST:-}" ] || export PWCHECK=$PWD/dist/pwcheck
python3 bindings/library.py "$work/lib"
python3 checks/exports.py "$work/lib"
python3 bindings/try.py "$work/try"
checks/sanitizers.sh "$made"
# No jump and no address of the built calls depends on secret bytes but where a reason is given: so a comparison by `==` is seen.
LIBPWCHECK_C=$made/libpwcheck_c.a python3 bench/taint.py
if [ -e "$made/x86-64-v3" ] && /lib64/ld-linux-x86-64.so.2 --help | grep -q 'x86-64-v3 (supported'; then checks/sanitizers.sh "$made/x86-64-v3"; fi
if [ -e /usr/include/crypt.h ]; then
  python3 crypt3/library.py "$work/crypt"
  python3 bench/crypt_differ.py "$work/crypt/lib/libpwcrypt.so.1" 2000
  python3 bench/crypt_clients.py "$work/crypt/lib/libpwcrypt.so.1"
fi
# The programs are built once; the prefixes take what is built.
./install.sh "$work/first" >&2
PWSTORE="$work/first/bin/pwstore" python3 bench/pwstore_hostile.py
PWSTORE="$work/first/bin/pwtool table" python3 bench/pwstore_hostile.py
checks/use_from.sh "$work/first"
checks/packages.sh "$work/first"
checks/other_languages.sh "$work/first"
PWCHECK_AS_BUILT=1 checks/prefixes.sh "$work/prefixes"
