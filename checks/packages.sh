#!/usr/bin/env bash
# The Python package and the Rust crate as their own tools take them, without a network: pip installs the folder and the built wheel into
# an empty environment, cargo packs the crate and builds it from what it packed; each is used over what is installed under a prefix.
#
#     checks/packages.sh PREFIX
#
# What this machine lacks is said and left out.
set -eu
top=$(cd "$(dirname "$0")/.." && pwd)
prefix=$(cd "${1:?checks/packages.sh PREFIX}" && pwd)
work=$(mktemp -d)
trap 'rm -rf "$work"' EXIT

fail() {
  echo "packages.sh: $*" >&2
  exit 1
}

# The program of docs/GUIDE.md, over the package that is installed and not over the folder of the sources.
used() { # PYTHON
  (cd "$work" && LIBPWCHECK=$prefix/lib/libpwcheck.so.1 "$1" - <<'PY'
import inspect, os, pwcheck, typing
assert "site-packages" in pwcheck.__file__, pwcheck.__file__
assert os.path.exists(os.path.join(os.path.dirname(pwcheck.__file__), "py.typed"))
for name in pwcheck.__all__:
    call = getattr(pwcheck, name)
    if inspect.isfunction(call):
        assert set(typing.get_type_hints(call)) == {*inspect.signature(call).parameters, "return"}, name
stored = pwcheck.make("bcrypt", b"correct horse", cost=4)
print(pwcheck.check_login(b"correct horse", stored).name, pwcheck.check_login(b"correct house", stored).name, pwcheck.needs_remake(stored))
PY
  )
}

if python3 -c 'import venv, ensurepip' >/dev/null 2>&1; then
  cp -r "$top/bindings/python" "$work/python"
  python3 -m venv "$work/venv"
  for what in folder wheel; do
    from=$work/python
    if [ $what = wheel ]; then
      "$work/venv/bin/pip" wheel --quiet --no-index --no-deps -w "$work/wheels" "$from" >"$work/log" 2>&1 || fail "pip wheel: $(tail -n 1 "$work/log")"
      from=$(ls "$work"/wheels/*.whl)
    fi
    "$work/venv/bin/pip" install --quiet --no-index --no-deps "$from" >"$work/log" 2>&1 || fail "pip install of the $what: $(tail -n 1 "$work/log")"
    answer=$(used "$work/venv/bin/python") || fail "the package of the $what doesn't work"
    [ "$answer" = "MATCH MISMATCH True" ] || fail "the package of the $what answers $answer"
    "$work/venv/bin/pip" uninstall --quiet --yes pwcheck >"$work/log" 2>&1
  done
  "$work/venv/bin/pip" install --quiet --no-index --no-deps "$from" >"$work/log" 2>&1
  said=$(cd "$work" && LIBPWCHECK=$work/none.so "$work/venv/bin/python" -c 'import pwcheck' 2>&1) && fail "a library that is not there is loaded"
  case $said in *LIBPWCHECK*) ;; *) fail "without the library the package says $(tail -n 1 <<<"$said")" ;; esac
  echo "packages.sh: pip installs the folder and $(basename "$from") without a network, and both work"
else
  echo "packages.sh: no venv, so the Python package was not tried"
fi

if command -v cargo >/dev/null 2>&1; then
  cp -r "$top/bindings/rust" "$work/rust"
  (cd "$work/rust" && PWCHECK_LIB=$prefix/lib cargo package --quiet --offline --allow-dirty --target-dir "$work/target") >"$work/log" 2>&1 \
    || fail "cargo package: $(tail -n 1 "$work/log")"
  crate=$(ls "$work"/target/package/pwcheck-*.crate)
  tar -C "$work" -xzf "$crate"
  (cd "$work/$(basename "$crate" .crate)" && PWCHECK_LIB=$prefix/lib cargo test --quiet --offline --target-dir "$work/target") >"$work/log" 2>&1 \
    || fail "cargo test of what is packed: $(tail -n 5 "$work/log")"
  (cd "$work/$(basename "$crate" .crate)" && PWCHECK_LIB=$prefix/lib cargo build --quiet --offline --lib --no-default-features --target-dir "$work/target") \
    >"$work/log" 2>&1 || fail "cargo build without std: $(tail -n 5 "$work/log")"
  echo "packages.sh: cargo packs $(basename "$crate"); what is packed passes its tests, and builds without std"
else
  echo "packages.sh: no cargo, so the Rust crate was not tried"
fi
