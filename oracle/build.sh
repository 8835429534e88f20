#!/bin/sh
# Builds the oracle with plain rustc into target/oracle: the Rust as given, plain and with the
# `checks` feature, a driver for each, the generator and the comparer. Does nothing if all is up to date.
set -eu
here=$(cd "$(dirname "$0")" && pwd)
. "$here/rust.sh"
need_rustc

version=$(rustc --version)
if [ -f "$out/built" ] && [ "$(cat "$out/built")" = "$version" ] &&
    [ -z "$(find "$here" \( -name '*.rs' -o -name '*.sh' \) -newer "$out/built")" ]; then
    exit 0
fi

rm -f "$out/built"
mkdir -p "$out/plain" "$out/checks"
shims
etagere "$here/etagere/src/lib.rs" --crate-type rlib --out-dir "$out/plain"
etagere "$here/etagere/src/lib.rs" --crate-type rlib --out-dir "$out/checks" --cfg 'feature="checks"'
driver "$out/plain"
driver "$out/checks"
ours "$here/generate.rs" "$out/plain" --crate-type rlib --out-dir "$out/plain"
ours "$here/gen.rs" "$out/plain" -o "$out/gen"
ours "$here/compare.rs" "$out/plain" -o "$out/compare"
echo "$version" > "$out/built"
