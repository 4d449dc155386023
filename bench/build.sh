#!/usr/bin/env bash
# build.sh SOURCES ARCHIVE OUT    OUT/bench from the Rust sources, unchanged, and the static library of the port.
set -euo pipefail
[ $# -eq 3 ] || { echo "usage: build.sh SOURCES ARCHIVE OUT" >&2; exit 2; }
here=$(cd "$(dirname "$0")" && pwd -P)
oracle=$here/../oracle
src=$(cd "$1" && pwd)
archive=$(realpath "$2")
out=$(realpath -m "$3")
tree=$out/tree
rm -rf "$tree"
mkdir -p "$tree/images" "$out/lib"
for f in point.rs triangulation.rs delaunay_triangulation.rs \
    delaunay_core/{interpolation,math,dcel,dcel_operations,hint_generator,line_side_info}.rs \
    delaunay_core/handles/{handle_defs,handle_impls,public_handles}.rs \
    delaunay_core/handles/iterators/{circular_iterator,mod}.rs
do
    mkdir -p "$(dirname "$tree/src/$f")"
    flat=$src/src--src--${f//\//--}.txt
    if [ -f "$flat" ]; then cp "$flat" "$tree/src/$f"; else cp "$src/src/$f" "$tree/src/$f"; fi
    chmod u+w "$tree/src/$f"
    grep -oh 'images/[A-Za-z0-9_.]*' "$tree/src/$f" | while read -r i; do : >"$tree/$i"; done || true
done
(cd "$oracle/shim" && find src -name '*.rs') | while read -r f; do
    mkdir -p "$(dirname "$tree/$f")"
    cp "$oracle/shim/$f" "$tree/$f"
done
# for speed, as the port is: no debug assertions, no overflow checks, whole program; for any x86-64, as the port
R="rustc --edition 2021 -C opt-level=3 -C codegen-units=1 -C debug-assertions=off -C overflow-checks=off -C panic=abort -C embed-bitcode=yes -L $out/lib"
$R --crate-type rlib --crate-name num_traits --out-dir "$out/lib" "$here/crates/num_traits.rs"
$R --crate-type rlib --crate-name robust --out-dir "$out/lib" "$here/crates/robust.rs"
$R --crate-type rlib --crate-name smallvec --out-dir "$out/lib" "$oracle/crates/smallvec.rs"
$R --crate-type rlib --crate-name spade --out-dir "$out/lib" --extern num_traits="$out/lib/libnum_traits.rlib" \
    --extern robust="$out/lib/librobust.rlib" --extern smallvec="$out/lib/libsmallvec.rlib" "$tree/src/lib.rs"
$R -C lto=fat --extern spade="$out/lib/libspade.rlib" --crate-name bench -C link-arg="$archive" -o "$out/bench" "$here/rust/main.rs"
echo "built $out/bench"
