#!/bin/sh
# build.sh SOURCES [OUT]    SOURCES: the folder with the Rust sources, either as src--src--A--B.rs.txt files
#                           or as a repository (src/A/B.rs). OUT takes the copies and the binary OUT/oracle; without it
#                           OUT of the environment or a new temporary folder does. It is never inside the project.
# No source file is changed. The images that the doc attributes include are made as empty files.
set -e
[ $# -ge 1 ] || { echo "usage: build.sh SOURCES [OUT]" >&2; exit 2; }
here=$(cd "$(dirname "$0")" && pwd -P)
src=$(cd "$1" && pwd)
out=${2:-${OUT:-$(mktemp -d)}}
out=$(realpath -m "$out")
case $out/ in
"$(dirname "$here")"/*) echo "build.sh: $out lies inside the project" >&2; exit 1 ;;
esac
rm -rf "$out/tree"
mkdir -p "$out/tree/images" "$out/lib"
tree=$out/tree
for f in point.rs triangulation.rs delaunay_triangulation.rs \
    delaunay_core/interpolation.rs delaunay_core/math.rs delaunay_core/dcel.rs delaunay_core/dcel_operations.rs \
    delaunay_core/hint_generator.rs delaunay_core/line_side_info.rs \
    delaunay_core/handles/handle_defs.rs delaunay_core/handles/handle_impls.rs delaunay_core/handles/public_handles.rs \
    delaunay_core/handles/iterators/circular_iterator.rs delaunay_core/handles/iterators/mod.rs
do
    flat=$src/src--src--$(echo "$f" | sed 's,/,--,g').txt
    mkdir -p "$(dirname "$tree/src/$f")"
    if [ -f "$flat" ]; then cp "$flat" "$tree/src/$f"; else cp "$src/src/$f" "$tree/src/$f"; fi
    grep -oh 'images/[A-Za-z0-9_.]*' "$tree/src/$f" | while read -r i; do : > "$tree/$i"; done
done
(cd "$here/shim" && find src -name '*.rs') | while read -r f; do
    if [ -e "$tree/$f" ]; then echo "shim file $f would hide a source" >&2; exit 1; fi
    mkdir -p "$(dirname "$tree/$f")"
    cp "$here/shim/$f" "$tree/$f"
done
# debug assertions on (ASSERT=off to leave them out): the sources' own debug_assert!s are then part of the oracle
R="rustc --edition 2021 -O -C debug-assertions=${ASSERT:-on} -C overflow-checks=on -L $out/lib --out-dir $out/lib"
for c in num_traits robust smallvec; do
    $R --crate-type rlib --crate-name $c "$here/crates/$c.rs"
done
$R --crate-type rlib --crate-name spade --extern num_traits="$out/lib/libnum_traits.rlib" \
    --extern robust="$out/lib/librobust.rlib" --extern smallvec="$out/lib/libsmallvec.rlib" "$tree/src/lib.rs"
rustc --edition 2021 -O -C debug-assertions=${ASSERT:-on} -C overflow-checks=on -L "$out/lib" \
    --extern spade="$out/lib/libspade.rlib" --extern num_traits="$out/lib/libnum_traits.rlib" \
    --extern robust="$out/lib/librobust.rlib" -o "$out/oracle" "$here/driver/main.rs"
echo "built $out/oracle"
