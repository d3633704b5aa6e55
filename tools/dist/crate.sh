#!/bin/sh
# Makes the crate of the Rust binding, with the static libraries for each processor in it.
#
#     tools/dist/crate.sh TREES OUT
#
# The folder TREES has a tree for each processor, by its name.
. "$(dirname "$0")/env.sh"
trees=$(cd "$1" && pwd) out=$(cd "$2" && pwd)
crate=postscript-proved-$version
work=$(mktemp -d)
trap 'rm -r "$work"' EXIT
mkdir "$work/$crate"
cp -r "$top/bindings/rust/src" "$top/bindings/rust/tests" "$top/bindings/rust/examples" "$work/$crate"
cp "$top/bindings/rust/build.rs" "$top/bindings/rust/README.md" "$top/bindings/rust/Cargo.toml" "$work/$crate"
cp "$top/bindings/font.hex" "$top/bindings/accents.hex" "$top/bindings/variable.hex" "$top/bindings/whole.hex" "$top/bindings/layout.hex" "$work/$crate/tests"
sed -i 's|"../../\(font\|accents\|variable\|whole\|layout\)\.hex"|"\1.hex"|' "$work/$crate/tests"/*.rs
for tree in "$trees"/*; do
    mkdir -p "$work/$crate/lib/$(basename "$tree")-linux"
    cp "$tree/lib/libpostscript.a" "$work/$crate/lib/$(basename "$tree")-linux"
done
cp "$tree/LICENSE-APACHE" "$tree/LICENSE-MIT" "$tree/PROOF.txt" "$work/$crate"
chmod -R u=rwX,go=rX "$work/$crate"
dated "$work/$crate"
# the layout of `cargo package`, without Cargo.lock, which a library does not need, and with the date of the commit
tar --create --directory "$work" --sort=name --mtime "@$SOURCE_DATE_EPOCH" --owner=0 --group=0 --numeric-owner --format=ustar \
    "$crate" | gzip -9n > "$out/$crate.crate"
