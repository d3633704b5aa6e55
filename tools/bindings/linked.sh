#!/bin/sh
# Compares the C library with ttf-parser and FreeType, in one process.
#
#     tools/bindings/linked.sh CASES SEED WORD..
#
# Each WORD is a font file, a folder or an installed Debian package, whose .otf files are used. All three draw every glyph of every font.
# The segments are compared with ttf-parser's to 0.05 of a unit, since its numbers have 24 bits, and with FreeType's, unscaled and
# unhinted, to a unit. Then CASES tables with one to four changed bytes, from SEED, are opened and drawn here and by ttf-parser. The
# classes of disagreement are printed, with the first charstring of each. If both draw a glyph, but differently, the class says whose
# outline FreeType draws. Then the library is called with changed bytes of the first font and changed numbers of its `psf_font`: with
# buffers that end at an inaccessible page, and under the address sanitizer. Last, the time per glyph is measured for EB Garamond 12
# Regular and FreeSerif, or for the first two fonts if both are missing.
#
# The status is 1 if two of them draw a glyph of a font differently, or if a call reads or writes outside of its buffers. It is also 1 if
# both draw a changed glyph with other coordinates, and FreeType does not draw it as this library does. Needs `rt` and cargo on the path,
# and Debian's gcc, make, pkg-config, libfreetype-dev and librust-ttf-parser-dev.
set -e
[ $# -ge 3 ] || { sed -n '2,18s/^# \{0,1\}//p' "$0" >&2; exit 2; }
tools=$(cd "$(dirname "$0")/.." && pwd)
cases=$1
seed=$2
shift 2
fonts=$(for word in "$@"; do
    if [ -f "$word" ]; then echo "$word"
    elif [ -d "$word" ]; then find "$word" -name '*.otf' | sort
    else dpkg -L "$word" | grep '\.otf$' | sort; fi
done)

# over_fonts FONTS WORD..: runs a command with the fonts as its last arguments. Their names may contain spaces.
over_fonts() { echo "$1" | tr '\n' '\0' | { shift; xargs -0 -x -s 1000000 "$@"; }; }

work=$(mktemp -d)
trap 'rm -r "$work"' EXIT
bindings="$tools/../bindings"
make --no-print-directory -s -C "$bindings/c"

mkdir "$work/src" "$work/.cargo"
cp "$tools/programs/linked.rs" "$work/src/main.rs"
cc -O2 -c "$tools/programs/linked_freetype.c" $(pkg-config --cflags freetype2) -o "$work/freetype.o"
cat > "$work/Cargo.toml" << END
[package]
name = "linked"
version = "0.1.0"
edition = "2021"
[dependencies]
postscript-proved = { path = "$(cd "$bindings/rust" && pwd)" }
ttf-parser = "0.15"
[workspace]
END
cat > "$work/.cargo/config.toml" << END
[source.crates-io]
replace-with = "debian"
[source.debian]
directory = "/usr/share/cargo/registry"
END
cat > "$work/build.rs" << END
fn main() {
    println!("cargo:rustc-link-arg-bins=$work/freetype.o");
    println!("cargo:rustc-link-arg-bins=-lfreetype");
}
END
(cd "$work" && cargo build --release --quiet --offline)
linked="$work/target/release/linked"

status=0
over_fonts "$fonts" "$linked" whole || status=1
over_fonts "$fonts" "$linked" fuzz "$cases" "$seed" || status=1
first=$(echo "$fonts" | head -1)
for flags in -DGUARD -fsanitize=address,undefined; do
    cc -O1 -g $flags -I"$bindings/c" "$tools/programs/linked_spoiled.c" "$bindings/c/build/libpostscript.a" -o "$work/spoiled"
    echo "spoiled fonts, $flags:"
    "$work/spoiled" "$first" 20000 "$seed" || status=1
done
timed=$(echo "$fonts" | grep -E 'EBGaramond12-Regular|FreeSerif.otf' || echo "$fonts" | head -2)
over_fonts "$timed" "$linked" speed
exit $status
