#!/bin/sh
# Times a glyph's outline from C, compared with HarfBuzz, FreeType and ttf-parser.
#
#     tools/speed/beside.sh [FONT.otf ..]
#
# The default fonts are EB Garamond 12 Regular and FreeSerif. One process calls the four in turn, each over all glyphs of a font, and the
# least time of twenty rounds counts. All draw unscaled and unhinted outlines. This library and ttf-parser store the segments. HarfBuzz
# passes them to functions that count them. FreeType keeps its own outline.
#
# Needs cargo, the built library bindings/c/build/libpostscript.a (`make -C bindings/c`, or set LIBRARY=FILE), and Debian's gcc, pkg-config,
# libfreetype-dev, libharfbuzz-dev, librust-ttf-parser-dev, fonts-ebgaramond and fonts-freefont-otf.
set -e
tools=$(cd "$(dirname "$0")/.." && pwd)
library=${LIBRARY:-$tools/../bindings/c/build/libpostscript.a}
fonts=/usr/share/fonts/opentype
[ $# -gt 0 ] || set -- $fonts/ebgaramond/EBGaramond12-Regular.otf $fonts/freefont/FreeSerif.otf
work=$(mktemp -d)
trap 'rm -r "$work"' EXIT
mkdir "$work/src" "$work/.cargo"
cp "$tools/programs/beside.rs" "$work/src/main.rs"
cc -O2 -Wall -c "$tools/programs/beside.c" $(pkg-config --cflags freetype2 harfbuzz) -o "$work/others.o"
parser=$(ls -d /usr/share/cargo/registry/ttf-parser-* | tail -1 | sed 's/.*ttf-parser-//')
printf '[package]\nname = "beside"\nversion = "0.1.0"\nedition = "2021"\n[dependencies]\nttf-parser = "%s"\n[workspace]\n' "$parser" > "$work/Cargo.toml"
printf '[source.crates-io]\nreplace-with = "debian"\n[source.debian]\ndirectory = "/usr/share/cargo/registry"\n' > "$work/.cargo/config.toml"
cat > "$work/build.rs" << END
fn main() {
    println!("cargo:rustc-env=TTF_PARSER=$parser");
    for argument in ["$work/others.o", "$library", "-lfreetype", "-lharfbuzz"] {
        println!("cargo:rustc-link-arg-bins={argument}");
    }
}
END
(cd "$work" && cargo build --release --quiet --offline)
"$work/target/release/beside" "$@"
