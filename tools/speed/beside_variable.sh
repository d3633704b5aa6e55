#!/bin/sh
# Times a glyph's outline of a variable font from C, compared with HarfBuzz and FreeType.
#
#     tools/speed/beside_variable.sh WEIGHT FONT.otf ..
#
# WEIGHT is the value of the axis wght; other axes have their defaults. One process calls `psf_variable_outline`, `psf_location_outline`,
# HarfBuzz and FreeType in turn, each over all glyphs of a font, and the least time of twenty rounds counts. The second has its location
# from `psf_location_scalars`, once in each round. All draw unscaled and unhinted outlines. This library stores the segments. HarfBuzz
# passes them to functions that count them. FreeType keeps its own outline.
#
# Needs the built library bindings/c/build/libpostscript.a (`make -C bindings/c`, or set LIBRARY=FILE), and Debian's gcc, pkg-config,
# libfreetype-dev and libharfbuzz-dev. Debian's pango1.0-tests has Cantarell-VF.otf.
set -e
[ $# -ge 2 ] || { sed -n '2,12s/^# \{0,1\}//p' "$0" >&2; exit 2; }
tools=$(cd "$(dirname "$0")/.." && pwd)
library=${LIBRARY:-$tools/../bindings/c/build/libpostscript.a}
work=$(mktemp -d)
trap 'rm -r "$work"' EXIT
cc -O2 -Wall -Wextra -I"$tools/../bindings/c" $(pkg-config --cflags freetype2 harfbuzz) "$tools/programs/beside_variable.c" "$library" \
    $(pkg-config --libs freetype2 harfbuzz) -o "$work/beside_variable"
"$work/beside_variable" "$@"
