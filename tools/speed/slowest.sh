#!/bin/sh
# Finds the slowest call of `psf_font_open` and of each glyph function over changed `CFF ` tables, within the limit that it gives a font.
#
#     tools/speed/slowest.sh CASES SEED WORD..
#
# Each WORD is a font file, or an installed Debian package, whose .otf files are used. Each of the CASES opens a table with one to four
# changed bytes. It then asks for the bounds, outline, flat code, operations and name of two glyphs. For each function the script prints
# the number of calls, the mean time, the slowest call with its case, and how often each status was returned. Times are wall-clock times.
# Needs `rt` on the path, and Debian's gcc and make.
set -e
[ $# -ge 3 ] || { sed -n '2,9s/^# \{0,1\}//p' "$0" >&2; exit 2; }
tools=$(cd "$(dirname "$0")/.." && pwd)
cases=$1
seed=$2
shift 2
bindings="$tools/../bindings/c"
make --no-print-directory -s -C "$bindings"
work=$(mktemp -d)
trap 'rm -r "$work"' EXIT
cc -O2 -Wall -Wextra -I"$bindings" "$tools/programs/slowest.c" "$bindings/build/libpostscript.a" -o "$work/slowest"
for word in "$@"; do
    if [ -f "$word" ]; then echo "$word"; else dpkg -L "$word" | grep '\.otf$' | sort; fi
done | tr '\n' '\0' | xargs -0 -x -s 1000000 "$work/slowest" "$cases" "$seed"
