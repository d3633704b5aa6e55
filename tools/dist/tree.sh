#!/bin/sh
# Lays out the files of the archive of DIST_ARCH (env.sh). The packages take theirs from it.
#
#     tools/dist/tree.sh PROOF.txt TREE
#
# The libraries and the programs must have been built (tools/dist/prove.sh). The archive for aarch64 has no programs: the toolchain links
# programs for x86-64 only.
. "$(dirname "$0")/env.sh"
proof=$1 tree=$2
share=$tree/share
mkdir -p "$tree/lib/pkgconfig" "$tree/lib/cmake/postscript" "$tree/include" "$tree/docs" "$tree/examples" "$tree/licences"

cp "$libs/libpostscript.a" "$libs/libpostscript.so.0" "$tree/lib"
# removes file names, line numbers and dates
"${cross}strip" --strip-debug --enable-deterministic-archives --remove-section=.comment "$tree/lib/libpostscript.a"
"${cross}strip" --strip-unneeded --remove-section=.comment "$tree/lib/libpostscript.so.0"
chmod 644 "$tree/lib"/libpostscript.*
if [ "$arch" = x86_64 ]; then
    mkdir "$tree/bin"
    for program in psotf psfont; do cp "$top/crates/$program/out/$program" "$tree/bin"; done
    strip --strip-all --remove-section=.comment "$tree/bin"/*
    chmod 755 "$tree/bin"/*
    "$top/tools/dist/pages.py" "$tree/bin/psotf" "$tree/bin/psfont" "$share"
else
    "$top/tools/dist/pages.py" "$share"
fi

cp "$top/bindings/c/postscript.h" "$tree/include"
filled "$top/tools/dist/postscript.pc.in" 'PREFIX=${pcfiledir}/../..' 'LIBDIR=${prefix}/lib' > "$tree/lib/pkgconfig/postscript.pc"
filled "$top/tools/dist/postscriptConfig.cmake.in" INCLUDE=../include "ARCH=$arch" > "$tree/lib/cmake/postscript/postscriptConfig.cmake"
filled "$top/tools/dist/postscriptConfigVersion.cmake.in" > "$tree/lib/cmake/postscript/postscriptConfigVersion.cmake"

cp "$top/README.md" "$top/CHANGELOG.md" "$top/CONTRIBUTING.md" "$top/SECURITY.md" "$top/LICENSE-APACHE" "$top/LICENSE-MIT" "$tree"
cp "$proof" "$tree/PROOF.txt"
"$top/tools/dist/sbom.py" > "$tree/SBOM.spdx.json"
cp -r "$top/docs/." "$tree/docs"
# links to files that are only in the repository become text
/usr/bin/python3 - "$tree" << 'END'
import pathlib, re, sys
for page in [*pathlib.Path(sys.argv[1]).glob("*.md"), *pathlib.Path(sys.argv[1], "docs").rglob("*.md")]:
    def shown(link):
        return link[0] if "://" in link[2] or link[2].startswith("#") or (page.parent / link[2].partition("#")[0]).exists() else link[1]
    page.write_text(re.sub(r"(?<!!)\[([^]\n]+)\]\(([^)\s]+)\)", shown, page.read_text(encoding="utf-8")), encoding="utf-8")
END
cp "$top/bindings/c/svg_glyph.c" "$top/bindings/c/operations.c" "$top/tools/dist/example/advance.c" "$tree/examples"
cp "$top/bindings/rust/examples/small.otf" "$tree/examples"
filled "$top/tools/dist/example/CMakeLists.txt" > "$tree/examples/CMakeLists.txt"
# the licences of the toolchain's crates that are compiled into these files
kit=$(dirname "$(rt doc)")/rattle
for crate in $(sed -n 's/^[a-z0-9_]*\( staticlib\)\?: *//p' "$top/crates.txt" | tr ' ' '\n' | sort -u); do
    for licence in "$kit/$crate"/LICENSE*; do
        if [ -f "$licence" ]; then cp "$licence" "$tree/licences/$crate-$(basename "$licence")"; fi
    done
done
chmod -R u=rwX,go=rX "$tree"
