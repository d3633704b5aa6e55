#!/bin/sh
# Checks that each file that names the version has the one in the file VERSION. Files made from VERSION are not checked here: the
# pkg-config file, CMake's, the manual pages and the packages.
#
#     tools/gate/version.sh
#     tools/gate/version.sh --set VERSION
#
# It prints a line for each difference, and the status is 1 if there is one. With a folder as its argument, laid out as by
# tools/dist/all.sh, it also checks the programs and the library in it. With --set it first writes another version to all of these files.
# Then postscript_c and psotf have to be proved again.
set -eu
top=$(cd "$(dirname "$0")/../.." && pwd)
status=0

# numbers VERSION: sets the forms of a version, or ends the script if it is not three numbers
numbers() {
    version=$1
    case $version in
    *[!0-9.]* | *.*.*.* | .* | *. | *..*) echo "version: '$version' is not three numbers"; exit 1 ;;
    *.*.*) ;;
    *) echo "version: '$version' is not three numbers"; exit 1 ;;
    esac
    rest=${version#*.}
    number=$((${version%%.*} << 16 | ${rest%%.*} << 8 | ${rest#*.}))
    bytes=$(printf '0x%06x' "$number")
    triple=$(echo "$version" | sed 's/\./, /g')
}

numbers "$(cat "$top/VERSION")"
if [ "${1:-}" = --set ]; then
    cd "$top"
    old=$(echo "$version" | sed 's/\./\\./g') old_number=$number
    numbers "$2"
    echo "$version" > VERSION
    sed -i "s/^#define PSF_VERSION .*u$/#define PSF_VERSION ${bytes}u/" bindings/c/postscript.h
    sed -i "s/^const VERSION: u32 = .*;$/const VERSION: u32 = $bytes;/" crates/postscript_c/src/exports.rt
    sed -i "s/ensures { result ≡ $old_number }/ensures { result ≡ $number }/; s/^\( *\/\/ The version is \)$old\.$/\1$version./" crates/postscript_c/src/exports.rt docs/API.md
    sed -i "s/^\( *\.version(\"\)$old\(\")\)$/\1$version\2/" crates/psotf/src/commands.rt
    sed -i "s/^version = \"$old\"$/version = \"$version\"/" bindings/rust/Cargo.toml
    sed -i "s/^__version__ = .*/__version__ = \"$version\"/; s/^VERSION = (.*)$/VERSION = ($triple)/" bindings/python/postscript/__init__.py
    sed -i "s/development version is $old\./development version is $version./; s/Version $old is unreleased/Version $version is unreleased/; s/^## $old — unreleased$/## $version — unreleased/" README.md docs/install.md CHANGELOG.md
    set --
fi

# told NAME FOUND WANTED: prints a line if the two versions differ
told() {
    if [ "$2" != "$3" ]; then
        echo "version: $1 tells '$2' in place of '$3'"
        status=1
    fi
}

# first FILE PATTERN: the pattern's group in the first line that matches
first() {
    sed -n "s/$2/\\1/p" "$top/$1" | head -n 1
}

told bindings/c/postscript.h "$(first bindings/c/postscript.h '^#define PSF_VERSION \(.*\)u$')" "$bytes"
told crates/postscript_c/src/exports.rt "$(first crates/postscript_c/src/exports.rt '^const VERSION: u32 = \(.*\);$')" "$bytes"
told 'the clause of psf_version' "$(grep -c "ensures { result ≡ $number }" "$top/crates/postscript_c/src/exports.rt")" 1
told crates/psotf/src/commands.rt "$(first crates/psotf/src/commands.rt '^ *\.version("\(.*\)")$')" "$version"
told bindings/rust/Cargo.toml "$(first bindings/rust/Cargo.toml '^version = "\(.*\)"$')" "$version"
told bindings/python/postscript/__init__.py "$(first bindings/python/postscript/__init__.py '^__version__ = "\(.*\)"$')" "$version"
told 'the numbers there' "$(first bindings/python/postscript/__init__.py '^VERSION = (\(.*\))$')" "$triple"
told README.md "$(first README.md '.* The development version is \([0-9.]*\)\. .*')" "$version"
told docs/install.md "$(first docs/install.md '.* Version \([0-9.]*\) is unreleased.*')" "$version"
told CHANGELOG.md "$(first CHANGELOG.md '^## \([0-9.]*\) — .*')" "$version"

if [ $# -gt 0 ]; then
    told 'psotf --version' "$("$1/bin/psotf" --version)" "psotf $version"
    told postscript.pc "$(sed -n 's/^Version: //p' "$1/lib/pkgconfig/postscript.pc")" "$version"
    told psf_version "$(python3 -c 'import ctypes, sys; print("0x%06x" % ctypes.CDLL(sys.argv[1]).psf_version())' "$1/lib/libpostscript.so.0")" "$bytes"
fi
exit $status
