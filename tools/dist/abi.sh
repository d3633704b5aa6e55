#!/bin/bash
# Checks that programs linked with an earlier libpostscript.so.0 also run with a later one, by Debian's abidiff.
#
#     tools/dist/abi.sh OLD [NEW]
#
# OLD and NEW are folders that `make dist` wrote; NEW is dist/ by default. The functions that each library exports are compared, for both
# processors. The libraries have no types, so the parameters and structs are compared by the two headers: each is compiled, with debugging
# information, to a library of the functions that it declares. New functions and new numbers are allowed. The script prints what abidiff
# prints, and the status is 1 if a function is gone, or a parameter, a struct or the number of a constant has changed.
. "$(dirname "$0")/env.sh"
old=$(cd "$1" && pwd) new=$(cd "${2:-$top/dist}" && pwd)
work=$(mktemp -d)
trap 'rm -r "$work"' EXIT

# compiled FOLDER: a library whose functions have the types of the header
compiled() {
    {
        echo '#include "postscript.h"'
        tr '\n' ' ' < "$1/include/postscript.h" | grep -o '[a-z0-9_]*_t psf_[a-z_]*([^;]*);' | sed 's/;$/ { return 0; }/'
    } > "$1/types.c"
    gcc -g -w -shared -fPIC -I"$1/include" "$1/types.c" -o "$1/types.so"
}

# compared OLD NEW: by abidiff, whose status is 0 if nothing is removed or changed
compared() { abidiff --no-added-syms "$1" "$2" || failed=1; }

# numbers FOLDER: the constants of the header
numbers() { sed -n 's/^ *\(PSF_[A-Z0-9_]*\) = \([0-9]*\).*/\1 \2/p' "$1/include/postscript.h" | sort; }

failed=0
for side in old new; do
    for processor in x86_64 aarch64; do
        mkdir -p "$work/$side/$processor"
        for archive in "${!side}"/postscript-proved-*-"$processor"-linux.tar.gz; do
            if [ -f "$archive" ]; then tar -xzf "$archive" -C "$work/$side/$processor" --strip-components=1; fi
        done
    done
    compiled "$work/$side/x86_64"
done
compared "$work/old/x86_64/types.so" "$work/new/x86_64/types.so"
gone=$(comm -23 <(numbers "$work/old/x86_64") <(numbers "$work/new/x86_64"))
if [ -n "$gone" ]; then printf 'constants that are gone, or have another number:\n%s\n' "$gone"; failed=1; fi
for processor in x86_64 aarch64; do
    # the first release had no library for aarch64
    if [ -d "$work/old/$processor/lib" ]; then
        compared "$work/old/$processor/lib/libpostscript.so.0" "$work/new/$processor/lib/libpostscript.so.0"
    fi
done
functions=$(grep -c 'psf_' "$work/new/x86_64/types.c")
if [ $failed = 0 ]; then echo "abi: programs for the old library run with the new one, which has $functions functions"; else echo 'abi: NOT compatible'; fi
exit $failed
