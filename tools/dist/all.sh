#!/bin/sh
# Makes the files of a release in dist/, for x86-64 and aarch64: archives, Debian packages, wheels and a crate.
#
#     make dist
#     tools/dist/all.sh LOG..
#
# The proved libraries and programs are built once, and put into each of them. With LOGs of `rt ci`, the verdicts are taken from them
# (tools/dist/prove.sh). Two runs on one commit give identical bytes
# (tools/dist/reproducible.sh). If there is a dist/ already, abi.sh compares the new libraries with it: remove it first if it was never
# released and the change is wanted. Needs `rt` on the path, and Debian's gcc, make, binutils, gcc-aarch64-linux-gnu, python3-build,
# python3-setuptools and python3-wheel; abigail-tools to compare.
. "$(dirname "$0")/env.sh"
for command in rt cc make strip objdump dpkg-deb aarch64-linux-gnu-gcc; do
    command -v $command > /dev/null || { echo "make dist: no $command" >&2; exit 1; }
done
/usr/bin/python3 -c 'import build, setuptools, wheel' || {
    echo "make dist: Debian's python3-build, python3-setuptools and python3-wheel are wanted" >&2
    exit 1
}
work=$(mktemp -d)
trap 'rm -r "$work"' EXIT
"$top/tools/gate/version.sh"
"$top/tools/dist/prove.sh" "$work/PROOF.txt" "$@"
mkdir "$work/dist" "$work/trees"
for processor in aarch64 x86_64; do
    export DIST_ARCH=$processor
    "$top/tools/dist/tree.sh" "$work/PROOF.txt" "$work/trees/$processor"
    for kind in archive wheel deb; do "$top/tools/dist/$kind.sh" "$work/trees/$processor" "$work/dist"; done
done
"$top/tools/gate/version.sh" "$work/trees/x86_64"
"$top/tools/dist/crate.sh" "$work/trees" "$work/dist"
cp "$work/PROOF.txt" "$work/dist/postscript-proved-$version-PROOF.txt"
cp "$work/trees/x86_64/SBOM.spdx.json" "$work/dist/postscript-proved-$version-SBOM.spdx.json"
"$top/tools/dist/leaks.sh" "$work/dist"
(cd "$work/dist" && sha256sum -- * > SHA256SUMS)
if [ -f "$top/dist/SHA256SUMS" ] && command -v abidiff > /dev/null; then "$top/tools/dist/abi.sh" "$top/dist" "$work/dist"; fi
rm -rf "$top/dist"
mv "$work/dist" "$top/dist"
ls -l "$top/dist"
