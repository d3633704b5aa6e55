#!/bin/sh
# Makes the wheel of the Python module, with the shared library in it.
#
#     tools/dist/wheel.sh TREE OUT
#
# Needs Debian's python3-build, python3-setuptools and python3-wheel. The wheel is for any Python 3 on DIST_ARCH (env.sh), and for the version of
# the C library whose symbols the library needs, or a newer one.
. "$(dirname "$0")/env.sh"
tree=$(cd "$1" && pwd) out=$(cd "$2" && pwd)
work=$(mktemp -d)
trap 'rm -r "$work"' EXIT
cp -r "$top/bindings/python/postscript" "$top/bindings/python/pyproject.toml" "$top/bindings/python/README.md" "$work"
find "$work" -name __pycache__ -prune -exec rm -r {} +
cp "$tree/lib/libpostscript.so.0" "$work/postscript"
cp "$tree/LICENSE-APACHE" "$tree/LICENSE-MIT" "$tree/PROOF.txt" "$work"
# pip supports versions of the C library from 2.5; the first one for aarch64 is 2.17
case $arch in x86_64) oldest=2.5 ;; *) oldest=2.17 ;; esac
libc=$(printf '%s\n%s\n' $oldest "$(wanted_libc "$tree/lib/libpostscript.so.0")" | sort -V | tail -n 1 | cut -d . -f 1,2 | tr . _)
cat > "$work/setup.py" << END
from setuptools import Distribution, setup
from wheel.bdist_wheel import bdist_wheel


class Built(Distribution):
    def has_ext_modules(self):
        return True


class Wheel(bdist_wheel):
    def get_tag(self):
        return "py3", "none", "manylinux_${libc}_$arch"


setup(distclass=Built, cmdclass={"bdist_wheel": Wheel}, license_files=["LICENSE-APACHE", "LICENSE-MIT", "PROOF.txt"])
END
chmod -R u=rwX,go=rX "$work"
dated "$work"
# uses Debian's own Python, which has these packages
(cd "$work" && env -i PATH=/usr/bin:/bin HOME="$work" LC_ALL=C.UTF-8 SOURCE_DATE_EPOCH="$SOURCE_DATE_EPOCH" PYTHONHASHSEED=0 \
    /usr/bin/python3 -m build --wheel --no-isolation --outdir "$work/dist" > "$work/log" 2>&1) || {
    cat "$work/log"
    exit 1
}
cp "$work/dist"/*.whl "$out"
