# Common definitions, read by the scripts of this folder: `. "$(dirname "$0")/env.sh"`. The files that they make depend only on the commit,
# not on the day, the machine or the folder. DIST_ARCH is the processor of the files that a script makes: x86_64 or aarch64.
set -eu
top=$(cd "$(dirname "$0")/../.." && pwd)
version=$(cat "$top/VERSION")
arch=${DIST_ARCH:-x86_64}
multiarch=$arch-linux-gnu
# deb: Debian's name of the processor. cross: what the compiler's and the other tools' names begin with. libs: the built libraries.
case $arch in
x86_64) deb=amd64 cross='' libs=$top/bindings/c/build ;;
aarch64) deb=arm64 cross=aarch64-linux-gnu- libs=$top/bindings/c/build/aarch64 ;;
*) echo "no such processor: $arch" >&2; exit 1 ;;
esac
name=postscript-proved-$version-$arch-linux
commit=$(git -C "$top" rev-parse HEAD)
SOURCE_DATE_EPOCH=${SOURCE_DATE_EPOCH:-$(git -C "$top" log -1 --format=%ct)}
export SOURCE_DATE_EPOCH TZ=UTC LC_ALL=C.UTF-8
umask 022
export PATH="$PATH:/usr/bin"

# filled FILE NAME=VALUE..: prints a file with each @NAME@ replaced by its value
filled() {
    file=$1 script="s|@VERSION@|$version|g"
    shift
    for pair; do script="$script;s|@${pair%%=*}@|${pair#*=}|g"; done
    sed "$script" "$file"
}

# dated FOLDER: sets the date of everything in a folder to the commit's
dated() { find "$1" -exec touch --no-dereference --date "@$SOURCE_DATE_EPOCH" {} +; }

# wanted_libc FILE..: the newest version of the C library whose symbols these files need, such as 2.14
wanted_libc() {
    "${cross}objdump" -T "$@" | sed -n 's/.*(\?GLIBC_\([0-9.]*\))\? .*/\1/p' | sort -V | tail -n 1
}
