#!/bin/sh
# Installs the files of the archive for this machine in a folder: the programs, if it has them, the library, the header, the documents, the
# manual pages and the completions.
#
#     tools/dist/install.sh PREFIX
#
# Run `make dist` first.
DIST_ARCH=$(uname -m)
. "$(dirname "$0")/env.sh"
prefix=$1
if [ ! -f "$top/dist/$name.tar.gz" ]; then
    echo "install: no dist/$name.tar.gz: run make dist first" >&2
    exit 1
fi
doc=share/doc/postscript-proved
mkdir -p "$prefix/$doc"
parts=$(tar -tzf "$top/dist/$name.tar.gz" | sed -n "s|^\($name/\(bin\|lib\|include\|share\)\)/$|\1|p")
tar -xzf "$top/dist/$name.tar.gz" -C "$prefix" --strip-components=1 --no-same-owner $parts
tar -xzf "$top/dist/$name.tar.gz" -C "$prefix/$doc" --strip-components=1 --no-same-owner \
    --exclude="$name/bin" --exclude="$name/lib" --exclude="$name/include" --exclude="$name/share"
