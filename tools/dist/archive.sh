#!/bin/sh
# Makes the archive of a tree.
#
#     tools/dist/archive.sh TREE OUT
. "$(dirname "$0")/env.sh"
tree=$(cd "$1" && pwd) out=$(cd "$2" && pwd)
dated "$tree"
tar --create --directory "$(dirname "$tree")" --sort=name --mtime "@$SOURCE_DATE_EPOCH" --owner=0 --group=0 --numeric-owner --format=ustar \
    --transform "s|^$(basename "$tree")|$name|" "$(basename "$tree")" | gzip -9n > "$out/$name.tar.gz"
