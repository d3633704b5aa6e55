#!/bin/sh
# Looks in the files of a folder for paths of the machine that made them: the checkout, the toolchain, a home folder, a temporary file, or
# a path in /home, /root, /mnt or /srv. Archives, packages and static libraries are unpacked first.
#
#     tools/dist/leaks.sh FOLDER
#
# It prints each line with such a path, and the status is 1 if there is one.
. "$(dirname "$0")/env.sh"
folder=$(cd "$1" && pwd)
work=$(mktemp -d)
trap 'rm -r "$work"' EXIT
for file in "$folder"/*; do
    inside=$work/$(basename "$file")
    mkdir "$inside"
    cp "$file" "$inside"
    case $file in
    *.tar.gz | *.crate) tar -xzf "$file" -C "$inside" ;;
    *.whl) /usr/bin/python3 -m zipfile -e "$file" "$inside" ;;
    *.deb) dpkg-deb -R "$file" "$inside" && find "$inside" -name '*.gz' -exec gunzip {} + ;;
    esac
    case $file in *.tar.gz | *.crate | *.whl | *.deb) rm "$inside/$(basename "$file")" ;; esac
    find "$inside" -name '*.a' -exec sh -c 'mkdir "$1.d" && cd "$1.d" && ar x "$1"' _ {} \;
done
kit=$(dirname "$(rt doc)")
for path in "$top" "$kit/" "${HOME:-/root}/" "${TMPDIR:-/tmp}/tmp." "${TMPDIR:-/tmp}/rt"; do printf '%s\n' "$path"; done > "$work.paths"
find "$work" -type f | sort | while read -r file; do
    strings -a -n 4 "$file" | grep -F -f "$work.paths" -e /home/ -e /root/ -e /mnt/ -e /srv/ | sed "s|^|${file#"$work"/}: |"
done > "$work.found"
rm "$work.paths"
status=0
if [ -s "$work.found" ]; then
    echo 'leaks: paths of this machine:'
    cat "$work.found"
    status=1
fi
rm "$work.found"
exit $status
