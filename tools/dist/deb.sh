#!/bin/sh
# Makes the Debian packages libpostscript-proved0 and libpostscript-proved-dev for DIST_ARCH (env.sh), and with those for x86_64 also psotf
# and python3-postscript-proved.
#
#     tools/dist/deb.sh TREE OUT
#
# Needs dpkg-deb. If lintian is installed, it checks each package, and the script fails if it prints a tag, also a pedantic one, that is not
# in lintian.tags.
. "$(dirname "$0")/env.sh"
tree=$(cd "$1" && pwd) out=$(cd "$2" && pwd)
work=$(mktemp -d)
trap 'rm -r "$work"' EXIT
maintainer='The Hozhvir developers <postscript-proved@hozhvir.invalid>'
libs=usr/lib/$multiarch
libc=$(wanted_libc "$tree/lib/libpostscript.so.0")
libc_of_programs=
packages='libpostscript-proved0 libpostscript-proved-dev'
if [ -d "$tree/bin" ]; then
    libc_of_programs=$(wanted_libc "$tree"/bin/*)
    packages="psotf $packages python3-postscript-proved"
fi
for package in $packages; do mkdir "$work/$package"; done

if [ -d "$tree/bin" ]; then
    cd "$work/psotf"
    mkdir -p usr/share/man/man1
    cp -r "$tree/bin" usr/bin
    for page in psotf psfont; do gzip -9n < "$tree/share/man/man1/$page.1" > usr/share/man/man1/$page.1.gz; done
    mkdir usr/share/zsh
    cp -r "$tree/share/bash-completion" "$tree/share/fish" usr/share
    cp -r "$tree/share/zsh/site-functions" usr/share/zsh/vendor-completions

    cd "$work/python3-postscript-proved"
    mkdir -p usr/lib/python3/dist-packages/postscript DEBIAN
    cp "$top/bindings/python/postscript/__init__.py" "$top/bindings/python/postscript/py.typed" usr/lib/python3/dist-packages/postscript
    cat > DEBIAN/postinst << 'END'
#!/bin/sh
set -e
if command -v py3compile > /dev/null 2>&1; then py3compile -p python3-postscript-proved; fi
END
    cat > DEBIAN/prerm << 'END'
#!/bin/sh
set -e
if command -v py3clean > /dev/null 2>&1; then py3clean -p python3-postscript-proved; fi
END
fi

cd "$work/libpostscript-proved0"
mkdir -p $libs DEBIAN
cp "$tree/lib/libpostscript.so.0" $libs
echo "libpostscript 0 libpostscript-proved0 (>= $version)" > DEBIAN/shlibs
{
    printf '%s\n' "libpostscript.so.0 libpostscript-proved0 (>= $version)" '* Build-Depends-Package: libpostscript-proved-dev'
    "${cross}nm" -D --defined-only --with-symbol-versions $libs/libpostscript.so.0 | sed "s/.* //; s/@@/@/; /@/!s/.*/&@&/; s/.*/ & $version/" | sort
} > DEBIAN/symbols
echo 'activate-noawait ldconfig' > DEBIAN/triggers

cd "$work/libpostscript-proved-dev"
mkdir -p $libs/pkgconfig usr/include usr/share/man/man3 usr/share/doc/libpostscript-proved-dev
cp "$tree/lib/libpostscript.a" $libs
ln -s libpostscript.so.0 $libs/libpostscript.so
cp "$tree/include/postscript.h" usr/include
filled "$top/tools/dist/postscript.pc.in" PREFIX=/usr 'LIBDIR=${prefix}/lib/'"$multiarch" > $libs/pkgconfig/postscript.pc
cp -r "$tree/lib/cmake" $libs
filled "$top/tools/dist/postscriptConfig.cmake.in" INCLUDE=../../include "ARCH=$arch" > $libs/cmake/postscript/postscriptConfig.cmake
gzip -9n < "$tree/share/man/man3/postscript.h.3" > usr/share/man/man3/postscript.h.3.gz
cp -r "$tree/examples" usr/share/doc/libpostscript-proved-dev
cp -r "$tree/docs" usr/share/doc/libpostscript-proved-dev/docs

# sizes: the total size of the files in KiB
sizes() { find usr -type f -printf '%s\n' | awk '{ size += int(($1 + 1023) / 1024) } END { print size }'; }

# finished PACKAGE: adds the files that each package has, and builds it
finished() {
    cd "$work/$1"
    doc=usr/share/doc/$1
    mkdir -p DEBIAN "$doc"
    cp "$tree/PROOF.txt" "$doc"
    awk -v text="$(sed 's/^$/./; s/^/ /' "$tree/LICENSE-MIT")" \
        -v unicode="$(sed 's/^$/./; s/^/ /' "$tree/licences/ucd_normal-LICENSE-UNICODE")" \
        '{ if ($0 == "@MIT@") print text; else if ($0 == "@UNICODE@") print unicode; else print }' \
        "$top/tools/dist/debian/copyright.in" > "$doc/copyright"
    filled "$top/tools/dist/debian/changelog.in" "MAINTAINER=$maintainer" "DATE=$(date -R -d "@$SOURCE_DATE_EPOCH")" | gzip -9n > "$doc/changelog.gz"
    filled "$top/tools/dist/debian/control.in" "LIBC=$libc" "LIBC_OF_PROGRAMS=$libc_of_programs" | awk -v RS= -v wanted="Package: $1" 'index($0, wanted "\n") == 1' > DEBIAN/control
    grep -q '^Architecture:' DEBIAN/control || sed -i '/^Section:/i Architecture: '$deb DEBIAN/control
    sed -i "/^Section:/i Source: postscript-proved\nVersion: $version\nMaintainer: $maintainer\nInstalled-Size: $(sizes)" \
        DEBIAN/control
    sed -i '/^Section:/a Priority: optional' DEBIAN/control
    find usr -type f | sort | xargs md5sum > DEBIAN/md5sums
    chmod -R u=rwX,go=rX .
    for script in postinst prerm; do if [ -f DEBIAN/$script ]; then chmod 755 DEBIAN/$script; fi; done
    dated .
    dpkg-deb --root-owner-group -Zxz --threads-max=1 --build . "$out/${1}_${version}_$(sed -n 's/^Architecture: //p' DEBIAN/control).deb" > /dev/null
}

for package in $packages; do
    finished $package
    if command -v lintian > /dev/null; then
        lintian --no-cfg --pedantic --display-info --allow-root --suppress-tags-from-file "$top/tools/dist/debian/lintian.tags" \
            "$out/${package}_${version}_"*.deb > "$work/lintian" 2>&1 || true
        if [ -s "$work/lintian" ]; then cat "$work/lintian"; exit 1; fi
    fi
done
