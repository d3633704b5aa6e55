#!/bin/bash
# Installs the files of `make dist` in a clean Debian without `rt`: the archive, the CMake project, the wheel, the crate and the Debian
# packages. Draws one glyph with each, and compares the outlines. Runs the examples of the documents there, with the commands that install.
# Then does the same in a clean Debian for aarch64, under qemu, where the outlines of ten fonts must be the same bytes.
#
#     tools/dist/dist_test.sh
#
# It makes dist/ if there is none. DIST_TEST_ROOT and DIST_TEST_ROOT_ARM64 may name tar files of clean roots of Debian 12, which are then used
# instead of new ones. DIST_TEST_ONLY may be amd64, to leave out the second Debian. The glyph is A of EB Garamond, and A of the small font of
# the bindings' tests, whose outline was computed by hand. The last line is 'N passed, M failed', and the status is 1 if one failed.
# Needs root, debootstrap, and the mirror that this machine's apt uses; and for aarch64 qemu-user-static, registered in binfmt_misc with the
# flag F, as Debian's package does; gcc, pkg-config and abigail-tools.
set -euo pipefail
top=$(cd "$(dirname "$0")/../.." && pwd)
version=$(cat "$top/VERSION")
if [ ! -f "$top/dist/SHA256SUMS" ]; then make -C "$top" dist; fi

work=$(mktemp -d)
trap 'rm -rf --one-file-system "$work"' EXIT
passed=0 failed=0
font=/usr/share/fonts/opentype/ebgaramond/EBGaramond12-Regular.otf

# begin ARCH TAR: makes the clean root of a processor, by its name in Debian, from a tar file if it is not empty
begin() {
    root=$work/$1
    case $1 in amd64) processor=x86_64 ;; arm64) processor=aarch64 ;; esac
    name=postscript-proved-$version-$processor-linux
    mkdir "$root"
    if [ -n "$2" ]; then tar -xf "$2" -C "$root"; else
        local mirror
        mirror=$(apt-get indextargets --format '$(REPO_URI)' | grep -v security | sort -u | head -n 1)
        debootstrap --arch "$1" --variant=minbase bookworm "$root" "$mirror" > "$work/debootstrap.log" || { tail "$work/debootstrap.log"; exit 1; }
    fi
    cp /etc/resolv.conf "$root/etc/resolv.conf"
    mkdir -p "$root/t/out" "$root/t/tests"
    cp -r "$top/dist" "$root/t/dist"
    cp "$top/bindings/python/test_postscript.py" "$root/t/tests"
    cp "$top/bindings/font.hex" "$top/bindings/accents.hex" "$top/bindings/variable.hex" "$top/bindings/whole.hex" "$top/bindings/layout.hex" "$root/t"
    inside 'apt-get update -qq' > "$work/log" 2>&1 || { cat "$work/log"; exit 1; }
    got fonts-ebgaramond
}

# inside SCRIPT: runs a script in the clean root, in /t. There `refused COMMAND` fails unless the command does.
inside() {
    unshare --mount --pid --fork --mount-proc="$root/proc" chroot "$root" /usr/bin/env -i PATH=/usr/sbin:/usr/bin:/sbin:/bin HOME=/root \
        LC_ALL=C.UTF-8 P="$processor" DEBIAN_FRONTEND=noninteractive V="$version" N="/t/$name" F="$font" S="/t/$name/examples/small.otf" sh -euc "refused() { if \"\$@\"; then exit 1; fi; }; cd /t; $1"
}

# case_of NAME SCRIPT: passes if the script succeeds in the clean root
case_of() {
    if inside "$2" > "$work/log" 2>&1; then
        echo "passed: $1"
        passed=$((passed + 1))
        # what pages.py says
        grep -E '^not run: |examples ran' "$work/log" | sed 's/^/    /' || true
    else
        echo "FAILED: $1"
        sed 's/^/    /' "$work/log" | tail -n 40
        failed=$((failed + 1))
    fi
}

# got PACKAGE..: installs Debian packages in the clean root
got() { inside "apt-get install -y -qq --no-install-recommends $*" > "$work/log" 2>&1 || { cat "$work/log"; exit 1; }; }

begin amd64 "${DIST_TEST_ROOT:-}"
case_of 'no rt, no compiler and no Python' 'refused command -v rt; refused command -v cc; refused command -v python3'
case_of 'the checksums' 'cd dist && sha256sum --quiet -c SHA256SUMS'

# --- the archive
case_of 'the archive: psotf draws' 'tar -xzf dist/$(basename $N).tar.gz; $N/bin/psotf glyph $F --char A --json > out/archive.json'
case_of 'the archive: psotf draws a text' '$N/bin/psotf svg $F --text Hamburgefonts > text.svg; grep -q "<svg" text.svg'
case_of 'the archive: versions' 'test "$($N/bin/psotf --version)" = "psotf $V"; test "$(sed -n "s/^Version: //p" $N/lib/pkgconfig/postscript.pc)" = "$V"'
case_of 'the archive: psfont' 'test "$(printf "code 8e8c8d150e\nrun\n" | $N/bin/psfont | tr "\n" ,)" = "ok,RMoveTo 1 2,end,width 3,"'
case_of 'the archive: what is proved is said' 'grep -q "LLVM, and put together" $N/PROOF.txt; test $(grep -c "^[a-z_0-9]*: logic=proved" $N/PROOF.txt) -ge 10;
    test $(grep -c ": logic=" $N/PROOF.txt) = $(grep -c "^[a-z_0-9 ]*: logic=proved " $N/PROOF.txt)
    grep -q "^postscript_c for aarch64: logic=proved .* target=aarch64-unknown-linux-gnu" $N/PROOF.txt; grep -q "bindings/c/heap.c" $N/PROOF.txt; grep -q "^## What is proved" $N/docs/proof.md'
case_of 'the archive: psotf proof' '$N/bin/psotf proof | cmp - $N/PROOF.txt; mkdir alone; cp $N/bin/psotf alone; refused alone/psotf proof'
got gcc libc6-dev pkg-config
case_of 'the archive: a program in C, by pkg-config' 'export PKG_CONFIG_PATH=$N/lib/pkgconfig
    cc -Wall -Werror $N/examples/svg_glyph.c $(pkg-config --cflags --libs postscript) -o svg_glyph
    ./svg_glyph $F 0x41 > out/archive_c.svg; ./svg_glyph $S 0x41 > out/small_archive_c.svg'

# --- CMake
got cmake make
case_of 'CMake: the static library' 'cmake -S $N/examples -B cmake -DCMAKE_PREFIX_PATH=$N > /dev/null; cmake --build cmake > /dev/null
    cmake/svg_glyph $F 0x41 > out/cmake.svg; cmake/svg_glyph $S 0x41 > out/small_cmake.svg'
case_of 'CMake: the shared library' 'test "$(cmake/advance_shared $S 0x41)" = 500; test "$(cmake/advance $S 0x41)" = 500'
case_of 'CMake: another version is refused' 'mkdir other; printf "cmake_minimum_required(VERSION 3.13)\nproject(p C)\nfind_package(postscript 0.1 REQUIRED)\n" \
    > other/CMakeLists.txt; refused cmake -S other -B other/b -DCMAKE_PREFIX_PATH=$N > log 2>&1; grep -q "version: $V" log'
case_of 'CMake: another processor is refused' 'sed -i "s/0.1/$V/" other/CMakeLists.txt; rm -r other/b
    refused cmake -S other -B other/b -DCMAKE_PREFIX_PATH=$N -DCMAKE_SYSTEM_NAME=Linux -DCMAKE_SYSTEM_PROCESSOR=aarch64 > log 2>&1
    tr -s "\n " " " < log | grep -q "is for x86_64 and Linux, and not for aarch64"
    tar -xzf dist/postscript-proved-$V-aarch64-linux.tar.gz; rm -r other/b; refused cmake -S other -B other/b -DCMAKE_PREFIX_PATH=/t/postscript-proved-$V-aarch64-linux > log 2>&1
    tr -s "\n " " " < log | grep -q "is for aarch64 and Linux, and not for x86_64"
    rm -r other/b; cmake -S other -B other/b -DCMAKE_PREFIX_PATH=/t/postscript-proved-$V-aarch64-linux -DCMAKE_SYSTEM_NAME=Linux -DCMAKE_SYSTEM_PROCESSOR=aarch64 > log 2>&1'

# --- the wheel
got python3-venv
case_of 'the wheel: installed, and draws' 'python3 -m venv v; v/bin/pip -q install --no-index --find-links dist postscript-proved
    v/bin/python3 -c "import postscript, sys; print(\"d=\\\"%s\\\"\" % postscript.Font.open(sys.argv[1]).glyph_of(\"A\").svg_path())" $F > out/wheel.svg
    v/bin/python3 -c "import postscript, sys; print(\"d=\\\"%s\\\"\" % postscript.Font.open(sys.argv[1]).glyph_of(\"A\").svg_path())" $S > out/small_wheel.svg'
case_of 'the wheel: its tests' 'cd tests; ../v/bin/python3 -m unittest --quiet'
case_of 'the wheel: types, and the version' 'cd v/lib/python3*/site-packages; test -f postscript/py.typed; test -d postscript_proved-$V.dist-info'
case_of 'the wheel: the one of the processor is chosen' 'for wheel in dist/*_x86_64.whl dist/*_aarch64.whl; do one=$(basename $wheel .whl); rm -rf x
    v/bin/pip -q download --no-index --find-links dist --no-deps --only-binary :all: --platform ${one##*-none-} -d x postscript-proved; test "$(ls x)" = $one.whl; done'
case_of 'the wheel: another processor is refused' 'refused v/bin/pip download --no-index --find-links dist --no-deps --only-binary :all: \
    --platform manylinux_2_36_ppc64le -d x postscript-proved > log 2>&1; grep -q "No matching distribution" log'
case_of 'the wheel: an older C library is refused' 'refused v/bin/pip download --no-index --find-links dist --no-deps --only-binary :all: \
    --platform manylinux1_x86_64 -d x postscript-proved > log 2>&1; grep -q "No matching distribution" log'
case_of 'the wheel: a library of another version is refused' 'echo "unsigned psf_version(void) { return 0x010203; }" > other.c; cc -shared -o other.so other.c
    refused env POSTSCRIPT_LIBRARY=/t/other.so v/bin/python3 -c "import postscript" 2> log
    test "$(tail -n 1 log)" = "ImportError: postscript $V wants a library of its own version: /t/other.so is 1.2.3"'

# --- the crate
got cargo
main='fn main() -> Result<(), Box<dyn std::error::Error>> {
    let bytes = std::fs::read(std::env::args().nth(1).ok_or("a font is wanted")?)?;
    let font = postscript::Font::from_file(&bytes, 0)?;
    let path = font.outline(font.glyph_index(char::from(65)).ok_or("no such glyph")?)?.svg_path();
    println!("d={}{path}{}", char::from(34), char::from(34));
    Ok(())
}'
case_of 'the crate: cargo add --path' "tar -xzf dist/*.crate; cargo init -q --vcs none --name app app; cd app
    cargo add -q --offline --path ../postscript-proved-\$V; echo '$main' > src/main.rs
    cargo build -q --offline; ./target/debug/app \$F > ../out/crate.svg; ./target/debug/app \$S > ../out/small_crate.svg"
case_of 'the crate: a vendored registry' 'mkdir -p vendor vendored/.cargo; cp -r postscript-proved-$V vendor; cp -r app/src vendored
    echo "{\"files\":{},\"package\":\"$(sha256sum dist/*.crate | cut -d " " -f 1)\"}" > vendor/postscript-proved-$V/.cargo-checksum.json
    printf "[source.crates-io]\nreplace-with = \"vendored\"\n[source.vendored]\ndirectory = \"/t/vendor\"\n" > vendored/.cargo/config.toml
    printf "[package]\nname = \"app\"\nversion = \"0.1.0\"\nedition = \"2021\"\n[dependencies]\npostscript-proved = \"$V\"\n" > vendored/Cargo.toml
    cd vendored; cargo build -q --offline; ./target/debug/app $F > ../out/vendored.svg'
case_of 'the crate: its tests and its examples' 'cd postscript-proved-$V; cargo test -q --offline'
case_of 'the crate: without std' 'cd postscript-proved-$V; cargo build -q --offline --no-default-features'
case_of 'the crate: its documents have no warning' 'cd postscript-proved-$V; RUSTDOCFLAGS="-D warnings" cargo doc -q --offline'
case_of 'the crate: a library of another version is refused' "mkdir -p other_lib; sed -n 's/.*fn \(psf_[a-z_]*\)(.*/\1/p' postscript-proved-\$V/src/c.rs |
    sort -u | grep -v psf_version | sed 's/.*/int &(void) { return 39; }/' >> other.c; cc -c other.c -o other.o; ar rc other_lib/libpostscript.a other.o
    cd app; refused env POSTSCRIPT_LIB_DIR=/t/other_lib CARGO_TARGET_DIR=/t/other_target cargo run -q --offline -- \$F 2> ../log
    grep -q OtherVersion ../log"
case_of 'the crate: another processor is refused' 'rustc -o build_rs postscript-proved-$V/build.rs
    for one in x86_64 aarch64; do CARGO_MANIFEST_DIR=/t/postscript-proved-$V CARGO_CFG_TARGET_ARCH=$one CARGO_CFG_TARGET_OS=linux ./build_rs | grep -q "native=/t/postscript-proved-$V/lib/$one-linux$"; done
    refused env CARGO_MANIFEST_DIR=/t/postscript-proved-$V CARGO_CFG_TARGET_ARCH=riscv64 CARGO_CFG_TARGET_OS=linux ./build_rs > log 2>&1
    grep -q "no library for riscv64 and linux; it has aarch64-linux, x86_64-linux" log'

# --- Debian's packages
case_of 'the packages: what they want' 'for one in amd64 arm64; do for deb in dist/lib*_$one.deb; do test "$(dpkg-deb -f $deb Architecture)" = $one; done; done
    test "$(dpkg-deb -f dist/psotf_*.deb Architecture)" = amd64
    for deb in dist/psotf_*.deb dist/libpostscript-proved0_*.deb; do dpkg-deb -f $deb Depends | grep -q "^libc6 (>= 2\.[0-9]*)"; done'
case_of 'the packages: those of two processors share their files' 'for one in amd64 arm64; do mkdir -p two/$one; for deb in dist/lib*_$one.deb; do
    dpkg-deb -x $deb two/$one; done; done; diff -r two/amd64/usr/share two/arm64/usr/share; diff -r two/amd64/usr/include two/arm64/usr/include'
case_of 'the packages: installed' 'apt-get install -y -qq --no-install-recommends ./dist/*_amd64.deb ./dist/*_all.deb; psotf glyph $F --char A --json > out/packages.json; psotf proof | cmp - $N/PROOF.txt'
case_of 'the packages: a program in C' 'cc $N/examples/svg_glyph.c $(pkg-config --cflags --libs postscript) -o shared; ldd shared | grep -q libpostscript.so.0
    ./shared $F 0x41 > out/packages_c.svg; ./shared $S 0x41 > out/small_packages_c.svg'
case_of 'the packages: Python' 'python3 -c "import postscript, sys; print(\"d=\\\"%s\\\"\" % postscript.Font.open(sys.argv[1]).glyph_of(\"A\").svg_path())" \
    $F > out/packages_python.svg; cd tests; python3 -m unittest --quiet'
case_of 'the packages: CMake' 'cmake -S $N/examples -B cmake_packages > /dev/null; cmake --build cmake_packages > /dev/null
    test "$(cmake_packages/advance_shared $S 0x41)" = 500; grep -q "^postscript_DIR:PATH=/usr/lib" cmake_packages/CMakeCache.txt'
# the pages of the repository, and the script that runs them, in the layout of the repository
mkdir "$root/t/pages"
(cd "$top" && cp -r --parents README.md docs bindings/*/README.md tools/bindings/pages.py "$root/t/pages")
got librsvg2-bin woff2 fonttools
case_of 'the documents: each example, with the commands that install' 'python3 pages/tools/bindings/pages.py --installed dist'
case_of 'the documents: what the lines of README print' 'mkdir reader; cp $F reader/Font.otf; ln -s /t/v reader/v; cd reader
    sed -n "/^## Use/,/^\`\`\`/s/^    //p" $N/README.md > lines; test $(wc -l < lines) = 2; sh -eu lines > told; grep -q "<svg" hello.svg; test -s hello.png; grep -q "^M.*Z$" told
    printf wOF2 > wanted; psotf subset Font.otf --text Hello -o Hello.otf; woff2_compress Hello.otf; head -c 4 Hello.woff2 | cmp - wanted'
case_of 'the links of the documents' 'cd $N; for page in *.md docs/*.md docs/*/*.md; do grep -o "](\([^)#]*\)" $page | sed "s/^](//" | grep -v "://" | while read -r link; do
    test -z "$link" || test -e "$(dirname $page)/$link" || { echo "$page: $link"; exit 1; }; done; done'
got man-db bash zsh fish
case_of 'manual pages: no warning' 'for page in $N/share/man/man*/*; do MANROFFSEQ= man --warnings -E UTF-8 -l -Tutf8 -Z $page > /dev/null 2> log; cat log; refused test -s log; done'
case_of 'manual pages: each option' 'for c in inspect glyph svg sheet report flat instance subset; do psotf $c --help | grep -o -e "--[a-z-]*" | sort -u | while read -r o; do
    sed "s/\\\\-/-/g" $N/share/man/man1/psotf.1 | grep -q -e "$o"; done; done'
case_of 'completions: bash' 'cat > complete.bash << "END"
source /usr/share/bash-completion/completions/psotf
COMP_WORDS=(psotf glyph --) COMP_CWORD=2; _psotf; echo "${COMPREPLY[*]}"
END
    test "$(bash complete.bash | tr " " "\n" | sort)" = "$(psotf glyph --help | grep -o -e "^ .*--[a-z]*" | grep -o -e "--[a-z]*" | sort)"'
case_of 'completions: fish' 'test "$(fish --no-config -c "source /usr/share/fish/vendor_completions.d/psotf.fish; complete -C \"psotf glyph --\"" | cut -f 1 | sort)" = \
    "$(psotf glyph --help | grep -o -e "^ .*--[a-z]*" | grep -o -e "--[a-z]*" | sort)"'
case_of 'completions: zsh' 'zsh -n /usr/share/zsh/vendor-completions/_psotf; zsh -n /usr/share/zsh/vendor-completions/_psfont'
case_of 'the packages: removed' 'apt-get purge -y -qq psotf libpostscript-proved0; refused test -e /usr/bin/psotf; refused test -e /usr/include/postscript.h
    refused test -e /usr/lib/python3/dist-packages/postscript'

# --- aarch64
letters='cd /usr/share/fonts/opentype; ls $PWD/ebgaramond/*.otf | head -n 5 > /t/fonts; ls $PWD/freefont/*.otf | tail -n 5 >> /t/fonts; cd /t
    for font in $(cat fonts); do
    for code in $(seq 33 126) $(seq 192 255); do echo "$font $code"; ./svg_glyph $font $code || echo "status $?"; done; done > out/$P.drawings
    test $(grep -c "^/" out/$P.drawings) = 1580; test $(grep -c "<svg" out/$P.drawings) -ge 1400'
got fonts-freefont-otf
case_of 'ten fonts: 158 characters of each are drawn, x86_64' "$letters"
cp -r "$work/amd64/t/out" "$work/out"
if [ "${DIST_TEST_ONLY:-}" != amd64 ]; then
    begin arm64 "${DIST_TEST_ROOT_ARM64:-}"
    case_of 'aarch64: no rt, no compiler and no Python' 'test $(uname -m) = aarch64; refused command -v rt; refused command -v cc; refused command -v python3'
    got gcc libc6-dev pkg-config cmake make fonts-freefont-otf
    # unpacked from outside, since on some kernels tar cannot change the modes of folders under qemu
    for file in "$root/t/dist/$name.tar.gz" "$root"/t/dist/*.crate; do tar -xzf "$file" -C "$root/t"; done
    case_of 'aarch64: the archive: a program in C, by pkg-config' 'export PKG_CONFIG_PATH=$N/lib/pkgconfig
        cc -Wall -Werror $N/examples/svg_glyph.c -o svg_glyph $(pkg-config --cflags --libs postscript)
        ./svg_glyph $F 0x41 > out/arm64_archive_c.svg; ./svg_glyph $S 0x41 > out/small_arm64_archive_c.svg'
    case_of 'ten fonts: 158 characters of each are drawn, aarch64' "$letters"
    case_of 'aarch64: CMake' 'cmake -S $N/examples -B cmake -DCMAKE_PREFIX_PATH=$N > /dev/null; cmake --build cmake > /dev/null
        cmake/svg_glyph $F 0x41 > out/arm64_cmake.svg; test "$(cmake/advance_shared $S 0x41)" = 500; test "$(cmake/advance $S 0x41)" = 500'
    got python3-venv
    case_of 'aarch64: the wheel: installed, and draws' 'python3 -m venv v; v/bin/pip -q install --no-index --find-links dist postscript-proved
        v/bin/python3 -c "import postscript, sys; print(\"d=\\\"%s\\\"\" % postscript.Font.open(sys.argv[1]).glyph_of(\"A\").svg_path())" $F > out/arm64_wheel.svg'
    case_of 'aarch64: the wheel: its tests' 'cd tests; ../v/bin/python3 -m unittest --quiet'
    case_of 'aarch64: the packages: installed' 'apt-get install -y -qq --no-install-recommends ./dist/lib*_arm64.deb ./dist/*_all.deb
        dpkg-deb -f dist/libpostscript-proved0_*_arm64.deb Depends | grep -q "^libc6 (>= 2\.[0-9]*)"'
    case_of 'aarch64: the packages: a program in C' 'cc $N/examples/svg_glyph.c $(pkg-config --cflags --libs postscript) -o shared; ldd shared | grep -q libpostscript.so.0
        ./shared $F 0x41 > out/arm64_packages_c.svg'
    case_of 'aarch64: the packages: Python' 'cd tests; python3 -m unittest --quiet'
    got cargo
    case_of 'aarch64: the crate: cargo add --path' "cargo init -q --vcs none --name app app; cd app
        cargo add -q --offline --path ../postscript-proved-\$V; echo '$main' > src/main.rs
        cargo build -q --offline; ./target/debug/app \$F > ../out/arm64_crate.svg"
    case_of 'aarch64: the crate: its tests and its examples' 'cd postscript-proved-$V; cargo test -q --offline'
    cp -r "$work/arm64/t/out/." "$work/out"
    if cmp "$work/out/x86_64.drawings" "$work/out/aarch64.drawings"; then
        echo 'passed: 1580 drawings of ten fonts: the same bytes on x86_64 and aarch64'
        passed=$((passed + 1))
    else
        failed=$((failed + 1))
    fi
fi

# --- all of them draw the same glyph
if python3 - "$work/out" << 'END'; then passed=$((passed + 1)); else failed=$((failed + 1)); fi
import json, pathlib, re, sys

WANTED = 'M0 0L250 700L500 0Z'


def path(file):
    """Letters and numbers of a path, from an SVG or from what psotf tells."""
    text = file.read_text()
    if file.suffix == ".json":
        pieces = [piece for segment in json.loads(text)["segments"] for piece in segment]
        text = " ".join(map(str, pieces))
    else:
        text = re.search(r'\bd="([^"]*)"', text)[1]
    return [word if word.isalpha() else float(word) for word in re.findall(r"[MLCZ]|-?[\d.]+(?:e-?\d+)?", text)]


files = sorted(it for it in pathlib.Path(sys.argv[1]).iterdir() if it.suffix != ".drawings")
small = [file for file in files if file.name.startswith("small_")]
real = [file for file in files if file not in small]
wanted = path(pathlib.Path(sys.argv[1]) / "archive.json")
print(f"one glyph: by {', '.join(file.stem for file in real)}: {len(wanted)} letters and numbers")
differ = [file.name for file in real if path(file) != wanted] + [file.name for file in small if path(file) != [
    word if word.isalpha() else float(word) for word in re.findall(r"[MLCZ]|-?[\d.]+", WANTED)]]
print(f"FAILED: {differ} differ" if differ else "passed: the same outline by each")
sys.exit(1 if differ or len(real) < 8 or len(small) < 5 or len(wanted) < 50 else 0)
END

# --- on this machine
if "$top/tools/dist/install.sh" "$work/installed" && "$work/installed/bin/psotf" proof | grep -q ': logic=proved' && test "$("$work/installed/bin/psotf" --version)" = "psotf $version" &&
    cc "$work/installed/share/doc/postscript-proved/examples/advance.c" $(PKG_CONFIG_PATH=$work/installed/lib/pkgconfig pkg-config --cflags --libs postscript) -o "$work/advance" &&
    test "$("$work/advance" "$work/installed/share/doc/postscript-proved/examples/small.otf" 0x41)" = 500; then
    echo 'passed: make install'
    passed=$((passed + 1))
else
    echo 'FAILED: make install'
    failed=$((failed + 1))
fi
# changed NAME EDIT: passes if abi.sh fails after the header in the archives of dist/ is edited
changed() {
    rm -rf "$work/changed"
    mkdir -p "$work/changed/dist"
    for archive in "$top"/dist/*.tar.gz; do
        tar -xzf "$archive" -C "$work/changed"
        sed -i "$2" "$work/changed"/*/include/postscript.h
        tar -czf "$work/changed/dist/$(basename "$archive")" -C "$work/changed" "$(basename "$archive" .tar.gz)"
        if cmp -s "$top/bindings/c/postscript.h" "$work/changed/$(basename "$archive" .tar.gz)/include/postscript.h"; then return 1; fi
    done
    ! "$top/tools/dist/abi.sh" "$top/dist" "$work/changed/dist" > "$work/log" 2>&1 && grep -q '^abi: NOT compatible' "$work/log"
}
if "$top/tools/dist/abi.sh" "$top/dist" > "$work/log" 2>&1 && changed 'a field' 's/    uint32_t is_cid; .*/    uint64_t is_cid;/' &&
    changed 'a parameter' 's/size_t face, uint32_t tag/size_t face, uint64_t tag/' && changed 'a constant' 's/PSF_NO_MAP = 37/PSF_NO_MAP = 137/'; then
    echo 'passed: abi.sh: the same library is compatible; not so with another field, parameter or constant'
    passed=$((passed + 1))
else
    echo 'FAILED: abi.sh'
    cat "$work/log"
    failed=$((failed + 1))
fi
for check in "$top/tools/gate/version.sh" "$top/tools/dist/leaks.sh $top/dist"; do
    if $check; then echo "passed: ${check#"$top/"}"; passed=$((passed + 1)); else echo "FAILED: $check"; failed=$((failed + 1)); fi
done
echo "$passed passed, $failed failed"
[ "$failed" = 0 ]
