#!/bin/sh
# Builds the bindings for C, Rust and Python, and runs all their tests.
#
#     tools/bindings/bindings.sh
#
# The tests use the small font in bindings/font.hex and, if they are installed, the fonts of fonts-ebgaramond and fonts-freefont-otf. The
# glyphs of these are compared with fontTools if python3-fonttools is installed. The Python tests run twice, the second time in an empty
# virtual environment. Nothing is downloaded. The status is 1 if a test fails.
#
# Needs `rt` on the path, and Debian's gcc, make, cargo and python3.
set -e
top=$(cd "$(dirname "$0")/../.." && pwd)
"$top/tools/gate/version.sh"
(cd "$top/crates/postscript_c" && rt lib > /dev/null)
make --no-print-directory -s -C "$top/bindings/c" check
cargo test --quiet --offline --all-targets --manifest-path "$top/bindings/rust/Cargo.toml"
cargo test --quiet --offline --doc --manifest-path "$top/bindings/rust/Cargo.toml"
cargo build --quiet --offline --no-default-features --lib --manifest-path "$top/bindings/rust/Cargo.toml"
RUSTDOCFLAGS='-D warnings' cargo doc --quiet --offline --manifest-path "$top/bindings/rust/Cargo.toml"
cd "$top/bindings/python"
if command -v mypy > /dev/null; then mypy --strict postscript > /dev/null; fi
python3 -m unittest --quiet
bare=$(mktemp -d)
trap 'rm -r "$bare"' EXIT
python3 -m venv --without-pip "$bare"
"$bare/bin/python3" -m unittest --quiet
echo 'the bindings for C, Rust and Python: all tests passed'
