#!/bin/sh
# Proves and builds the libraries for each processor and the programs of a release, and writes to the file OUT how they were proved.
#
#     tools/dist/prove.sh OUT [LOG..]
#
# The crates are postscript_c, psotf and psfont, and those that they use by crates.txt. Results that `rt` kept are reused; from scratch it
# takes about an hour. RT_JOBS sets the number of jobs of each check. The verdicts are those of `rt check`, which this script runs for each
# crate, or if there are LOGs, the last ones in these logs of `rt ci`. Then the programs are those that `rt ci` kept for these sources.
. "$(dirname "$0")/env.sh"
out=$1
shift
crates='postscript_c psotf psfont'
while :; do
    more=$(for crate in $crates; do echo "$crate"; sed -n "s/^$crate\( staticlib\)\?://p" "$top/crates.txt"; done | tr ' ' '\n' | sort -u |
        while read -r crate; do if grep -q "^$crate\( staticlib\)\?:" "$top/crates.txt"; then echo "$crate"; fi; done | tr '\n' ' ')
    if [ "$more" = "$crates" ]; then break; fi
    crates=$more
done
# in the order of crates.txt, the lowest first
crates=$(sed -n 's/^\([a-z0-9_]*\)\( staticlib\)\?:.*/\1/p' "$top/crates.txt" | while read -r crate; do
    case " $crates " in *" $crate "*) echo "$crate" ;; esac
done)

# With logs, `rt ci` must have proved just these sources: it keeps the programs only then.
if [ $# -gt 0 ] && ! "$top/tools/gate/libraries.py" | grep -E '^(psotf|psfont): given$' | wc -l | grep -qx 2; then
    echo "rt ci has not proved psotf and psfont as they are here" >&2
    exit 1
fi
(cd "$top/crates/postscript_c" && rt lib ${RT_JOBS:+--jobs "$RT_JOBS"} > /dev/null)
make --no-print-directory -s -C "$top/bindings/c"
make --no-print-directory -s -C "$top/bindings/c" aarch64
# verdict CRATE LOG..: the last verdict of a crate in logs of `rt ci`
verdict() { crate=$1; shift; awk -v want="== $crate" '/^== /{on = ($0 == want)} on && /^logic=/{last = $0} END{print last}' "$@"; }
if [ $# -eq 0 ]; then
    (cd "$top/crates/psotf" && rt run ${RT_JOBS:+--jobs "$RT_JOBS"} -- --version > /dev/null)
    (cd "$top/crates/psfont" && rt run ${RT_JOBS:+--jobs "$RT_JOBS"} < /dev/null > /dev/null)
fi
if [ -n "$(git -C "$top" status --porcelain)" ]; then commit="$commit, and changes that are not committed"; fi
filled "$top/tools/dist/PROOF.in" "COMMIT=$commit" "KIT=$(rt version)" "COMPILER=$(aarch64-linux-gnu-gcc --version | head -n 1)" > "$out"
for crate in $crates; do
    if [ $# -gt 0 ]; then
        verdict "$crate" "$@" > "$out.check"
        grep -q '^logic=' "$out.check" || { echo "no verdict on $crate in $*" >&2; exit 1; }
    elif ! (cd "$top/crates/$crate" && rt check ${RT_JOBS:+--jobs "$RT_JOBS"} > "$out.check" 2>&1); then
        cat "$out.check"
        exit 1
    fi
    printf '%s: %s sources=%s\n' "$crate" "$(tail -n 1 "$out.check")" "$("$top/tools/dist/sbom.py" --sources "$crate")" >> "$out"
done
rm "$out.check"
printf 'postscript_c for aarch64: %s\n' "$(cat "$top/bindings/c/build/aarch64/verdict")" >> "$out"
