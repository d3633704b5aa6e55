#!/bin/sh
# Checks that two builds of the current commit are byte-identical. `make dist` runs in two new clones, in folders of different names, and
# each file of dist/ is compared.
#
#     tools/dist/reproducible.sh
#
# Proofs that `rt` kept are reused. The status is 1 if a file differs.
. "$(dirname "$0")/env.sh"
unset SOURCE_DATE_EPOCH
work=$(mktemp -d)
trap 'rm -rf "$work"' EXIT
for clone in first the-second-one; do
    git clone --quiet "$top" "$work/$clone"
    (cd "$work/$clone" && make --no-print-directory -s dist > "$work/$clone.log" 2>&1) || {
        cat "$work/$clone.log"
        exit 1
    }
    rm -rf "$work/$clone/crates"/*/out
done
(cd "$work/first/dist" && sha256sum -c SHA256SUMS)
diff -r "$work/first/dist" "$work/the-second-one/dist"
echo "two builds of $commit: the same bytes"
