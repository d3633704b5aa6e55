#!/usr/bin/env python3
"""Inspects many fonts, on this machine or on a Dask cluster, and writes a CSV file with one row for each font, in their order.

    corpus.py LIST -o ROWS.csv                      # on all processors of this machine
    corpus.py LIST -o ROWS.csv --dask tcp://HOST:8786

LIST has the path of a font on each line; - is standard input. The rows come from `psotf inspect`, so every machine needs `psotf`, and must
see the fonts under these paths. The column `error` says why a file is rejected, and `strict` why the strict reader rejects its CFF table.
One process inspects a batch of fonts. If a font ends it, for example at the limit of memory, the font gets a row with an error, and a new
process inspects the rest of the batch.

For Dask, install Debian's python3-distributed. A batch whose worker dies is inspected again by another one.
"""
import argparse
import concurrent.futures
import csv
import functools
import json
import os
import subprocess
import sys

COLUMNS = [
    "file", "error", "family", "style", "units_per_em", "glyphs", "characters", "axes", "instances", "is_cid", "hinted",
    "costliest", "cost", "global_subroutines", "local_subroutines", "strict", "features",
]  # fmt: skip


def row_of(path, told):
    """Returns the row of a font from what `psotf inspect --json` prints."""
    row = {**told, **told.get("cff", {}), "file": path}
    if "error" not in told:
        row["axes"] = " ".join(axis["tag"] for axis in told.get("axes", []))
        row["instances"] = len(told.get("instances", []))
        row["local_subroutines"] = sum(row.get("local_subroutines", []))
        row["features"] = " ".join(sorted({tag for table in told["layout"].values() for tag in table["features"]}))
        row["strict"] = (row.get("strict") or {}).get("message")
    return {column: row.get(column) for column in COLUMNS}


def told_of(paths, psotf, memory):
    """Returns what one process prints about the first of these fonts, up to all of them, and its status."""
    command = ["prlimit", f"--as={memory}", psotf, "inspect", "--json", "--files-from", "-"]
    ended = subprocess.run(command, input="".join(f"{path}\n" for path in paths), capture_output=True, text=True)
    lines = ended.stdout.splitlines(keepends=True)
    return [json.loads(line) for line in lines if line.endswith("\n")], ended.returncode


def rows_of(paths, psotf="psotf", memory=1 << 30):
    """Returns the rows of these fonts, in their order."""
    rows = []
    while len(rows) < len(paths):
        rest = paths[len(rows) :]
        told, status = told_of(rest, psotf, memory)
        rows += map(row_of, rest, told)
        if len(told) < len(rest):
            rows.append(row_of(rest[len(told)], {"error": f"psotf ended with status {status}"}))
    return rows


def batches_of(paths, size):
    return [paths[i : i + size] for i in range(0, len(paths), size)]


def on_this_machine(work, batches):
    """Yields the rows of each batch, in order. The work is done by processes, and a thread waits for each."""
    with concurrent.futures.ThreadPoolExecutor(len(os.sched_getaffinity(0))) as pool:
        yield from pool.map(work, batches)


def on_cluster(client, work, batches):
    """Yields the rows of each batch, in order, from the workers of a Dask client."""
    for future in client.map(work, batches, pure=False):
        yield future.result()


def main():
    parser = argparse.ArgumentParser(description=__doc__, formatter_class=argparse.RawDescriptionHelpFormatter)
    parser.add_argument("list", type=argparse.FileType("r"))
    parser.add_argument("-o", "--output", type=argparse.FileType("w"), required=True)
    parser.add_argument("--dask", metavar="ADDRESS", help="the address of a Dask scheduler")
    parser.add_argument("--psotf", default="psotf", help="the program (default: psotf on the path)")
    parser.add_argument("--batch", type=int, default=32, help="the number of fonts of a batch (default: 32)")
    parser.add_argument("--memory", type=int, default=1 << 30, help="the bytes of memory of a process (default: 1 GB)")
    asked = parser.parse_args()
    batches = batches_of(asked.list.read().splitlines(), asked.batch)
    work = functools.partial(rows_of, psotf=asked.psotf, memory=asked.memory)
    if asked.dask:
        import distributed

        results = on_cluster(distributed.Client(asked.dask), work, batches)
    else:
        results = on_this_machine(work, batches)
    writer = csv.DictWriter(asked.output, COLUMNS)
    writer.writeheader()
    rejected = 0
    for rows in results:
        writer.writerows(rows)
        rejected += sum(row["error"] is not None for row in rows)
    if rejected:
        sys.exit(f"corpus.py: fonts with errors: {rejected}")


if __name__ == "__main__":
    main()
