#!/usr/bin/python3
"""Inspects fonts with bindings/python/examples/corpus.py in one process, by all processors, and by two Dask workers, and compares the rows.

    (cd crates/psotf && rt run -- --help)
    tools/evidence/corpus.py FONTS..

FONTS are files, folders or names of Debian packages. A missing file, a text and a cut font are added. Then the same is done by two
workers of which one is killed after the first batch, and by a program that ends at once. The script runs crates/psotf/out/psotf, or the
program in the environment variable PSOTF. It prints the fonts per second. Nothing is random. The exit status is 1 if the rows of two runs
differ, or if a font has no row where the program ends.

Needs Debian's python3-distributed and python3-fonttools.
"""

import functools
import itertools
import os
import pathlib
import signal
import sys
import tempfile
import time

import distributed

sys.dont_write_bytecode = True
TOP = pathlib.Path(__file__).resolve().parents[2]
sys.path[:0] = [str(TOP / "tools"), str(TOP / "bindings" / "python" / "examples")]

import corpus
from building import PSOTF
from font_files import files_of


def spoiled(folder, font):
    """Returns the paths of files that no reader accepts."""
    text, cut = folder / "text.otf", folder / "cut.otf"
    text.write_text("not a font\n")
    content = pathlib.Path(font).read_bytes()
    cut.write_bytes(content[: len(content) // 2])
    return [str(text), str(folder / "missing.otf"), str(cut)]


def timed(name, results, fonts):
    began = time.monotonic()
    rows = list(itertools.chain.from_iterable(results))
    print(f"{name}: {len(rows)} rows, {fonts / (time.monotonic() - began):.0f} fonts per second", flush=True)
    return rows


def with_a_kill(client, work, batches):
    """Yields the rows of each batch. After the first one, a worker process is killed."""
    results = corpus.on_cluster(client, work, batches)
    yield next(results)
    os.kill(next(iter(client.run(os.getpid).values())), signal.SIGKILL)
    yield from results


def main():
    fonts = list(files_of(*sys.argv[1:]))
    if not fonts:
        sys.exit(__doc__)
    with tempfile.TemporaryDirectory() as folder:
        paths = fonts + spoiled(pathlib.Path(folder), fonts[0])
        work = functools.partial(corpus.rows_of, psotf=str(PSOTF))
        batches = corpus.batches_of(paths, 8)
        count = len(paths)
        alone = timed("one process", map(work, batches), count)
        runs = [timed("all processors", corpus.on_this_machine(work, batches), count)]
        with distributed.LocalCluster(2, threads_per_worker=1, dashboard_address=None) as cluster:
            with distributed.Client(cluster) as client:
                client.upload_file(corpus.__file__)
                runs.append(timed("two workers", corpus.on_cluster(client, work, batches), count))
                runs.append(timed("two workers, one killed", with_a_kill(client, work, batches), count))
        ended = corpus.rows_of(paths[:3], "false")
    errors = sum(row["error"] is not None for row in alone)
    print(f"{errors} fonts with errors; {sum(rows != alone for rows in runs)} of {len(runs)} runs differ")
    fails = any(rows != alone for rows in runs) or [row["file"] for row in alone] != paths
    sys.exit(fails or [row["file"] for row in ended if row["error"]] != paths[:3])


if __name__ == "__main__":
    main()
