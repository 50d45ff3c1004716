"""What `campaign` and `flights` share: the file of results, the batches on the workers of Dask, and the options for them."""

import contextlib
import csv
import importlib
import io
import logging
import os
import pathlib
import shutil
import sys
import tempfile
import warnings
from concurrent.futures import CancelledError

PATIENCE = 15  # seconds for a scheduler to answer, and for it to have a worker

UNWATCHED = {
    "distributed.worker.profile.enabled": False,
    "distributed.admin.tick.interval": "1s",
    "distributed.admin.system-monitor.interval": "10s",
}
"""Settings of Dask for a local cluster, whose dashboard nobody opens. By default each worker samples its stack a hundred times a
second, and each process checks itself fifty times a second, which takes an eighth of a flight's time."""


class Mistake(Exception):
    """A wrong argument or file; its text says what to do."""


def require_module(program, name, package):
    """Refuses to begin without a module, and names the package that has it."""
    try:
        importlib.import_module(name)
    except ImportError as error:
        raise Mistake(
            f"this Python ({sys.executable}) cannot import {name}: {error}. Install Debian's {package}, and run {program} by /usr/bin/python3"
        ) from error


def add_options(parser, what, size, csv_file):
    """Adds the options for results and workers to a parser."""
    parser.add_argument("--csv", default=csv_file, help=f"the file of results, default {csv_file}")
    parser.add_argument("--png", help="also draw the results into this file; needs matplotlib")
    parser.add_argument("--batch", type=int, default=size, help=f"{what} in a batch, default {size}")
    parser.add_argument("--workers", type=int, default=os.cpu_count(), help="workers of a local cluster")
    parser.add_argument("--scheduler", metavar="ADDRESS", help="use this dask scheduler, such as tcp://10.0.0.1:8786")


class ResultFile:
    """The CSV file: its first line names what is run, the second the columns, then comes a row for each run that has ended.
    The first columns, `width` of them, tell the rows from each other."""

    def __init__(self, path, program, key, columns, is_row, width):
        self.path, self.program = path, program
        self.head = [f"# {program} {key}", ",".join(columns)]
        self.width = width
        self.rows = {}
        if os.path.exists(path) and os.path.getsize(path):
            self.read(is_row)
        else:
            self.append_lines(self.head)

    def read(self, is_row):
        """Reads the rows of an earlier run; a last line that was cut off is dropped. A file without rows is replaced."""
        begin = f"# {self.program} "
        try:
            text = pathlib.Path(self.path).read_text("ascii")
        except UnicodeDecodeError as error:
            raise Mistake(f"{self.path} was not written by {self.program}: its byte {error.start} is not ASCII. Name another --csv") from error
        whole = text[: text.rfind("\n") + 1]
        lines = whole.splitlines()
        if len(lines) == 2 and lines[0].startswith(begin) and lines[1] == self.head[1]:
            lines = self.head
            whole = "".join(line + "\n" for line in lines)
        if not text.startswith(begin):
            raise Mistake(f"{self.path} was not written by {self.program}: line 1 does not begin with '{begin.strip()}'. Name another --csv")
        if lines[:2] != self.head:
            raise Mistake(f"{self.path} holds the results of other files or options. Name another --csv")
        for number, line in enumerate(lines[2:], 3):
            if not is_row(line):
                raise Mistake(f"{self.path}, line {number}: not a row of {self.program}: {self.head[1]}. Mend it, or name another --csv")
        if whole != text:
            pathlib.Path(self.path).write_text(whole)
        for row in csv.reader(lines[2:]):
            self.rows[tuple(row[: self.width])] = row

    def append(self, rows):
        """Keeps the rows of a batch, on the disk as well."""
        for row in rows:
            self.rows[tuple(row[: self.width])] = row
        self.append_lines([line_of(row) for row in rows])

    def append_lines(self, lines):
        with open(self.path, "a") as file:
            file.write("".join(line + "\n" for line in lines))
            file.flush()
            os.fsync(file.fileno())

    def sort(self, places):
        """Puts the rows into the order of their places. The file is replaced as a whole."""
        beside = f"{self.path}.sorted"
        with open(beside, "w") as file:
            file.write("".join(line + "\n" for line in [*self.head, *(line_of(self.rows[place]) for place in places)]))
            file.flush()
            os.fsync(file.fileno())
        os.replace(beside, self.path)


def line_of(row):
    """Returns a row as a line of CSV."""
    text = io.StringIO()
    csv.writer(text, lineterminator="").writerow(row)
    return text.getvalue()


def batches_of(runs, size):
    """Returns the runs in batches."""
    return [runs[at : at + size] for at in range(0, len(runs), size)]


def run_batches(options, run_batch, setup, batches, results):
    """Runs each batch by `run_batch(setup, batch)`, which returns its rows, on a worker. Yields how many rows came."""
    from distributed import KilledWorker, as_completed

    if not batches:
        return
    with cluster_of(options) as cluster, connected(cluster) as client:
        there = client.scatter(setup, broadcast=True)
        futures = [client.submit(run_batch, there, batch, pure=False, retries=3) for batch in batches]
        for future in as_completed(futures):
            try:
                rows = future.result()
            except (CancelledError, KilledWorker):
                raise Mistake("workers are lost again and again; begin it again with the same --csv to continue") from None
            results.append(rows)
            future.release()
            yield len(rows)


@contextlib.contextmanager
def cluster_of(options):
    """Returns the address of the scheduler, or a cluster on this machine for as long as it is used."""
    if options.scheduler:
        yield options.scheduler
        return
    import dask.config
    from distributed import LocalCluster

    folder = tempfile.mkdtemp()
    how = {"dashboard_address": ":0", "local_directory": folder, "silence_logs": 50}
    try:
        with dask.config.set(UNWATCHED), LocalCluster(n_workers=options.workers, threads_per_worker=1, **how) as cluster:
            yield cluster
    finally:
        shutil.rmtree(folder, ignore_errors=True)


def connected(cluster):
    """Returns a client of a cluster, or of the scheduler at an address, if it has a worker."""
    from distributed import Client

    try:
        client = Client(cluster, timeout=PATIENCE)
    except (ValueError, OSError) as error:  # no address, or nobody is there
        raise Mistake(f"--scheduler {cluster}: {error}") from None
    try:
        client.wait_for_workers(1, timeout=PATIENCE)
    except Exception as error:  # its class differs from version to version
        client.close()
        raise Mistake(f"--scheduler {cluster}: it has no worker: `dask worker {cluster}` starts one") from error
    return client


def show_progress(done, total):
    """Shows on a terminal how many runs have ended."""
    if sys.stderr.isatty():
        bar = "#" * (40 * done // total)
        print(f"\r[{bar:40}] {done} of {total}", end="\n" if done == total else "", file=sys.stderr, flush=True)


def be_quiet_about_dask():
    """Has Dask, Tornado and asyncio print nothing. If Dask stops its event loop while one of its tasks waits or has just failed, as on a
    busy machine, asyncio logs that, and Python warns of a coroutine that was not awaited. No user can do anything about either."""
    logging.disable()
    warnings.filterwarnings("ignore", "coroutine .* was never awaited", RuntimeWarning)


def main_or_sentence(program, main):
    """Runs main. A mistake, a run that failed, and Control-C end the program with a sentence, and nothing else."""
    be_quiet_about_dask()
    try:
        main()
    except (Mistake, RuntimeError) as error:
        sys.exit(f"{program}: {error}")
    except OSError as error:
        place = f"{error.filename}: " if error.filename else ""
        sys.exit(f"{program}: {place}{error.strerror or error}")
    except KeyboardInterrupt:
        sys.exit(f"{program}: stopped; begin it again with the same --csv to continue")
