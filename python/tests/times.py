"""Measures what docs/BENCH.md says: how long many jobs take by each executor, and a million samples to an array.

    PYTHONPATH=python python3 python/tests/times.py [JOBS]
"""
import concurrent.futures
import os
import sys
import time
from importlib import import_module
from typing import Any, Callable, Dict

from test_jobs import many_samples
from test_sweeping import make_job, processes
from zendrouz import replay, sweep

WORKERS = len(os.sched_getaffinity(0))


def dask() -> Any:
    return import_module("distributed").Client(n_workers=WORKERS, threads_per_worker=1, dashboard_address=None).get_executor()


def mpi() -> Any:
    os.environ.update(OMPI_ALLOW_RUN_AS_ROOT="1", OMPI_ALLOW_RUN_AS_ROOT_CONFIRM="1", OMPI_MCA_rmaps_base_oversubscribe="1")
    return import_module("mpi4py.futures").MPIPoolExecutor(WORKERS, main=False, path=sys.path)


EXECUTORS: Dict[str, Callable[[], Any]] = {
    "threads": lambda: concurrent.futures.ThreadPoolExecutor(WORKERS),
    "processes": lambda: processes(WORKERS),
    "Dask": dask, "MPI": mpi}


def measure_jobs(count: int) -> None:
    """Sweeps so many jobs by each executor, and compares the rows."""
    wanted = None
    for name, executor in EXECUTORS.items():
        try:
            with executor() as pool:
                pool.submit(abs, -1).result()
                start = time.monotonic()
                rows = sweep(lambda number: make_job(1000, 1000 + number), {"number": range(count)}, executor=pool, progress=False)
                seconds = time.monotonic() - start
        except ImportError as missing:
            print("%s: %s" % (name, missing))
            continue
        wanted = wanted or rows
        print("%s: %d jobs in %.1f s, %s rows" % (name, count, seconds, "the same" if rows == wanted else "OTHER"), flush=True)


def measure_samples() -> None:
    """Replays a million samples into an array."""
    job = str(many_samples(1_000_000, 1000))
    for _ in range(3):
        start = time.monotonic()
        levels = replay(job).samples(0).to_numpy()
        print("%d samples in %.2f s" % (len(levels), time.monotonic() - start))


if __name__ == "__main__":
    measure_samples()
    measure_jobs(int(sys.argv[1]) if len(sys.argv) > 1 else 10_000)
