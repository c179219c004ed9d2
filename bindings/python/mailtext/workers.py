"""Mails read on all cores, or by the workers of a cluster. A worker that ends takes no mail with it."""

from __future__ import annotations

import os
from collections.abc import Iterator
from contextlib import suppress
from importlib import import_module
from itertools import islice
from multiprocessing import Pipe, Process
from multiprocessing.connection import wait
from signal import SIG_IGN, SIGINT, signal
from typing import Any

from .options import Options
from .reading import Batch, Read, alone, lost, read_batch

# So many batches wait for each worker of a cluster.
WAITING = 3
ENDED = "the process that read it ended"
# How long a scheduler may take to answer.
SECONDS = 5


class NoCluster(Exception):
    """There is no cluster to read mails."""


class Worker:
    """A process that reads one batch after another. If it ends, its batch is known, and another process takes its place."""

    def __init__(self, options: Options, others: list[Worker]) -> None:
        self.pipe, end = Pipe()
        self.batch: Batch = []
        pipes = [self.pipe, *(it.pipe for it in others)]
        self._process = Process(target=serve, args=(end, options, pipes), daemon=True)
        self._process.start()
        end.close()

    def begin(self, batch: Batch) -> None:
        """Gives it a batch. Whether it has ended is seen when an answer is taken."""
        self.batch = batch
        with suppress(OSError):
            self.pipe.send(batch)

    def take(self) -> list[Read] | None:
        """The texts of its batch, or None if it has ended."""
        try:
            read: list[Read] = self.pipe.recv()
        except (EOFError, OSError):
            return None
        self.batch = []
        return read

    def end(self) -> None:
        """Ends it."""
        self.pipe.close()
        self._process.kill()
        self._process.join()


def serve(pipe: Any, options: Options, others: list[Any]) -> None:
    """Reads batches until the other end of the pipe is closed, of which no other worker may keep a copy."""
    signal(SIGINT, SIG_IGN)
    for other in others:
        other.close()
    with suppress(EOFError, OSError):
        while True:
            pipe.send(read_batch(pipe.recv(), options))


class Pool:
    """This many workers. Batches of those that end are read again, each mail by itself."""

    def __init__(self, options: Options, count: int) -> None:
        self._options = options
        self._count = count
        self._workers: list[Worker] = []
        self._again: list[Batch] = []

    def read(self, batches: Iterator[Batch]) -> Iterator[list[Read]]:
        """The texts of batches, in any order."""
        while self._begin(batches):
            busy: dict[Any, Worker] = {worker.pipe: worker for worker in self._workers if worker.batch}
            for worker in [busy[pipe] for pipe in wait(list(busy))]:
                read = worker.take()
                yield self._ended(worker) if read is None else read

    def end(self) -> None:
        """Ends all workers."""
        for worker in self._workers:
            worker.end()

    def _begin(self, batches: Iterator[Batch]) -> bool:
        """Gives a batch to each worker that has none, and answers whether any has one."""
        idle = [worker for worker in self._workers if not worker.batch]
        while idle or len(self._workers) < self._count:
            batch = self._again.pop() if self._again else next(batches, [])
            if not batch:
                break
            if not idle:
                idle = [Worker(self._options, self._workers)]
                self._workers += idle
            idle.pop().begin(batch)
        return any(worker.batch for worker in self._workers)

    def _ended(self, worker: Worker) -> list[Read]:
        """What is reported of the batch of a worker that has ended: nothing yet, if it has several mails."""
        self._workers.remove(worker)
        worker.end()
        if len(worker.batch) == 1:
            return lost(worker.batch, ENDED)
        self._again += alone([worker.batch])
        return []


def by_processes(batches: Iterator[Batch], options: Options, count: int | None) -> Iterator[list[Read]]:
    """The texts of batches, by this many processes, or one for each core. They come in any order."""
    pool = Pool(options, count or len(os.sched_getaffinity(0)))
    try:
        yield from pool.read(batches)
    finally:
        pool.end()


def loaded() -> Any:
    """Dask's module. `NoCluster` if it isn't installed."""
    try:
        return import_module("distributed")
    except ImportError as error:
        raise NoCluster("--cluster needs Dask: python3-distributed of Debian, or pip install distributed") from error


def by_cluster(batches: Iterator[Batch], options: Options, address: str) -> Iterator[list[Read]]:
    """The texts of batches, by the workers of Dask's scheduler at an address. `NoCluster` if none answers."""
    dask = loaded()
    try:
        connected = dask.Client(address, timeout=SECONDS, set_as_default=False)
    except (OSError, ValueError) as error:
        raise NoCluster(f"no scheduler answers at {address}") from error
    with connected as client:
        begun: dict[Any, Batch] = {}

        def submit(batch: Batch) -> Any:
            future = client.submit(read_batch, batch, options, pure=False)
            begun[future] = batch
            return future

        first = max(len(client.scheduler_info()["workers"]), 1) * WAITING
        ended = dask.as_completed([submit(batch) for batch in islice(batches, first)], loop=client.loop)
        for future in ended:
            batch = begun.pop(future)
            failure = future.exception()
            if failure is None:
                yield future.result()
            elif len(batch) == 1:
                yield lost(batch, f"{ENDED}: {type(failure).__name__}")
            else:
                ended.update([submit(it) for it in alone([batch])])
            ended.update([submit(it) for it in islice(batches, 1)])
