"""Who runs the batches: a pool of processes, or Dask's workers."""
from __future__ import annotations

import importlib
import multiprocessing
import signal
from concurrent.futures import BrokenExecutor, Executor, ProcessPoolExecutor
from typing import Any


# How many seconds a scheduler may take to answer.
PATIENCE = 20


def _ignore_interrupts() -> None:
    """An interrupt from the terminal is for the process that gives the batches out."""
    signal.signal(signal.SIGINT, signal.SIG_IGN)


class Pool:
    """Processes on this machine."""

    died: tuple[type[BaseException], ...] = (BrokenExecutor,)

    def __init__(self, processes: int) -> None:
        self.processes = processes
        self.executor: Executor = self._made()

    def _made(self) -> Executor:
        return ProcessPoolExecutor(self.processes, multiprocessing.get_context('forkserver'), _ignore_interrupts)

    def count(self) -> int:
        """How many processes there are."""
        return self.processes

    def renew(self) -> None:
        """Makes other processes in the place of those that are there."""
        self.executor.shutdown(wait=False, cancel_futures=True)
        self.executor = self._made()

    def close(self) -> None:
        """Ends the processes; what they have begun is waited for."""
        self.executor.shutdown(wait=True, cancel_futures=True)


class Cluster:
    """The workers of a scheduler of Dask distributed."""

    def __init__(self, address: str) -> None:
        distributed: Any = importlib.import_module('distributed')
        self.died: tuple[type[BaseException], ...] = (distributed.KilledWorker,)
        self.client: Any = distributed.Client(address, timeout=PATIENCE)
        self.executor: Executor = self.client.get_executor(pure=False)

    def count(self) -> int:
        """How many threads the workers have now."""
        return sum(self.client.nthreads().values())

    def renew(self) -> None:
        """Nothing: the scheduler knows its workers."""

    def close(self) -> None:
        """Leaves the scheduler, which drops what was not done."""
        self.client.close()
