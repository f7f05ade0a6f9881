"""Gives batches of files to workers, and stores what comes back.

A batch is first looked through, which gives the digests of its files; those whose texts are not in the database yet are
parsed then. Whether a worker runs again what another one lost is the executor's affair. If an executor gives a batch up
because a worker ended, its parts are tried alone, until the text is found that ends a worker: it becomes a row."""
from __future__ import annotations

from collections.abc import Callable, Iterator, Sequence
from concurrent.futures import FIRST_COMPLETED, Executor, Future, wait
from typing import Any, NamedTuple, Protocol

from rap.corpus.files import Unit, given_bytes
from rap.corpus.items import Facts
from rap.corpus.store import Store
from rap.corpus.work import Found, Seen, look, parse

ENDED = 'a process ended when it was parsed'
UNREAD = 'a process ended when it was read'
CHANGED = 'it changed while it was read'


class Workers(Protocol):
    """Those who run the batches."""

    executor: Executor
    died: tuple[type[BaseException], ...]
    """what a future raises if a worker ended"""

    def count(self) -> int:
        """How many there are now."""

    def renew(self) -> None:
        """Called after a worker has ended."""


class Job(NamedTuple):
    """A batch that is to be looked through, or of which these digests are to be parsed."""

    units: Sequence[Unit]
    wanted: list[str] | None

    def halves(self) -> list[Job]:
        """The job in two, or nothing if it cannot be divided."""
        if self.wanted is None:
            middle = len(self.units) // 2
            return [Job(self.units[:middle], None), Job(self.units[middle:], None)] if middle else []
        middle = len(self.wanted) // 2
        return [Job(self.units, self.wanted[:middle]), Job(self.units, self.wanted[middle:])] if middle else []


class Counts:
    """How many files were stored: with a text that was parsed or refused now, with one that was there, without one."""

    def __init__(self) -> None:
        self.parsed = self.known = self.refused = 0


class Driver:
    """Gives batches to workers. `done` is called with how many files are stored for good."""

    def __init__(self, store: Store, workers: Workers, edition: str, parts: str | None, send: bool,
                 done: Callable[[int], object]) -> None:
        self.store, self.workers, self.edition, self.parts = store, workers, edition, parts
        self.send, self.done = send, done
        self.jobs: dict[Future[Any], Job] = {}
        self.lost: list[Job] = []
        # The files of each digest that is being parsed.
        self.waiting: dict[str, list[str]] = {}
        self.counts = Counts()

    def run(self, batches: Iterator[list[Unit]]) -> Counts:
        """Does all batches."""
        more = True
        while more or self.jobs or self.lost:
            while more and not self.lost and len(self.jobs) < 2 * self.workers.count() + 2:
                batch = next(batches, None)
                more = batch is not None
                if batch is not None:
                    self.begin(batch)
            if self.jobs:
                for future in wait(self.jobs, return_when=FIRST_COMPLETED).done:
                    self.end(future)
            elif self.lost:
                self.alone(self.lost.pop())
        return self.counts

    def submit(self, job: Job) -> Future[Any]:
        """Gives a job to the workers."""
        if job.wanted is None:
            return self.workers.executor.submit(look, job.units)
        return self.workers.executor.submit(parse, job.units, job.wanted, self.edition, self.parts)

    def start(self, job: Job) -> None:
        """Gives a job to the workers, and remembers it."""
        try:
            self.jobs[self.submit(job)] = job
        except self.workers.died:
            self.lost.append(job)

    def begin(self, batch: list[Unit]) -> None:
        """Has a batch looked through, here if its bytes are to be sent."""
        if self.send:
            batch = [it for unit in batch for it in given_bytes(unit)]
            self.seen(batch, look(batch))
        else:
            self.start(Job(batch, None))

    def end(self, future: Future[Any]) -> None:
        """Takes the result of a job."""
        job = self.jobs.pop(future)
        try:
            self.take(job, future.result())
        except self.workers.died:
            self.lost.append(job)

    def take(self, job: Job, result: Any) -> None:
        """Stores the result of a job."""
        if job.wanted is None:
            self.seen(job.units, result)
        else:
            self.found(job.wanted, result)

    def alone(self, job: Job) -> None:
        """Runs a job while nothing else runs. If a worker ends of it, its halves are left to be run."""
        self.workers.renew()
        try:
            self.take(job, self.submit(job).result())
        except self.workers.died:
            self.lost += job.halves() or self.give_up(job)

    def give_up(self, job: Job) -> list[Job]:
        """Stores that a worker ends of a text, or of a file."""
        if job.wanted is None:
            self.refuse([(unit.path, UNREAD) for unit in job.units])
        else:
            size = sum(unit.size for unit in job.units) if len(job.units) == 1 else 0
            self.found(job.wanted, Found([(it, Facts(size, 0, None, None, ENDED)) for it in job.wanted], []))
        return []

    def seen(self, units: Sequence[Unit], files: list[Seen]) -> None:
        """Stores the files that were not read and those whose texts are known, and has the other ones parsed."""
        self.refuse([(it.path, it.reason) for it in files if it.reason is not None])
        known, wanted = [], []
        for path, digest, reason in files:
            if reason is not None:
                continue
            if digest in self.waiting:
                self.waiting[digest].append(path)
            elif self.store.has(digest):
                known.append((path, digest, None))
            else:
                self.waiting[digest] = [path]
                wanted.append(digest)
        self.store.add_files(known)
        self.store.commit()
        self.counts.known += len(known)
        self.done(len(known))
        if wanted:
            self.start(Job(units, wanted))

    def refuse(self, files: list[tuple[str, str | None]]) -> None:
        """Stores files without a text, each with its reason."""
        if files:
            self.store.add_files((path, None, reason) for path, reason in files)
            self.store.commit()
            self.counts.refused += len(files)
            self.done(len(files))

    def found(self, wanted: list[str], found: Found) -> None:
        """Stores texts and their items, and then the files that have them."""
        self.store.add(found)
        files = [(path, digest, None) for digest, _ in found.texts for path in self.waiting.pop(digest)]
        self.store.add_files(files)
        self.store.commit()
        self.counts.parsed += len(files)
        self.done(len(files))
        self.refuse([(path, CHANGED) for it in wanted for path in self.waiting.pop(it, [])])
