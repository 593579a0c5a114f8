"""Surveys the stores of a firm into a database, and reports on it.

PLACES are stores and folders of stores, of 24-byte records or of records with a place. Each store becomes a row (path, SHA-256, form, counts) and
each of its records one (tile, format, place, mode, mark, verdict, block, values). Views name copies and alike records across stores, damaged and
refused records, tiles in several stores and minus infinities. A store that is there already with the same SHA-256 is skipped, a changed one is
replaced; a survey that was cut short goes on where it was. A file that is refused or cannot be read has its row with the reason.

--report writes a page about a database; --plan prints a clean-up command for each store with copies. Nothing is deleted.
"""
import os
import sys
import types

from . import house
from .line import JSON, Line, Option

LINE = Line(
    "PLACES...",
    "--report DATABASE OUT",
    "--plan DATABASE",
    options=[
        Option("--into", "the database: a file of SQLite, or postgresql://USER@HOST/NAME", "DATABASE"),
        Option("--jobs", "how many processes read; the machine's processors unless given", "N"),
        Option("--cluster", "let the workers of a Dask cluster read; they see the stores by the same paths", "ADDRESS"),
        Option("--report", "write a page about a database"),
        Option("--plan", "print a clean-up command for each store with copies"),
        JSON,
    ],
    example="knot survey stores/ --into firm.db\nknot survey --report firm.db firm.html",
    statuses="status: 0 done; 1 a store was refused; 2 the words do not fit; 3 a file could not be read, or the database could not be written",
)


# how many files a process is ahead of what is written, and how many are handed to a cluster at once
AHEAD, BATCH = 4, 64


def package():
    """The module of the Python package that reads stores, without the rest of the package, which needs numpy."""
    folder = os.path.join(house.ROOT, "python", "knotpasture")
    library = os.path.join(os.path.dirname(house.ROOT), "libknotpasture.so.1")
    if os.path.isfile(library):
        os.environ.setdefault("KNOTPASTURE_LIBRARY", library)
    elif "KNOTPASTURE_LIBRARY" not in os.environ and not os.path.isfile(os.path.join(house.ROOT, "target/lib", os.uname().machine, "libknotpasture.so.1")):
        import subprocess
        if subprocess.run([os.path.join(house.ROOT, "tools/libraries")], stdin=subprocess.DEVNULL, stdout=subprocess.DEVNULL).returncode != 0:
            raise house.Trouble("the library is not built: the reason is above")
    found = sys.modules.setdefault("knotpasture", types.ModuleType("knotpasture"))
    found.__path__ = [folder]
    import importlib
    return importlib.import_module("knotpasture.survey")


def with_site_packages():
    """PostgreSQL, Dask and tqdm are no part of the standard library: knot starts without them."""
    import site
    site.main()


class Progress:
    """How far a survey is, on a terminal: by tqdm where it is there, else by plain lines; nothing in a pipe."""

    def __init__(self, total):
        import time
        self.clock, self.total, self.done, self.told = time.monotonic, total, 0, 0.0
        self.begun, self.bar = self.clock(), None
        self.shown = os.isatty(2)
        if self.shown:
            try:
                import tqdm
                self.bar = tqdm.tqdm(total=total, unit="store")
            except ImportError:
                pass

    def step(self):
        self.done += 1
        if self.bar is not None:
            self.bar.update()
        elif self.shown and (self.clock() - self.told > 2 or self.done == self.total):
            self.told = self.clock()
            rate = self.done / max(self.told - self.begun, 1e-9)
            house.tell(f"{self.done:,} of {self.total:,} stores, {rate:,.0f} a second, {(self.total - self.done) / rate:,.0f} s left")

    def close(self):
        if self.bar is not None:
            self.bar.close()


def changed_of(job):
    """In a worker: the path, and the rows of the file or None where its SHA-256 is the one that is known."""
    reading, (path, known) = package(), job
    if known is not None:
        import hashlib
        try:
            if hashlib.sha256(reading.read_file(path)).hexdigest() == known:
                return path, None
        except OSError:
            pass
    return path, reading.rows_of(path)


def leave_signals():
    """In a worker: Ctrl-C is the first process's to answer, and the others end as programs do."""
    import signal
    signal.signal(signal.SIGINT, signal.SIG_IGN)
    for number in (signal.SIGTERM, signal.SIGHUP):
        signal.signal(number, signal.SIG_DFL)


def read_in_processes(jobs, count):
    """The rows of each job, in any order, by a pool of processes; by this one alone where one is asked for."""
    if count == 1:
        yield from map(changed_of, jobs)
        return
    import multiprocessing
    import threading
    room = threading.Semaphore(AHEAD * count)

    def few_at_a_time():
        """Files are read no further ahead than their rows are written: else the rows of all of them pile up."""
        for job in jobs:
            room.acquire()
            yield job

    with multiprocessing.Pool(count, initializer=leave_signals) as pool:
        try:
            for found in pool.imap_unordered(changed_of, few_at_a_time()):
                yield found
                room.release()
            pool.close()
            pool.join()
        finally:
            room.release(len(jobs) + 1)


def read_by_cluster(jobs, address):
    """The same by the workers of a Dask cluster, some files at a time."""
    with_site_packages()
    try:
        import distributed
    except ImportError:
        raise house.Trouble("--cluster needs Dask's distributed (Debian: python3-distributed), which this python3 does not have") from None
    try:
        with distributed.Client(address, timeout="10s") as client:
            for first in range(0, len(jobs), BATCH):
                for future in distributed.as_completed(client.map(cluster_rows, [(house.ROOT, *job) for job in jobs[first:first + BATCH]], pure=False)):
                    yield future.result()
    except OSError as error:
        raise house.Trouble(f"{house.shown(address)}: {error}") from None


def cluster_rows(job):
    """In a worker of a cluster, which has this folder at the same path."""
    root, path, known = job
    if root not in sys.path:
        sys.path.insert(0, root)
    from commands import survey as here
    return here.changed_of((path, known))


def survey(asked):
    from . import survey_db
    if not asked.into:
        raise house.Usage("--into names the database")
    workers = house.number(asked.jobs, "--jobs", 512) if asked.jobs else os.cpu_count() or 1
    if survey_db.is_postgres(asked.into):
        with_site_packages()
    reading = package()
    own = {os.path.realpath(asked.into + end).encode() for end in ("", "-wal", "-shm", "-journal")}
    files = [path for path in reading.files_in(asked.places) if os.path.realpath(path) not in own]
    database = survey_db.opened(asked.into)
    counts = {"stores": len(files), "surveyed": 0, "unchanged": 0, "refused": 0, "unread": 0, "records": 0}
    progress = Progress(len(files))
    try:
        database.make()
        known = database.known()
        jobs = [(path, known.get(path, (None, 0))[0]) for path in files]
        rows = read_by_cluster(jobs, asked.cluster) if asked.cluster else read_in_processes(jobs, max(1, min(workers, len(jobs) or 1)))
        for path, found in rows:
            if found is None:
                counts["unchanged"] += 1
                counts["refused"] += known[path][1] != 0
            else:
                database.put(*found)
                tally(counts, found[0])
            progress.step()
        database.index()
    except database.error as error:
        raise house.Trouble(f"{house.shown(asked.into)}: {str(error).strip().splitlines()[0]}") from None
    finally:
        progress.close()
        database.close()
    refused, unread = counts["refused"], counts["unread"]
    tell(asked, counts)
    if unread:
        raise house.Trouble(f"{unread:,} of {len(files):,} files could not be read: the table stores has the reasons")
    if refused:
        raise house.Faulty(f"{refused:,} of {len(files):,} files are no stores: the table stores has the reasons")


def tally(counts, store):
    counts["surveyed"] += 1
    counts["records"] += store.records
    counts["unread"] += store.answer is None
    counts["refused"] += bool(store.answer)


def tell(asked, counts):
    if asked.json:
        house.put_json(counts)
    else:
        house.put(" ".join(f"{word} {number}" for word, number in counts.items()) + "\n")


def plan(asked):
    """A clean-up command for each store with copies."""
    import shlex
    from . import survey_db
    database = existing(asked.database)
    try:
        for path, summed in database.execute("SELECT path, sha256 FROM stores WHERE answer = 0 AND copies > 0 ORDER BY path"):
            name = os.fsdecode(bytes(path))
            quoted = [shlex.quote(word) for word in (name, f"{name}.cleaned", f"{name}.receipt")]
            house.put((f"knot clean {quoted[0]} {quoted[1]} --signed {summed} --receipt {quoted[2]}\n").encode(errors="surrogateescape"))
    except database.error as error:
        raise house.Trouble(f"{house.shown(asked.database)}: {error}") from None
    finally:
        database.close()


def existing(name):
    from . import survey_db
    if survey_db.is_postgres(name):
        with_site_packages()
    elif not os.path.isfile(name):
        raise house.Trouble(f"{house.shown(name)}: no such file")
    return survey_db.opened(name)


def run(asked):
    if asked.report:
        from . import survey_page
        database = existing(asked.database)
        try:
            page = survey_page.page_of(house.shown(asked.database), database)
        except database.error as error:
            raise house.Trouble(f"{house.shown(asked.database)}: {error}") from None
        finally:
            database.close()
        house.write_whole(asked.out, page.encode(errors="backslashreplace"))
    elif asked.plan:
        plan(asked)
    else:
        survey(asked)
