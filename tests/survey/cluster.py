"""A Dask cluster of two workers on this machine, for the tests of a survey."""
import contextlib
import json
import os
import pathlib
import subprocess
import time

# Debian's packages are this one's.
PYTHON = "/usr/bin/python3"
BEGIN = "import sys; from distributed.cli.{0} import main; sys.argv[0] = '{0}'; main()"


def at_hand(module):
    return subprocess.run([PYTHON, "-c", f"import {module}"], stderr=subprocess.DEVNULL).returncode == 0


def environment(folder):
    """An environment in which python3 is the one that has the packages."""
    path = pathlib.Path(folder) / "path"
    if not path.is_dir():
        path.mkdir()
        (path / "python3").symlink_to(PYTHON)
    return os.environ | {"PATH": f"{path}:{os.environ['PATH']}"}


@contextlib.contextmanager
def cluster(folder):
    """The address of the cluster, which ends with the block."""
    address = pathlib.Path(folder) / "scheduler.json"
    quiet = {"stdin": subprocess.DEVNULL, "stdout": subprocess.DEVNULL, "stderr": subprocess.DEVNULL, "env": environment(folder)}
    started = [subprocess.Popen([PYTHON, "-c", BEGIN.format("dask_scheduler"), "--host", "127.0.0.1", "--port", "0", "--no-dashboard", "--scheduler-file", address], **quiet)]
    try:
        for _ in range(300):
            if address.is_file() and address.stat().st_size:
                break
            time.sleep(0.1)
        place = json.loads(address.read_text())["address"]
        for n in range(2):
            words = [PYTHON, "-c", BEGIN.format("dask_worker"), place, "--nthreads", "1", "--no-dashboard", "--local-directory", pathlib.Path(folder) / f"worker{n}"]
            started.append(subprocess.Popen(words, **quiet))
        yield place
    finally:
        for process in started:
            process.kill()
            process.wait()
