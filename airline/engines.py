"""What gives jobs to processors: GNU parallel, on this machine or over ssh, or Slurm. Each takes the lines `NAME WORKERS`
of the file `names` in their order, and runs `job NAME WORKERS EFFORT` for each in a folder that has the programs and the
book."""

import argparse
import os
import shutil
import signal
import subprocess
import time

from programs import fail

# How often Slurm is asked.
SECONDS = 2
# As many threads as the programs take.
MOST_WORKERS = 64
# More books at a time no host has processors for.
MOST_JOBS = 10000


def jobs(text):
    """So many books at a time."""
    if not 1 <= int(text) <= MOST_JOBS:
        raise argparse.ArgumentTypeError(f"{text} is not from 1 to {MOST_JOBS}")
    return int(text)


class Parallel:
    """GNU parallel: here, or on the hosts of a file. A job whose host dies is given to another one."""

    def __init__(self, given):
        self.given, self.process, self.folder = given, None, ""
        # A host that falls silent is one that has ended.
        self.env = {"PARALLEL_SSH": "ssh -o ConnectTimeout=20 -o ServerAliveInterval=20", **os.environ}
        if not shutil.which("parallel"):
            fail("there is no GNU parallel: apt-get install parallel", 4)
        if given.hosts is not None and not os.path.isfile(given.hosts):
            fail(f"there is no file {given.hosts}")

    def workers(self, left):
        """The threads of a book with which so many are left to begin. The last ones share the processors that become free."""
        at_once = self.given.jobs or os.cpu_count()
        is_last = left <= at_once and not self.given.hosts
        return self.given.workers or (min(at_once, MOST_WORKERS) if is_last else 1)

    def start(self, work):
        # The folder has the same name here, where the jobs begin above it, and in the home of a host.
        above, folder = os.path.split(work)
        self.folder = folder
        words = ["parallel", "--will-cite", "--joblog", "joblog", "--retries", "3"]
        if self.given.jobs:
            words += ["--jobs", str(self.given.jobs)]
        if self.given.hosts:
            words += ["--sshloginfile", os.path.abspath(self.given.hosts)]
            for each in ("roster", "roster-desk", "job"):
                words += ["--basefile", f"{folder}/{each}"]
            words += ["--transferfile", f"{folder}/books/{{1}}.csv", "--return", f"{folder}/{{1}}.tar"]
        words += ["--colsep", " ", f"cd {folder} && exec ./job {{1}} {{2}} {self.given.effort}", "::::", f"{folder}/names"]
        # A group of its own, so that all that it started here can be ended.
        none = subprocess.DEVNULL
        self.process = subprocess.Popen(words, cwd=above, env=self.env, stdin=none, stdout=none, start_new_session=True)

    def goes_on(self):
        return self.process.poll() is None

    def stop(self):
        """Ends what was started. GNU parallel ends its jobs, here and on hosts, if it is asked to twice. Then it has time to do
        so on a busy machine: if it is killed, they go on."""
        for each, seconds in ((signal.SIGTERM, 2), (signal.SIGTERM, 20), (signal.SIGKILL, 2)) if self.process else ():
            try:
                os.killpg(self.process.pid, each)
                self.process.wait(seconds)
            except ProcessLookupError:
                return
            except subprocess.TimeoutExpired:
                pass

    def clean(self):
        """Takes away what was put on hosts."""
        if self.folder and self.given.hosts:
            words = ["parallel", "--will-cite", "--nonall", "--timeout", "30", "--sshloginfile", os.path.abspath(self.given.hosts), f"rm -rf {self.folder}"]
            subprocess.run(words, cwd="/", env=self.env, stdin=subprocess.DEVNULL, capture_output=True, check=False)


class Slurm:
    """Slurm: one array job. The folder of the books must be one that all nodes have."""

    def __init__(self, given):
        self.given, self.number, self.asked = given, None, 0.0
        for each in ("sbatch", "squeue", "scancel"):
            if not shutil.which(each):
                fail(f"there is no {each} of Slurm on the path", 4)
        if given.hosts:
            fail("--hosts is for GNU parallel: Slurm knows its nodes")

    def workers(self, _):
        """The threads of a book."""
        return self.given.workers or 1

    def start(self, work):
        with open(f"{work}/names", encoding="utf-8") as it:
            number = len(it.readlines())
        at_once = f"%{self.given.jobs}" if self.given.jobs else ""
        job = f'./job $(sed -n "${{SLURM_ARRAY_TASK_ID}}p" names) {self.given.effort}'
        words = ["sbatch", "--parsable", f"--array=1-{number}{at_once}", f"--cpus-per-task={self.workers(0)}", "--mem=1200M"]
        words += ["--job-name=roster", f"--chdir={work}", "--output=/dev/null", "--wrap", job]
        said = subprocess.run(words, capture_output=True, text=True, check=False)
        if said.returncode:
            fail(f"sbatch: {said.stderr.strip()}", 4)
        self.number = said.stdout.strip().split(";")[0]

    def goes_on(self):
        """Whether a job is left. Slurm is asked now and then; if it doesn't answer, the jobs go on."""
        if time.monotonic() < self.asked + SECONDS:
            return True
        self.asked = time.monotonic()
        said = subprocess.run(["squeue", "--noheader", "--jobs", self.number], capture_output=True, text=True, check=False)
        # It forgets jobs that have ended.
        return said.stdout.strip() != "" or said.returncode != 0 and "Invalid job id" not in said.stderr

    def stop(self):
        """Ends the jobs, and waits until they have ended."""
        if self.number:
            subprocess.run(["scancel", self.number], check=False)
            until = time.monotonic() + 15 * SECONDS
            while time.monotonic() < until and self.goes_on():
                time.sleep(0.2)

    def clean(self):
        """There is nothing but the folder that all nodes have."""


ENGINES = {"parallel": Parallel, "slurm": Slurm}
