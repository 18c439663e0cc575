"""What `tests/desk` asks of receipts of plans, which are written by scripts."""

import hashlib
import os
import random
import shutil
import signal
import subprocess
import time

# So often a plan with a receipt is broken off.
BROKEN_OFF = 10


def sum_of(data):
    return hashlib.sha256(data).hexdigest()


def read(path):
    with open(path, "rb") as file:
        return file.read()


def write(path, data):
    with open(path, "wb") as file:
        file.write(data)


def ends(tests, name, told, status, stdout=None, stderr=None):
    """The run ended so; what isn't told here isn't asked."""
    tests.told(
        name,
        told.returncode != status and f"status {told.returncode}",
        stdout is not None and told.stdout != stdout and f"standard output {told.stdout[:300]}",
        stderr is not None and told.stderr != stderr and f"standard error {told.stderr[:300]}",
    )


def receipts(tests, run, desk, root):
    """A receipt has the sums of what a plan is made from, and of the plan, and the bytes come again."""
    script, folder = f"{root}/roster-desk", os.path.join(tests.folder, "a folder")
    os.mkdir(folder)
    for name in ("book.csv", "start.txt"):
        shutil.copy(f"{root}/examples/left-open{'.csv' if name == 'book.csv' else '.txt'}", f"{folder}/{name}")
    # One that `solve` refuses, and of which more effort makes another plan.
    write(f"{folder}/large.csv", run(f"{root}/bench/month", "1,10,50", "1").stdout)

    def ran(*words, **more):
        return run(script, *words, cwd=folder, **more)

    version = ran("--version").stdout.decode()
    for words, effort, sets, files in (
        (["book.csv"], "5", "usual", ["book.csv"]),
        (["--start", "start.txt", "--sets=7", "book.csv", "--effort", "1"], "1", "7", ["start.txt", "book.csv"]),
        (["--effort=0", "--workers", "2", "--progress", "--keep", "kept.txt", "large.csv"], "0", "usual", ["large.csv"]),
    ):
        plain = run(desk, "plan", *words, cwd=folder)
        told = ran("plan", "--receipt", "plan.receipt", *words)
        # Progress has seconds, which may be others.
        ends(tests, f"plan {words} with a receipt", told, 0, plain.stdout, None if "--progress" in words else plain.stderr)
        # What the bytes don't depend on isn't kept, and each value stands apart.
        kept = [word for word in " ".join(words).replace("=", " ").split() if word not in ("--workers", "2", "--progress", "--keep", "kept.txt")]
        wanted = "RECEIPT\n" + "".join(f"word         {word}\n" for word in kept) + f"effort       {effort}\nsets         {sets}\n"
        wanted += "".join(f"file         {sum_of(read(f'{folder}/{file}'))}  {file}\n" for file in files)
        wanted += f"plan         {sum_of(plain.stdout)}\n{version}"
        receipt = read(f"{folder}/plan.receipt").decode()
        tests.told(f"receipt of {words}", receipt != wanted and f"told is {receipt}")
        if "--keep" in words:
            write(f"{folder}/kept.txt", b"kept")
        ends(tests, f"again {words}", ran("again", "plan.receipt"), 0, f"the same bytes: {sum_of(plain.stdout)}\n".encode(), b"")
        tests.told(f"again {words} keeps nothing", "--keep" in words and read(f"{folder}/kept.txt") != b"kept" and "another file")
    changed_receipts(tests, ran, folder)
    refused_receipts(tests, ran, folder)
    write(f"{folder}/month.csv", run(f"{root}/bench/month", "1,8,30", "1").stdout)
    broken_off(tests, script, folder)


def changed_receipts(tests, ran, folder):
    """Whatever differs is told."""
    good = read(f"{folder}/plan.receipt")
    lines = good.splitlines(True)
    for at, line in enumerate(lines):
        word = line.split()[0].decode()
        if word not in ("plan", "sources", "definitions", "program", "kit"):
            continue
        other = line[:13] + (b"0" if line[13:14] != b"0" else b"1") + line[14:]
        write(f"{folder}/other.receipt", b"".join([*lines[:at], other, *lines[at + 1 :]]))
        told = ran("again", "other.receipt")
        comes = b"" if word == "plan" else b"the same bytes: " + good.split(b"plan         ")[1][:64] + b"\n"
        ends(tests, f"again with another line {word}", told, 1, f"differs: {word}\n".encode() + comes)
    write(f"{folder}/other.receipt", good.replace(b"effort\nword         0", b"effort\nword         1"))
    told = ran("again", "other.receipt")
    ends(tests, "again with more effort", told, 1, b"differs: plan\n")
    book = read(f"{folder}/large.csv")
    write(f"{folder}/large.csv", book + b"\n")
    ends(tests, "again with another book", ran("again", "plan.receipt"), 1, b"differs: large.csv\n")
    os.remove(f"{folder}/large.csv")
    ends(tests, "again without the book", ran("again", "plan.receipt"), 4, b"", b"error: large.csv can't be opened\n")
    write(f"{folder}/large.csv", book)


def broken_off(tests, script, folder):
    """Ctrl-C at moments of a plan with a receipt, which reaches all that it has started: the receipt is as it was or is
    whole, of standard output there are the first bytes, and nothing else is left."""
    room, words = f"{folder}/room", [script, "plan", "--effort", "0", "--workers", "1", "--receipt", "r", "month.csv"]
    os.mkdir(room)

    def begun():
        write(f"{folder}/r", b"as it was")
        return subprocess.Popen(
            words,
            cwd=folder,
            env={**os.environ, "TMPDIR": room},
            stdout=subprocess.PIPE,
            stderr=subprocess.PIPE,
            start_new_session=True,
            preexec_fn=lambda: signal.signal(signal.SIGINT, signal.SIG_DFL),
        )

    begin = time.monotonic()
    plan = begun().communicate()[0]
    takes, receipt = time.monotonic() - begin, read(f"{folder}/r")
    files = {*os.listdir(folder)}
    tests.told("a receipt that is broken off: whole", not receipt.startswith(b"RECEIPT\n") and "no receipt", os.listdir(room) and "something is left")
    dice, were_broken = random.Random(1), 0
    for turn in range(BROKEN_OFF):
        ran = begun()
        # Not before the script has a folder to remove.
        while not os.listdir(room) and ran.poll() is None:
            time.sleep(0.001)
        time.sleep(dice.uniform(0.05, 1.1 * takes))
        try:
            os.killpg(ran.pid, signal.SIGINT)
        except ProcessLookupError:
            pass  # it ended just now
        stdout, stderr = ran.communicate()
        were_broken += ran.returncode != 0
        tests.told(
            f"a receipt that is broken off in turn {turn}",
            ran.returncode not in (0, -signal.SIGINT, 128 + signal.SIGINT) and f"status {ran.returncode}, {stderr}",
            not plan.startswith(stdout) and "another plan",
            ran.returncode == 0 and stdout != plan and "half a plan",
            read(f"{folder}/r") not in (b"as it was", receipt) and "another receipt",
            {*os.listdir(folder)} != files and f"{sorted(os.listdir(folder))} are there",
            os.listdir(room) and "something is left",
        )
    tests.told("receipts that are broken off", not were_broken and "none was")
    os.remove(f"{folder}/r")


def without_room(tests, ran, folder):
    """A receipt for which the disk has no room is as it was, and the plan is written."""
    small = f"{folder}/small"
    os.mkdir(small)
    if os.geteuid() != 0 or subprocess.run(["mount", "-t", "tmpfs", "-o", "size=8k", "none", small], capture_output=True, check=False).returncode:
        print("a receipt without room is skipped: it needs root, and mount")
        return
    try:
        write(f"{small}/r", b"as it was")
        write(f"{small}/fill", bytes(4096))
        told = ran("plan", "--receipt", "small/r", "book.csv")
        ends(tests, "a receipt without room", told, 4, ran("plan", "book.csv").stdout, b"error: small/r can't be written\n")
        tests.told("a receipt without room is as it was", (read(f"{small}/r") != b"as it was" or len(os.listdir(small)) != 2) and "it isn't")
    finally:
        subprocess.run(["umount", small], check=False)


def refused_receipts(tests, ran, folder):
    """What no receipt is made of, and what is none."""
    first = read(f"{folder}/book.csv")
    for words in (["plan", "--receipt", "r", "-"], ["plan", "--receipt", "r", "--start", "-", "book.csv"], ["plan", "--receipt", "book.csv", "book.csv"], ["plan", "book.csv", "--receipt"], ["plan", "--receipt=", "book.csv"], ["again"], ["again", "plan.receipt", "plan.receipt"], ["plan", "--receipt", "r"], ["plan", "--receipt", "r", "--effort", "10", "book.csv"]):
        told = ran(*words)
        ends(tests, f"words {words}", told, 2, b"")
        tests.told(f"reason of {words}", not told.stderr and "no reason", os.path.exists(f"{folder}/r") and "a receipt")
    tests.told("the book that no receipt may be kept in", read(f"{folder}/book.csv") != first and "is another one")
    helped = ran("plan", "--receipt", "r", "--help")
    ends(tests, "help with a receipt", helped, 0, ran("plan", "--help").stdout)
    ends(tests, "help with again", ran("again", "--help"), 0, stderr=b"")
    for place in (".", "none/r"):
        ends(tests, f"a receipt in {place}", ran("plan", "--receipt", place, "book.csv"), 4, b"", f"error: {place} can't be written\n".encode())
    shutil.copy(f"{folder}/book.csv", f"{folder}/r.part")
    ends(tests, "a receipt whose new file is the book", ran("plan", "--receipt", "r", "r.part"), 2, b"")
    tests.told("the book beside which no receipt may be kept", read(f"{folder}/r.part") != first and "is another one")
    os.remove(f"{folder}/r.part")
    without_room(tests, ran, folder)
    ends(tests, "again of a folder", ran("again", "."), 4, b"", b"error: . can't be opened\n")
    ends(tests, "a receipt of no book", ran("plan", "--receipt", "r", "none.csv"), 4, b"")
    write(f"{folder}/fault.csv", b"period\n")
    ends(tests, "a receipt of a fault", ran("plan", "--receipt", "r", "fault.csv"), 1, b"FAULT 1 3\n")
    tests.told("a receipt of what is no plan", os.path.exists(f"{folder}/r") and "is there")
    good = read(f"{folder}/plan.receipt")
    # A receipt makes no plan that would write a file, and none of files that it doesn't name.
    other = good.replace(b"effort       ", b"word         --keep\nword         book.csv\neffort       ", 1), good.replace(b"  large.csv\nplan", b"  book.csv\nplan")
    for text in (b"", b"RECEIPT\n", first, *other):
        write(f"{folder}/none.receipt", text)
        ends(tests, f"again of {text[:9]}", ran("again", "none.receipt"), 1, b"", b"error: none.receipt is no receipt\n")
    ends(tests, "again of nothing", ran("again", "nothing"), 4, b"", b"error: nothing can't be opened\n")
