"""Runs a program on a book in a file: its processor time, what it prints, and how much memory it has when it prints."""
import fcntl
import os
import re
import subprocess
import time
from pathlib import Path

ROOT = Path(__file__).resolve().parent.parent
PROGRAM = ROOT / "crates" / "capital" / "out" / "capital"
WORK = ROOT / "bench" / "out"
PEER = WORK / "peer"


def build_peer():
    WORK.mkdir(parents=True, exist_ok=True)
    subprocess.run(["gcc", "-O3", "-march=native", "-Wall", "-Wextra", "-o", str(PEER), str(ROOT / "bench" / "peer.c"), "-lm"], check=True)


def run(words, path):
    """Seconds of processor time, of the program and of the system for it, and what was printed."""
    with open(path, "rb") as book:
        process = subprocess.Popen([str(word) for word in words], stdin=book, stdout=subprocess.PIPE)
    with process.stdout as out:
        printed = out.read()
    _, status, used = os.wait4(process.pid, 0)
    process.returncode = os.waitstatus_to_exitcode(status)
    if process.returncode:
        raise SystemExit(f"{words[0]} ended with {process.returncode}")
    return used.ru_utime + used.ru_stime, printed


def full_pipe():
    """A pipe with no room left: whoever writes to it waits."""
    reader, writer = os.pipe()
    flags = fcntl.fcntl(writer, fcntl.F_GETFL)
    fcntl.fcntl(writer, fcntl.F_SETFL, flags | os.O_NONBLOCK)
    try:
        while True:
            os.write(writer, b"\n")
    except BlockingIOError:
        fcntl.fcntl(writer, fcntl.F_SETFL, flags)
    return reader, writer


def resident(words, path):
    """Bytes of memory of a program that waits to print, all its input read: neither program gives memory back before. Counted page by page."""
    reader, writer = full_pipe()
    with open(path, "rb") as book:
        process = subprocess.Popen([str(word) for word in words], stdin=book, stdout=writer)
    os.close(writer)
    folder = Path("/proc") / str(process.pid)
    while not re.search(r"(?m)^State:\s+S", (folder / "status").read_text()):  # asleep: a file is read without sleeping
        if process.poll() is not None:
            raise SystemExit(f"{words[0]} ended with {process.returncode} and printed nothing")
        time.sleep(0.01)
    kibibytes = int(re.search(r"(?m)^Rss:\s+(\d+) kB", (folder / "smaps_rollup").read_text())[1])
    os.close(reader)
    process.wait()
    return 1024 * kibibytes
