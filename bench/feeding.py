"""Blocks through a pipe into the program: how long that takes, and how much memory."""
import fcntl
import os
import signal
import struct
import sys
import termios
import time

PIPE = 65536


def unread(pipe):
    """How many bytes in a pipe wait for their reader."""
    return struct.unpack("i", fcntl.ioctl(pipe, termios.FIONREAD, b"\0\0\0\0"))[0]


def peak_of(process):
    """The most memory in MB that a process has had so far. (What `wait4` reports includes this program.)"""
    with open(f"/proc/{process}/status") as status:
        kb = next(line.split()[1] for line in status if line.startswith("VmHWM"))
    return int(kb) / 1024


def feed(command, block, count, answers=os.devnull, status=0):
    """The seconds of a run over so many copies of a block, and the peak memory in MB when the last was read.

    `block` is bytes, `answers` the path of the file for what the run prints, and `status` the one that it has to end with.
    """
    source, pipe = os.pipe()
    begin = time.monotonic()
    child = os.posix_spawn(command[0], command, os.environ, setsigdef=[signal.SIGPIPE], file_actions=[
        (os.POSIX_SPAWN_DUP2, source, 0), (os.POSIX_SPAWN_CLOSE, pipe),
        (os.POSIX_SPAWN_OPEN, 1, answers, os.O_WRONLY | os.O_CREAT | os.O_TRUNC, 0o600)])
    os.close(source)
    peak = 0
    try:
        many = max(1, PIPE // len(block))
        for _ in range(count // many):
            os.write(pipe, block * many)
        os.write(pipe, block * (count % many))
        while count and unread(pipe):
            time.sleep(0.001)
        peak = peak_of(child)
    except (BrokenPipeError, StopIteration):
        pass  # it ended early, and its status says how
    os.close(pipe)
    ended = os.waitstatus_to_exitcode(os.waitpid(child, 0)[1])
    if ended != status:
        sys.exit(f"status {ended}: {' '.join(command)}")
    return time.monotonic() - begin, peak
