"""Runs a command and writes four numbers into a file: launch.py FILE SECONDS COMMAND..

They are its seconds, its processor's seconds, its most kilobytes of memory and its status. A command that takes longer
than SECONDS is stopped, and its status is then -9.

A process has at least the memory of the one that starts it as its most. So this one is small, and does nothing else.
"""
import os
import signal
import sys
import time


def main(note: str, limit: int, words: list[str]) -> None:
    begun = time.monotonic()
    process = os.posix_spawnp(words[0], words, os.environ)
    signal.signal(signal.SIGALRM, lambda *_: os.kill(process, signal.SIGKILL))
    signal.alarm(limit)
    _, status, usage = os.wait4(process, 0)
    seconds = time.monotonic() - begun
    with open(note, "w", encoding="ascii") as file:
        processor = usage.ru_utime + usage.ru_stime
        file.write(f"{seconds} {processor} {usage.ru_maxrss} {os.waitstatus_to_exitcode(status)}")


if __name__ == "__main__":
    main(sys.argv[1], int(sys.argv[2]), sys.argv[3:])
