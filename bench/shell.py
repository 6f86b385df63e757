"""A run of the proved program whose input is written, and whose replies are read, piece by piece."""
import ctypes
import os
import subprocess
import sys
import threading
import time
from pathlib import Path

HERE = Path(__file__).resolve().parent
PROGRAM = Path(os.environ.get("VEC_SERVER", HERE.parent / "crates/vec_server/out/vec_server"))


class Shell:
    """The program reads statements from a pipe; what it writes has to be read while more is written."""

    def __init__(self):
        self.process = subprocess.Popen([PROGRAM, "shell"], stdin=subprocess.PIPE, stdout=subprocess.PIPE)
        self.clock = clock_of(self.process.pid)
        self.ended = False

    def write(self, pieces):
        """Writes while the replies are read elsewhere: a pipe that is full stops its writer."""
        thread = threading.Thread(target=self.write_all, args=(pieces,), daemon=True)
        thread.start()
        return thread

    def write_all(self, pieces):
        try:
            for piece in pieces:
                self.process.stdin.write(piece)
            self.process.stdin.flush()
        except BrokenPipeError:
            pass  # the program has ended; the reader of the replies sees it

    def lines(self, count):
        return [self.process.stdout.readline() for _ in range(count)]

    def asked(self, pieces, count):
        """The seconds of processor time that some statements take, and the lines of their replies."""
        start = self.seconds()
        writer = self.write(pieces)
        replies = self.lines(count)
        seconds = self.seconds() - start
        writer.join()
        return seconds, replies

    def seconds(self):
        """The processor time of the program up to now."""
        return time.clock_gettime(self.clock)

    def end(self):
        """Ends the program before its input's end."""
        self.ended = True
        self.process.kill()
        self.process.wait()

    def close(self):
        self.process.stdin.close()
        rest = self.process.stdout.read()
        status = self.process.wait()
        self.process.stdout.close()
        assert status == 0 and rest == b"", (status, rest[-200:])


def clock_of(process_id):
    library = ctypes.CDLL(None)
    clock = ctypes.c_int()
    if library.clock_getcpuclockid(ctypes.c_int(process_id), ctypes.byref(clock)) != 0:
        sys.exit("the system has no clock of the processor time of another process")
    return clock.value
