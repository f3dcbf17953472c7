"""Tries a program of the bench, run as ./bench is. tests/gate_files.py and tests/trace_files.py use it; it is not run by itself."""

import contextlib
import fcntl
import os
import subprocess
import termios
import time


# The seconds in which a program must have read its pieces; one that has not is ended, and what it gave tells.
PATIENCE = 300


class Bench:
    """The program, the file that it is given, and what it did that it should not."""

    def __init__(self, path, file):
        self.path = path
        self.file = file
        self.runs = 0
        self.wrong = []

    def run(self, words, given=b"", output=subprocess.PIPE):
        """Exit status, output and messages."""
        self.runs += 1
        ended = subprocess.run([self.path, *words], input=given, stdout=output, stderr=subprocess.PIPE, check=False)
        return ended.returncode, ended.stdout, ended.stderr

    def run_in_pieces(self, words, pieces):
        """The same of a run whose standard input comes in these pieces, each given once the one before it is taken."""
        self.runs += 1
        end = time.monotonic() + PATIENCE
        with subprocess.Popen([self.path, *words], bufsize=0, stdin=subprocess.PIPE, stdout=subprocess.PIPE, stderr=subprocess.PIPE) as program:
            # A program that has ended already is found out by what it gave.
            with contextlib.suppress(BrokenPipeError):
                for piece in pieces:
                    program.stdin.write(piece)
                    while program.poll() is None and waiting(program.stdin):
                        if time.monotonic() > end:
                            program.kill()
                        time.sleep(0.0005)
            output, messages = program.communicate()
        return program.returncode, output, messages

    def compare(self, what, found, wanted):
        if found != wanted:
            self.wrong.append(f"{what}: {shortened(found)}, and it should be {shortened(wanted)}")

    def not_done(self, what, words, output=subprocess.PIPE):
        """What could not be done has status 2 and a message, and writes nothing. Gives the message."""
        status, written, messages = self.run(words, output=output)
        self.compare(what, (status, written or b"", messages != b""), (2, b"", True))
        return messages

    def not_read(self, words):
        """Files that cannot be read, named behind the words."""
        self.not_done("a file that is not there", [*words, self.file.with_name("none")])
        self.not_done("a folder", [*words, self.file.parent])

    def not_written(self, words):
        """Outputs that cannot be written. Gives what the program says of a full disk and of a closed pipe."""
        with open("/dev/full", "wb") as full:
            messages = [self.not_done("a full disk", words, full)]
        reader, writer = os.pipe()
        os.close(reader)
        messages.append(self.not_done("a closed pipe", words, writer))
        os.close(writer)
        self.runs += 1
        closed = subprocess.run(["sh", "-c", 'exec "$0" "$@" >&-', self.path, *words], stderr=subprocess.PIPE, check=False)
        self.compare("a closed output", (closed.returncode, b"standard output is closed" in closed.stderr), (2, True))
        return messages

    def not_known(self, words):
        """Words that the program does not know give its usage."""
        messages = self.not_done(f"the words {words}", words)
        self.compare(f"the words {words}", b"usage" in messages, True)


def waiting(pipe):
    """Whether there are bytes in a pipe that nobody has read yet."""
    return any(fcntl.ioctl(pipe, termios.FIONREAD, bytes(4)))


def in_pieces(chance, data, most):
    """The bytes in pieces of 1 to so many."""
    while data:
        cut = chance.randint(1, most)
        yield data[:cut]
        data = data[cut:]


def shortened(value):
    """A value in a message, however long."""
    text = str(value)
    return text if len(text) <= 300 else f"{text[:300]}... ({len(text)} characters)"


def build(path, words):
    """Has the program built where it must be, since that is told on standard error; or says why it cannot be run."""
    try:
        subprocess.run([path, *words], stdin=subprocess.DEVNULL, stdout=subprocess.DEVNULL, stderr=subprocess.DEVNULL, check=False)
    except OSError as problem:
        return f"{path} cannot be run: {problem.strerror}"
    return None
