"""Tries a tool that makes a file from plain lines and shows it again. tests/gates.py and tests/traces.py use it; it is not run by itself."""

import codecs
import contextlib
import importlib.machinery
import importlib.util
import io
import os
import pathlib
import subprocess

TOOLS = pathlib.Path(__file__).resolve().parent.parent / "tools"


class LineTool:
    """A tool by its name: as a module, and run by itself. What is tried gives a text for each difference."""

    def __init__(self, name):
        self.name = name
        self.path = TOOLS / name
        loader = importlib.machinery.SourceFileLoader(name, str(self.path))
        self.module = importlib.util.module_from_spec(importlib.util.spec_from_loader(name, loader))
        loader.exec_module(self.module)

    def made(self, lines):
        """Exit status, file and messages of make."""
        output, messages = io.BytesIO(), io.StringIO()
        with contextlib.redirect_stderr(messages):
            status = self.module.make(io.BytesIO(lines), output)
        return status, output.getvalue(), messages.getvalue()

    def shown(self, file, *form):
        """Exit status, lines and messages of show, in a form where the tool has several."""
        output, messages = io.BytesIO(), io.StringIO()
        with contextlib.redirect_stderr(messages):
            status = self.module.show(*form, io.BytesIO(file), output)
        return status, output.getvalue(), messages.getvalue()

    def ended(self, words, source, output):
        """Exit status and messages of the tool run by itself."""
        run = subprocess.run([self.path, *words], stdin=source, stdout=output, stderr=subprocess.PIPE, check=False)
        return run.returncode, run.stderr.decode()

    def good_lines(self, cases):
        """Lines, and the bytes they make."""
        for text, bytes_ in cases:
            if self.made(text.encode()) != (0, bytes_, ""):
                yield f"'{text}': {self.made(text.encode())}"

    def bad_line(self, before, line, behind, message):
        """A bad line between good ones: it is told by its number and what to do, and nothing is made."""
        status, file, messages = self.made(f"{before}\n{line}\n{behind}\n".encode())
        at = before.count("\n") + 2
        if status != 1 or file or not messages.startswith(f"{self.name}: line {at}: ") or message not in messages.splitlines()[0]:
            yield f"'{line}': {messages}"

    def byte_order_marks(self, line):
        """A good line behind a byte order mark."""
        message = f"{self.name}: line 1: it begins with a byte order mark: save the lines as UTF-8 without one\n"
        for mark in (codecs.BOM_UTF8, codecs.BOM_UTF16_LE, codecs.BOM_UTF16_BE):
            if self.made(mark + line) != (1, b"", message):
                yield f"a byte order mark: {self.made(mark + line)}"

    def streams(self, words):
        """Input that cannot be read: a plain line, and never a traceback. Of nothing, nothing is written."""
        with open("/dev/full", "wb") as full, open(os.devnull, "rb") as nothing:
            folder = os.open("/", os.O_RDONLY)
            if self.ended(words, folder, subprocess.DEVNULL) != (2, f"{self.name}: standard input is a folder: give a file\n"):
                yield f"{words} of a folder"
            os.close(folder)
            if self.ended(words, nothing, full) != (0, ""):
                yield f"{words} of nothing"
        without = subprocess.run(["sh", "-c", '"$0" "$@" <&-', self.path, *words], stderr=subprocess.PIPE, check=False)
        if without.stderr.count(b"\n") != 1:
            yield f"{words} without an input"

    def unwritten(self, words, sample):
        """Output that cannot be written is told; what nobody reads any more is not."""
        with open("/dev/full", "wb") as full, sample.open("rb") as source:
            if self.ended(words, source, full) != (2, f"{self.name}: could not read or write: No space left on device\n"):
                yield f"{words} to a full disk"
        reader, writer = os.pipe()
        os.close(reader)
        with sample.open("rb") as source:
            if self.ended(words, source, writer) != (0, ""):
                yield f"{words} to a closed pipe"
        os.close(writer)

    def help_text(self, wrong_words):
        """How lines are written fits on a screen, and wrong words give the same."""
        asked = subprocess.run([self.path, "--help"], stdout=subprocess.PIPE, check=False)
        text = asked.stdout.decode()
        if asked.returncode or len(text.splitlines()) > 24 or max(map(len, text.splitlines())) > 80:
            yield "--help does not fit on a screen"
        for words in wrong_words:
            if self.ended(words, subprocess.DEVNULL, subprocess.DEVNULL) != (2, text):
                yield f"the words {words}"
