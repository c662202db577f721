#!/usr/bin/env python3
"""Writes the listing of a program for MARS or SPIM: translate.py PROGRAM FILE [--run ..], where PROGRAM takes the word `run`. The
script `ruu` starts it, and is that program."""
import codecs
import os
import sys

import running
import words
from faults import Faults, end, write_error
from layout import Layout
from sections import Sections
from slots import check_slots
from statements import Reader
from writing import Listing


def read_lines(file):
    """The lines of a file, one character a byte, with any ends."""
    try:
        if file == "-":
            text = sys.stdin.buffer.read()
        else:
            with open(file, "rb") as program:
                text = program.read()
    except OSError as error:
        end(5, f"ruu: {file}: the program cannot be read: {error.strerror}")
    if text.startswith(codecs.BOM_UTF8):
        text = text[len(codecs.BOM_UTF8):]
    lines = text.decode("latin-1").replace("\r\n", "\n").replace("\r", "\n").split("\n")
    return lines if lines[-1] else lines[:-1]


class Translation:
    """A program, and what stands for it."""

    def __init__(self, file, lines):
        self.name = os.fsencode(os.path.basename(file)).decode("latin-1") if file != "-" else "standard input"
        self.faults = Faults()
        reader = Reader(self.faults)
        self.sections = Sections(self.faults)
        self.statements = self.sections.take_all(reader.statements(lines))
        check_slots(self.sections.code, self.faults)
        self.layout = Layout(self.sections, self.faults)
        self.listing = [] if self.faults else [*Listing(self.name, self.statements, self.sections, self.layout).lines()]

    def notes(self):
        """What a reader has to know beside the listing."""
        lines = [str(statement.line) for statement in self.layout.printed]
        if lines:
            yield f"note: output is left out, in {'lines' if len(lines) > 1 else 'line'} {', '.join(lines)}: there is no system"
        for line, address, byte in self.layout.mapped:
            yield f"note: line {line}: {address & 0xffffffff:#x}, where MARS and SPIM have data, is byte {byte} here"


def translated(file):
    """The translation of a file. A program that is refused ends this one, with all faults."""
    lines = read_lines(file)
    found = Translation(file, lines)
    if found.faults:
        for line in found.faults.told(file, lines):
            write_error(line)
        sys.exit(2)
    for note in found.notes():
        write_error(f"{file}: {note}")
    return found


def main():
    """The status, after the listing or what is told of its run was written."""
    program, *rest = sys.argv[1:]
    asked = words.read(rest)
    found = translated(asked.file)
    if asked.run is None:
        status, text = 0, "".join(f"{line}\n" for line in found.listing).encode("latin-1")
    else:
        status, text = running.told(program, found, asked.run)
    try:
        sys.stdout.buffer.write(text)
        sys.stdout.buffer.flush()
    except OSError as error:
        end(5, f"ruu: standard output: {error.strerror}")
    return status


if __name__ == "__main__":
    try:
        sys.exit(main())
    except KeyboardInterrupt:
        sys.exit(130)
