"""The words of a command: its options and files, its help, completion and manual page, all from one table.

A command is a module of yds.commands with a table COMMAND and main(words). `run` reads the words, calls the command's
work, and sees to how it ends:

  0    done
  1    a fault of the input, or an answer of no where the command's page says so
  2    a fault of the words
  130  an interrupt
  141  the output was closed

A fault is one line on standard error. A command that writes a document ends it with the line `failed` then, which
yds_cli refuses; one that writes anything else writes nothing.
"""

from __future__ import annotations

import argparse
import os
import signal
import sys
from textwrap import fill
from typing import Any, Callable, List, NamedTuple, NoReturn, Optional, Sequence, Union

from yds._progress import Progress
from yds._version import DATE, VERSION

DONE, NO, WORDS, OPEN = 0, 1, 2, 8
"""The statuses: done; a fault of the input or an answer of no; a fault of the words."""
WIDTH = 120
CLOSED = 128 + signal.SIGPIPE
INTERRUPTED = 128 + signal.SIGINT


class WordsError(ValueError):
    """A word that the command doesn't take. The message says which, and what there is."""


class Option(NamedTuple):
    """An option of a command."""

    name: str
    """The word is --name."""
    told: str
    """What it does, in one sentence without its point."""
    value: str = ""
    """What its value is called, as FACTOR; empty where it has none."""
    short: str = ""
    """The short word, as -m; empty where there is none."""
    before: str = ""
    """The name that the word NAME=VALUE of before had; the option's own where it is empty."""


class Files(NamedTuple):
    """The files that a command reads; standard input where none is named, and for -."""

    called: str
    least: int = 0
    most: Optional[int] = None
    few: str = ""
    """What is told where there are fewer than the least."""
    words: Sequence[str] = ()
    """What the first may be, where it is no file: for the completion."""

    def form(self) -> str:
        """How a line of usage has them."""
        if self.most == 0:
            return ""
        form = " ".join([self.called] * max(self.least, 1)) + (" .." if self.most is None else "")
        return form if self.least else f"[{form}]"


class Command(NamedTuple):
    """The table of a command."""

    name: str
    summary: str
    """What it is for, in one sentence without its point."""
    about: str
    """What it reads and writes: paragraphs, with examples indented."""
    options: Sequence[Option] = ()
    files: Files = Files("FILE", 0, 1)
    statuses: str = "0 done; 1 a fault in the input; 2 a fault of the words."
    writes_document: bool = False
    """Whether the output is a document or a part of one, so that `failed` is its last line where it isn't whole."""
    streams: bool = False
    """Whether lines are written as they come; else they are held until the work is done."""

    def usage(self) -> str:
        """The line of usage."""
        words = [f"[{_form(option)}]" for option in self.options]
        return " ".join(word for word in [self.name, *words, self.files.form()] if word)


class Given(NamedTuple):
    """The words that were given: the value of each option, None or False where it wasn't, and the files."""

    options: "argparse.Namespace"
    files: Sequence[str]

    def __getattr__(self, name: str) -> Any:
        """The value of the option of this name."""
        return getattr(self.options, name)


def _form(option: Option) -> str:
    word = option.short or f"--{option.name}"
    return f"{word} {option.value}" if option.value else word


class _Parser(argparse.ArgumentParser):
    def error(self, message: str) -> NoReturn:
        raise WordsError(message)


def parse(command: Command, words: Sequence[str]) -> Given:
    """The command's words, read: options and files in any order, and after -- files alone."""
    parser = _Parser(prog=command.name, add_help=False, allow_abbrev=False)
    for option in command.options:
        names = [option.short, f"--{option.name}"] if option.short else [f"--{option.name}"]
        destination = option.name.replace("-", "_")
        if option.value:
            parser.add_argument(*names, dest=destination, metavar=option.value)
        else:
            parser.add_argument(*names, dest=destination, action="store_true")
    parser.add_argument("files", nargs="*")
    words = list(words)
    end = words.index("--") if "--" in words else len(words)
    _refuse_old(command, words[:end])
    given = parser.parse_intermixed_args(words[:end])
    files = [*given.files, *words[end + 1 :]]
    if len(files) < command.files.least:
        few = "no file" if command.files.least == 1 else f"fewer than {command.files.least} files"
        few = command.files.few or few
        raise WordsError(f"{few}: {command.usage()}")
    if command.files.most is not None and len(files) > command.files.most:
        most = f"more than {command.files.most} file" + ("" if command.files.most == 1 else "s")
        raise WordsError(f"there is no file to give, and {files[0]} is one" if command.files.most == 0 else most)
    return Given(given, files)


def _refuse_old(command: Command, words: Sequence[str]) -> None:
    """A word NAME=VALUE of before isn't taken for a file."""
    news = {option.before or option.name: option for option in command.options}
    for place, word in enumerate(words):
        name, equals, value = word.partition("=")
        if word == "-v" and "-v" not in [option.short for option in command.options]:
            raise WordsError("-v is no word of this command: write --NAME VALUE in place of -v NAME=VALUE")
        if not equals or name not in news or (place and words[place - 1].startswith("-")):
            continue
        new = f"--{news[name].name} {value}" if news[name].value else f"--{news[name].name}"
        raise WordsError(f"{word} is no word of this command: write {new}; a file of this name is ./{word}")


Written = Union[str, bytes]
"""A line, or bytes that are written as they are."""
Work = Callable[[Given, Callable[[Written], None]], int]
"""The work of a command: its words and a call that writes a line in, its status out."""


def run(command: Command, words: Sequence[str], work: Work) -> int:
    """Reads the words, does the work, and gives the status."""
    try:
        return _answer(command, words, work)
    except BrokenPipeError:
        _let_go()
        return CLOSED


def _answer(command: Command, words: Sequence[str], work: Work) -> int:
    if list(words[:1]) in (["--help"], ["--version"], ["--options"], ["--man"]):
        told = {"--help": help_of, "--version": version_of, "--options": options_of, "--man": manual_of}
        return _put(command, [told[words[0]](command)], DONE)
    try:
        given = parse(command, words)
        held: List[Written] = []
        with Progress(command.name, given.files, command.streams):
            status = work(given, _write if command.streams else held.append)
    except WordsError as fault:
        return _fail(command, f"{fault}; see {command.name} --help", WORDS)
    except KeyboardInterrupt:
        return _fail(command, "", INTERRUPTED)
    except BrokenPipeError:
        raise
    except UnwrittenError as fault:
        return _fail(command, str(fault), NO, unwritten=True)
    except (OSError, MemoryError, ValueError, ArithmeticError, ImportError) as fault:
        return _fail(command, _told(fault), NO)
    except Exception as fault:
        return _fail(command, f"{type(fault).__name__}: {fault}; this is a fault of {command.name} itself", NO)
    return _put(command, held, status)


class UnwrittenError(Exception):
    """The output can't be written, as where a disk is full."""

    def __init__(self, fault: OSError) -> None:
        super().__init__(f"the output can't be written: {fault.strerror}")


def _write(line: Written) -> None:
    """Writes a line as it comes."""
    try:
        sys.stdout.buffer.write(_bytes_of(line))
    except BrokenPipeError:
        raise
    except OSError as fault:
        raise UnwrittenError(fault) from fault


def _bytes_of(line: Written) -> bytes:
    return line if isinstance(line, bytes) else line.encode("latin-1") + b"\n"


def _told(fault: BaseException) -> str:
    """One line that says what is wrong."""
    if isinstance(fault, OSError) and fault.filename is not None:
        return f"{os.fsdecode(fault.filename)} can't be read: {fault.strerror}"
    return str(fault) or "there isn't memory enough"


def _fail(command: Command, told: str, status: int, unwritten: bool = False) -> int:
    """Tells a fault, and says to the output that it isn't whole; of an output that can't be written that is told once."""
    if told:
        shown = "".join(sign if sign.isprintable() else "?" for sign in f"{command.name}: {told}")
        sys.stderr.buffer.write(shown.encode("utf-8", "surrogateescape") + b"\n")
        sys.stderr.flush()
    return _put(command, ["failed"] if command.writes_document else [], status, unwritten)


def _put(command: Command, lines: Sequence[Written], status: int, unwritten: bool = False) -> int:
    """Writes the lines; a disk that is full is a fault, too."""
    try:
        sys.stdout.buffer.writelines(map(_bytes_of, lines))
        sys.stdout.flush()
    except BrokenPipeError:
        raise
    except OSError as fault:
        _let_go()
        if not unwritten:
            sys.stderr.write(f"{command.name}: {UnwrittenError(fault)}\n")
        return NO
    return status


def _let_go() -> None:
    """What is still held for the output goes nowhere."""
    os.dup2(os.open(os.devnull, os.O_WRONLY), sys.stdout.fileno())


# --- What the table says to a reader.


def help_of(command: Command) -> str:
    """The help: what the command is for, and its words."""
    usage = _filled(command.usage(), "  ", " " * (len(command.name) + 3))
    parts = [f"{command.name}: {command.summary}.", usage, command.about.strip("\n")]
    if command.options:
        parts.append("Options:\n" + "\n".join(_option_lines(command)))
    return "\n\n".join([*parts, _filled(f"Exit status: {command.statuses}")])


def _filled(text: str, first: str = "", others: str = "", width: int = WIDTH) -> str:
    """The text in lines that aren't too long; no word is parted."""
    return fill(text, width, initial_indent=first, subsequent_indent=others, break_on_hyphens=False)


def _option_lines(command: Command) -> List[str]:
    forms = [", ".join(word for word in (option.short, f"--{option.name}") if word) for option in command.options]
    forms = [f"{form} {option.value}".rstrip() for form, option in zip(forms, command.options)]
    width = max(map(len, forms))
    told = [_filled(option.told, width=WIDTH - width - 5).split("\n") for option in command.options]
    heads = [form.ljust(width) for form in forms]
    return [
        f"  {head if place == 0 else ' ' * width}   {text}"
        for head, texts in zip(heads, told)
        for place, text in enumerate(texts)
    ]


def options_of(command: Command) -> str:
    """The words that begin an option, for the completion: one that has a value ends with a space's place, as --name=."""
    words = [f"--{option.name}{'=' if option.value else ''}" for option in command.options]
    words += [option.short for option in command.options if option.short]
    return "\n".join([*words, *command.files.words, "--help", "--version"])


def version_of(command: Command) -> str:
    """The versions of the package, and of the library and the program that it finds, which have to be of one version."""
    from yds._found import library, program

    return "\n".join([f"{command.name} {VERSION}, of the package yds", library(), program()])


def manual_of(command: Command) -> str:
    """The manual page, in the language of man."""
    lines = [f'.TH {command.name.upper()} 1 "{DATE}" "yds_cli {VERSION}" "yds_cli"', ".SH NAME"]
    lines += [f"{_roff(command.name)} \\- {_roff(command.summary)}", ".SH SYNOPSIS", _roff(command.usage())]
    lines += [".SH DESCRIPTION", *_paragraphs(command.about)]
    if command.options:
        lines.append(".SH OPTIONS")
    for option in command.options:
        words = ", ".join(word for word in (option.short, f"--{option.name}") if word)
        lines += [".TP", f"\\fB{_roff(words)}\\fR {_roff(option.value)}".rstrip(), _roff(option.told) + "."]
    lines += [".SH EXIT STATUS", _roff(command.statuses), ".SH SEE ALSO", ".BR yds_cli (1)", ".PP"]
    return "\n".join([*lines, "The page manual.md has this command in a walk with real output.", _PACKAGED])


_PACKAGED = "Debian\\(aqs package yds\\-doc has it in /usr/share/doc/yds\\-doc/docs."


def _paragraphs(text: str) -> List[str]:
    lines: List[str] = []
    for number, paragraph in enumerate(text.strip("\n").split("\n\n")):
        lines += [".PP"] if number else []
        literal = any(line.startswith(" ") for line in paragraph.split("\n"))
        lines += [".nf"] if literal else []
        lines += [_roff(line) for line in paragraph.split("\n")]
        lines += [".fi"] if literal else []
    return lines


def _roff(text: str) -> str:
    """The text as it is: no sign of it is one of the language."""
    text = text.replace("\\", "\\e").replace("-", "\\-")
    return "\\&" + text if text.startswith((".", "'")) else text
