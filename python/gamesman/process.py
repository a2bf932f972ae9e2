"""Processes of the program: one command to its end, and a running `gamesman ask`."""
import contextlib
import csv
import functools
import glob
import os
import re
import subprocess
import sys
import tempfile
import threading
import weakref
from typing import IO, Callable, Dict, Iterable, Iterator, List, Optional, Sequence, Tuple

from .errors import Failed, ProgramMissing, Stopped

# As many bytes of questions are written at once at most. The smallest pipe has room for them, so the write never waits.
CHUNK = 4096

# How many bytes of answers the program may write before they are read, where the system grants it: those to a chunk of questions. By Linux's number of the
# call for it, which Python names from 3.10 on.
ROOM = 1 << 20
SET_PIPE_SIZE = 1031

# How many seconds a process whose output has ended is given to end by itself.
PATIENCE = 1


@functools.lru_cache(maxsize=None)
def own_program(folder: str) -> Optional[str]:
    """Returns the program that the wheel of this package brought, if it had one: the list of its files, in the folder of the packages, names it."""
    for path in glob.glob(os.path.join(glob.escape(folder), "gamesman-*.dist-info", "RECORD")):
        with open(path, encoding="utf-8", newline="") as file:
            names = [row[0] for row in csv.reader(file) if row and os.path.basename(row[0]) == "gamesman"]
        found = (os.path.normpath(os.path.join(folder, name)) for name in names)
        return next((it for it in found if os.access(it, os.X_OK)), None)
    return None


def program_of(program: Optional[str]) -> str:
    """Returns the program to start: the given one, or that of the environment variable GAMESMAN, that of the package's own wheel, or `gamesman` on the path."""
    return program or os.environ.get("GAMESMAN") or own_program(os.path.dirname(os.path.dirname(os.path.abspath(__file__)))) or "gamesman"


def started(words: Sequence[str], errors: IO[bytes], has_input: bool) -> "subprocess.Popen[bytes]":
    """Starts the program."""
    given = subprocess.PIPE if has_input else subprocess.DEVNULL
    try:
        return subprocess.Popen(words, stdin=given, stdout=subprocess.PIPE, stderr=errors, bufsize=-1, env=environment())
    except OSError as why:
        raise missing(words[0], why) from None


def environment() -> Dict[str, str]:
    """Returns the environment of the program, which is to explain its faults."""
    return {**os.environ, "GAMESMAN_EXPLAIN": "1"}


def missing(program: str, why: OSError) -> ProgramMissing:
    """Returns the error that a program can't be started, with how another one is named."""
    return ProgramMissing(f"{program}: {why.strerror}; the environment variable GAMESMAN or the argument 'program' names the program")


def widen(pipe: IO[bytes]) -> None:
    """Gives a pipe `ROOM`, so that the program answers while the caller looks at earlier answers."""
    if sys.platform == "linux":
        import fcntl

        with contextlib.suppress(OSError):
            fcntl.fcntl(pipe, SET_PIPE_SIZE, ROOM)


def fault_of(said: str, status: int) -> Tuple[str, int, str]:
    """Returns the fault of a command that failed (the first line that it wrote to standard error, or how it ended), its status, and the reason."""
    fault, _, rest = said.strip().partition("\n")
    if not fault:
        fault = f"the program was ended by signal {-status}" if status < 0 else f"the program ended with status {status}"
    fault = fault[len("gamesman: ") :] if fault.startswith("gamesman: ") else fault
    return fault, status, reason_in(rest)


def reason_in(further: str) -> str:
    """Returns the reason that the further lines of a fault give: their first paragraph, without the word before it."""
    return re.sub(r"^(error|tip): ", "", further.strip().partition("\n\n")[0])


def text_of(file: IO[bytes]) -> str:
    """Returns all that was written to a file."""
    file.seek(0)
    return file.read().decode("utf-8", "replace")


def run(words: Sequence[str]) -> str:
    """Runs a command to its end and returns what it writes."""
    with tempfile.TemporaryFile() as errors:
        process = started(words, errors, has_input=False)
        try:
            text, _ = process.communicate()
        except BaseException:
            process.kill()
            process.wait()
            raise
        if process.returncode:
            raise Failed(*fault_of(text_of(errors), process.returncode))
    return text.decode("utf-8")


def run_with_progress(words: Sequence[str], heard: Callable[[str], None]) -> str:
    """Runs a command to its end, hands each line of its standard error to `heard`, and returns what it writes to its output."""
    with tempfile.TemporaryFile() as output:
        try:
            process = subprocess.Popen(words, stdin=subprocess.DEVNULL, stdout=output, stderr=subprocess.PIPE, env=environment())
        except OSError as why:
            raise missing(words[0], why) from None
        assert process.stderr is not None
        said = ""
        try:
            with process.stderr:
                for line in process.stderr:
                    text = line.decode("utf-8", "replace")
                    if said or text.startswith("gamesman: "):
                        said += text
                    heard(text.rstrip("\n"))
            process.wait()
        except BaseException:
            process.kill()
            process.wait()
            raise
        if process.returncode:
            raise Failed(*fault_of(said, process.returncode))
        return text_of(output)


class Questions:
    """Questions that were written at once, and their answers once they are read."""

    __slots__ = ("number", "answers")

    def __init__(self, number: int) -> None:
        self.number = number
        self.answers: List[bytes] = []


class Asker:
    """A running `gamesman ask`. Each line that it is given is answered by one line, and an object that asks for many places by one for each.

    All that was asked is read before more is written, so that neither side ever waits for the other. Threads may share it."""

    def __init__(self, words: Sequence[str]) -> None:
        self._words = [*words, "--ready"]
        self._process: Optional["subprocess.Popen[bytes]"] = None
        self._errors: Optional[IO[bytes]] = None
        self._stopped: Optional[Stopped] = None
        self._unread: Optional[Questions] = None
        self._lock = threading.RLock()
        ASKERS.add(self)

    def forget(self) -> None:
        """Gives the process up without ending it. A later question starts another one."""
        self._lock = threading.RLock()
        process, errors = self._process, self._errors
        self._process = self._errors = self._unread = self._stopped = None
        if process:
            # (so that nobody waits for what is no child of this process)
            process.returncode = 0
            for stream in (process.stdin, process.stdout, errors):
                with contextlib.suppress(OSError):
                    if stream:
                        stream.close()

    @property
    def process_id(self) -> Optional[int]:
        """The number of the running process, if there is one."""
        return self._process.pid if self._process else None

    def ready(self) -> None:
        """Starts the process, if there is none, and waits until its tables are there."""
        with self._lock:
            if self._stopped:
                raise Stopped(self._stopped.fault, self._stopped.status, self._stopped.reason)
            if self._process:
                return
            self._errors = tempfile.TemporaryFile()
            self._process = started(self._words, self._errors, has_input=True)
            assert self._process.stdout
            widen(self._process.stdout)
            self._read_lines(1)

    def ask(self, lines: Iterable[bytes]) -> Iterator[List[bytes]]:
        """Answers lines, as many at once as `CHUNK` has room for. While the caller looks at the answers to some, the next are being answered."""
        return self._answers((chunk, len(chunk)) for chunk in chunks(lines))

    def ask_batches(self, lines: Iterable[Tuple[bytes, int]]) -> Iterator[List[bytes]]:
        """Answers lines of which each has so many answers, one line at once. While the caller looks at the answers to one, the next is being answered."""
        return self._answers(([line], number) for line, number in lines)

    def _answers(self, runs: Iterable[Tuple[List[bytes], int]]) -> Iterator[List[bytes]]:
        """Answers runs of lines, each of which has so many answers."""
        before: Optional[Questions] = None
        for lines, number in runs:
            questions = self._write(lines, number)
            if before:
                yield self._read(before)
            before = questions
        if before:
            yield self._read(before)

    def _write(self, lines: Sequence[bytes], number: int) -> Questions:
        with self._lock:
            self.ready()
            self._read_unread()
            assert self._process and self._process.stdin
            questions = Questions(number)
            try:
                self._process.stdin.write(b"\n".join(lines) + b"\n")
                self._process.stdin.flush()
            except OSError:
                raise self._end() from None
            except BaseException:
                self.close()
                raise
            self._unread = questions
            return questions

    def _read(self, questions: Questions) -> List[bytes]:
        with self._lock:
            if self._unread is questions:
                self._read_unread()
        if len(questions.answers) < questions.number:
            # (they were asked of a process that was closed or has ended)
            raise self._stopped or Stopped("the process was closed", 0)
        return questions.answers

    def _read_unread(self) -> None:
        questions, self._unread = self._unread, None
        if questions:
            questions.answers = self._read_lines(questions.number)

    def _read_lines(self, number: int) -> List[bytes]:
        """Reads so many lines. The end of the output is the end of the process."""
        assert self._process and self._process.stdout
        try:
            readline = self._process.stdout.readline
            lines = [readline() for _ in range(number)]
        except BaseException:
            # (as by Ctrl-C: which answers are still to come is not known any more)
            self.close()
            raise
        if not lines[-1].endswith(b"\n"):
            raise self._end()
        return lines

    def _end(self) -> Stopped:
        """Notes that the process has ended by itself, and why."""
        assert self._process and self._errors
        try:
            status = self._process.wait(PATIENCE)
        except subprocess.TimeoutExpired:
            self._process.kill()
            status = self._process.wait()
        self._stopped = Stopped(*fault_of(text_of(self._errors), status))
        self.close()
        return self._stopped

    def close(self) -> None:
        """Ends the process, which has nothing to lose. A later question starts another one."""
        with self._lock:
            process, self._process = self._process, None
            self._unread = None
            if process:
                process.kill()
                for stream in (process.stdin, process.stdout):
                    try:
                        if stream:
                            stream.close()
                    except OSError:
                        pass
                process.wait()
            if self._errors:
                self._errors.close()
                self._errors = None


ASKERS: "weakref.WeakSet[Asker]" = weakref.WeakSet()


def forget_all() -> None:
    """Gives up, in a process that was forked, the processes of its parent, which go on to answer the parent."""
    for asker in list(ASKERS):
        asker.forget()


if hasattr(os, "register_at_fork"):
    os.register_at_fork(after_in_child=forget_all)


def chunks(lines: Iterable[bytes]) -> Iterator[List[bytes]]:
    """Cuts lines into runs of at most `CHUNK` bytes with their ends. A longer line is a run of its own."""
    chunk: List[bytes] = []
    room = CHUNK
    for line in lines:
        if len(line) + 1 > room and chunk:
            yield chunk
            chunk, room = [], CHUNK
        chunk.append(line)
        room -= len(line) + 1
    if chunk:
        yield chunk
