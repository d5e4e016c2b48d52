"""A run that `replay --log FILE` keeps over several lives of the program, for the scripts that end a life before its script.

What a run must come to is told by the same script at one go, without a file: `replay --tail log`. A script here has an
entry for each of its lines, so that a number of entries names the line that comes next.
"""
from __future__ import annotations

import os
import re
import select
import subprocess

ROOT = os.path.dirname(os.path.dirname(os.path.abspath(__file__)))
PROGRAM = os.environ.get('WAREHOUSE') or os.path.join(ROOT, 'crates/warehouse/out/warehouse')
PIECE = 65536
NO_END = 60    # seconds within which a life must say something, or end


class Wrong(Exception):
    """The program did what it must not."""


def demand(good: object, message: str) -> None:
    if not good:
        raise Wrong(message)


def read_file(path: str) -> bytes | None:
    """A file's bytes, None where there is none."""
    try:
        with open(path, 'rb') as file:
            return file.read()
    except FileNotFoundError:
        return None


def write_file(path: str, text: bytes) -> None:
    with open(path, 'wb') as file:
        file.write(text)


def over_file(log: bytes) -> bytes:
    """A script's log as `replay --log` keeps it: its entries are of the caller that no client has."""
    return re.sub(rb'(?m)^0 ', b'62 ', log)


class Whole:
    """A script, and the log that FILE holds where it is served at one go."""

    def __init__(self, instance: bytes, words: tuple[str, ...] = (), program: str = PROGRAM):
        level, points, script = instance.split(b'%%\n')
        self.program, self.words, self.ends = program, words, ('--ends', 'homes') if 'homes' in words else ()
        self.site = level + b'%%\n' + points + b'%%\n'
        self.commands = [line for line in script.splitlines() if line.strip() and not line.startswith(b'#')]
        made = self.run('replay', '--tail', 'log', *words, text=self.site + b'\n'.join(self.commands) + b'\n')
        self.log = over_file(made.stdout[(b'\n' + made.stdout).index(b'\n%%\n') + 3:])
        lines = self.log.split(b'\n')
        self.head = b'\n'.join(lines[:2]) + b'\n'
        self.entries = lines[2:-2]
        self.replies = [entry.split(b' = ')[1] for entry in self.entries]
        demand(lines[-2:] == [b'end %d' % len(self.commands), b''], f'not each line of the script has an entry: {made}')

    def run(self, *words: str, text: bytes) -> subprocess.CompletedProcess:
        return subprocess.run([self.program, *words], input=text, capture_output=True, timeout=NO_END)

    def verify(self, log: bytes, *words: str) -> bytes:
        return self.run('verify', *self.ends, *words, text=self.site + log).stdout

    def text(self, count: int, ended: bool = False) -> bytes:
        """The log's text with so many entries."""
        return self.head + b''.join(entry + b'\n' for entry in self.entries[:count]) + (b'end %d\n' % count if ended else b'')

    def left(self, count: int) -> bytes:
        """What a run of so many entries leaves at the end of its input: the last line comes behind `close` alone."""
        return self.text(count, any(entry.endswith(b' close = closed') for entry in self.entries[:count]))

    def beside(self) -> bytes:
        """What stands beside the file of a log."""
        level, points, _ = self.site.split(b'%%\n')
        rule = b' ends homes' if 'homes' in self.words else b''
        return b'wsite %d %d%s\n' % (len(level), len(points), rule) + level + points

    def kept(self, text: bytes | None, told: int) -> int:
        """How many entries stand whole in what a life left of the file: a front of the log, and all that were told. A
        life that was closed, and came to the end of what it was sent, has an end line too."""
        text = text or b''
        if text.startswith(b'wlog 1\n'):    # not gone on with yet: its lines are those of version 2
            text = b'wlog 2' + text[6:]
        count = max(0, text.count(b'\n') - 2)
        if text and not self.log.startswith(text):
            lines = text.split(b'\n')
            ends = [number for number, line in enumerate(lines) if line.startswith(b'e')]
            count = (ends or [len(lines)])[0] - 2
            demand(count >= 0 and self.text(count, True).startswith(text), f'the file is no log of this run: {text[-200:]!r}')
        count = min(count, len(self.entries))
        demand(count >= told, f'{told} replies were told, and the file has {count} entries')
        return count


class Life:
    """The program behind its pipes, from its start to its end."""

    def __init__(self, whole: Whole, file: str, words: tuple[str, ...] = (), settings: dict[str, str] | None = None):
        self.process = subprocess.Popen(
            [whole.program, 'replay', '--replies', 'full', '--log', file, *whole.words, *words], bufsize=0,
            stdin=subprocess.PIPE, stdout=subprocess.PIPE, stderr=subprocess.PIPE, env={**os.environ, **(settings or {})})
        self.to, self.back = self.process.stdin.fileno(), self.process.stdout.fileno()
        os.set_blocking(self.to, False)
        os.set_blocking(self.back, False)
        self.left = bytearray()    # what is to be sent
        self.said = bytearray()    # what came, whole
        self.lines = 0             # so many lines of it
        self.ended = False         # its output has
        self.deaf = False          # it takes nothing more
        self.status: int | None = None    # once it was ended

    def send(self, text: bytes) -> None:
        self.left += text

    def turn(self, seconds: float, most: int = PIECE) -> bool:
        """Reads or writes a piece, whichever can be first within the time; whether something came or went."""
        back = [] if self.ended else [self.back]
        readable, writable, _ = select.select(back, [self.to] if self.left and not self.deaf else [], [], max(0, seconds))
        if readable:
            piece = os.read(self.back, PIECE)
            self.ended = not piece
            self.said += piece
            self.lines += piece.count(b'\n')
        if writable:
            try:
                del self.left[:os.write(self.to, self.left[:most])]
            except BrokenPipeError:
                self.deaf = True
        return bool(readable or writable)

    def await_lines(self, lines: int) -> bool:
        """Until all is sent and so many lines came in all; False where its output ends before."""
        while (self.lines < lines or (self.left and not self.deaf)) and not self.ended:
            demand(self.turn(NO_END), f'nothing came for {NO_END} s; {self.lines} lines before')
        return self.lines >= lines

    def kill(self) -> int:
        self.process.kill()
        return self.end()

    def end(self) -> int:
        """Its status, once it has said all."""
        if self.status is not None:
            return self.status
        self.process.stdin.close()
        self.left.clear()
        while not self.ended:
            demand(self.turn(NO_END), f'no end for {NO_END} s')
        self.errors = self.process.stderr.read()
        self.process.stderr.close()
        self.process.stdout.close()
        self.status = self.process.wait(NO_END)
        return self.status

    def replies(self) -> tuple[int | None, list[bytes], bytes]:
        """The number of entries that it told first (None: it did not come to it), the whole replies, and what was cut."""
        *whole, torn = bytes(self.said).split(b'\n')
        if not whole:
            return None, [], torn
        words = whole[0].split(b' ')
        demand(words[0] == b'entries' and len(words) == 2 and words[1].isdigit(), f'the first line is {whole[0]!r}')
        return int(words[1]), whole[1:], torn


def judge(whole: Whole, life: Life, before: int) -> tuple[int, int]:
    """What a life has told, by the log: with how many entries it began (`before` where it did not come to tell it), and up
    to which entry all is told."""
    first, replies, torn = life.replies()
    if first is None:
        demand(b'entries '.startswith(torn[:8]), f'it began with {torn!r}')
        return before, 0
    demand(first == before, f'it says `entries {first}`, and the file had {before}')
    told = first + len(replies)
    demand(told <= len(whole.entries), f'{told} replies came to {len(whole.entries)} lines')
    for number, (reply, wanted) in enumerate(zip(replies, whole.replies[first:]), first):
        demand(reply == wanted, f'to line {number}, {whole.commands[number]!r}, came {reply!r}, wanted {wanted!r}')
    demand((whole.replies + [b''])[told].startswith(torn), f'behind reply {told} stands {torn!r}')
    return first, told if replies else 0


def go_on(whole: Whole, file: str, before: int, words: tuple[str, ...] = ()) -> None:
    """The last life: the rest of the script, to the log of the script at one go."""
    life = Life(whole, file, words)
    life.send(whole.site)
    life.await_lines(1)
    life.send(b''.join(line + b'\n' for line in whole.commands[before:]))
    life.await_lines(1 + len(whole.commands) - before)
    status = life.end()
    demand((status, life.errors) == (0, b''), f'going on: status {status}, {life.errors!r}')
    judge(whole, life, before)
    demand(read_file(file) == whole.left(len(whole.entries)), 'gone on from, the file is not the log of the script at one go')
