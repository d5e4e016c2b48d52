"""The carrier of a session over a process's pipe. Where the program keeps the run in a file, one that died is started again.

It goes on with nothing sent twice: the new program tells again the entries behind those whose replies came (`--told`), so
each line that had no reply is one that stands there, or one that changed nothing and is sent again.
"""
from __future__ import annotations

from dataclasses import dataclass, field
from typing import Sequence

from .process import CoreDied, Process, SessionError, was_killed
from .replies import NotAReply, Told, is_entry, reply_of, told_of, unplaced, without_cells
from .texts import number_of

FENCE = 'at 999999999 0'             # a report of no vehicle: its answer stands behind all that the lines before it caused
FENCED = 'refused V2 999999999'
MOST_STARTS = 5                      # of programs in turn that are killed and serve nothing
OTHER_RUN = 'another program goes on with this run'


def shortened(text: str) -> str:
    return text if len(text) <= 60 else text[:60] + '..'


@dataclass
class Restart:
    """A program that was started again: why, with how many entries, and how many of these had no reply before."""
    reason: str
    entries: int
    lost: int
    told: list[Told] = field(default_factory=list)    # what was told as it began, known or not

    def __str__(self) -> str:
        return f'{self.reason}; it was started again, with {self.entries} entries, {self.lost} of them without a reply'


class Pipe:
    """Lines to a program and its answers, as texts.

    `entries` counts the entries of the run that are known; `begun` are those that were told as it began, as the log has them.
    """

    def __init__(self, process: Process, site: bytes, form: str, log: str | None, vehicles: bool):
        self.process, self.site, self.form, self.log, self.vehicles = process, site, form, log, vehicles
        self.entries = 0
        self.begun: list[str] = []
        self.restarts: list[Restart] = []
        self.told: list[Told] = []    # by `go` and `visited`, not taken yet

    def begin(self, told: int | None) -> None:
        """Starts the program. With a log, the entries from the place `told` on are told again (None: none)."""
        if self.log is None:
            self.process.start()
            self.process.exchange(self.site)
            return
        count, self.begun = self.open(told)
        self.entries = count
        if self.vehicles:
            self.told += self.outstanding()

    def open(self, told: int | None) -> tuple[int, list[str]]:
        """Starts a program over its log: how many entries that has, and those told again."""
        assert self.log is not None
        self.process.start(['--log', self.log] + ([] if told is None else ['--told', str(told)]))
        said = self.process.exchange(self.site, 1, more=told is not None or self.vehicles)
        words = said[0].split(' ') if said else []
        count = number_of(words[1]) if len(words) == 2 and words[0] == 'entries' else None
        if count is None:
            if said:
                raise SessionError(f'`{shortened(said[0])}` came in place of `entries N`')
            raise self.died('and began no run')
        if told is None or told > count:
            return count, []
        entries = self.process.exchange(b'', count - told, more=self.vehicles)
        if len(entries) < count - told:
            raise self.died(f'and told {len(entries)} of {count - told} entries again')
        return count, entries

    def outstanding(self) -> list[Told]:
        """What vehicles are told as a program begins."""
        lines = self.process.exchange(f'{FENCE}\n'.encode(), last=FENCED)
        if lines[-1:] != [FENCED]:
            raise self.died('as it began')
        told = [self.told_in(line) for line in lines[:-1]]
        return [one for one in told if one is not None]

    def told_in(self, line: str) -> Told | None:
        """What a vehicle is told by the line, where it is such a line."""
        try:
            return told_of(line) if self.vehicles else None
        except NotAReply:
            raise SessionError(f'`{shortened(line)}` tells a vehicle nothing that is known') from None

    def answers(self, lines: Sequence[str]) -> list[str]:
        """The answer to each line; all are written at once. Raises CoreDied where the program died and does not go on."""
        answers: list[str | None] = [None] * len(lines)
        died = self.exchange(lines, answers)
        in_vain = 0    # programs in turn that served nothing
        while died is not None:
            if self.log is None or (in_vain and not was_killed(died.status)) or in_vain == MOST_STARTS:
                raise died
            waiting = answers.count(None)
            self.start_again(lines, answers, died)
            died = self.exchange(lines, answers)
            in_vain = in_vain + 1 if answers.count(None) == waiting else 0
        return [answer for answer in answers if answer is not None]

    def exchange(self, lines: Sequence[str], answers: list[str | None]) -> CoreDied | None:
        """Sends the lines that have no answer yet, and puts in what comes; why the program died, or None."""
        places = [place for place, answer in enumerate(answers) if answer is None]
        sent = [lines[place] for place in places] + [FENCE] * self.vehicles
        said = self.process.exchange(''.join(line + '\n' for line in sent).encode('latin-1'), len(sent),
                                     FENCED if self.vehicles else None)
        whole = said[-1:] == [FENCED] if self.vehicles else len(said) >= len(sent)
        came = self.without_told(said[:-1] if whole and self.vehicles else said)
        if len(came) > len(places) or (whole and len(came) < len(places)):
            raise SessionError(f'{len(came)} replies came to {len(places)} lines')
        for place, answer in zip(places, came):
            answers[place] = answer
            self.entries += is_entry(unplaced(answer)[2])
        if whole:
            return None
        return self.died(f'and gave no reply to `{sent[len(came)]}`')

    def died(self, when: str) -> CoreDied:
        status = self.process.status()
        return CoreDied(f'the program ended with status {status} {when}', status)

    def without_told(self, said: list[str]) -> list[str]:
        """The answers among what was said; what vehicles are told is kept."""
        answers = []
        for line in said:
            told = self.told_in(line)
            if told is None:
                answers.append(line)
            else:
                self.told.append(told)
        return answers

    def start_again(self, lines: Sequence[str], answers: list[str | None], died: CoreDied) -> None:
        """A program that died is started again, and the answers are put in that its entries have."""
        known, waiting = self.entries, answers.count(None)
        self.entries, told_again, outstanding = self.opened_again(known)
        if not known <= self.entries <= known + waiting:
            raise SessionError(f'it goes on with {self.entries} entries, and {known} commands were answered, {waiting} more were sent: '
                               + OTHER_RUN)
        self.restarts.append(Restart(str(died), self.entries, self.entries - known, outstanding))
        self.told += outstanding
        places = iter([place for place, answer in enumerate(answers) if answer is None])
        for number, entry in enumerate(told_again, known):
            event, _, reply = entry.partition(' = ')
            # a line before it that has no entry changed nothing, and is sent again
            place = next((place for place in places if is_entry_of(event, lines[place])), None)
            if place is None:
                raise SessionError(f'entry {number}, `{shortened(event)}`, is none of what was sent: {OTHER_RUN}')
            answers[place] = self.in_form(reply)

    def opened_again(self, known: int) -> tuple[int, list[str], list[Told]]:
        """How many entries the next program begins with, those told again, and what vehicles are told. One that is killed
        while it begins is followed by another, a few times."""
        for starts_left in range(MOST_STARTS - 1, -1, -1):
            self.process.drop()
            try:
                count, entries = self.open(known)
                return count, entries, self.outstanding() if self.vehicles else []
            except CoreDied as died:
                if not was_killed(died.status) or not starts_left:
                    raise
        raise AssertionError

    def in_form(self, reply: str) -> str:
        """A reply of the log as this session's replies are written."""
        if self.form != 'short':
            return reply
        try:
            return str(without_cells(reply_of(reply)))
        except NotAReply:
            raise SessionError(f'`{shortened(reply)}` is no reply of a log') from None

    def take_told(self) -> list[Told]:
        told, self.told = self.told, []
        return told

    def end(self) -> bytes:
        """Ends the input; what the program writes behind its replies, the log or the ledger where it was asked for. One with a
        log that was killed before it came to that is started again, a few times: it writes the log's last line."""
        tail = self.process.end()
        for _ in range(MOST_STARTS):
            if self.log is None or not was_killed(self.process.status()):
                break
            self.opened_again(self.entries)
            tail = self.process.end()
        return tail

    def status(self) -> int:
        return self.process.status()

    def drop(self) -> None:
        self.process.drop()


LOG_CALLER = '62'    # of the entries that `replay --log` makes


def is_entry_of(event: str, line: str) -> bool:
    """Whether an entry's `CALLER COMMAND` is of that command; what a replacement was made of stands in the entry alone."""
    caller, _, command = event.partition(' ')
    words = line.split()
    if words[:1] == ['replace']:
        return command.split(' ')[:2] == ['replace', str(int(words[1]))]
    return caller == LOG_CALLER and command == ' '.join(words)
