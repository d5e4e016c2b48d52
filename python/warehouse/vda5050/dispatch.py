"""The fleet of a run in which some agents are out of use, and some begin with a load."""
from __future__ import annotations

from typing import Callable, Iterator, Sequence

from ..fleet import HELPER, Fleet
from ..replies import Clock, Entry, Reply
from ..session import Session
from ..texts import Order
from .book import Book, Opening


class Dispatch(Fleet):
    """A fleet, nearest first, that asks for no agent that is out of use, and for one with a load only where it takes what it carries."""

    def __init__(self, core: Session, opening: Opening, book: Book, listen: Callable[[str, Reply], None]):
        self.opening, self.book = opening, book
        self.carries = {agent: key for key, agent in opening.carried.items() if agent not in opening.out}
        super().__init__(core, listen=listen)

    def clocks(self, entries: Sequence[Entry]) -> Iterator[tuple[int, Entry]]:
        """Each entry with the clock at which it was made."""
        clock = 0
        for entry in entries:
            yield clock, entry
            if isinstance(entry.reply, Clock):
                clock = entry.reply.now

    def hand_in(self, orders: Sequence[Order]) -> list[int | None]:
        """As a fleet's; a helper order gets its line in the list of keys first."""
        number = len(self.tasks)
        is_helper = len(orders) == 1 and orders[0].client == HELPER and self.book.of_task(number) is None
        if is_helper:
            self.book.put(f'{HELPER}-{self.opening.number}-{number}', HELPER, orders[0].stops, number)
        tasks = super().hand_in(orders)
        if is_helper and tasks == [None]:
            self.book.free(self.opening.number, number)
        return tasks

    def may_ask(self, agent: int) -> bool:
        if not super().may_ask(agent) or agent in self.opening.out:
            return False
        key = self.carries.get(agent)
        if key is None:
            return True
        carried = self.book.transports.get(key)
        if carried is None or carried.is_delivered or (carried.run == self.opening.number and carried.task not in self.open):
            del self.carries[agent]
            return True
        answer = self.answer(agent)
        return carried.run == self.opening.number and answer is not None and answer[1] == carried.task

    def stands(self) -> bool:
        """Whether no later reply can differ, with those that are out of use at rest."""
        return not self.pending() and not self.under_way() and not any(self.may_ask(agent) and not self.rests(agent) for agent in range(len(self.due)))
