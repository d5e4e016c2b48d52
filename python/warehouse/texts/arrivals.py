"""The file of arrivals, FILE.at: what vehicles have reported over all stops of a run. Steps count from the log's first clock."""
from __future__ import annotations

import re

from .lines import MOST_NUMBER, Fault

REPORT = re.compile(rb'at ([0-9]{1,10}) ([0-9]{1,10})')
FRONT = re.compile(rb'front [0-9]{1,20} [0-9a-f]{64}')    # the first line beside a log that begins with a state


def read_arrivals(name: str, data: bytes, agents: int) -> list[int]:
    """Of each agent the greatest step that its vehicle has reported, 0 for none; a torn last line does not count.

    Raises Fault where a line is no report, or of an agent that there is not.
    """
    steps = [0] * agents
    for number, line in enumerate(data.split(b'\n')[:-1], 1):
        if FRONT.fullmatch(line):
            continue
        found = REPORT.fullmatch(line)
        agent, step = map(int, found.groups()) if found else (0, MOST_NUMBER + 1)
        if max(agent, step) > MOST_NUMBER:
            raise Fault(f'`{line[:40].decode("latin-1")}` is no line `at AGENT STEP`', name, number)
        if agent >= agents:
            raise Fault(f'there is no agent {agent}', name, number)
        steps[agent] = max(steps[agent], step)
    return steps
