"""What a page, a monitor and a supervisor ask of a running floor: figures of the last minutes, alarms, metrics."""
from __future__ import annotations

import statistics
from typing import Any

from .follow import Follower

MINUTE = 6000    # hundredths of a second
PHASES = ('open', 'assigned', 'carried', 'done')


class Status:
    """Of a run that is followed; the clock waits for a vehicle that is `behind` steps behind, which is an alarm after some seconds."""

    def __init__(self, floor: Follower, behind: int, minutes: int, patience: float):
        self.floor, self.behind, self.minutes, self.patience = floor, behind, minutes, 100 * patience

    def phases(self) -> dict[str, int]:
        floor, count = self.floor, dict.fromkeys(PHASES, 0)
        for number in floor.kept:
            task = floor.run.tasks[number]
            visits = floor.vehicles.visits.get(number, ()) if floor.vehicles else [visit for visit in task.visits if visit <= floor.run.clock]
            made = len(visits)
            if made < len(task.stops):
                count['open' if task.taken is None else 'carried' if made else 'assigned'] += 1
        return count | {'done': floor.done}

    def most_behind(self) -> tuple[int, int]:
        """How many vehicles are behind their plan, and how far the last of them is."""
        behind = self.floor.vehicles.behind() if self.floor.vehicles else []
        return sum(steps > 0 for steps in behind), max(behind, default=0)

    def waits_for(self) -> list[str]:
        """The vehicle for which the clock has waited for a while."""
        vehicles = self.floor.vehicles
        agent = vehicles.hold(self.behind) if vehicles else None
        if not vehicles or agent is None or self.floor.log.ended or self.floor.now() - vehicles.held[-1][0] < self.patience:
            return []
        return [f'the clock waits for vehicle {agent}, {vehicles.behind()[agent]} steps behind']

    def stands(self) -> bool:
        """Nobody has steps left, an order is open, and every agent has been asked since the last change."""
        run = self.floor.run
        return (len(self.floor.resting) == len(run.paths) and any(run.tasks[number].taken is None for number in self.floor.kept)
                and all(paths[-1].end <= run.clock for paths in run.paths))

    def alarms(self) -> list[str]:
        """What somebody should look at now."""
        floor, found = self.floor, []
        if floor.fault or floor.unread:
            found.append(f'the files cannot be read: {floor.fault or floor.unread}')
        elif not floor.log.is_there:
            found.append(f'there is no log {floor.name}')
        if floor.wrong:
            found.append(floor.wrong)
        if floor.vehicles:
            found += floor.vehicles.meetings()[:3]
        found += [f'vehicle {agent} is out of use' for agent in floor.out]
        found += self.waits_for()
        if self.stands() and not floor.log.ended:
            found.append('standstill: all agents rest, and orders are open')
        missing = sum(when > floor.now() - MINUTE for when in floor.missing)
        if missing:
            found.append(f'{missing} request{"s" * (missing > 1)} without a path (E6) in the last minute')
        return found

    def figures(self) -> list[list[Any]]:
        """Names and values, of the last minutes where they are not of now."""
        floor, now = self.floor, self.floor.now()
        span = min(now, self.minutes * MINUTE)
        served = sorted(ticks for when, ticks in floor.served if when > now - span)
        late, most = self.most_behind()
        rows: list[list[Any]] = [[f'delivered in {span / MINUTE:.1f} min', len(served)]]
        if served:
            rows += [['service time, mean', f'{statistics.mean(served):.1f}'], ['service time, 95 of 100', served[-(-95 * len(served) // 100) - 1]]]
        if floor.vehicles:
            rows += [['vehicles behind', late], ['most steps behind', most]]
        return rows

    def page(self) -> dict[str, Any]:
        return {'alarms': self.alarms(), 'figures': self.figures(), 'ended': self.floor.log.ended}

    def metrics(self, pages: int) -> str:
        """Prometheus text."""
        floor, run, (late, most) = self.floor, self.floor.run, self.most_behind()
        text: list[str] = []

        def add(name: str, kind: str, says: str, rows: dict[str, object]) -> None:
            text.extend([f'# HELP warehouse_{name} {says}', f'# TYPE warehouse_{name} {kind}'])
            text.extend(f'warehouse_{name}{labels} {value}' for labels, value in rows.items())
        add('entries_total', 'counter', 'Entries of the run, with those of the logs before.', {'': run.earlier + run.entries})
        add('log', 'gauge', 'Number of the log among those of the run.', {'': 1 + run.front.after if run.front else 1})
        add('clock', 'gauge', 'The clock of the plan, in ticks.', {'': run.clock})
        add('tasks', 'gauge', 'Tasks by phase.', {f'{{phase="{name}"}}': count for name, count in self.phases().items()})
        answers = {kind: run.answers[kind] for kind in ('took', 'parked', 'rested', 'E5', 'E6')}
        add('requests_total', 'counter', 'Requests for the token by answer.', {f'{{answer="{kind}"}}': count for kind, count in answers.items()})
        add('agents', 'gauge', 'Agents of the floor.', {'': len(run.paths)})
        add('vehicles_behind', 'gauge', 'Vehicles behind their plan.', {'': late})
        add('most_steps_behind', 'gauge', 'Steps by which the last vehicle is behind.', {'': most})
        add('alarms', 'gauge', 'Alarms now.', {'': len(self.alarms())})
        add('seconds_since_change', 'gauge', 'Seconds since log or reports grew.', {'': f'{(floor.now() - floor.moved) / 100:.2f}'})
        add('pages', 'gauge', 'Pages that are open.', {'': pages})
        return '\n'.join(text) + '\n'
