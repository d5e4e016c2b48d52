#!/usr/bin/env python3
"""That everything is delivered: what is left to do falls with each round, the bound holds, and what stands still is held.

    tests/tools_measure.py                 few instances, for the gate; --no-program: what needs no program
    tests/tools_measure.py --runs 2000     by hand; with --halls in a tenth of the time

tests/measure.py, written from the definitions alone, judges all: logs of the program, of scripts and of what `--deliver` has delivered,
under both rules of where paths end; and runs with the slowest paths that the rules allow, of which `verify` says that they are runs.
The floors are those of tests/peer.py, and halls with bays along a corridor, which are formed. Then wrong measures and wrong logs are
put in, and each must be refused.
"""
import argparse
import functools
import random
import re
import sys
from unittest import mock

import counting
import ends
import measure
import tools_ends
from tools_ends import PROGRAM, log_of, made_log, same, verified

instance = functools.lru_cache(64)(tools_ends.instance)    # two tests have the same
OPTIONS = argparse.Namespace(runs=12, seed=1, no_program=False, halls=False)
# the map of the worked rows, crates/wh_core/specs/Rows.antt: 9 passable cells
ROWS = """type octile
height 3
width 5
map
@.@.@
.....
@.@.@
%%
parking P0 0 1
parking P1 4 1
station A 1 0
station B 3 0
station C 1 2
station D 3 2
"""


def seeds():
    return range(OPTIONS.seed, OPTIONS.seed + OPTIONS.runs)


def hall(chance, homes, crowded=False):
    """A formed instance: points in bays on both sides of a corridor; agents start at any point, with homes at parkings; and its orders. Where
    it is crowded, half of the points are stations and agents start at them, and most orders have many stops."""
    width = chance.randint(4, 8)
    bays = chance.sample([(x, y) for x in range(width) for y in (0, 2)], chance.randint(6, min(10, 2 * width)))
    agents = len(bays) // 2 if crowded else chance.randint(1, len(bays) // 2 - 1)
    kinds = ['parking'] * agents + ['station'] * 2
    kinds += ['station' if crowded else chance.choice(['parking', 'station', 'station']) for _ in bays[len(kinds):]]
    points = [(kind, f'{kind[0].upper()}{number}', cell) for number, (kind, cell) in enumerate(zip(kinds, bays))]
    stations = [name for kind, name, _ in points if kind == 'station']
    starts = chance.sample([name for kind, name, _ in points if kind == 'parking' or not homes], agents)
    if crowded and not homes:
        starts = stations[:agents]
    rows = [''.join('.' if y == 1 or (x, y) in bays else '@' for x in range(width)) for y in range(3)]
    lines = ['type octile', 'height 3', f'width {width}', 'map', *rows, '%%', *(f'{kind} {name} {x} {y}' for kind, name, (x, y) in points),
             *['rule nofollow'] * chance.randint(0, 1), *(f'agent {name}' for name in starts), '%%']
    most = chance.choice([3, 5] if crowded else [2, 2, 3, 5])
    orders = [' '.join(['submit', 'x', *chance.choices(stations, k=chance.randint(2, most))]) for _ in range(chance.randint(1, 8))]
    return '\n'.join(lines) + '\n', orders


def begun(site, orders, homes, kind=measure.Measure):
    """A course behind these orders, with a measure of that kind."""
    entries = [f'0 {order} = accepted {number}' for number, order in enumerate(orders)]
    course = measure.Course(ends.Floor(site), homes, kind(measure.most_stops(entries)))
    for entry in entries:
        course.take(entry)
    course.begin()
    return course, entries


def refused(why, course, entries):
    """That the course refuses these entries, and why."""
    try:
        for entry in entries:
            course.take(entry)
    except ends.Bad as found:
        assert re.search(why, str(found)), f'{found}, and not {why}'
        return
    raise AssertionError(f'they are not refused: {why}')


# ---------------------------------------------------------------------------------------------- worked by hand

def row(first, second, orders, homes=False):
    return begun(ROWS + f'agent {first}\nagent {second}\n%%\n', orders, homes)[0]


def test_worked_rows():
    """Those of crates/wh_progress/specs/Rows.antt."""
    course = row('P0', 'P1', ['submit x A B'])
    same((len(course.s.floor.cells), course.left, course.measure.bound(course.s), course.formed), (9, 38, 114, True))
    path = '0,1 1,1 1,0 1,1 2,1 3,1 3,0'
    for now in range(1, 7):
        for entry in [f'token 0 = took 0 path {path}'] * (now == 1) + ['token 1 = rested', f'tick = clock {now} picked {int(now == 2)} dropped {int(now == 6)}']:
            course.take(f'0 {entry}')
        same((course.rounds, course.left), (now, 6 - now))
    same((measure.all_done(course.s), course.still), (True, True))
    same(row('P0', 'P1', ['submit x A B'], homes=True).left, 28)
    three = row('A', 'C', ['submit x A C D'])
    same((three.still, three.held, measure.all_done(three.s), three.left), (True, 1, False, 56))


def test_what_weighs():
    # 9 cells: a span of two stops is 19, with homes 28
    same([row('B', 'P1', ['submit x A B'] * n).left for n in (1, 3)], [19 * 3, 19 * 7])
    same([row('B', 'A', ['submit x A B', 'submit x B A']).left, row('B', 'A', ['submit x A C', 'submit x A D']).left], [19 * 6, 19 * 4])
    same(row('P0', 'P1', ['submit x A B C D', 'submit x A B'], homes=True).left, 2 * 46)
    # two agents at two of three stops, or one of them at the last; agents at both stops of two, where the one at B makes way
    same([row(*at, ['submit x A C D']).still for at in (('A', 'C'), ('C', 'A'), ('A', 'D'), ('A', 'P1'))], [True, True, False, False])
    same([row('A', 'B', ['submit x A B']).still, row('A', 'C', ['submit x A C A C']).still, row('A', 'C', ['submit x A C A D C']).still], [False] * 3)
    held = [row(*at, ['submit x A C D']) for at in (('A', 'C'), ('A', 'D'), ('A', 'P1'))]
    same([measure.is_held(course.s, course.s.tasks[0]) for course in held], [True, False, False])
    task = ends.Task
    same([measure.is_of_two_places(task(list(stops))) for stops in ('AB', 'AA', 'ABA', 'AAB', 'ABAB', 'ABC', 'CAB', 'ABCA')], [True] * 5 + [False] * 3)


def test_which_floors_are_formed():
    site = ROWS + 'agent P0\nagent P1\n%%\n'
    wrong = [site.replace('parking P1 4 1\n', 'station P1 4 1\n'), site.replace('parking P1 4 1\n', 'parking P1 2 1\n'), site.replace('.....', '..@..')]
    same([measure.is_formed(ends.Floor(text)) for text in [site, *wrong]], [True, False, False, False])


# ---------------------------------------------------------------------------------------------- runs of the program

def replayed(lines, words, homes):
    """The entries of the log of what the program replays."""
    return made_log([PROGRAM, 'replay', *words, '--tail', 'log'] + ['--ends', 'homes'] * homes, lines).split('\n')[2:-2]


def followed(seed, floor, homes, entries):
    """The course of a whole log."""
    course = measure.Course(floor, homes, measure.Measure(measure.most_stops(entries)))
    try:
        for entry in entries:
            course.take(entry)
    except ends.Bad as why:
        raise AssertionError(f'{seed}: {why}') from None
    return course


def script(chance, orders, agents):
    """Orders that come in time, and all agents or some, who ask in an order that is drawn."""
    waiting, eager = list(orders), chance.choice([1, 0.9, 0.5])
    for _ in range(100):
        while waiting and chance.random() < 0.1:
            yield waiting.pop()
        yield from (f'token {agent}' for agent in chance.sample(range(agents), agents) if chance.random() < eager)
        yield 'tick'


def test_rounds_of_scripts():
    """Scripts in which tokens are left out and moved: rounds are found in their logs, with orders that come meanwhile."""
    rounds = 0
    for seed in seeds():
        chance, homes = random.Random(seed), seed % 2 == 0
        site, orders = hall(chance, homes)
        lines = ''.join(f'{line}\n' for line in script(chance, orders, site.count('\nagent ')))
        planner = ['--planner', chance.choice(['near', 'patient'])]
        course = followed(seed, ends.Floor(site), homes, replayed((site + lines).encode(), planner, homes))
        assert course.formed and course.rounds > 20, (seed, course.formed, course.rounds)
        if not OPTIONS.halls:
            site, text, _ = instance(seed)
            rounds += followed(seed, ends.Floor(site), homes, replayed(text, planner, homes)).rounds
    assert OPTIONS.halls or rounds > 10 * OPTIONS.runs, rounds


def delivered(site, orders, homes):
    """The entries by which the program delivers these orders."""
    entries = replayed((site + ''.join(f'{line}\n' for line in orders)).encode(), ['--deliver'], homes)
    same(entries[:len(orders)], [f'0 {order} = accepted {number}' for number, order in enumerate(orders)])
    return entries[len(orders):]


def judged(site, orders, homes, entries):
    """Demands of entries by which these orders are delivered what `deliver_all` promises; says with how many orders all stands still."""
    course, _ = begun(site, orders, homes)
    left, bound = course.left, course.measure.bound(course.s)
    course.take_delivered(entries)
    ticks, s = course.s.clock, course.s
    ends.demand(course.rounds == ticks, f'{course.rounds} rounds in {ticks} ticks')
    if not course.formed and not course.still:
        return 0
    ends.demand(course.still, 'it ends before all stands still')
    ends.demand(not course.formed or ticks <= left and (homes or ticks <= bound), f'{ticks} ticks, beyond {left} or {bound}')
    waiting = [task for task in s.tasks if not measure.is_done(task)]
    ends.demand(course.left > 0 if waiting else course.left == 0, f'{len(waiting)} orders wait, and {course.left} is left to do')
    ends.demand(not waiting or not homes, 'with homes not all is delivered')
    ends.demand(all(task.agent is None and len(set(task.stops)) > 2 for task in waiting), 'an order of two cells waits')
    return len(waiting)


def delivered_rightly(seed, site, orders, homes):
    try:
        return judged(site, orders, homes, delivered(site, orders, homes))
    except ends.Bad as why:
        raise AssertionError(f'{seed}: {why}') from None


def peers(seed):
    """A floor of the peer, and its orders that the program accepts."""
    site, text, _ = instance(seed)
    names = {words[1] for words in map(str.split, site.split('\n')) if words[:1] == ['station']}
    return site, [line for line in text.decode().split('\n') if re.fullmatch(r'submit \w+( [\w-]+){2,8}', line) and set(line.split()[2:]) <= names]


def test_what_is_delivered():
    """In halls and on the peer's floors: within the bound, and what stands still is held."""
    held = 0
    for seed in seeds():
        chance, homes = random.Random(seed), seed % 2 == 0
        floors = [hall(chance, homes, crowded) for crowded in (False, False, True, True)] + ([] if OPTIONS.halls else [peers(seed)])
        held += sum(delivered_rightly(seed, site, orders, homes) > 0 for site, orders in floors)
    assert held >= OPTIONS.runs // 5, f'{held} runs stand still with orders open: too few to say anything'


# ---------------------------------------------------------------------------------------------- the slowest runs

def slow(seed, kind=measure.Measure):
    """The course of the slowest run of a hall, its map and points, rule, entries, and what was left to do at first."""
    chance, homes = random.Random(seed), seed % 2 == 0
    site, orders = hall(chance, homes)
    course, entries = begun(site, orders, homes, kind)
    left = course.left
    for entry in measure.slow_entries(course, chance, 20000):
        course.take(entry)
        entries.append(entry)
    return course, site, homes, entries, left


def test_the_slowest_runs():
    """Of formed halls: within the bound, some of them near it; `verify` says that they are runs."""
    most = 0
    for seed in seeds():
        try:
            course, site, homes, entries, left = slow(seed)
        except ends.Bad as why:
            raise AssertionError(f'{seed}: {why}') from None
        assert course.formed and course.still and course.rounds <= left, (seed, course.formed, course.still, course.rounds, left)
        most = max(most, course.rounds / left)
        if not OPTIONS.no_program and seed % 5 < 2:
            log = log_of(site, [entry[2:] for entry in entries])
            same((seed, verified(site, log, homes)), (seed, f'run {len(entries)}'))
    assert OPTIONS.runs < 4 or most > 0.5, most


# ---------------------------------------------------------------------------------------------- what must be refused

class NoHorizon(measure.Measure):
    def horizon(self, s):
        return 0


class AllSteps(measure.Measure):
    def horizon(self, s):
        return sum(len(path) - 1 for path in s.paths)


class OpenOnce(measure.Measure):
    def weight(self, s):
        return super().weight(s) - (0 if s.homes else measure.open_tasks(s))


class NoneInWay(measure.Measure):
    def in_way(self, s):
        return 0


class NoLegHome(measure.Measure):
    def legs(self, s):
        return self.stops


class OneStopLess(measure.Measure):
    def legs(self, s):
        return super().legs(s) - 1


class OneCellLess(measure.Measure):
    def span(self, s):
        return super().span(s) - self.legs(s)


class HalfOfAll(measure.Measure):
    def left_to_do(self, s):
        return super().left_to_do(s) / 2


class HalfTheBound(measure.Measure):
    def bound(self, s):
        return super().bound(s) / 2


WRONG = {NoHorizon: 'round 2 brings', AllSteps: 'a step raises', OpenOnce: 'a step raises', NoneInWay: 'a step raises', NoLegHome: 'a step raises',
         OneStopLess: 'a step raises', OneCellLess: 'a step raises', HalfOfAll: 'not done within the bound', HalfTheBound: 'beyond the bound'}


def refused_slowly(kind, why):
    found = set()
    for seed in range(1, 41):
        try:
            slow(seed, kind)
        except ends.Bad as said:
            found.add(str(said))
    assert any(why in said for said in found), (kind.__name__, found)


def test_wrong_measures_are_refused():
    """Each by a slowest run."""
    for kind, why in WRONG.items():
        refused_slowly(kind, why)
    with mock.patch.object(measure, 'none_can_stand', lambda s: False):
        refused_slowly(HalfOfAll, 'has not stood still')


NEITHER = r'the tasks \[0\] are neither'
# what is put in place of a definition or of what a law says, an order by which that is refused, and why
WRONG_LAWS = ((measure, 'is_held', lambda s, task: False, 'A C D', NEITHER), (measure, 'is_of_two_places', lambda task: True, 'A C D', 'none can stand'),
              (measure, 'stands_still', lambda s: True, 'A B', NEITHER), (measure, 'may_rest', lambda s, agent: True, 'A B', NEITHER),
              (measure.Measure, 'horizon', lambda kind, s: 37, 'A B', 'more steps left'),
              (measure.Course, 'three_spans', lambda course, tasks: 0, 'A B', 'a step raises what is left to do from 0 to 57'))


def test_wrong_laws_are_refused():
    """By an order with agents at its first two stops."""
    for place, name, wrong, order, why in WRONG_LAWS:
        with mock.patch.object(place, name, wrong):
            try:
                row(*order.split()[:2], [f'submit x {order}'])
            except ends.Bad as said:
                assert re.search(why, str(said)), (name, said)
            else:
                raise AssertionError(f'{name} is not refused')


PATH = '0,1 1,1 1,0 1,1 2,1 3,1 3,0'
TICK = '0 tick = clock 1 picked 0 dropped 0'


def test_wrong_logs_are_refused():
    wait = '0,1 ' * 12
    # the longest wait that there is takes 18 of the 38 rounds; one step more is none
    course = row('P0', 'P1', ['submit x A B'])
    course.take(f'0 token 0 = took 0 path {wait}{PATH}')
    same(course.left, 18)
    refused('too long', row('P0', 'P1', ['submit x A B']), [f'0 token 0 = took 0 path {wait}0,1 {PATH}'])
    # a tick in which nobody asked is no round, and brings nothing; with all who are due it must
    course = row('P0', 'P1', ['submit x A B'])
    course.take(TICK)
    same((course.rounds, course.left), (0, 38))
    course = row('P0', 'P1', ['submit x A B'])
    course.due = set()
    refused('round 1 brings what is left to do from 38 to 38', course, [TICK])
    # a path refused on a floor that is formed; an agent that is left out, or told to rest, though an order is there for it
    refused('there is a way', row('P0', 'P1', ['submit x A B']), ['0 token 0 = refused E6'])
    refused('task 1 is its next', row('P0', 'P1', ['submit x A B', 'submit x C D']), [f'0 token 0 = took 0 path {PATH}', '0 token 1 = rested'])


def test_wrong_deliveries_are_refused():
    site, orders = ROWS + 'agent P0\nagent P1\n%%\n', ['submit x A B']
    entries = [f'0 token 0 = took 0 path {PATH}'] + [f'0 tick = clock {now} picked {int(now == 2)} dropped {int(now == 6)}' for now in range(1, 7)]
    same(judged(site, orders, False, entries), 0)
    same(judged(ROWS + 'agent A\nagent C\n%%\n', ['submit x A C D'], False, []), 1)
    for why, wrong, given in (('before all stands still', entries[:-1], orders), ('before all stands still', [], orders),
                              ('task 0 is its next', entries[1:], orders), ('task 1 is its next', entries, orders + ['submit x C D']),
                              ('before all stands still', entries, orders * 2),
                              ('0 picked', [entries[0], entries[2]], orders)):
        try:
            judged(site, given, False, wrong)
        except ends.Bad as said:
            assert why in str(said), said
        else:
            raise AssertionError(f'it is not refused: {why}')


if __name__ == '__main__':
    parser = argparse.ArgumentParser(description=__doc__, formatter_class=argparse.RawDescriptionHelpFormatter)
    parser.add_argument('--runs', type=int, default=12)
    parser.add_argument('--seed', type=int, default=1)
    parser.add_argument('--no-program', action='store_true')
    parser.add_argument('--halls', action='store_true', help='halls alone, which take a tenth of the time')
    OPTIONS = parser.parse_args()
    sys.exit(counting.run(globals(), {'test_rounds_of_scripts', 'test_what_is_delivered'} if OPTIONS.no_program else ()))
