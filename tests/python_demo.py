#!/usr/bin/env python3
"""Tests of `demo`: it serves its page, loses a vehicle and has it back, delivers all, tells what is so, and leaves nothing behind; and of the
pipes that stand in for a broker, and of the judge of traces.

The program is that of WAREHOUSE, else the one that the gate built. The last line is `N passed, M failed`, and `, K skipped` where a test needs what is
not here; status 1 where one failed.
"""
import functools
import glob
import http.client
import itertools
import json
import os
import re
import signal
import subprocess
import sys
import time
import types
import xml.etree.ElementTree as tree
from concurrent.futures import Future, ThreadPoolExecutor

import counting
from fleet_cast import Judge, broker_program, python_with_paho
from tools_drive import ENVIRONMENT, PROGRAM, ROOT, SCRATCH, has, same

sys.path.insert(0, os.path.join(ROOT, 'python'))
sys.dont_write_bytecode = True

from warehouse.simulate.demo import missing, open_page    # noqa: E402
from warehouse.vda5050.wire import Hub, packed    # noqa: E402

SECONDS = 100
NUMBERS = itertools.count()
SMALL = ('--agents', '4', '--orders', '6', '--step', '0.05', '--lost', '0.1', '--gone', '2.5')
NEEDS_PROGRAM = ['test_over_pipes', 'test_over_a_broker', 'test_around_a_vehicle_that_is_gone', 'test_signals_end_it_whole', 'test_a_part_that_falls', 'test_the_time_is_over']


class Demo:
    """One that runs, with a folder for temporary files of its own; what it told so far is in `told`."""

    def __init__(self, *words: str):
        self.room = os.path.join(SCRATCH.name, f'room-{next(NUMBERS)}')
        os.mkdir(self.room)
        self.until, self.told = time.monotonic() + SECONDS, []
        self.process = subprocess.Popen([os.path.join(ROOT, 'tools', 'py'), 'demo', '--program', PROGRAM, '--no-browser', *words], stdin=subprocess.DEVNULL,
                                        stdout=subprocess.PIPE, stderr=subprocess.STDOUT, text=True, env={**ENVIRONMENT, 'TMPDIR': self.room})

    def line(self, part: str) -> str:
        """Up to a line that has this part."""
        for line in self.process.stdout:
            self.told.append(line)
            if part in line:
                return line
        raise AssertionError((part, self.told))

    def processes(self) -> list:
        """Those that have its folder among their words: number and words."""
        found = []
        for path in glob.glob('/proc/[0-9]*/cmdline'):
            try:
                with open(path, 'rb') as file:
                    words = file.read().decode('latin-1').split('\0')
            except OSError:
                continue
            if any(word.startswith(self.room) for word in words):
                found.append((int(path.split('/')[2]), words))
        return found

    def end(self) -> str:
        """All that it told once it has ended, and has left nothing."""
        self.told += self.process.communicate(timeout=max(1, self.until - time.monotonic()))[0].splitlines(keepends=True)
        same((os.listdir(self.room), self.processes()), ([], []))
        return ''.join(self.told)


def get(url: str, path: str) -> tuple:
    connection = http.client.HTTPConnection(url.removeprefix('http://').rstrip('/'), timeout=10)
    connection.request('GET', path)
    reply = connection.getresponse()
    return reply.status, (reply.read() if path != '/events' else b''.join(reply.readline() for _ in range(2))).decode()


def whole(*words: str) -> str:
    """A small one to its end, looked at while it runs."""
    demo = Demo(*SMALL, *words)
    url = re.search(r'http://127\.0\.0\.1:[0-9]+/', demo.line('the live page is '))[0]
    killed = re.search(r'(v[0-3]) is killed, at [0-9]+,[0-9]+', demo.line(' is killed, '))[1]
    same((get(url, '/')[0], get(url, '/health')[0] in (200, 503)), (200, True))
    has(get(url, '/metrics')[1], 'warehouse_agents 4\n')
    run = json.loads(get(url, '/events')[1].partition('data: ')[2])
    same((len(run['vehicles']['at']), run['width'], run['height'], run['nofollow']), (4, 42, 30, True))
    demo.line(f'{killed} is started again; it was gone ')
    told = demo.end()
    has(told, '\n6 of 6 orders were delivered in ', 'no two vehicles were ever in one cell', ': 6 were picked up, 6 put down\n', '\nverify: run ')
    has(told, f'the adapter: {killed}: its connection is CONNECTIONBROKEN\n', f'the adapter: {killed}: is well again\n')
    same((demo.process.returncode, 'Traceback' in told), (0, False))
    return told


def around() -> None:
    """The others go on in a run of their own, which the page follows, and all of them in a third one."""
    demo = Demo('--pipes', '--around', *SMALL[:-1], '6', '--orders', '8')
    url = re.search(r'http://127\.0\.0\.1:[0-9]+/', demo.line('the live page is '))[0]
    lost = re.search(r'v([0-3]) is killed, ', demo.line(' is killed, '))[1]
    demo.line(f'the adapter: run 2 begins; out of use: v{lost}; ')
    while (run := json.loads(get(url, '/events')[1].partition('data: ')[2]))['title'] != 'floor, run 2':
        assert time.monotonic() < demo.until, run['title']
    has(get(url, '/health')[1], f'vehicle {lost} is out of use')
    demo.line('the adapter: run 3 begins; out of use: none; ')
    told = demo.end()
    assert re.search(r'\n8 of 8 orders were delivered in .*\n.* 8 were picked up, 8 put down\nverify: run [0-9]+ unended, run [0-9]+ unended, run [0-9]+ unended \(', told), told
    same((demo.process.returncode, 'Traceback' in told), (0, False))


@functools.lru_cache(None)
def beside() -> Future:
    """That one takes long and computes little: it runs beside the others."""
    return ThreadPoolExecutor(1).submit(around)


def test_over_pipes() -> None:
    beside()
    has(whole('--pipes'), 'messages go over pipes: --pipes\n')


def test_over_a_broker() -> None:
    if not (broker_program() and python_with_paho()):
        raise counting.Skipped('no mosquitto, or no paho-mqtt (apt-get install mosquitto python3-paho-mqtt)')
    has(whole(), 'messages go over mosquitto\n')


def test_what_is_missing_is_said() -> None:
    same(bool(missing()), not (broker_program() and python_with_paho()))
    if missing():
        has(missing(), 'apt-get install ', 'python3-paho-mqtt')


def test_signals_end_it_whole() -> None:
    for first, second in ((signal.SIGINT, signal.SIGINT), (signal.SIGHUP, signal.SIGTERM)):
        demo = Demo('--pipes', *SMALL, '--orders', '60')
        demo.line(' is killed, ')
        assert len(demo.processes()) > 3
        demo.process.send_signal(first)
        demo.process.send_signal(second)
        told = demo.end()
        has(told, 'it is interrupted\n', ' of 60 orders were delivered in ', '\nverify: run ')
        same(demo.process.returncode, 0)


def test_the_time_is_over() -> None:
    demo = Demo('--pipes', *SMALL, '--orders', '60', '--seconds', '2', '--lost', '0')
    told = demo.end()
    has(told, ' of 60 orders were delivered in 2 s', '\nverify: run ')
    same((demo.process.returncode, ' is killed' in told), (0, False))


def test_a_part_that_falls() -> None:
    demo = Demo('--pipes', *SMALL, '--lost', '0', '--orders', '60')
    demo.line('the live page is ')
    adapter = None
    while adapter is None:
        assert time.monotonic() < demo.until
        adapter = next((number for number, words in demo.processes() if 'vda5050' in words), None)
    os.kill(adapter, 9)
    told = demo.end()
    has(told, 'adapter ended by itself, with status -9; the parts said:\n')
    same((demo.process.returncode, 'verify' in told), (1, False))


def test_around_a_vehicle_that_is_gone() -> None:
    beside().result()


def test_wrong_words() -> None:
    for words, why in ((['--agents', '0'], '--agents 0: 1 to 50 can be had'), (['--step', '0'], '--step 0: 0.02 to 10 can be had'),
                       (['--program', '/none/such'], 'there is no program /none/such'), (['--keep', SCRATCH.name], f'{SCRATCH.name}: File exists')):
        done = subprocess.run([os.path.join(ROOT, 'tools', 'py'), 'demo', '--program', '/bin/true', *words], capture_output=True, text=True, timeout=SECONDS)
        same((done.returncode, done.stdout, done.stderr.count('\n')), (2, '', 1))
        has(done.stderr, f'warehouse demo: {why}')


def test_no_page_is_opened_without_windows() -> None:
    kept = {name: os.environ.pop(name) for name in ('DISPLAY', 'WAYLAND_DISPLAY') if name in os.environ}
    try:
        same(open_page('http://127.0.0.1:9/'), False)
    finally:
        os.environ.update(kept)


# ------------------------------------------------------------------------------------------------- pipes

class Part:
    """A process as the hub has it, played by this one: two pipes."""

    def __init__(self, hub: Hub):
        ends = [os.pipe(), os.pipe()]
        self.told, self.to = os.fdopen(ends[0][0], 'rb'), ends[1][1]
        hub.join(types.SimpleNamespace(stdin=os.fdopen(ends[0][1], 'wb', 0), stdout=os.fdopen(ends[1][0], 'rb', 0)))

    def write(self, **row) -> None:
        os.write(self.to, packed(row))

    def reads(self) -> tuple:
        row = json.loads(self.told.readline())
        return row['topic'], row['text']


def test_a_vehicle_over_its_pipes() -> None:
    """It says its will, what it hears, that it is there, and where; and ends with its input, with no paho-mqtt."""
    world = os.path.join(SCRATCH.name, 'world')
    words = ['vda5050-vehicle', 'v7', '--start', '1,2', '--world', world, '--rows', '5', '--broker', '-']
    done = subprocess.run([os.path.join(ROOT, 'tools', 'py'), *words], input='', capture_output=True, text=True, timeout=SECONDS)
    same((done.returncode, done.stderr), (0, ''))
    will, hear, *said, end = map(json.loads, done.stdout.splitlines())
    topic = 'uagv/v2/torchdaisy/v7/'
    same((will['will'][0], json.loads(will['will'][1])['connectionState']), (topic + 'connection', 'CONNECTIONBROKEN'))
    same((hear, end), ({'hear': [topic + 'order', topic + 'instantActions']}, {'end': True}))
    told = {row['topic']: json.loads(row['text']) for row in said}
    same((told[topic + 'connection']['connectionState'], told[topic + 'state']['lastNodeId'], told[topic + 'state']['agvPosition']['y']), ('ONLINE', '1_2', 2.5))    # the middle of the third of five rows


def test_the_hub_passes_on_keeps_and_tells_wills() -> None:
    hub = Hub()
    one, two, three = Part(hub), Part(hub), Part(hub)
    one.write(hear=['a/+', 'b'])
    one.write(topic='b', text='mine', retain=False)    # once that is back, the hub knows what it hears
    same(one.reads(), ('b', 'mine'))
    two.write(topic='a/x', text='kept', retain=True)
    two.write(topic='a/x/y', text='too deep', retain=False)
    two.write(topic='b', text='passed', retain=False)
    same((one.reads(), one.reads()), (('a/x', 'kept'), ('b', 'passed')))
    three.write(hear=['a/x', 'b'])
    same(three.reads(), ('a/x', 'kept'))    # what was not kept does not come
    two.write(will=['b', 'two fell'])
    os.write(two.to, b'no message\n')
    os.close(two.to)
    same((one.reads(), three.reads()), (('b', 'two fell'), ('b', 'two fell')))
    three.write(will=['a/z', 'three fell'])
    three.write(end=True)
    os.close(three.to)
    same(three.told.readline(), b'')
    one.write(topic='a/last', text='word', retain=False)
    same(one.reads(), ('a/last', 'word'))    # and no will came before
    hub.end()
    same(one.told.readline(), b'')


# ------------------------------------------------------------------------------------------------ traces

def judged(**traces: str) -> Judge:
    judged.count = getattr(judged, 'count', 0) + 1
    folder = os.path.join(SCRATCH.name, f'traces-{judged.count}')
    os.mkdir(folder)
    for name, text in traces.items():
        with open(os.path.join(folder, f'{name}.trace'), 'w') as file:
            file.write(text)
    return Judge(folder)


def test_the_judge_of_traces() -> None:
    right = judged(v0='1.0 in 0_0\n2.0 in 1_0\n3.0 out 0_0\n3.5 pick k\n4.0 drop k\n', v1='1.0 in 0_1\n3.5 in 0_0\n4.0 out 0_1\n')
    same((right.wrong, right.stays, right.dropped()), ([], 2, {'k'}))
    # the second comes before the first has left, or while the first stays; a load is picked up twice
    early = judged(v0='1.0 in 0_0\n2.0 in 1_0\n3.0 out 0_0\n', v1='1.0 in 0_1\n2.5 in 0_0\n')
    same(early.wrong, ['0_0: v0 until 3.000, v1 from 2.500'])
    same(len(judged(v0='1.0 in 0_0\n', v1='1.0 in 0_1\n2.5 in 0_0\n').wrong), 1)
    same(judged(v0='1.0 in 0_0\n2.0 pick k\n', v1='1.0 in 0_1\n2.0 pick k\n').wrong, ['pick of k 2 times'])
    # one that was killed as it arrived is in its new cell alone
    killed = judged(v0='1.0 in 0_0\n2.0 in 1_0\n4.0 here 1_0\n', v1='1.0 in 0_1\n4.5 in 0_0\n')
    same(killed.wrong, [])


# ------------------------------------------------------------------------------------- the README's picture

def test_the_picture_of_a_demo() -> None:
    """By hand: v0 goes from 0,0 to 1,0 in a second, is killed on its way to 2,0 with a load, and is there two seconds later; a film's second is four."""
    folder = os.path.join(SCRATCH.name, 'kept')
    os.mkdir(folder)
    texts = {'floor': 'type octile\nheight 1\nwidth 4\nmap\n....\n%%\nstation A 1 0\nstation B 3 0\nparking P 0 0\nagent P\n%%\n',
             'orders.csv': 'key,client,stops,at\no0,c,A B,0\n',
             'v0.trace': '8.0 in 0_0\n10.0 in 1_0\n11.0 out 0_0\n11.0 pick o0\n12.0 in 2_0\n14.0 here 1_0,2_0\n15.0 out 1_0\n15.0 in 3_0\n16.0 out 2_0\n18.0 drop o0\n'}
    for name, text in texts.items():
        with open(os.path.join(folder, name), 'w') as file:
            file.write(text)
    done = subprocess.run([sys.executable, os.path.join(ROOT, 'dev', 'demo_picture.py'), folder], capture_output=True, text=True, timeout=SECONDS)
    same((done.returncode, done.stderr), (0, ''))
    root = tree.fromstring(done.stdout)
    moves = root.find('.//{*}animateTransform').attrib
    # eight seconds to 18, and two of the film's that it holds: 4 of them in all
    same(moves['dur'], '4.0s')
    way = [(round(float(key) * 16, 1), place) for key, place in zip(moves['keyTimes'].split(';'), moves['values'].split(';'))]
    same([one for one, after in zip(way, [*way[1:], None]) if one != after],
         [(0, '16,16'), (1, '48,16'), (4, '48,16'), (5, '80,16'), (6, '112,16'), (16, '112,16')])
    ring, load = (root.find(f".//{{*}}{name}/{{*}}animate").attrib['keyTimes'].split(';') for name in ('circle', 'rect'))
    same([[round(float(key) * 16, 1) for key in one] for one in (ring, load)], [[0, 2, 4], [0, 1, 8]])
    for name in ('demo.svg',):    # the one that README has
        with open(os.path.join(ROOT, 'docs', name)) as file:
            picture = file.read()
        same((len(picture) < 500_000, len(tree.fromstring(picture).findall('.//{*}animateTransform'))), (True, 20))


if __name__ == '__main__':
    counting.main(globals(), NEEDS_PROGRAM, SCRATCH)
