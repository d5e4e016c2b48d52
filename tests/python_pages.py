#!/usr/bin/env python3
"""Tests of the pages that show runs, that of a running floor (`dashboard`) and that of finished logs (`play`): what is in them, their words, and what
they are in headless Chromium.

    tests/python_pages.py
    tests/python_pages.py --frames INSTANCE LOG [TRANSCRIPT]    what the player takes for each of 300 frames, in headless Chromium

The program is asked nothing. The last line is `N passed, M failed`, and `, K skipped` where a test needs what is not here; status 1 where one failed.
"""
from __future__ import annotations

import html
import http.client
import json
import os
import re
import shutil
import subprocess
import sys

import counting
from python_live import DELIVERIES, LINES, Page, append, front_of, get, new, served
from tools_drive import ROOT, SCRATCH, file, has, same, text_of

sys.path.insert(0, os.path.join(ROOT, 'python'))
sys.dont_write_bytecode = True

from warehouse.figures.play import page as page_of    # noqa: E402
from warehouse.texts import read_file, read_instance, read_log    # noqa: E402
from warehouse.web import asset, page    # noqa: E402
from warehouse.web.dashboard import SIDE    # noqa: E402
from warehouse.web.data import data_of    # noqa: E402
from warehouse.web.follow import Follower    # noqa: E402

MARKUP = '<img/src=x/onerror=document.title="broken">'


def marked() -> str:
    """A log in which a client is named with markup."""
    return ''.join(LINES).replace('submit x A B', f'submit {MARKUP} A B')


def test_names_put_no_html_into_pages() -> None:
    log = new(marked())
    with served(log) as server:
        listener = Page(server)
        same(listener.event()[1]['tasks'][0][0], MARKUP)
        status, text = get(server, '/')
        same((status, '<img' in text), (200, False))
        connection = http.client.HTTPConnection(*server.server_address[:2])
        connection.request('GET', '/')
        policy = connection.getresponse().headers['Content-Security-Policy']
        has(policy, "default-src 'none'", "script-src 'self'")
        listener.close()
    instance = read_instance(DELIVERIES, read_file(DELIVERIES))
    same('<img' in page_of([data_of(read_log(instance, log, read_file(log)), MARKUP, None, None)]), False)
    for name in ('player.js', 'live.js', 'finished.js'):    # what is set as HTML are the page's own words, or is escaped
        for line in asset(name).splitlines():
            if 'innerHTML' in line and '${' in line:
                assert not re.search(r'\$\{(?!R\.live)(?:R|X|E|run|client|name)\b', line), line


def words_shown() -> str:
    """The words that pages show: text of the page, literals of scripts and of alarms."""
    scripts = '\n'.join(re.sub(r'//.*', '', asset(name)) for name in ('player.js', 'live.js', 'finished.js', 'status.py', 'reports.py'))
    literals = re.findall(r"'((?:[^'\\\n]|\\.)*)'|`([^`]*)`", scripts)
    return re.sub(r'\$?\{[^}]*\}', ' ', ' \n'.join(map(''.join, literals))) + html.unescape(re.sub(r'(?s)<style>.*?</style>', '', page('', SIDE)))


def test_words_are_the_fields() -> None:
    shown = words_shown()
    for line in text_of('tests', 'docs_words').splitlines():
        if line.strip() and not line.startswith('#'):
            word = line.split('|')[0].strip()
            found = re.search(rf'(?<![\w-]){re.escape(word)}(?![\w-])', shown, re.IGNORECASE)
            assert not found, (word, shown[max(0, found.start() - 60):found.end() + 40])


def chromium() -> str:
    for name in ('chromium', 'chromium-browser', 'google-chrome'):
        if found := shutil.which(name):
            return found
    raise counting.Skipped('no Chromium (apt-get install chromium)')


def dom(text: str, name: str, seconds: float = 60) -> str:
    """The page as it is after its scripts have run."""
    path = os.path.join(SCRATCH.name, name)
    with open(path, 'w', encoding='utf-8') as made:
        made.write(text)
    words = ['--headless', '--no-sandbox', '--disable-gpu', f'--user-data-dir={os.path.join(SCRATCH.name, "browser")}', '--window-size=1400,800',
             '--dump-dom', f'file://{path}']
    done = subprocess.run([chromium(), *words], capture_output=True, text=True, timeout=seconds)
    assert done.returncode == 0, done.stderr
    return done.stdout


def live_dom(events: list[tuple[str, dict]], script: str, name: str) -> str:
    """The live page with these events of the server, from a source that is none of the network's, and behind them this script."""
    source = '''class EventSource {
      addEventListener(kind, f) { (this.heard ??= {})[kind] = f; if (kind == 'more') for (const [k, d] of EVENTS) this.heard[k]({data: JSON.stringify(d)}); }
      close() {}
    }'''
    data = json.dumps(events).replace('<', '\\u003c')
    return dom(page(f'<script>const EVENTS = {data}; {source}</script><script>{asset("player.js")}</script><script>{asset("live.js")}</script><script>{script}</script>',
                    SIDE), name)


def said(text: str) -> dict:
    """What a script of a test left in the page."""
    return json.loads(html.unescape(re.search(r'data-said="([^"]*)"', text)[1]))


SHOWN = """const shown = name => document.querySelector('.' + name).textContent;
const all = () => ({phases: [0, 1, 2, 3].map(i => +shown('n' + i)), agent: shown('agent'), facts: shown('facts'), clock: shown('clock'),
  events: [...document.querySelectorAll('.events p')].map(p => p.textContent)});
"""


def test_a_browser_shows_a_state() -> None:
    """A live page that begins with one: where agents stand, loads, orders, clock and counts, and then what is new."""
    chromium()
    text = ''.join(LINES[:8])
    log = new(front_of(text).replace('tasks 2\n', 'tasks 3\ntask 0 z 0 agent 0 visits 0 1 stops 1,0 3,0\n'))
    floor = Follower(read_instance(DELIVERIES, read_file(DELIVERIES)), 'deliveries', log)
    floor.look()
    status = {'alarms': [], 'figures': [], 'ended': False}
    events = [('run', floor.begun() | {'status': status})]
    script = SHOWN + 'p.pick(1); document.body.dataset.said = JSON.stringify(all());'
    found = said(live_dom(events, script, 'c.html'))
    same((found['phases'], found['clock'], found['agent']), ([0, 0, 2, 1], 'clock 2 of 2', '1 at 3,2: carries task 2 to C\n7 steps left, tasks done lately: 0'))
    has(found['facts'], 'log 2 of its run: from clock 2, behind 6 entries')
    same(found['events'], ['2 agent 1 has task 2 from before, 1 of 2 stops made'])
    for line in LINES[8:13]:
        append(log, line)
        if news := floor.look():
            events.append(('more', news | {'live': status}))
    found = said(live_dom(events, script, 'd.html'))
    same((found['phases'], found['clock'], found['agent']), ([0, 0, 1, 2], 'clock 6 of 6', '1 at 3,1: carries task 2 to C\n3 steps left, tasks done lately: 0'))
    # with vehicles: 0 has come to clock 4 of its plan, and 1 has not left where the state has it
    file(os.path.basename(log) + '.at', f'front 100 {"a" * 64}\nat 0 2\n')
    floor = Follower(floor.instance, 'deliveries', log, 2)
    floor.look()
    found = said(live_dom([('run', floor.begun() | {'status': status})], script, 'e.html'))
    same((found['phases'], found['clock'], found['agent']),
         ([0, 0, 2, 1], 'second 0, clock 6 of 6', '1 at 3,2: carries task 2 to C, granted 3,1\n4 steps behind its plan, which is at 3,1\n3 steps left in its plan, tasks done lately: 0'))


def test_keys() -> None:
    chromium()
    instance = read_instance(DELIVERIES, read_file(DELIVERIES))
    made = page_of([data_of(read_log(instance, 'l', ''.join(LINES).encode()), 'deliveries', None, None)])
    script = """bar.begin(); const found = [], press = (key, more = {}) => { document.body.dispatchEvent(new KeyboardEvent('keydown', {key, bubbles: true, cancelable: true, ...more}));
      found.push([key, bar.now, bar.playing, players[0].shownWays, players[0].shownHeat, +document.querySelector('.speed').value, players[0].picked]); };
    players[0].pick(1);
    for (const key of ['ArrowRight', 'ArrowRight', 'ArrowLeft', 'End', 'Home', 'ArrowUp', 'ArrowDown', 'w', 'h', '+', '-', '0', ' ', ' ', 'Escape']) press(key);
    press('ArrowRight', {shiftKey: true}); press('Home', {ctrlKey: true}); document.body.dataset.said = JSON.stringify(found);"""
    found = said(dom(made.replace('bar.begin();', script), 'keys.html'))
    same([row[0] for row in found if row[2]], [' '])    # plays between the two
    rows = [[1, True, False, 4], [2, True, False, 4], [1, True, False, 4], [9, True, False, 4], [0, True, False, 4], [0, True, False, 8], [0, True, False, 4],
            [0, False, False, 4], [0, False, True, 4]]
    same([[row[1], *row[3:6]] for row in found[:len(rows)]], rows)
    same(([row[1] for row in found[-2:]], [row[6] for row in found[-4:]]), ([9, 9], [1, -1, -1, -1]))


def test_a_browser_shows_names_as_text() -> None:
    chromium()
    log = new(marked())
    instance = read_instance(DELIVERIES, read_file(DELIVERIES))
    shown = [dom(page_of([data_of(read_log(instance, log, read_file(log)), 'deliveries', None, None)]).replace('bar.begin();', 'bar.begin(); bar.go(9);'), 'a.html')]
    floor = Follower(instance, 'deliveries', new(''.join(marked().splitlines(True)[:3])))
    floor.look()
    shown.append(live_dom([('run', floor.begun() | {'status': {'alarms': [MARKUP], 'figures': [[MARKUP, MARKUP]], 'ended': False}})], '', 'b.html'))
    for text in shown:
        same(('<img' in text, '&lt;img/src=x' in re.sub(r'(?s)<script.*?</script>', '', text), '<title>broken' in text), (False, True, False))


# ------------------------------------------------------------------------------------- frames, by hand

FRAMES = """
// Ten stretches of the run, each played for 30 frames, five times over; a frame's own time is that of the script that draws it. The
// least of five is what the frame takes where nothing else has the processor.
const n = 300, rounds = Array.from({length: 5}, () => Array.from({length: n}, (_, i) => {
  const b = performance.now(); bar.go(players[0].T * (Math.floor(i / 30) + .5) / 10 + i % 30 * .27); return performance.now() - b;
}));
const told = list => { list.sort((a, b) => a - b); return `median ${list[n / 2].toFixed(1)} ms, 95th percentile ${list[Math.ceil(.95 * n) - 1].toFixed(1)} ms`; };
document.body.dataset.frames = `least of five: ${told(rounds[0].map((_, i) => Math.min(...rounds.map(r => r[i]))))}; once: ${told(rounds[0])}`;
"""


def frames(instance: str, log: str, *told: str) -> str:
    made = subprocess.run([sys.executable, os.path.join(ROOT, 'tools', 'play.py'), instance, log, *(['--vehicles', told[0]] if told else [])],
                          capture_output=True, text=True, check=True).stdout
    return re.search(r'data-frames="([^"]*)"', dom(made.replace('bar.begin();', 'bar.begin();' + FRAMES), 'frames.html', 300))[1]


if __name__ == '__main__':
    if sys.argv[1:2] == ['--frames']:
        print(frames(*sys.argv[2:]))
        sys.exit()
    counting.main(globals(), (), SCRATCH)
