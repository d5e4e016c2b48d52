'use strict';
// The page of a running floor: the player, fed by the server's events. What it is sent comes from files, so all of it is set as text.
const WINDOW = 600, p = player(document.querySelector('.run')), bar = controls(document.querySelector('footer'), [p]);
const $ = name => document.querySelector('.' + name), text = (kind, words, name = '') => Object.assign(document.createElement(kind), {textContent: words, className: name});
const MOST_ROWS = 8;
let source = null, begun = false;
function row(...cells) { const tr = document.createElement('tr'); tr.append(...cells.map(words => text('td', words))); return tr; }
// Orders that wait, the oldest first; their age is in ticks.
function queue() {
  const R = p.run, open = R.tasks.filter(t => t[4] < 0), shown = open.slice(0, MOST_ROWS), table = document.createElement('table');
  table.append(...shown.map(([client, stops, sub, , , , number]) => row(number, `${client}: ${stops.map(i => R.points[i][1]).join(' → ')}`, `waits ${R.clock - sub}`)));
  $('queue').replaceChildren(text('h2', `Orders waiting: ${open.length}`), open.length ? table : text('div', 'none'), text('div', open.length > MOST_ROWS ? `and ${open.length - MOST_ROWS} more` : '', 'ends'));
}
function side({alarms, figures, ended}) {
  $('alarms').replaceChildren(...alarms.length ? alarms.map(words => text('p', '⚠ ' + words, 'bad')) : [text('p', ended ? 'the run has ended' : 'none')]);
  $('figures').replaceChildren(...figures.map(([name, value]) => { const div = text('div', name); div.append(text('b', value)); return div; }));
  document.title = (alarms.length ? `(${alarms.length}) ` : '') + p.run.title;
}
function load(run) {
  p.load(run); side(run.status); queue();
  if (begun) bar.fresh(); else { begun = true; bar.begin(); bar.follow(true); }
}
function add(more) {
  if (more.tasks) {
    const V = more.vehicles, since = V && p.run.vehicles.since, from = t => t - since;
    if (V) { V.end = from(V.end); V.ticks = V.ticks.map(from); for (const e of [...V.go, ...V.came, ...V.visits]) e[1] = from(e[1]); for (const h of V.held) { h[0] = from(h[0]); if (h[1] >= 0) h[1] = from(h[1]); } }
    p.add(more); queue();
  }
  side(more.live);
  if (more.tasks && !bar.playing) bar.fresh();
  if (p.T > 3 * WINDOW && bar.following) listen();    // what is older is left to the log
}
function listen() {
  source?.close(); source = new EventSource('events');
  source.addEventListener('run', e => { $('banner').textContent = ''; load(JSON.parse(e.data)); });
  source.addEventListener('more', e => add(JSON.parse(e.data)));
  source.onerror = () => { $('banner').textContent = 'The connection is lost; what is shown is what came before.'; };
}
listen();
