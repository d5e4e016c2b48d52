'use strict';
// A run on a page. `player(root)` draws in a copy of the page's `.run`: `load(run)` begins with a run, `add(more)` takes what is new
// of it, `show(t)` draws a moment. `controls(root, players)` is the bar below, one for all runs of a page. What a run is made of is
// told in figures/play.py (`data_of`), what is new of it in web/follow.py.
const NEVER = 2 ** 31 - 1, PHASES = ['open', 'assigned', 'carried', 'done'], dark = matchMedia('(prefers-color-scheme: dark)');
const css = name => getComputedStyle(document.documentElement).getPropertyValue('--' + name).trim();
const colour = a => `hsl(${(a * 137.508) % 360},60%,${dark.matches ? 45 : 38}%)`;
function upTo(list, t, key) { let lo = 0, hi = list.length; while (lo < hi) { const m = (lo + hi) >> 1; key(list[m]) <= t ? lo = m + 1 : hi = m; } return lo; }
function player(root) {
  const $ = name => root.querySelector('.' + name);
  const canvas = $('map'), ctx = canvas.getContext('2d'), floor = document.createElement('canvas'), heat = document.createElement('canvas'), chart = document.createElement('canvas');
  const self = {root, load, add, show, draw, theme, size, fit, zoom, strip, pick, toggle, heatMap, saying, onpick: () => {}, get T() { return T; }, get N() { return N; }, get base() { return BASE; }, get run() { return R; },
    get picked() { return picked; }, get shownWays() { return showWays; }, get shownHeat() { return showHeat; }};
  // With vehicles a moment is a second of their transcript, else a clock, counted from the run's first one.
  let R, loads = 0, V, BASE, N = 0, T = 0, C = {}, X = [], byNumber = new Map(), own = null, E = [], kept = [], counts = [], busiest = 1, pointAt = new Map(), barred;
  let S = 10, OX = 0, OY = 0, W = 0, H = 0, now = 0, picked = -1, showWays = true, showHeat = false, fitted = true, charted = -1;
  function colours() { for (const k of ['bg', 'fg', 'dim', 'line', 'floor', 'wall', 'point', 'wait', ...PHASES]) C[k] = css(k); }
  // ---- where everything is
  const moment = clock => !V ? clock - R.start : clock <= (V.base || 0) ? 0 : clock - (V.base || 0) > V.ticks.length ? NEVER : V.ticks[clock - (V.base || 0) - 1] / 100;
  const clockAt = m => V ? (V.base || 0) + upTo(V.ticks, m * 100, v => v) : Math.floor(m);
  function taskOf([client, stops, sub, agent, taken, planned, number], k) {
    const visits = V ? V.visits[k].map(v => v / 100) : planned.map(moment);
    // with vehicles no second is known of what was submitted before the page's first one
    return {i: number ?? k, client, stops, agent, visits, sub: moment(sub), timed: !V || !V.base || sub > V.base, taken: taken < 0 ? NEVER : moment(taken),
      first: visits.length ? visits[0] : NEVER, done: visits.length == stops.length ? visits[visits.length - 1] : NEVER};
  }
  function way(a, t) {
    const list = R.ways[a], k = upTo(list, t, w => w[0] - R.start) - 1, found = kept[a].find(w => w.k == k);
    if (found) return found;
    const [clock, x0, y0, task, point, s] = list[k], xs = new Int16Array(s.length + 1), ys = new Int16Array(s.length + 1);
    let x = x0, y = y0; xs[0] = x; ys[0] = y;
    for (let i = 0; i < s.length; i++) { const c = s[i]; if (c == 'R') x++; else if (c == 'L') x--; else if (c == 'D') y++; else if (c == 'U') y--; xs[i + 1] = x; ys[i + 1] = y; }
    const made = {k, clock: clock - R.start, xs, ys, task, point, last: s.length};
    kept[a].push(made); if (kept[a].length > 3) kept[a].shift();
    return made;
  }
  const cell = (a, clock) => { const w = way(a, clock), i = Math.min(clock - w.clock, w.last); return [w.xs[i], w.ys[i]]; };
  // The step of a vehicle that has come to this one: stays of the plan behind it are passed at once.
  function passed(a, step, clock) {
    while (step < clock) {
      const w = way(a, step), next = R.ways[a][w.k + 1], i = step - w.clock;
      if (i >= w.last) step = Math.min(clock, next ? next[0] - R.start : clock);
      else if (w.xs[i] == w.xs[i + 1] && w.ys[i] == w.ys[i + 1]) step++;
      else break;
    }
    return step;
  }
  // A vehicle: the plan's clock, the step where it is, the cells that it occupies, and between which two it is how far.
  let seenAt = -1, seen = [];
  function vehicle(a, m) { if (m != seenAt) { seenAt = m; seen = []; } return seen[a] ??= vehicleAt(a, m); }
  function vehicleAt(a, m) {
    const at = V.at[a], go = V.go[a], t = m * 100, clock = clockAt(m), i = upTo(at, t, e => e[0]), came = i ? at[i - 1][1] : V.base || 0;
    const step = passed(a, came, clock), first = upTo(go, came, e => e[1]), told = upTo(go, t, e => e[0]), cells = [cell(a, came)];
    for (let g = first; g < told; g++) cells.push(cell(a, go[g][1]));
    let [x, y] = cells[0];
    if (i < at.length && first < told) {    // it is drawn as if it went evenly from `go`, or its last report, to its next one
      const begin = Math.max(i ? at[i - 1][0] : 0, go[first][0]), all = upTo(go, at[i][1], e => e[1]) - first;
      const along = Math.min(cells.length - 1, Math.max(0, (t - begin) / Math.max(1, at[i][0] - begin) * all)), k = Math.min(Math.floor(along), cells.length - 2);
      x = cells[k][0] + (cells[k + 1][0] - cells[k][0]) * (along - k); y = cells[k][1] + (cells[k + 1][1] - cells[k][1]) * (along - k);
    }
    return {clock, step, behind: clock - step, last: told > first ? go[told - 1][1] : step, cells, x, y};
  }
  function place(a, t) {    // t may lie between two clocks
    if (V) { const v = vehicle(a, t); return [v.x, v.y]; }
    const whole = Math.floor(t), w = way(a, whole), i = Math.min(whole - w.clock, w.last), j = Math.min(i + 1, w.last), f = t - whole;
    return [w.xs[i] + (w.xs[j] - w.xs[i]) * f, w.ys[i] + (w.ys[j] - w.ys[i]) * f];
  }
  function phase(x, t) { return x.sub > t ? -1 : x.taken > t ? 0 : x.first > t ? 1 : x.done > t ? 2 : 3; }
  function made(x, t) { return upTo(x.visits, t, v => v); }
  // Tasks with their phases at each moment, for the list, the figures and the chart.
  function arrange() {
    X = R.tasks.map(taskOf);
    byNumber = new Map(X.map(x => [x.i, x]));
    T = V ? Math.ceil(V.end / 100) : R.clock - R.start;
    counts = PHASES.map(() => new Int32Array(T + 2));
    for (const x of X) for (const [p, from, to] of [[0, x.sub, x.taken], [1, x.taken, x.first], [2, x.first, x.done], [3, x.done, NEVER]])
      if (from <= T) { counts[p][Math.max(0, Math.ceil(from))]++; if (to <= T) counts[p][Math.max(0, Math.ceil(to))]--; }
    for (const c of counts) for (let t = 1; t <= T; t++) c[t] += c[t - 1];
    busiest = 1; for (let t = 0; t <= T; t++) busiest = Math.max(busiest, counts[0][t] + counts[1][t] + counts[2][t]);
    own = V && Array.from({length: N}, () => []);
    if (V) { for (const x of X) if (x.agent >= 0) own[x.agent].push(x); for (const list of own) list.sort((x, y) => x.taken - y.taken); }
    liveAt = seenAt = -1; listed = ''; charted = -1;
  }
  let liveAt = -1, live = [];
  function liveTasks(t) {
    if (t == liveAt) return live;
    liveAt = t; live = [];
    for (let i = 0, n = upTo(X, t, x => x.sub); i < n; i++) if (X[i].done + 2 >= t) live.push(X[i]);
    return live;
  }
  const loadOf = (a, t) => { if (V) return own[a].find(x => x.done > t && x.taken <= t) || null; const w = way(a, t); if (w.task < 0) return null; const x = byNumber.get(w.task); return !x ? null : phase(x, t) < 3 ? x : null; };
  // ---- the floor, drawn once with a pixel a cell
  function readFloor() {
    floor.width = heat.width = R.width; floor.height = heat.height = R.height; barred = new Uint8Array(R.width * R.height);
    let i = 0, free = true; for (const n of R.floor.split(' ')) { const e = i + +n; if (!free) barred.fill(1, i, e); i = e; free = !free; }
    pointAt = new Map(R.points.map((p, i) => [p[2] + ',' + p[3], i]));
  }
  function paintFloor() {
    const g = floor.getContext('2d');
    g.fillStyle = C.floor; g.fillRect(0, 0, R.width, R.height); g.fillStyle = C.wall;
    for (let y = 0; y < R.height; y++) for (let x = 0, row = y * R.width; x < R.width; x++) if (barred[row + x]) {
      let e = x; while (e < R.width && barred[row + e]) e++; g.fillRect(x, y, e - x, 1); x = e; }
  }
  // ---- waits: how often the plan has had an agent stay in a cell, up to a clock; a pixel a cell
  const LEVELS = 7, level = n => Math.min(LEVELS, 32 - Math.clz32(n));    // 1, 2 to 3, 4 to 7 .. 64 and more: the same in all runs
  let stays = [], stood = null, heatAt = 0;
  function eachStay([clock, x, y, , , s], from, call) {
    for (let i = 0; i < s.length; i++) {
      const c = s[i], at = clock - R.start + i + 1;
      if (c == 'R') x++; else if (c == 'L') x--; else if (c == 'D') y++; else if (c == 'U') y--;
      else if (at > from) call(at, y * R.width + x);
    }
  }
  // A way replaces what is left of the one before.
  function note(w, k, list) {
    if (k) eachStay(list[k - 1], w[0] - R.start, (at, cell) => { const i = stays[at]?.indexOf(cell) ?? -1; if (i >= 0) stays[at].splice(i, 1); });
    eachStay(w, 0, (at, cell) => (stays[at] ??= []).push(cell));
  }
  function heatTo(clock) {
    const g = heat.getContext('2d'); stood ??= new Uint32Array(R.width * R.height); g.fillStyle = C.wait;
    if (clock < heatAt) { stood.fill(0); heatAt = 0; g.clearRect(0, 0, R.width, R.height); }
    while (heatAt < clock) for (const k of stays[++heatAt] || []) {
      const was = level(stood[k]), is = level(++stood[k]); if (was == is) continue;
      const x = k % R.width, y = (k - x) / R.width; g.clearRect(x, y, 1, 1); g.globalAlpha = is / LEVELS; g.fillRect(x, y, 1, 1);
    }
  }
  function repaintHeat() { heatAt = NEVER; if (showHeat) heatTo(0); }
  // ---- the view
  function size() {
    const d = devicePixelRatio || 1, b = $('view').getBoundingClientRect();
    W = b.width; H = b.height; canvas.width = W * d; canvas.height = H * d; ctx.setTransform(d, 0, 0, d, 0, 0);
    if (R) { if (fitted) fit(); draw(); }
  }
  function fit() { S = Math.min(W / (R.width + 1), H / (R.height + 1), 110); OX = (W - S * R.width) / 2; OY = (H - S * R.height) / 2; fitted = true; }
  function shape(g, p, x, y, r) {
    g.lineWidth = Math.max(1.5, r / 4); g.beginPath(); g.strokeStyle = g.fillStyle = C[PHASES[p]];
    if (p == 0) { g.arc(x, y, r, 0, 7); g.stroke(); }
    else if (p == 1) { g.moveTo(x, y - r); g.lineTo(x + r, y + r); g.lineTo(x - r, y + r); g.fill(); }
    else if (p == 2) g.strokeRect(x - r, y - r, 2 * r, 2 * r);
    else { g.moveTo(x - r * .7, y); g.lineTo(x - r * .2, y + r * .6); g.lineTo(x + r * .8, y - r * .6); g.stroke(); }
  }
  function look(g, what, a, x, y, r) {    // the marks of a vehicle: itself, a cell that it occupies, its plan's place
    g.fillStyle = g.strokeStyle = colour(a);
    if (what == 'cell') { const o = g.globalAlpha; g.globalAlpha = o * .32; g.fillRect(x - r, y - r, 2 * r, 2 * r); g.globalAlpha = o; g.lineWidth = Math.max(1, Math.min(2, r / 10)); g.strokeRect(x - r, y - r, 2 * r, 2 * r); }
    else if (what == 'plan') { g.lineWidth = Math.max(1.2, Math.min(3, r / 5)); g.beginPath(); g.arc(x, y, r, 0, 7); g.stroke(); }
    else if (what == 'track') { g.lineWidth = Math.max(1.5, Math.min(4, r / 5)); g.setLineDash([r / 2, r / 2]); g.beginPath(); g.moveTo(x - r, y); g.lineTo(x + r, y); g.stroke(); g.setLineDash([]); }
    else { g.beginPath(); g.arc(x, y, r, 0, 7); g.fill(); }
  }
  function drawLate(px, py) {
    const taken = new Map();
    for (let a = 0; a < N; a++) {
      const v = vehicle(a, now); ctx.globalAlpha = picked < 0 || a == picked ? 1 : .45;
      for (const [x, y] of v.cells) {
        look(ctx, 'cell', a, px(x), py(y), S * .46);
        if (taken.has(y * R.width + x) && taken.get(y * R.width + x) != a) { ctx.globalAlpha = 1; ctx.strokeStyle = '#d1242f'; ctx.lineWidth = 3; ctx.strokeRect(px(x) - S / 2, py(y) - S / 2, S, S); }
        taken.set(y * R.width + x, a);
      }
      if (!v.behind) continue;
      let [u, w] = v.cells[v.cells.length - 1];
      ctx.strokeStyle = colour(a); ctx.lineWidth = Math.max(1.2, Math.min(4, S / 10)); ctx.setLineDash([S / 6, S / 6]); ctx.beginPath(); ctx.moveTo(px(u), py(w));
      for (let s = v.last + 1; s <= v.clock; s++) { [u, w] = cell(a, s); ctx.lineTo(px(u), py(w)); }
      ctx.stroke(); ctx.setLineDash([]);
    }
    ctx.globalAlpha = 1;
  }
  function drawPlans(px, py) {    // over the vehicles: a ring, and the steps behind at its edge
    const q = Math.min(22, S * .3);
    ctx.textAlign = 'center'; ctx.textBaseline = 'middle'; ctx.font = `bold ${q * .8}px sans-serif`;
    for (let a = 0; a < N; a++) {
      const v = vehicle(a, now); if (!v.behind) continue;
      const [x, y] = cell(a, v.clock).map((k, i) => i ? py(k) : px(k)), u = x - S * .34, w = y - S * .34;
      ctx.globalAlpha = picked < 0 || a == picked ? 1 : .45; look(ctx, 'plan', a, x, y, Math.max(2.5, S * .42));
      if (S >= 20) { ctx.fillStyle = C.bg; ctx.beginPath(); ctx.arc(u, w, q * .62, 0, 7); ctx.fill(); ctx.lineWidth = 1; ctx.stroke(); ctx.fillStyle = C.fg; ctx.fillText(v.behind, u, w + .5); }
    }
    ctx.textBaseline = 'alphabetic';
    ctx.globalAlpha = 1;
  }
  function draw() {
    const t = V ? now : Math.floor(now), c = clockAt(now), px = x => OX + (x + .5) * S, py = y => OY + (y + .5) * S;
    ctx.fillStyle = C.bg; ctx.fillRect(0, 0, W, H);
    ctx.imageSmoothingEnabled = S < 1; ctx.drawImage(floor, OX, OY, R.width * S, R.height * S);
    if (showHeat) { heatTo(c); ctx.imageSmoothingEnabled = false; ctx.drawImage(heat, OX, OY, R.width * S, R.height * S); }
    if (S >= 5) {
      ctx.strokeStyle = C.point; ctx.lineWidth = 1; ctx.fillStyle = C.dim; ctx.textAlign = 'left'; ctx.font = `${Math.min(11, S / 3)}px sans-serif`;
      for (const [kind, name, x, y] of R.points) {
        const a = OX + x * S, b = OY + y * S;
        if (a < -S || b < -S || a > W || b > H || kind == 'g') continue;    // g: one that the floor has no more
        ctx.setLineDash(kind == 'p' ? [2, 2] : []); ctx.strokeRect(a + 1.5, b + 1.5, S - 3, S - 3);
        if (S >= 22) ctx.fillText(name, a + 3, b + Math.min(12, S / 2.4));
      }
      ctx.setLineDash([]);
    }
    for (let a = 0; a < N; a++) if (showWays || a == picked) {
      const w = way(a, c); let i = Math.min(c - w.clock, w.last); if (i >= w.last) continue;
      ctx.globalAlpha = picked < 0 || a == picked ? .6 : .25; ctx.strokeStyle = colour(a); ctx.lineWidth = Math.max(1, S / 9) * (a == picked ? 1.8 : 1); ctx.beginPath();
      const [x, y] = V ? cell(a, c) : place(a, now); ctx.moveTo(px(x), py(y)); for (i++; i <= w.last; i++) ctx.lineTo(px(w.xs[i]), py(w.ys[i])); ctx.stroke();
    }
    ctx.globalAlpha = 1; if (V) drawLate(px, py);
    const at = new Map();    // one mark a cell and phase, with their number
    for (const x of liveTasks(t)) {
      const p = phase(x, t); if (p == 3 && t - x.done > 2) continue;
      const stop = x.stops[p < 2 ? 0 : p == 2 ? made(x, t) : x.stops.length - 1], key = p * 8192 + stop, m = at.get(key);
      if (m) { m[2]++; m[3] |= x.agent == picked && p > 0; } else at.set(key, [p, stop, 1, x.agent == picked && p > 0]);
    }
    for (const [p, stop, n, own] of at.values()) {
      const [, , x, y] = R.points[stop]; ctx.globalAlpha = picked < 0 || own ? 1 : .45;
      if (p < 3) shape(ctx, p, px(x), py(y), Math.max(2.5, S * .4)); else shape(ctx, p, px(x) + S * .32, py(y) + S * .32, Math.max(2, S * .22));
      if (n > 1 && S >= 12) { ctx.fillStyle = C.fg; ctx.font = `bold ${S / 2.6}px sans-serif`; ctx.textAlign = 'right'; ctx.fillText(n, px(x) + S / 2 - 1, py(y) + S / 2 - 2); }
    }
    const r = Math.max(2, S * .34);
    for (let a = 0; a < N; a++) {
      const [x, y] = place(a, now), cx = px(x), cy = py(y); if (cx < -S || cy < -S || cx > W + S || cy > H + S) continue;
      ctx.globalAlpha = picked < 0 || a == picked ? 1 : .5; ctx.fillStyle = colour(a); ctx.beginPath(); ctx.arc(cx, cy, r, 0, 7); ctx.fill();
      if (a == picked) { ctx.strokeStyle = C.fg; ctx.lineWidth = 2; ctx.stroke(); }
      if (S >= 14) { ctx.fillStyle = '#fff'; ctx.font = `bold ${r * (a > 99 ? .8 : 1.05)}px sans-serif`; ctx.textAlign = 'center'; ctx.textBaseline = 'middle'; ctx.fillText(a, cx, cy + .5); ctx.textBaseline = 'alphabetic'; }
      const x1 = loadOf(a, t); if (x1 && phase(x1, t) == 2) { const q = Math.max(2, r * .8); ctx.fillStyle = '#ffd33d'; ctx.strokeStyle = '#000'; ctx.lineWidth = 1; ctx.fillRect(cx + r * .3, cy - r * 1.2, q, q); if (S > 10) ctx.strokeRect(cx + r * .3, cy - r * 1.2, q, q); }
    }
    if (V) drawPlans(px, py);
    ctx.globalAlpha = 1;
  }
  // ---- beside
  const name = i => R.points[i][1];
  // Of events the clocks are moments; with vehicles the visits are theirs.
  const eventOf = e => [moment(e[0]), ...e.slice(1)], visitsOf = x => x.visits.map((m, k) => [m, 0, 'visit', x.i, k]);
  function words(e) {
    const [when, caller, kind, a, b, c] = e, x = kind == 'submit' || kind == 'visit' || kind == 'kept' ? byNumber.get(a) : null;
    if (kind == 'submit') return x ? `${x.client} submits task ${a}: ${x.stops.map(name).join(' → ')}` : `task ${a} is submitted`;
    if (kind == 'took') return `agent ${a} takes task ${b}, ${c} steps`;
    if (kind == 'parked') return `agent ${a} goes to park at ${name(b)}, ${c} steps`;
    if (kind == 'began') return `the run continues from a state, behind ${a} entries`;
    if (kind == 'kept') return x ? `agent ${x.agent} has task ${a} from before, ${b} of ${x.stops.length} stops made` : `task ${a} was taken before`;
    if (kind == 'replaced') return `agent ${a} has another planner, ${b} slots`;
    if (kind == 'closed') return 'the warehouse is closed';
    if (kind == 'refused') return `${a}: refused ${b}`;
    if (!x) return `a visit of task ${a}`;
    const who = `${V ? 'vehicle' : 'agent'} ${x.agent}`, where = name(x.stops[b]);
    if (b == x.stops.length - 1) return `${who} delivers task ${a} at ${where}${x.timed ? `, ${Math.round(when - x.sub)} after submission` : ''}`;
    return b == 0 ? `${who} picks up task ${a} at ${where}` : `${who} is at stop ${b + 1} of task ${a}, ${where}`;
  }
  let listed = '';
  function panel() {
    const t = Math.floor(now), n = upTo(E, V ? now : t, e => e[0]);
    if (V) panelLate();
    PHASES.forEach((p, i) => { $('n' + i).textContent = counts[i][t] + (p == 'done' && R.left_out || 0); });
    const key = t + ' ' + picked; if (key == listed) return; listed = key;
    listEvents(n);
    $('agent').textContent = picked < 0 ? 'select an agent' : about(picked, V ? now : t);
  }
  // Events up to now, the latest first. Where time has gone on a little only the new ones are added: all of them anew take longer than the picture.
  const MOST_EVENTS = 120, element = (kind, words, cls = '') => Object.assign(document.createElement(kind), {textContent: words, className: cls});
  let eventsOf = '', eventsTo = 0;
  function eventRow(e) { const p = element('p', '', e[2] == 'refused' ? 'bad' : ''); p.append(element('i', Math.floor(e[0]) + BASE), ' ' + words(e)); return p; }
  function listEvents(n) {
    const mine = e => picked < 0 || (e[2] == 'took' || e[2] == 'parked' || e[2] == 'replaced' ? e[3] == picked
      : e[2] == 'visit' || e[2] == 'kept' ? byNumber.get(e[3])?.agent == picked : e[2] == 'refused' && String(e[3]).startsWith(`agent ${picked} `));
    const box = $('events'), of = `${loads} ${picked}`, on = of == eventsOf && n >= eventsTo, rows = [];
    for (let i = n - 1; i >= (on ? eventsTo : 0) && rows.length < MOST_EVENTS; i--) if (mine(E[i])) rows.push(eventRow(E[i]));
    if (on) box.firstElementChild.after(...rows);
    else box.replaceChildren(element('h2', `Events up to now${picked < 0 ? '' : `, agent ${picked}`}, latest first (not listed: rested, E5)`), ...rows);
    while (box.childElementCount > MOST_EVENTS + 1) box.lastElementChild.remove();
    eventsOf = of; eventsTo = n;
  }
  function panelLate() {
    let late = 0, most = 0, who = -1; const held = V.held.find(h => h[0] <= now * 100 && (h[1] < 0 || now * 100 < h[1]));
    for (let a = 0; a < N; a++) { const b = vehicle(a, now).behind; late += b > 0; if (b > most) { most = b; who = a; } }
    $('behind').textContent = late ? `${late} of ${N}` : 'none'; $('most').textContent = late ? `${most} (vehicle ${who})` : '0';
    $('held').textContent = held ? `waits for vehicle ${held[2]}` : 'runs';
  }
  function goesHome(w) { const x = byNumber.get(w.task), p = x && R.points[x.stops[x.stops.length - 1]]; return p && (p[2] != w.xs[w.last] || p[3] != w.ys[w.last]); }
  function about(a, t) {
    const c = clockAt(t), w = way(a, c), v = V && vehicle(a, t), [x, y] = V ? v.cells[0] : place(a, t), left = Math.max(0, w.clock + w.last - c), load = loadOf(a, t);
    let did = 0; if (V) did = own[a].filter(x => x.done <= t).length; else { const its = new Set(R.ways[a].slice(0, upTo(R.ways[a], t, v => v[0] - R.start)).map(v => byNumber.get(v[3]))); for (const x of its) if (x && x.done <= t) did++; }
    const doing = load ? (phase(load, t) == 1 ? `goes to fetch task ${load.i} at ${name(load.stops[0])}` : `carries task ${load.i} to ${name(load.stops[made(load, t)])}`)
      : left || v && v.behind ? (w.task < 0 ? w.point < 0 ? 'is on a path' : `goes to park at ${name(w.point)}` : goesHome(w) ? `goes home, task ${w.task} is done` : `ends the way of task ${w.task}, which is done`) : 'rests';
    const late = !V ? '' : (v.cells.length > 1 ? `, granted ${v.cells.slice(1).map(k => k.join(',')).join(' ')}` : '')
      + (v.behind ? `\n${v.behind} steps behind its plan, which is at ${cell(a, v.clock).join(',')}` : '');
    return `${a} at ${x},${y}: ${doing}${late}\n${left} steps left${V ? ' in its plan' : ''}, tasks done${R.left_out ? ' lately' : ''}: ${did}`;
  }
  // What is under way, stacked, up to the most that ever is; what is done is a line, up to all tasks. Drawn once, and then the moment.
  function paintChart(w, h, all) {
    const g = chart.getContext('2d'), tasks = Math.max(1, X.length), last = Math.floor(all ? T / all * (w - 1) : w - 1);
    chart.width = w; chart.height = h; charted = all;
    for (let x = 0; x <= last; x++) {
      const t = Math.min(T, Math.round(x / Math.max(1, w - 1) * all)); let y = h;
      for (const p of [2, 1, 0]) { const k = counts[p][t] / busiest * h; g.fillStyle = C[PHASES[p]]; g.fillRect(x, y - k, 1, k); y -= k; }
    }
    g.strokeStyle = C.fg; g.lineWidth = Math.max(1, h / 40); g.beginPath();
    for (let x = 0; x <= last; x++) g.lineTo(x, (h - 2) * (1 - counts[3][Math.min(T, Math.round(x / Math.max(1, w - 1) * all))] / tasks) + 1);
    g.stroke();
  }
  function strip(c, all = T) {
    const g = c.getContext('2d'), d = devicePixelRatio || 1, b = c.getBoundingClientRect(), w = Math.round(b.width * d), h = Math.round(b.height * d);
    if (!w || !h) return;
    if (c.width != w || c.height != h) { c.width = w; c.height = h; }
    if (charted !== all || chart.width != w || chart.height != h) paintChart(w, h, all);
    g.clearRect(0, 0, w, h); g.drawImage(chart, 0, 0); g.fillStyle = C.fg; g.fillRect(all ? now / all * (w - 2) : 0, 0, 2 * d, h);
  }
  function show(t) { now = Math.max(0, Math.min(T, t)); draw(); panel(); }
  function saying() { return V ? `second ${Math.floor(now)}, clock ${clockAt(now)} of ${R.clock}` : `clock ${Math.floor(now) + R.start} of ${R.clock}`; }
  function zoom(f, x = W / 2, y = H / 2) { const s = Math.max(.1, Math.min(120, S * f)); OX = x - (x - OX) * s / S; OY = y - (y - OY) * s / S; S = s; fitted = false; draw(); }
  // ---- mouse and touch
  const down = new Map(); let dragged = false;
  const at = e => { const b = canvas.getBoundingClientRect(); return [e.clientX - b.left, e.clientY - b.top]; };
  canvas.onwheel = e => { e.preventDefault(); zoom(Math.exp(-e.deltaY / 400), ...at(e)); };
  canvas.onpointerdown = e => { canvas.setPointerCapture(e.pointerId); down.set(e.pointerId, at(e)); dragged = false; };
  canvas.onpointermove = e => {
    const p = at(e), q = down.get(e.pointerId);
    if (!q) return tip(p);
    if (Math.hypot(p[0] - q[0], p[1] - q[1]) < 4 && !dragged) return;
    dragged = true; fitted = false; $('tip').style.display = 'none';
    if (down.size == 1) { OX += p[0] - q[0]; OY += p[1] - q[1]; draw(); }
    else { const o = [...down].find(([id]) => id != e.pointerId)[1]; zoom(Math.hypot(p[0] - o[0], p[1] - o[1]) / Math.max(1, Math.hypot(q[0] - o[0], q[1] - o[1])), ...o); }
    down.set(e.pointerId, p);
  };
  canvas.onpointerup = canvas.onpointercancel = e => { down.delete(e.pointerId); if (!dragged && e.type == 'pointerup') { const p = at(e); pick(near(p)); tip(p); } };
  canvas.onpointerleave = () => { $('tip').style.display = 'none'; };
  canvas.ondblclick = () => { fit(); draw(); };
  function near([x, y]) { let best = -1, d = Math.max(8, S * .5); for (let a = 0; a < N; a++) { const [u, v] = place(a, now), k = Math.hypot(OX + (u + .5) * S - x, OY + (v + .5) * S - y); if (k < d) { d = k; best = a; } } return best; }
  function pick(a) { picked = a < N ? a : -1; listed = ''; draw(); panel(); self.onpick(); }
  function tip(p) {
    const x = Math.floor((p[0] - OX) / S), y = Math.floor((p[1] - OY) / S), t = V ? now : Math.floor(now), box = $('tip');
    if (x < 0 || y < 0 || x >= R.width || y >= R.height) { box.style.display = 'none'; return; }
    const lines = [`${x},${y}${barred[y * R.width + x] ? ' blocked' : ''}`], i = pointAt.get(x + ',' + y);
    if (i !== undefined) {
      lines[0] += ` ${{s: 'station', p: 'parking', g: 'was a station:'}[R.points[i][0]]} ${name(i)}`; let more = 0;
      for (const k of liveTasks(t)) if (phase(k, t) < 3 && k.stops.includes(i)) { if (lines.length < 7) lines.push(`task ${k.i} ${PHASES[phase(k, t)]}: ${k.stops.map(name).join(' → ')}`); else more++; }
      if (more) lines.push(`and ${more} more`);
    }
    if (showHeat && stood?.[y * R.width + x]) lines.push(`${stood[y * R.width + x]} waits`);
    for (let a = 0; a < N; a++) { const cells = V ? vehicle(a, t).cells : [place(a, t)]; if (cells.some(([u, v]) => u == x && v == y)) lines.push((V ? 'vehicle ' : 'agent ') + about(a, t)); }
    box.textContent = lines.join('\n'); box.style.display = 'block';
    box.style.left = Math.max(0, Math.min(p[0] + 14, W - box.offsetWidth - 4)) + 'px'; box.style.top = Math.max(0, Math.min(p[1] + 14, H - box.offsetHeight - 4)) + 'px';
  }
  function toggle(on = !showWays) { showWays = on; draw(); }
  function heatMap(on = !showHeat) { showHeat = on; $('heat').hidden = !on; draw(); }
  // ---- a run, and what is new of it
  function load(run) {
    const same = R && R.width == run.width && R.height == run.height && N == run.ways.length, first = !R;
    R = run; loads++; V = R.vehicles; BASE = V ? 0 : R.start; N = R.ways.length; kept = Array.from({length: N}, () => []);
    if (!same) { picked = -1; fitted = true; }
    if (first) showWays = N <= 60;
    readFloor(); stays = []; stood = null; heatAt = 0; R.ways.forEach(list => list.forEach(note)); arrange();
    E = R.events.filter(e => !V || e[2] != 'visit').map(eventOf);
    if (V) { for (const x of X) E.push(...visitsOf(x)); E.sort((x, y) => x[0] - y[0]); }
    now = Math.min(now, T); head(); legend(); theme();
  }
  function add(more) {
    const {clock, entries, answers, tasks, changed, ways, events, vehicles} = more, visited = [];
    Object.assign(R, {clock, entries, answers}); R.tasks.push(...tasks);
    const at = new Map(R.tasks.map((row, k) => [row[6] ?? k, k]));
    for (const [number, agent, taken, planned] of changed) Object.assign(R.tasks[at.get(number)], {3: agent, 4: taken, 5: planned});
    for (const [a, w] of ways) { const list = R.ways[a]; note(w, list.push(w) - 1, list); }
    if (V) {
      const {end, ticks, go, came, visits, held, most} = vehicles;
      Object.assign(V, {end, most}); V.held = V.held.filter(h => !held.some(k => k[0] == h[0])).concat(held); V.ticks.push(...ticks);
      while (V.visits.length < R.tasks.length) V.visits.push([]);
      for (const [a, t, step] of go) V.go[a].push([t, step]);
      for (const [a, t, step] of came) V.at[a].push([t, step]);
      for (const [number, t, k] of visits) { if (at.has(number)) V.visits[at.get(number)].push(t); visited.push([t / 100, 0, 'visit', number, k]); }
    }
    E.push(...events.filter(e => !V || e[2] != 'visit').map(eventOf), ...visited); arrange(); head();
  }
  function head() {
    const spans = [], fact = (text, cls = '') => spans.push(Object.assign(document.createElement('span'), {textContent: text, className: cls}));
    $('name').textContent = R.title;
    if (R.verified) fact('verify: ' + R.verified, R.verified.startsWith('run ') ? 'tag' : 'tag bad');
    if (R.cut && !R.live) fact('CUT: the log has not its end', 'tag bad');
    fact(`${R.width} × ${R.height}`); fact(`${N} agents`); if (!R.live) figures(fact);
    if (R.nofollow) fact('rule nofollow');
    if (R.front) fact(`log ${R.front.log} of its run: from clock ${R.front.clock}, behind ${R.front.entries} entries` + (R.front.kind == 'whole' ? '' : `, ${R.front.kind}`));
    fact(`${R.entries} entries: ${['rested', 'E5', 'E6'].map(k => `${k} ${R.answers[k] || 0}`).join(', ')}`);
    $('facts').replaceChildren(...spans);
    $('banner').textContent = (R.differ.length ? 'Counts differ: what is drawn is not what the log says\n' + R.differ.join('\n') : '')
      + (V && V.meetings.length ? 'Vehicles meet\n' + V.meetings.join('\n') : '');
  }
  function figures(fact) {
    const before = new Set(R.front?.done), all = X.filter(x => !before.has(x.i)), served = all.filter(x => x.done < NEVER), timed = served.filter(x => x.timed);
    const end = served.reduce((m, x) => Math.max(m, x.done), 0), mean = timed.reduce((s, x) => s + x.done - x.sub, 0) / timed.length;
    fact(`${served.length} of ${all.length} tasks done` + (before.size ? `, ${before.size} before` : ''));
    if (served.length) { fact(V ? `the last at second ${Math.round(end)}` : `makespan ${end}`); if (timed.length) fact(`service time ${mean.toFixed(1)}`); if (end) fact(`${(100 * served.length / end).toFixed(1)} tasks in 100 ${V ? 'seconds' : 'ticks'}`); }
    if (V) { fact(`the clock waited ${V.held.length == 1 ? 'once' : V.held.length + ' times'}`); fact(`at most ${V.most} steps behind`); }
  }
  const MARKS = [['vehicle', 'vehicle', 'drawn as if it moved evenly between its reports'], ['cell', 'cells that it occupies', 'from where it has arrived to the last that was granted'],
    ['track', 'steps not granted yet', 'steps of its plan up to the clock'], ['plan', 'its plan, steps behind', 'where the plan has it at the clock']];
  function legend() {
    $('late').hidden = !V;
    if (V) $('late').innerHTML = '<h2>Vehicles</h2>' + MARKS.map(([, words, more], i) => `<div title="${more}"><canvas class="v${i}" width="36" height="36"></canvas>${words}</div>`).join('')
      + '<div>behind now<b class="behind"></b></div><div>most steps behind<b class="most"></b></div><div>the clock<b class="held"></b></div>';
    $('phases').innerHTML = '<h2>Tasks</h2>' + PHASES.map((p, i) => `<div><canvas class="s${i}" width="36" height="36" style="width:18px"></canvas>${p}<b class="n${i}"></b></div>`).join('');
    $('heat').hidden = !showHeat;
    $('heat').innerHTML = `<h2>Waits up to now${R.live ? ', of the clocks shown' : ''}</h2><div class="scale">` + Array.from({length: LEVELS}, (_, i) => `<i style="opacity:${((i + 1) / LEVELS).toFixed(2)}"></i>`).join('')
      + `</div><div class="ends"><span>1</span><span>steps that an agent stays</span><span>${2 ** (LEVELS - 1)} or more</span></div>`;
  }
  function mark(name, paint) { const g = $(name).getContext('2d'); g.clearRect(0, 0, 36, 36); paint(g); }
  function theme() {
    colours(); paintFloor(); repaintHeat(); charted = -1;
    PHASES.forEach((p, i) => mark('s' + i, g => shape(g, i, 18, 18, 12)));
    if (V) MARKS.forEach(([what], i) => mark('v' + i, g => look(g, what, 5, 18, 18, what == 'cell' ? 15 : 13)));
    size();
  }
  new ResizeObserver(size).observe($('view'));
  return self;
}
// The bar below: one clock for all runs of the page, each of which ends where its log does.
function controls(root, players) {
  const $ = name => root.querySelector('.' + name), SPEEDS = [1, 2, 4, 8, 16, 32, 64, 200], first = players[0];
  let now = 0, playing = false, speed = 4, last = 0, following = false, linking = 0;
  const T = () => Math.max(...players.map(p => p.T)), base = () => first.base, strips = players.map(() => $('strips').appendChild(document.createElement('canvas')));
  const self = {show, go, fresh, get now() { return now; }, get playing() { return playing; }, get following() { return following; }, follow, onstep: () => {}};
  function show() {
    for (const p of players) p.show(now);
    $('clock').textContent = players.map(p => p.saying()).join(' | '); $('slider').max = T(); $('slider').value = now; players.forEach((p, i) => p.strip(strips[i], T()));
  }
  // The address says what is shown, once nothing has changed for a moment.
  function link() {
    clearTimeout(linking);
    if (!following) linking = setTimeout(() => { try { history.replaceState(null, '', `#t=${Math.floor(now) + base()}` + (first.picked < 0 ? '' : `&a=${first.picked}`)); } catch (e) { } }, 200);
  }
  function go(t) { now = Math.max(0, Math.min(T(), t)); following = following && now >= T(); pressed(); show(); if (!playing) link(); }
  function run(on) {
    if (on && now >= T()) now = 0;
    playing = on; following = following && !on; pressed(); if (!on) { now = Math.floor(now); link(); } show(); last = performance.now(); if (on) requestAnimationFrame(frame);
  }
  function frame(ms) { if (!playing) return; now = Math.min(T(), now + Math.max(0, ms - last) / 1000 * speed); last = ms; if (now >= T()) run(false); else { show(); requestAnimationFrame(frame); } }
  // Of a live page: the last moment is shown as it comes.
  function follow(on) { following = on; $('live').hidden = false; if (on) { playing = false; now = T(); } pressed(); show(); }
  function fresh() { if (following) now = T(); now = Math.min(now, T()); show(); }
  function pressed() {
    $('play').textContent = playing ? 'Pause' : 'Play';
    for (const [name, on] of [['live', following], ['ways', first.shownWays], ['waits', first.shownHeat]]) $(name).setAttribute('aria-pressed', on);
  }
  $('speed').innerHTML = SPEEDS.map(s => `<option value="${s}"${s == speed ? ' selected' : ''}>${s} / s</option>`).join('');
  $('speed').onchange = e => { speed = +e.target.value; };
  const faster = k => { const i = Math.max(0, Math.min(SPEEDS.length - 1, SPEEDS.indexOf(speed) + k)); speed = SPEEDS[i]; $('speed').value = speed; };
  const ways = () => { const on = !first.shownWays; players.forEach(p => p.toggle(on)); pressed(); }, waits = () => { const on = !first.shownHeat; players.forEach(p => p.heatMap(on)); pressed(); };
  const fit = () => players.forEach(p => { p.fit(); p.draw(); }), zoom = f => players.forEach(p => p.zoom(f)), step = k => { if (playing) run(false); go(Math.floor(now) + k); };
  const end = () => $('live').hidden ? go(T()) : follow(true);
  $('back').onclick = () => step(-1); $('next').onclick = () => step(1); $('play').onclick = () => run(!playing); $('ways').onclick = ways; $('waits').onclick = waits;
  $('fit').onclick = fit; $('live').onclick = () => follow(!following); $('slider').oninput = e => go(+e.target.value);
  for (const c of strips) c.onpointerdown = c.onpointermove = e => { if (e.buttons) { const b = e.target.getBoundingClientRect(); go(Math.round((e.clientX - b.left) / b.width * T())); } };
  onkeydown = e => {
    if (e.target.tagName == 'SELECT' || e.ctrlKey || e.metaKey || e.altKey) return;
    const k = e.shiftKey ? 10 : 1, act = {' ': () => run(!playing), ArrowLeft: () => step(-k), ArrowRight: () => step(k), ArrowUp: () => faster(1), ArrowDown: () => faster(-1),
      Home: () => go(0), End: end, '+': () => zoom(1.3), '=': () => zoom(1.3), '-': () => zoom(1 / 1.3), '0': fit, w: ways, h: waits, Escape: () => players.forEach(p => p.pick(-1))}[e.key];
    if (act) { e.preventDefault(); act(); }
  };
  function fromLink() {
    const q = new URLSearchParams(location.hash.slice(1)), t = q.get('t'), a = q.get('a');
    if (a !== null && +a >= 0 && +a < first.N) first.pick(+a);
    if (q.get('waits') == '1' && !first.shownHeat) waits();
    now = t === null ? 0 : Math.max(0, Math.min(T(), Math.floor(+t) - base() || 0)); return q.get('play') == '1';
  }
  function begin() {
    if (first.run.vehicles) { $('speed').title = 'seconds a second (up, down)'; $('back').title = 'one second back (left)'; $('next').title = 'one second on (right)'; $('slider').setAttribute('aria-label', 'second'); }
    const on = fromLink(); pressed(); show(); if (on != playing) run(on);
  }
  for (const p of players) p.onpick = link;
  onhashchange = begin; onresize = () => { players.forEach(p => p.size()); show(); }; dark.onchange = () => { players.forEach(p => p.theme()); show(); };
  return Object.assign(self, {begin});
}
