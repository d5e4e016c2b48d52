'use strict';
// The page of finished logs: the runs that it holds, side by side.
const runs = [...document.querySelectorAll('script[type="application/json"]')].map(text => JSON.parse(text.textContent)), main = document.querySelector('main');
for (let i = 1; i < runs.length; i++) main.append(main.firstElementChild.cloneNode(true));
if (runs.length > 1) main.className = 'two';
const players = [...main.children].map(player), bar = controls(document.querySelector('footer'), players);
players.forEach((p, i) => p.load(runs[i]));
document.title = runs.map(run => run.title).join(' and ') + ': a run';
bar.begin();
