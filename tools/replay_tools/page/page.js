// What the page shows, and what is done to it.
const shown = {filter: '', chip: 'all', order: 'worst'};
const CHIPS = [
  ['all', 'all', () => true], ['evicted', 'evicted', isEvicted],
  ['restarted', 'restarted', (pod) => pod.restarts > 0], ['killed', 'kill ordered by a probe', (pod) => pod.kills > 0],
  ['unready', 'not ready at the end', (pod) => !pod.isReady && pod.phase !== 'Succeeded'],
];
const byNumber = (a, b) => a.number - b.number;
const byKey = (a, b) => (a.key === b.key ? byNumber(a, b) : a.key < b.key ? -1 : 1);
const ORDERS = {worst: isWorse, trace: byNumber, name: byKey};
const LEGEND = [
  ['waiting', 'waiting'], ['running', 'running'], ['ended', 'ended with 0'], ['failed', 'ended otherwise'],
  ['ready', 'ready'], ['unready', 'not ready'], ['pressure', 'pressure'], ['shade', 'threshold active'],
  ['said', 'reported of it, or a resize'],
];
// Signs of the legend are drawn as the signs of the lanes are.
const ofMark = (word) => (pen) => drawMark(pen, {word, x: 8}, 8 - BAR / 2);
const ofStrip = (pen) => drawStrip(pen, ['restart', 'backoff', 'kill'].map((word, at) => ({word, x: 3 + 5 * at})), -6);
const SIGNS = [['kill ordered', ofMark('kill')], ['restart', ofMark('restart')],
  ['restart backed off', ofMark('backoff')], ['many of these', ofStrip],
  ['evicted', (pen) => drawCross(pen, 8, 8, 4.5, colours.failed)],
  ...(data.kubelet ? [['by the rules', (pen) => drawCross(pen, 8, 8, 4.5, colours.quiet)]] : []),
  ...(data.reclaims.length ? [['reclaimed', (pen) => drawReclaim(pen, 8, 8)]] : [])];
const byId = (name) => document.getElementById(name);
let asked = 0, askedAll = false;

// --- drawing, once for each frame ---

function draw(all) {
  askedAll = askedAll || all;
  if (asked) return;
  asked = requestAnimationFrame(() => {
    const began = performance.now();
    asked = 0;
    if (askedAll) {
      document.documentElement.style.setProperty('--head', `${document.querySelector('header').offsetHeight}px`);
      drawAxis();
      drawCharts();
      drawUsed();
      drawLegend();
      describe();
    }
    showRows(askedAll);
    askedAll = false;
    document.documentElement.dataset.drawn = (performance.now() - began).toFixed(1);
  });
}

function describe() {
  const span = view.to - view.from;
  const [from, to] = [view.from, view.to].map((at) => moment(Math.round(at)));
  byId('range').textContent = `${from} – ${to} (${seconds(Math.round(span))})`;
  byId('whole').disabled = view.from === 0 && view.to === Math.max(data.last, 1);
}

function refilter() {
  const words = shown.filter.toLowerCase().split(/\s+/).filter(Boolean);
  const chip = CHIPS.find((one) => one[0] === shown.chip)[2];
  const pods = data.podList.filter((pod) => chip(pod) && words.every((word) => pod.key.toLowerCase().includes(word)));
  placeRows(pods.sort(ORDERS[shown.order]));
  byId('shown').textContent = `${pods.length} of ${data.podList.length} pods`;
  sayNone(pods.length);
  draw(true);
}

// Why no pod is shown, and the way back.
function sayNone(count) {
  const named = shown.filter.trim() ? `has “${shown.filter.trim()}” in its name` : '';
  const chosen = shown.chip === 'all' ? '' : `is among “${CHIPS.find((one) => one[0] === shown.chip)[1]}”`;
  byId('none').hidden = count > 0;
  if (count > 0) return;
  if (!data.podList.length) byId('none').textContent = 'The report has no pod.';
  else {
    byId('none').replaceChildren(`No pod ${[named, chosen].filter(Boolean).join(' and ')}.`,
      pressable('show all pods', showAll));
  }
}

function showAll() {
  byId('filter').value = shown.filter = '';
  byId('chips').firstChild.click();
}

// --- the view ---

function zoom(from, to) {
  const whole = Math.max(data.last, 1);
  const span = Math.min(Math.max(to - from, Math.min(2, whole)), whole);
  view.from = Math.max(0, Math.min(from, whole - span));
  view.to = view.from + span;
  draw(true);
}

function zoomBy(factor) {
  const [middle, half] = [(view.from + view.to) / 2, (view.to - view.from) * factor / 2];
  zoom(middle - half, middle + half);
}

function move(share) {
  const by = (view.to - view.from) * share;
  zoom(view.from + by, view.to + by);
}

function setTheme(theme) {
  document.documentElement.dataset.theme = theme;
  byId('theme').textContent = theme === 'dark' ? 'light' : 'dark';
  readColours();
  draw(true);
}

const CLOCKS = {seconds: 'seconds', utc: 'UTC', local: 'local'};

function nextClock() {
  const names = Object.keys(CLOCKS);
  return names[(names.indexOf(view.clock) + 1) % names.length];
}

function setClock(clock) {
  view.clock = clock;
  byId('clock').textContent = CLOCKS[nextClock()];
  refilter();
}

function choose(place) {
  rows.chosen = Math.max(0, Math.min(place, rows.pods.length - 1));
  if (rows.pods.length) {
    const top = byId('pods').getBoundingClientRect().top + rows.tops[rows.chosen];
    const [low, high] = [byId('ruler').getBoundingClientRect().bottom + 8, window.innerHeight - 90];
    if (top < low) window.scrollBy(0, top - low);
    else if (top > high) window.scrollBy(0, top - high + 60);
  }
  draw(false);
}

// The chosen pod's name has the keyboard then, so that Enter opens its story.
function chooseByKey(by) {
  choose(rows.chosen + by);
  showRows(false);
  const row = rows.made.get(rows.chosen);
  if (row) row.holder.querySelector('button').focus({preventScroll: true});
}

let stepped = {pod: null, place: -1};

// The next or the previous event of the chosen pod, with its why, beginning with those in view; it is moved into view.
function step(by) {
  const pod = rows.pods[Math.max(rows.chosen, 0)];
  if (!pod || !pod.list.length) return;
  if (rows.chosen < 0) choose(0);
  if (stepped.pod !== pod) {
    const seen = placeBefore(pod.list.length, (place) => pod.list[place].at, by > 0 ? view.from - 1 : view.to);
    stepped = {pod, place: by > 0 ? seen : seen + 1};
  }
  stepped.place = Math.max(0, Math.min(stepped.place + by, pod.list.length - 1));
  const event = pod.list[stepped.place];
  if (event.at < view.from || event.at > view.to) {
    const half = (view.to - view.from) / 2;
    zoom(event.at - half, event.at + half);
  }
  openWhy(pod, [event]);
}

// --- pointer ---

function plotOf(target) {
  if (!(target instanceof HTMLCanvasElement) || !target.classList.contains('plot')) return null;
  const width = target.clientWidth;
  const area = {left: margin(width), right: width - 10, width};
  const row = [...rows.made.values()].find((one) => one.canvas === target);
  return {canvas: target, area, row, chart: [...charts, ...usedCharts].find((one) => one.canvas === target)};
}

let drag = null, pinch = null;
const fingers = new Map();

// Two fingers keep the moments that they were put on.
function startPinch(plot) {
  const left = plot.canvas.getBoundingClientRect().left;
  endTouch();
  pinch = {area: plot.area, left, at: [...fingers.values()].map((x) => momentAt(plot.area, x - left))};
}

function movePinch() {
  const {area, left, at} = pinch;
  const [a, b] = [...fingers.values()].map((x) => x - left - area.left);
  const scale = (at[1] - at[0]) / (b - a);
  if (Math.abs(b - a) < 10 || scale <= 0) return;
  const from = at[0] - a * scale;
  zoom(from, from + (area.right - area.left) * scale);
}

function endTouch() {
  drag = null;
  byId('band').hidden = true;
}

function startDrag(event) {
  const plot = plotOf(event.target);
  if (!plot || event.button !== 0) return;
  if (event.pointerType === 'touch') {
    fingers.set(event.pointerId, event.clientX);
    if (fingers.size === 2) return startPinch(plot);
  }
  if (pinch) return;
  drag = {plot, from: event.clientX, to: event.clientX};
  event.target.setPointerCapture(event.pointerId);
}

function moveDrag(event) {
  if (fingers.has(event.pointerId)) fingers.set(event.pointerId, event.clientX);
  if (pinch) return movePinch();
  if (!drag) return tell(event);
  drag.to = event.clientX;
  const band = byId('band');
  band.hidden = Math.abs(drag.to - drag.from) < 5;
  band.style.left = `${Math.min(drag.from, drag.to)}px`;
  band.style.width = `${Math.abs(drag.to - drag.from)}px`;
  byId('tip').hidden = true;
}

function endDrag(event) {
  fingers.delete(event.pointerId);
  if (pinch) {
    if (fingers.size < 2) pinch = null;
    return;
  }
  if (!drag) return;
  const {plot, from, to} = drag;
  drag = null;
  byId('band').hidden = true;
  const left = plot.canvas.getBoundingClientRect().left;
  if (Math.abs(to - from) < 5) return click(plot, event);
  const [a, b] = [from, to].map((x) => momentAt(plot.area, clip(plot.area, x - left)));
  zoom(Math.min(a, b), Math.max(a, b));
}

function within(plot, event) {
  const box = plot.canvas.getBoundingClientRect();
  return [event.clientX - box.left, event.clientY - box.top];
}

function click(plot, event) {
  const [x, y] = within(plot, event);
  if (plot.row) {
    choose(plot.row.place);
    const events = x < plot.area.left ? [] : eventsAt(plot.row, plot.area, x, y);
    if (events.length) openWhy(plot.row.pod, events); else openStory(plot.row.pod);
  } else if (plot.chart) {
    const near = plot.chart.hits().map((one) => [Math.abs(xOf(plot.area, one.at) - x), one])
      .filter((one) => one[0] < 8).sort((a, b) => a[0] - b[0]);
    if (near.length) openEviction(near[0][1]);
    else if (plot.chart.signal && (x < plot.area.left || y < aboveChart())) {
      plot.chart.signal.isTall = !plot.chart.signal.isTall;
      draw(true);
    }
  }
}

function openEviction(eviction) {
  const pod = data.podList[eviction.pod];
  openWhy(pod, pod.list.filter((event) => ['evicted', 'kubelet', 'ended', 'names'].includes(event.word)));
}

function tell(event) {
  const [plot, tip] = [plotOf(event.target), byId('tip')];
  const [x, y] = plot ? within(plot, event) : [0, 0];
  tip.hidden = !plot || x < plot.area.left || x > plot.area.right || event.pointerType === 'touch';
  if (tip.hidden) return;
  const at = momentAt(plot.area, x);
  if (plot.row) tip.textContent = rowTip(plot.row, plot.area, x, y);
  else tip.textContent = plot.chart ? plot.chart.tip(at, reachOf(plot.area)) : moment(Math.round(at));
  tip.hidden = !tip.textContent;
  const width = tip.offsetWidth;
  tip.style.left = `${Math.min(event.clientX + 12, window.innerWidth - width - 6)}px`;
  tip.style.top = `${Math.min(event.clientY + 14, window.innerHeight - tip.offsetHeight - 6)}px`;
}

// --- keys ---

const PRESSED = {
  '/': () => byId('filter').focus(), j: () => chooseByKey(1), k: () => chooseByKey(-1),
  n: () => step(1), p: () => step(-1), '+': () => zoomBy(0.5), '=': () => zoomBy(0.5), '-': () => zoomBy(2),
  0: () => zoom(0, Math.max(data.last, 1)), ArrowLeft: () => move(-0.25), ArrowRight: () => move(0.25),
  u: () => setClock(nextClock()), t: () => byId('theme').click(), '?': openKeys,
  Enter: () => { if (rows.pods[rows.chosen]) openStory(rows.pods[rows.chosen]); },
};

function press(event) {
  if (event.ctrlKey || event.metaKey || event.altKey) return;
  const typing = event.target instanceof HTMLInputElement || event.target instanceof HTMLSelectElement;
  if (event.key === 'Escape') {
    if (!panel.hidden) closePanel();
    else if (shown.filter) { byId('filter').value = shown.filter = ''; refilter(); }
    if (typing) event.target.blur();
    return;
  }
  const done = PRESSED[event.key];
  if (typing || !done || (event.key === 'Enter' && event.target instanceof HTMLButtonElement)) return;
  event.preventDefault();
  byId('tip').hidden = true;
  done();
}

// --- at the beginning ---

function makeChips() {
  for (const [name, words, holds] of CHIPS) {
    const count = data.podList.filter(holds).length;
    const button = pressable(`${words} ${count}`, () => {
      shown.chip = name;
      for (const other of byId('chips').children) other.setAttribute('aria-pressed', String(other === button));
      refilter();
    });
    button.setAttribute('aria-pressed', String(name === shown.chip));
    button.disabled = count === 0 && name !== 'all';
    byId('chips').append(button);
  }
}

function makeLegend() {
  for (const [colour, words] of LEGEND) {
    const [item, patch] = [element('span'), element('i')];
    patch.style.background = `var(--${colour})`;
    item.append(patch, words);
    byId('legend').append(item);
  }
  for (const [words] of SIGNS) {
    const [item, sign] = [element('span'), element('canvas')];
    sign.setAttribute('aria-hidden', 'true');
    item.append(sign, words);
    byId('legend').append(item);
  }
}

function drawLegend() {
  byId('legend').querySelectorAll('canvas').forEach((canvas, place) => SIGNS[place][1](fit(canvas, 16).pen));
}

function begin() {
  byId('node').textContent = data.node;
  makeChips();
  makeLegend();
  makeCharts();
  const left = [...data.left, 'of events that fall on one pixel all but the weightiest, until they are zoomed apart'];
  for (const words of left) byId('left').append(element('li', words));
  for (const words of data.facts) byId('facts').append(element('li', words));
  byId('facts').hidden = !data.facts.length;
  byId('filter').addEventListener('input', (event) => { shown.filter = event.target.value; refilter(); });
  byId('order').addEventListener('change', (event) => { shown.order = event.target.value; refilter(); });
  byId('whole').addEventListener('click', PRESSED[0]);
  byId('in').addEventListener('click', PRESSED['+']);
  byId('out').addEventListener('click', PRESSED['-']);
  byId('clock').addEventListener('click', PRESSED.u);
  const isDark = () => document.documentElement.dataset.theme === 'dark';
  byId('theme').addEventListener('click', () => setTheme(isDark() ? 'light' : 'dark'));
  byId('keys').addEventListener('click', openKeys);
  for (const [name, done] of [['pointerdown', startDrag], ['pointermove', moveDrag], ['pointerup', endDrag],
    ['keydown', press]]) document.addEventListener(name, done);
  document.addEventListener('pointercancel', (event) => {
    fingers.delete(event.pointerId);
    pinch = null;
    endTouch();
  });
  narrow.addEventListener('change', refilter);
  document.addEventListener('pointerleave', () => { byId('tip').hidden = true; });
  window.addEventListener('scroll', () => draw(false), {passive: true});
  window.addEventListener('resize', () => draw(true));
  const dark = window.matchMedia('(prefers-color-scheme: dark)');
  dark.addEventListener('change', () => setTheme(dark.matches ? 'dark' : 'light'));
  setTheme(dark.matches ? 'dark' : 'light');
  setClock(data.clock);
}

begin();
