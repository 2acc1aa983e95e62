// Drawing on canvases: the axis, the node's charts. A sample or an event that falls on the pixel of another is drawn
// with it, so drawing takes as long as the page is wide.
const colours = {};

function readColours() {
  const style = getComputedStyle(document.documentElement);
  for (const name of ['panel', 'quiet', 'line', 'waiting', 'running', 'ended', 'failed', 'ready', 'unready', 'pressure',
    'signal', 'hard', 'soft', 'kill', 'said', 'mark', 'shade', 'onfailed', 'onwaiting']) {
    colours[name] = style.getPropertyValue(`--${name}`).trim();
  }
}

const FONT = '12px system-ui, "DejaVu Sans", Verdana, sans-serif';
const WITHIN = '10px system-ui, "DejaVu Sans", Verdana, sans-serif';
const SMALL = '11px system-ui, "DejaVu Sans", Verdana, sans-serif';

// A canvas as wide as its place and so many pixels high, to be drawn in pixels of the page.
function fit(canvas, height) {
  const [width, scale] = [canvas.clientWidth, window.devicePixelRatio || 1];
  canvas.style.height = `${height}px`;
  canvas.width = Math.round(width * scale);
  canvas.height = Math.round(height * scale);
  const pen = canvas.getContext('2d');
  pen.scale(scale, scale);
  pen.font = FONT;
  pen.textBaseline = 'middle';
  return {pen, width, height, left: margin(width), right: width - 10};
}

// How much room the names have left of the lanes. A narrow page has the names of signals above their charts.
const narrow = window.matchMedia('(max-width:600px)');

function margin(width) {
  return width < 560 ? 104 : 170;
}

function aboveChart() {
  return narrow.matches ? 16 : 0;
}

function xOf(area, at) {
  return area.left + (at - view.from) / (view.to - view.from) * (area.right - area.left);
}

function momentAt(area, x) {
  return view.from + (x - area.left) / (area.right - area.left) * (view.to - view.from);
}

function clip(area, x) {
  return Math.max(area.left, Math.min(area.right, x));
}

// A text that ends in … where it is wider than its room.
function short(pen, text, room) {
  if (pen.measureText(text).width <= room) return text;
  let kept = text.length;
  while (kept > 1 && pen.measureText(text.slice(0, kept) + '…').width > room) kept--;
  return text.slice(0, kept) + '…';
}

const CLOCK = [1, 2, 5, 10, 15, 30, 60, 120, 300, 600, 900, 1800, 3600, 7200, 10800, 21600, 43200, 86400, 172800,
  604800];

function axisStep(span, most) {
  if (view.clock !== 'seconds') {
    const step = CLOCK.find((one) => span / one <= most);
    if (step) return step;
  }
  for (let power = 1; ; power *= 10) {
    for (const digit of [1, 2, 5]) if (span / (digit * power) <= most) return digit * power;
  }
}

function axisMoments(area) {
  const step = axisStep(view.to - view.from, Math.max(2, (area.right - area.left) / 90));
  const found = [];
  const first = Math.ceil((data.first + view.from) / step) * step - data.first;
  for (let at = first; at <= view.to; at += step) found.push(at);
  return {step, found};
}

function drawAxis() {
  const area = fit(document.getElementById('axis'), 22);
  const {pen} = area;
  const {step, found} = axisMoments(area);
  pen.font = SMALL;
  pen.fillStyle = colours.quiet;
  pen.strokeStyle = colours.line;
  pen.textAlign = 'center';
  for (const at of found) {
    const [x, text] = [xOf(area, at), shortMoment(at, step)];
    const half = pen.measureText(text).width / 2;
    pen.fillText(text, Math.min(x, area.width - half - 1), 9);
    pen.beginPath();
    pen.moveTo(x, 17);
    pen.lineTo(x, 22);
    pen.stroke();
  }
}

function drawGrid(area) {
  const {pen} = area;
  pen.strokeStyle = colours.line;
  pen.lineWidth = 1;
  pen.beginPath();
  for (const at of axisMoments(area).found) {
    const x = Math.round(xOf(area, at)) + 0.5;
    pen.moveTo(x, 0);
    pen.lineTo(x, area.height);
  }
  pen.stroke();
}

// Of a gap nothing was recorded: what a line or a bar would go on with there is taken away, and the gap is hatched.
function drawGaps(area) {
  const {pen} = area;
  for (const [since, until] of data.gaps) {
    if (until < view.from || since > view.to) continue;
    const [x, end] = [clip(area, xOf(area, since)), clip(area, xOf(area, until))];
    pen.save();
    pen.beginPath();
    pen.rect(x, 0, Math.max(end - x, 1), area.height);
    pen.clip();
    pen.fillStyle = colours.panel;
    pen.fill();
    pen.strokeStyle = colours.line;
    pen.lineWidth = 1;
    pen.beginPath();
    for (let at = Math.floor((x - area.height) / 8) * 8; at < end; at += 8) {
      pen.moveTo(at, area.height);
      pen.lineTo(at + area.height, 0);
    }
    pen.stroke();
    pen.restore();
  }
}

// Where the kubelet was started again: its probes were asked again from there on.
function drawKubeletStarts(area) {
  const {pen} = area;
  pen.save();
  pen.strokeStyle = colours.quiet;
  pen.lineWidth = 1;
  pen.setLineDash([4, 3]);
  for (const at of data.kubeletStarts) {
    if (at < view.from || at > view.to) continue;
    const x = Math.round(xOf(area, at)) + 0.5;
    pen.beginPath();
    pen.moveTo(x, 0);
    pen.lineTo(x, area.height);
    pen.stroke();
  }
  pen.restore();
}

function isInGap(at) {
  return data.gaps.some((gap) => gap[0] < at && at < gap[1]);
}

// Bars of spans [since, until, colour]; the worse of two on one pixel is drawn, which is the one with more weight.
function drawBars(area, spans, top, height, weights) {
  const {pen} = area;
  let [lastPixel, lastWeight] = [-1, -1];
  for (const [since, until, colour] of spans) {
    if (until < view.from || since > view.to) continue;
    const [x, end] = [clip(area, xOf(area, since)), clip(area, xOf(area, until))];
    const [pixel, weight] = [Math.floor(x), weights[colour] || 0];
    if (end - x < 1 && pixel === lastPixel && weight <= lastWeight) continue;
    pen.fillStyle = colours[colour];
    pen.fillRect(x, top, Math.max(end - x, 1), height);
    [lastPixel, lastWeight] = end - x < 1.5 ? [pixel, weight] : [-1, -1];
  }
}

function drawCross(pen, x, y, size, colour) {
  for (const [width, ink] of [[5, colours.panel], [2.4, colour]]) {
    pen.strokeStyle = ink;
    pen.lineWidth = width;
    pen.beginPath();
    pen.moveTo(x - size, y - size);
    pen.lineTo(x + size, y + size);
    pen.moveTo(x + size, y - size);
    pen.lineTo(x - size, y + size);
    pen.stroke();
  }
}

// --- the node ---

const charts = [];

function makeCharts() {
  const section = document.getElementById('charts');
  const add = (draw, tip, hits, signal) => {
    const holder = document.createElement('div');
    const canvas = document.createElement('canvas');
    holder.className = 'chart';
    canvas.className = 'plot';
    canvas.setAttribute('aria-hidden', 'true');
    holder.append(canvas);
    section.append(holder);
    charts.push({canvas, draw, tip, hits, signal});
  };
  const facts = data.kubelet ? data.kubelet.evicted.filter((one) => one.pod !== null) : [];
  add(drawNodeLanes, nodeTip, () => [...facts, ...data.evictions]);
  for (const signal of data.signals) {
    signal.isTall = data.active.some((span) => span[0] === signal.name);
    add((canvas) => drawSignal(canvas, signal), (at, reach) => signalTip(signal, at, reach),
      () => data.evictions.filter((one) => one.signal === signal.name), signal);
  }
}

function drawCharts() {
  for (const chart of charts) chart.draw(chart.canvas);
}

const NODE_LANE = 17;
const pressed = [...new Set(data.pressure.map((span) => span[0]))];
const activeNames = [...new Set(data.active.map((span) => `${span[0]} ${span[1]}`))];

function nodeLanes() {
  const lanes = pressed.map((kind) => ({name: kind, spans: data.pressure.filter((span) => span[0] === kind)
    .map((span) => [span[1], span[2] === null ? data.last : span[2], 'pressure'])}));
  if (!data.signals.length) {
    for (const name of activeNames) {
      lanes.push({name, spans: data.active.filter((span) => `${span[0]} ${span[1]}` === name)
        .map((span) => [span[2], span[3] === null ? data.last : span[3], span[1]])});
    }
  }
  if (!lanes.length) lanes.push({name: 'no pressure', spans: []});
  return lanes;
}

function drawNodeLanes(canvas) {
  const lanes = nodeLanes();
  const area = fit(canvas, (lanes.length + (data.kubelet ? 2 : 1)) * NODE_LANE + 4);
  drawGrid(area);
  lanes.forEach((lane, place) => {
    drawName(area, lane.name, place * NODE_LANE + 9);
    drawBars(area, lane.spans, place * NODE_LANE + 3, 11, {});
  });
  let y = lanes.length * NODE_LANE + 10;
  if (data.kubelet) {
    const count = data.kubelet.evicted.length;
    drawName(area, kubeletName(count), y);
    const at = y;
    drawEvictions(area, data.kubelet.evicted, () => at, colours.failed);
    y += NODE_LANE;
  }
  drawName(area, rulesName(data.evictions.length), y);
  drawGaps(area);
  drawKubeletStarts(area);
  drawReclaims(area, y);
  drawEvictions(area, data.evictions, () => y, ruleColour());
}

function kubeletName(count) {
  if (narrow.matches) return `${count || 'none'} by kubelet`;
  return count ? `${count} evicted by kubelet` : 'kubelet evicted none';
}

function rulesName(count) {
  if (!data.kubelet) return count ? `${count} evicted` : 'no eviction';
  if (narrow.matches) return `${count || 'none'} by the rules`;
  return `${count ? `${count} evicted` : 'no eviction'} by the rules`;
}

// Next to the kubelet's evictions the rules' evictions are no facts, and are drawn quietly.
function ruleColour() {
  return data.kubelet ? colours.quiet : colours.failed;
}

function drawReclaims(area, y) {
  for (const [at] of data.reclaims) if (at >= view.from && at <= view.to) drawReclaim(area.pen, xOf(area, at), y);
}

function drawReclaim(pen, x, y) {
  pen.fillStyle = colours.quiet;
  pen.textAlign = 'center';
  pen.fillText('◇', x, y);
}

function drawEvictions(area, evictions, yAt, colour) {
  let last = -9;
  for (const one of evictions) {
    const x = xOf(area, one.at);
    if (x < area.left - 1 || x > area.right + 1 || x - last < 2) continue;
    drawCross(area.pen, x, yAt(one), 4.5, colour);
    last = x;
  }
}

function drawName(area, name, y, room = area.left - 10) {
  area.pen.fillStyle = colours.quiet;
  area.pen.textAlign = 'left';
  area.pen.font = SMALL;
  area.pen.fillText(short(area.pen, name, room), 0, y);
}

// --- signals ---

// Signals of which a threshold was active are drawn tall, and a click on a chart's name turns that.
const TALL = 92, LOW = 40;

// The least, the greatest and the last value of each pixel of a signal in view; null where its ticks have no value, and
// a hole where no tick falls.
function envelope(area, signal) {
  const columns = new Array(Math.max(1, Math.ceil(area.right - area.left)));
  const from = Math.max(0, placeBefore(tickMoments.length, (place) => tickMoments[place], view.from));
  for (let place = from; place < tickMoments.length && tickMoments[place] <= view.to; place++) {
    const value = signal.values[place];
    const column = Math.max(0, Math.min(columns.length - 1, Math.floor(xOf(area, tickMoments[place]) - area.left)));
    const known = columns[column];
    if (value === null) columns[column] = known || null;
    else if (!known) columns[column] = [value, value, value];
    else columns[column] = [Math.min(known[0], value), Math.max(known[1], value), value];
  }
  return columns;
}

function drawSignal(canvas, signal) {
  const above = aboveChart();
  const area = fit(canvas, (signal.isTall ? TALL : LOW) + above);
  const {pen} = area;
  const columns = envelope(area, signal);
  let most = 0;
  for (const one of signal.thresholds) most = Math.max(most, one.clear);
  columns.forEach((column) => { if (column) most = Math.max(most, column[1]); });
  const yOf = (value) => area.height - 5 - value / (most * 1.06 || 1) * (area.height - 12 - above);
  for (const span of data.active) {
    if (span[0] !== signal.name) continue;
    const [x, end] = [clip(area, xOf(area, span[2])), clip(area, xOf(area, span[3] === null ? data.last : span[3]))];
    pen.fillStyle = colours.shade;
    if (end >= x && span[2] <= view.to) pen.fillRect(x, above, Math.max(end - x, 1), area.height - above);
  }
  drawGrid(area);
  drawThresholds(area, signal, yOf);
  drawLine(area, columns, yOf);
  drawGaps(area);
  drawKubeletStarts(area);
  const valueAt = (at) => signal.values[placeBefore(tickMoments.length, (place) => tickMoments[place], at)] || 0;
  drawEvictions(area, data.evictions.filter((one) => one.signal === signal.name), (one) => yOf(valueAt(one.at)),
    ruleColour());
  const [name, reaches] = [`${signal.isTall ? '▾' : '▸'} ${signal.name}`, `0 to ${amount(most, signal.bytes)}`];
  if (above) drawName(area, `${name}, ${reaches}`, 8, area.width);
  else {
    drawName(area, name, 10);
    if (signal.isTall) drawName(area, reaches, 25);
  }
}

// A line that keeps a value until the next tick, with the whole height between the least and the greatest of a pixel.
function drawLine(area, columns, yOf) {
  const {pen} = area;
  pen.strokeStyle = colours.signal;
  pen.lineWidth = 1.5;
  pen.beginPath();
  let last = null;
  columns.forEach((column, place) => {
    const x = area.left + place + (place ? 0.5 : 0);
    if (last !== null) pen.lineTo(x, last);
    if (column) {
      if (last === null) pen.moveTo(x, yOf(column[2]));
      if (column[1] > column[0]) {
        pen.lineTo(x, yOf(column[0]));
        pen.lineTo(x, yOf(column[1]));
      }
      pen.lineTo(x, yOf(column[2]));
    }
    last = column ? yOf(column[2]) : null;
  });
  if (last !== null) pen.lineTo(Math.min(area.right, xOf(area, data.last)), last);
  pen.stroke();
}

function drawThresholds(area, signal, yOf) {
  const {pen} = area;
  for (const one of signal.thresholds) {
    const y = Math.round(yOf(one.limit)) + 0.5;
    pen.strokeStyle = colours[one.kind];
    pen.lineWidth = 1;
    pen.setLineDash(one.kind === 'hard' ? [] : [5, 4]);
    pen.beginPath();
    pen.moveTo(area.left, y);
    pen.lineTo(area.right, y);
    pen.stroke();
    pen.setLineDash([]);
  }
  const written = [...signal.thresholds].sort((a, b) => a.kind < b.kind ? -1 : 1);
  written.slice(0, signal.isTall ? 2 : 1).forEach((one, place) => {
    pen.font = SMALL;
    pen.textAlign = 'left';
    pen.fillStyle = colours[one.kind];
    const words = `${one.kind} ${amount(one.limit, signal.bytes)}`;
    pen.fillText(short(pen, words, area.left - 10), 0, (signal.isTall ? 44 : 27) + 15 * place);
  });
}

function evictionWords(evictions, at, reach) {
  const by = data.kubelet ? 'evicted by the rules:' : 'evicted by';
  return evictions.filter((one) => Math.abs(one.at - at) <= reach)
    .map((one) => `${moment(one.at)} ${data.podList[one.pod].name} ${by} ${one.signal} ${one.kind}`);
}

function didWords(at, reach) {
  if (!data.kubelet) return [];
  return [...data.kubelet.evicted, ...data.kubelet.refused].filter((one) => Math.abs(one.at - at) <= reach)
    .map((one) => `${moment(one.at)} the kubelet ${one.kind} ${one.key}: ${one.why}`);
}

function signalTip(signal, at, reach) {
  const place = placeBefore(tickMoments.length, (one) => tickMoments[one], at);
  if (place < 0) return '';
  if (isInGap(at)) return gapTip(at);
  return [moment(tickMoments[place]), `${signal.name} ${amount(signal.values[place], signal.bytes)}`,
    ...evictionWords(data.evictions.filter((one) => one.signal === signal.name), at, reach)].join('\n');
}

function gapTip(at) {
  return `${moment(Math.round(at))}\nnothing was recorded here`;
}

function nodeTip(at, reach) {
  if (isInGap(at)) return gapTip(at);
  const holds = (since, until) => since <= at && (until === null || at < until);
  const found = data.pressure.filter((span) => holds(span[1], span[2])).map((span) => span[0]);
  const active = data.active.filter((span) => holds(span[2], span[3]))
    .map((span) => `threshold ${span[0]} ${span[1]} active`);
  const reclaimed = data.reclaims.filter((one) => Math.abs(one[0] - at) <= reach)
    .map((one) => `${moment(one[0])} reclaimed: ${one[1]} ${one[2]}`);
  const evicted = evictionWords(data.evictions, at, reach);
  return [moment(Math.round(at)), ...found, ...active, ...reclaimed, ...didWords(at, reach), ...evicted].join('\n');
}
