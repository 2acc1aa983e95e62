// What the containers of the pod whose story is open used over time: memory and processor time as lines, next to
// request and limit. A sample is [moment, attempt, memory, processor, throttled], and bounds are [since, request and
// limit of memory, of the processor, whether the limit of memory is the pod's].
const ATTEMPT = 1, MEMORY = 2, PROCESSOR = 3, THROTTLED = 4, OF_POD = 5;
const USED = [
  {name: 'memory', column: MEMORY, request: 1, limit: 2, height: 88, words: (value) => amount(value, true)},
  {name: 'processor', column: PROCESSOR, request: 3, limit: 4, height: 72, words: coresWords},
];
const usedCharts = [];

function coresWords(thousandths) {
  return `${Number((thousandths / 1000).toFixed(3))} cores`;
}

function isKnown(value) {
  return typeof value === 'number';
}

// The heading, and for each container what it came to in words and its charts; nothing where the trace has no sample.
function usedParts(pod) {
  usedCharts.length = 0;
  if (!pod.used) return [];
  const parts = [element('h2', 'Memory and processor time')];
  pod.containers.forEach((container, place) => {
    if (!pod.used[place]) return;
    parts.push(said(usedWords(pod, place)));
    for (const kind of USED) {
      if (!pod.uses[place].some((use) => isKnown(use[kind.column]))) continue;
      const canvas = element('canvas', undefined, 'plot');
      canvas.setAttribute('aria-hidden', 'true');
      usedCharts.push({canvas, draw: () => drawUse(canvas, pod, place, kind), tip: (at) => useTip(pod, place, at),
        hits: () => []});
      parts.push(canvas);
    }
  });
  return parts;
}

function drawUsed() {
  for (const chart of usedCharts) if (chart.canvas.isConnected) chart.draw();
}

function boundsAt(pod, place, at) {
  const {bounds} = pod.used[place];
  return bounds[Math.max(0, placeBefore(bounds.length, (one) => bounds[one][0] === null ? -Infinity : bounds[one][0],
    at))];
}

// --- in words ---

function usedWords(pod, place) {
  const parts = [];
  for (const kind of USED) {
    const known = pod.uses[place].filter((use) => isKnown(use[kind.column]));
    if (!known.length) continue;
    const most = known.reduce((best, use) => use[kind.column] > best[kind.column] ? use : best);
    parts.push(`${kind.name} at most ${kind.words(most[kind.column])} at ${moment(most[0])}`
      + boundsWords(pod, place, kind, most));
  }
  const throttled = throttledInAll(pod.uses[place]);
  if (throttled) parts.push(`throttled for ${secondsWords(throttled)} in all (shaded)`);
  return `${pod.containers[place].name}: ${parts.join('; ')}`;
}

// What a sample is of the limit, and the request, of its moment.
function boundsWords(pod, place, kind, use) {
  const [value, bounds] = [use[kind.column], boundsAt(pod, place, use[0])];
  const [request, limit] = [bounds[kind.request], bounds[kind.limit]];
  const whose = kind.column === MEMORY && bounds[OF_POD] ? "its pod's limit" : 'its limit';
  const ofLimit = isKnown(limit) && limit > 0 ? `, ${Math.round(100 * value / limit)}% of ${whose} ${kind.words(limit)}`
    : ', without a limit';
  const ofRequest = isKnown(request) && request !== limit ? `, request ${kind.words(request)}` : '';
  return ofLimit + ofRequest;
}

function secondsWords(thousandths) {
  return `${Number((thousandths / 1000).toFixed(1))} s`;
}

// Each instance counts from its own begin.
function throttledInAll(uses) {
  const most = new Map();
  for (const use of uses) {
    if (isKnown(use[THROTTLED])) most.set(use[ATTEMPT], Math.max(most.get(use[ATTEMPT]) || 0, use[THROTTLED]));
  }
  return [...most.values()].reduce((sum, one) => sum + one, 0);
}

// The seconds of throttling between a sample and the one before of its instance; null where that is not known.
function throttledSince(uses, place) {
  const [before, use] = [uses[place - 1], uses[place]];
  const isOfOne = before && before[ATTEMPT] === use[ATTEMPT] && isKnown(before[THROTTLED]) && isKnown(use[THROTTLED]);
  return isOfOne ? Math.max(0, use[THROTTLED] - before[THROTTLED]) : null;
}

// The sample that is nearest to a moment.
function useNear(uses, at) {
  const place = placeBefore(uses.length, (one) => uses[one][0], at);
  if (place < 0 || (place + 1 < uses.length && uses[place + 1][0] - at < at - uses[place][0])) return place + 1;
  return place;
}

function useTip(pod, place, at) {
  if (isInGap(at)) return gapTip(at);
  const uses = pod.uses[place];
  const near = useNear(uses, at);
  const use = uses[near];
  const lines = [moment(use[0]), `${pod.containers[place].name}, attempt ${use[ATTEMPT]}`];
  for (const kind of USED) {
    if (!isKnown(use[kind.column])) continue;
    lines.push(`${kind.name} ${kind.words(use[kind.column])}${boundsWords(pod, place, kind, use)}`);
  }
  const throttled = throttledSince(uses, near);
  if (throttled) lines.push(`throttled for ${secondsWords(throttled)} since ${moment(uses[near - 1][0])}`);
  return lines.join('\n');
}

// --- drawn ---

// The places of the samples in view, and one more on each side, to which lines go on.
function usesInView(uses) {
  const from = placeBefore(uses.length, (place) => uses[place][0], view.from);
  const to = placeBefore(uses.length, (place) => uses[place][0], view.to);
  return [Math.max(0, from), Math.min(uses.length - 1, to + 1)];
}

// Spans [since, until, bounds] of a container in view.
function boundSpans(pod, place) {
  const {bounds} = pod.used[place];
  return bounds.map((one, at) => [one[0] === null ? -Infinity : one[0],
    at + 1 < bounds.length ? bounds[at + 1][0] : Infinity, one])
    .filter(([since, until]) => since <= view.to && until > view.from);
}

function drawUse(canvas, pod, place, kind) {
  const area = fit(canvas, kind.height);
  const [uses, spans] = [pod.uses[place], boundSpans(pod, place)];
  const [from, to] = usesInView(uses);
  let most = 0;
  for (let at = from; at <= to; at++) if (isKnown(uses[at][kind.column])) most = Math.max(most, uses[at][kind.column]);
  for (const [, , bounds] of spans) most = Math.max(most, bounds[kind.request] || 0, bounds[kind.limit] || 0);
  const yOf = (value) => area.height - 4 - value / (most * 1.06 || 1) * (area.height - 10);
  drawGrid(area);
  const {pen} = area;
  pen.save();
  pen.beginPath();
  pen.rect(area.left, 0, area.right - area.left, area.height);
  pen.clip();
  if (kind.column === PROCESSOR) drawThrottled(area, uses, from, to);
  for (const [name, colour, dashes] of [[kind.request, 'soft', [5, 4]], [kind.limit, 'hard', []]]) {
    drawBounds(area, spans, name, colour, dashes, yOf);
  }
  drawDeaths(area, pod, place);
  drawSamples(area, uses, from, to, kind.column, yOf);
  pen.restore();
  drawGaps(area);
  drawUseNames(area, pod, place, kind, most);
}

function drawBounds(area, spans, column, colour, dashes, yOf) {
  const {pen} = area;
  pen.strokeStyle = colours[colour];
  pen.lineWidth = 1;
  pen.setLineDash(dashes);
  pen.beginPath();
  for (const [since, until, bounds] of spans) {
    if (!isKnown(bounds[column])) continue;
    const y = Math.round(yOf(bounds[column])) + 0.5;
    pen.moveTo(clip(area, xOf(area, Math.max(since, view.from))), y);
    pen.lineTo(clip(area, xOf(area, Math.min(until, view.to))), y);
  }
  pen.stroke();
  pen.setLineDash([]);
}

// Whether a line goes from a sample to the next: of one instance, with nothing that was not recorded between.
function isJoined(before, use) {
  return before[ATTEMPT] === use[ATTEMPT] && !data.gaps.some((gap) => before[0] <= gap[0] && gap[1] <= use[0]);
}

// A line for each instance; of the samples of one pixel those alone that are greater or less than the ones before. One
// that is alone is a dot, as is the last of an instance.
function drawSamples(area, uses, from, to, column, yOf) {
  const {pen} = area;
  pen.strokeStyle = pen.fillStyle = colours.signal;
  pen.lineWidth = 1.5;
  let [before, pixel, low, high] = [null, -1, 0, 0];
  const dots = [];
  pen.beginPath();
  for (let place = from; place <= to; place++) {
    const use = uses[place];
    if (!isKnown(use[column])) continue;
    const [x, y] = [xOf(area, use[0]), yOf(use[column])];
    if (!before || !isJoined(before, use)) {
      if (before) dots.push([xOf(area, before[0]), yOf(before[column])]);
      pen.moveTo(x, y);
      [pixel, low, high] = [Math.floor(x), y, y];
    } else if (Math.floor(x) !== pixel || y < low || y > high) {
      pen.lineTo(x, y);
      const isSame = Math.floor(x) === pixel;
      [pixel, low, high] = isSame ? [pixel, Math.min(low, y), Math.max(high, y)] : [Math.floor(x), y, y];
    }
    before = use;
  }
  pen.stroke();
  if (before) dots.push([xOf(area, before[0]), yOf(before[column])]);
  for (const [x, y] of dots) {
    pen.beginPath();
    pen.arc(x, y, 2.4, 0, 7);
    pen.fill();
  }
}

// As high as the share of the time between two samples in which it was throttled.
function drawThrottled(area, uses, from, to) {
  const {pen} = area;
  pen.fillStyle = colours.shade;
  for (let place = Math.max(1, from); place <= to; place++) {
    const throttled = throttledSince(uses, place);
    const [since, until] = [uses[place - 1][0], uses[place][0]];
    if (!throttled || until <= since || !isJoined(uses[place - 1], uses[place])) continue;
    const height = Math.min(1, throttled / 1000 / (until - since)) * area.height;
    const [x, end] = [xOf(area, since), xOf(area, until)];
    pen.fillRect(x, area.height - height, Math.max(end - x, 1), height);
  }
}

function drawDeaths(area, pod, place) {
  const {pen} = area;
  pen.lineWidth = 1;
  let last = -9;
  for (const event of pod.list) {
    if (event.word !== 'died' || event.place !== place || event.at < view.from || event.at > view.to) continue;
    const x = Math.round(xOf(area, event.at)) + 0.5;
    if (x - last < 2) continue;
    pen.strokeStyle = event.rest[1] === 0 ? colours.ended : colours.failed;
    pen.beginPath();
    pen.moveTo(x, 0);
    pen.lineTo(x, area.height);
    pen.stroke();
    last = x;
  }
}

// At the left: what it is, how far it reaches, and the bounds at the end of the view.
function drawUseNames(area, pod, place, kind, most) {
  const {pen} = area;
  const bounds = boundsAt(pod, place, view.to);
  drawName(area, `${kind.name} of ${pod.containers[place].name}`, 10);
  drawName(area, `0 to ${kind.words(most)}`, 25);
  const written = [[kind.limit, 'hard', kind.column === MEMORY && bounds[OF_POD] ? "pod's limit" : 'limit'],
    [kind.request, 'soft', 'request']];
  let y = 42;
  for (const [column, colour, name] of written) {
    const isSame = column === kind.request && bounds[kind.request] === bounds[kind.limit];
    if (!isKnown(bounds[column]) || isSame) continue;
    pen.fillStyle = colours[colour];
    pen.fillText(short(pen, `${name} ${kind.words(bounds[column])}`, area.left - 10), 0, y);
    y += 15;
  }
}
