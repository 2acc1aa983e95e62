// The rows of pods: a heading, a strip for Ready, a lane for each container. Only the rows in sight are there.
const STRIP = 9, LANE = 19, BAR = 11, BELOW = 10;
const WEIGHTS = {running: 0, waiting: 1, ended: 2, failed: 3, ready: 0, unready: 1};
const MARKED = {kill: 3, restart: 1, backoff: 2};
// what was reported is below its lane
const SAID_HEIGHT = 4;
const rows = {pods: [], tops: [], height: 0, made: new Map(), chosen: -1};

// On a narrow page what a pod came to is below its name.
function headHeight() {
  return narrow.matches ? 43 : 27;
}

function heightOf(pod) {
  return headHeight() + STRIP + 6 + LANE * pod.containers.length + BELOW;
}

function placeRows(pods) {
  rows.pods = pods;
  rows.tops = [];
  rows.height = 0;
  for (const pod of pods) {
    rows.tops.push(rows.height);
    rows.height += heightOf(pod);
  }
  document.getElementById('pods').style.height = `${rows.height}px`;
  for (const row of rows.made.values()) row.holder.remove();
  rows.made.clear();
  rows.chosen = Math.min(rows.chosen, pods.length - 1);
}

// Makes the rows that are in sight, or nearly, takes the others away, and draws those that are new or all.
function showRows(all) {
  const section = document.getElementById('pods');
  const top = section.getBoundingClientRect().top;
  const first = Math.max(0, placeBefore(rows.tops.length, (place) => rows.tops[place], -top - 200));
  const last = placeBefore(rows.tops.length, (place) => rows.tops[place], window.innerHeight - top + 200);
  for (const [place, row] of rows.made) {
    if (place < first || place > last) {
      row.holder.remove();
      rows.made.delete(place);
    } else if (all) drawRow(row);
  }
  for (let place = first; place <= last; place++) {
    if (rows.made.has(place)) continue;
    const row = makeRow(rows.pods[place], place);
    section.append(row.holder);
    rows.made.set(place, row);
    drawRow(row);
  }
  for (const [place, row] of rows.made) row.holder.classList.toggle('chosen', place === rows.chosen);
}

function element(kind, words, className) {
  const made = document.createElement(kind);
  if (words !== undefined) made.textContent = words;
  if (className) made.className = className;
  return made;
}

function makeRow(pod, place) {
  const [holder, head] = [element('div', undefined, 'pod'), element('div', undefined, 'head')];
  const canvas = element('canvas', undefined, 'plot');
  canvas.setAttribute('aria-hidden', 'true');
  holder.style.top = `${rows.tops[place]}px`;
  const name = element('button', pod.name, 'name');
  name.title = pod.name;
  name.addEventListener('click', () => { choose(place); openStory(pod); });
  head.append(name, metaOf(pod));
  holder.append(head, canvas);
  return {holder, canvas, pod, place};
}

function metaOf(pod) {
  const meta = element('span', undefined, 'meta');
  const bad = [];
  if (isEvicted(pod)) bad.push(`evicted ${shortMoment((pod.fact || pod.eviction).at, 1)}${evictedFor(pod)}`);
  else if (pod.eviction) bad.push(`evicted by the rules alone, by ${pod.eviction.signal}`);
  else if (pod.fact) bad.push(`ended by the kubelet ${shortMoment(pod.fact.at, 1)}: ${pod.fact.why}`);
  else if (pod.phase === 'Failed') bad.push('failed');
  else if (data.kubelet && data.kubelet.named[pod.number]) bad.push('named by the rules alone');
  if (pod.deleted) bad.push(`deleted${pod.deleted[1]} ${shortMoment(pod.deleted[0], 1)}`);
  bad.push(...lastReasons(pod));
  if (pod.restarts) bad.push(`${pod.restarts} restart${pod.restarts > 1 ? 's' : ''}`);
  const gone = typeof pod.gone === 'number' ? `gone before ${shortMoment(pod.gone, 1)}` : '';
  const unready = pod.unready ? `not ready ${seconds(pod.unready)}` : '';
  const rest = [isEvicted(pod) || pod.eviction ? '' : pod.phase, pod.qos, gone, unready];
  meta.append(element('span', bad.join(' · '), 'bad'), `${bad.length ? ' · ' : ''}${rest.filter(Boolean).join(' · ')}`);
  meta.title = `${meta.textContent}\n${worstWords(pod)}`;
  return meta;
}

// Why its instances died, if that shows more than their codes, and why its containers still wait at the end.
function lastReasons(pod) {
  const counts = new Map();
  for (const one of pod.list.filter((event) => event.word === 'died')) {
    const reason = reasonOf(one);
    if (reason && reason !== 'Error' && reason !== 'Completed') counts.set(reason, (counts.get(reason) || 0) + 1);
  }
  const waiting = pod.containers.map((_, place) => waitAt(pod, place, endOf(pod))).filter(Boolean).map(waitWord);
  const died = [...counts].map(([reason, count]) => count > 1 ? `${reason} ${count} times` : reason);
  return [...died, ...new Set(waiting)];
}

// What a pod was evicted for: in the kubelet's words where it did, else the signal.
function evictedFor(pod) {
  return pod.fact ? `: ${pod.fact.why.split(',')[0]}` : ` by ${pod.eviction.signal}`;
}

function endOf(pod) {
  if (pod.end) return pod.end[0];
  return typeof pod.gone === 'number' ? pod.gone : data.last;
}

function readySpans(pod) {
  const end = endOf(pod);
  return pod.ready.map(([since, value], place) => {
    const next = place + 1 < pod.ready.length ? pod.ready[place + 1][0] : end;
    return [since, Math.min(next, Math.max(end, since)), value ? 'ready' : 'unready'];
  }).filter((span) => span[1] > span[0] || span[0] < end);
}

function stateSpans(pod, container) {
  const end = endOf(pod);
  return container.spans.map(([since, state, , code], place) => {
    const until = place + 1 < container.spans.length ? container.spans[place + 1][0] : end;
    const colour = state === 0 ? 'waiting' : state === 1 ? 'running' : code === 0 ? 'ended' : 'failed';
    return [since, Math.max(since, Math.min(until, end)), colour];
  });
}

// Spans in view alone, by a search for the first: spans come in order and touch each other.
function inView(spans) {
  const from = Math.max(0, placeBefore(spans.length, (place) => spans[place][0], view.from));
  const to = placeBefore(spans.length, (place) => spans[place][0], view.to);
  return spans.slice(from, to + 1);
}

function spansOf(pod) {
  if (!pod.drawn) {
    const marks = pod.list.filter((event) => event.word in MARKED);
    pod.drawn = {ready: readySpans(pod), lanes: pod.containers.map((container) => stateSpans(pod, container)),
      said: pod.list.filter((event) => ['said', 'resized'].includes(event.word)),
      marks: pod.containers.map((_, place) => marks.filter((event) => event.place === place))};
  }
  return pod.drawn;
}

function laneTop(place) {
  return STRIP + 6 + place * LANE;
}

function drawRow(row) {
  const {pod} = row;
  const area = fit(row.canvas, heightOf(pod) - headHeight() - 2);
  const drawn = spansOf(pod);
  drawGrid(area);
  drawName(area, 'Ready', 5);
  drawBars(area, inView(drawn.ready), 1, STRIP - 2, WEIGHTS);
  pod.containers.forEach((container, place) => {
    drawName(area, container.name, laneTop(place) + 6);
    drawBars(area, inView(drawn.lanes[place]), laneTop(place), BAR, WEIGHTS);
    drawWaits(area, pod, place);
  });
  drawGaps(area);
  drawKubeletStarts(area);
  pod.containers.forEach((_, place) => drawMarks(area, drawn.marks[place], laneTop(place)));
  for (const event of drawn.said) drawSaid(area, event);
  if (pod.end) drawEnd(area, pod);
  if (pod.fact) drawFact(area, pod);
}

function drawSaid(area, event) {
  const x = xOf(area, event.at);
  if (x < area.left || x > area.right + 1) return;
  area.pen.fillStyle = colours.said;
  area.pen.fillRect(x - 1.5, event.place < 0 ? STRIP - 1 : laneTop(event.place) + BAR + 1, 3, SAID_HEIGHT);
}

// Why it waits is in the lane, if there is room for it.
function drawWaits(area, pod, place) {
  const {pen} = area;
  pen.save();
  pen.font = WITHIN;
  for (const wait of pod.waits || []) {
    if (wait[0] !== place || wait[1] > view.to || (wait[2] !== null && wait[2] < view.from)) continue;
    const [x, end] = [wait[1], wait[2] === null ? endOf(pod) : wait[2]].map((at) => clip(area, xOf(area, at)));
    const words = waitWord(wait);
    if (pen.measureText(words).width + 12 > end - x) continue;
    const span = stateAt(pod.containers[place], Math.max(wait[1], view.from));
    pen.fillStyle = span && span[1] === 2 && span[3] !== 0 ? colours.onfailed : colours.onwaiting;
    pen.fillText(words, x + 7, laneTop(place) + BAR / 2 + 0.5);
  }
  pen.restore();
}

function stateAt(container, at) {
  const {spans} = container;
  const place = placeBefore(spans.length, (one) => spans[one][0], at);
  return place < 0 ? null : spans[place];
}

function drawFact(area, pod) {
  const x = xOf(area, pod.fact.at);
  if (x < area.left || x > area.right + 1) return;
  drawCross(area.pen, x, (laneTop(pod.containers.length) - LANE + BAR + 3) / 2, 4.5, colours.failed);
}

function drawEnd(area, pod) {
  const x = xOf(area, pod.end[0]);
  if (x < area.left || x > area.right + 1) return;
  const bottom = laneTop(pod.containers.length) - LANE + BAR + 3;
  area.pen.strokeStyle = colours.mark;
  area.pen.lineWidth = 1.6;
  area.pen.beginPath();
  area.pen.moveTo(x, 0);
  area.pen.lineTo(x, bottom);
  area.pen.stroke();
  if (pod.eviction) drawCross(area.pen, x, bottom / 2, 4.5, ruleColour());
}

// Marks that are apart are drawn over the lane; where they are dense a strip below it has their colours, so that none
// hides it.
const DENSE = 12, MOST_MARKS = 4;

function drawMarks(area, marks, top) {
  let run = [];
  const drawRun = () => {
    if (run.length > MOST_MARKS) drawStrip(area.pen, run, top);
    else for (const mark of run) drawMark(area.pen, mark, top);
    run = [];
  };
  for (const mark of markColumns(area, marks)) {
    if (run.length && mark.x - run[run.length - 1].x >= DENSE) drawRun();
    run.push(mark);
  }
  drawRun();
}

function drawStrip(pen, run, top) {
  run.forEach((mark, place) => {
    const [x, next] = [mark.x, place + 1 < run.length ? run[place + 1].x : mark.x + 5].map(Math.round);
    pen.fillStyle = {kill: colours.kill, backoff: colours.waiting, restart: colours.quiet}[mark.word];
    pen.fillRect(x - 2, top + BAR + 1, next - x, 4);
  });
}

// One mark for each five pixels, the weightiest of those that fall there.
function markColumns(area, marks) {
  const found = [];
  const first = placeBefore(marks.length, (place) => marks[place].at, view.from - 1) + 1;
  let kept = null;
  for (let place = first; place < marks.length && marks[place].at <= view.to; place++) {
    const x = xOf(area, marks[place].at);
    if (kept && x - kept.x < 5) {
      if (MARKED[marks[place].word] > MARKED[kept.word]) kept.word = marks[place].word;
      continue;
    }
    kept = {x, word: marks[place].word};
    found.push(kept);
  }
  return found;
}

function drawMark(pen, mark, top) {
  const [x, y] = [mark.x, top + BAR / 2];
  pen.lineWidth = 1.5;
  pen.beginPath();
  if (mark.word === 'kill') {
    pen.moveTo(x, y + 7);
    pen.lineTo(x - 5, y - 6);
    pen.lineTo(x + 5, y - 6);
    pen.closePath();
    pen.fillStyle = colours.kill;
  } else if (mark.word === 'restart') {
    pen.arc(x, y, 3.6, 0, 7);
    pen.fillStyle = colours.panel;
  } else {
    pen.rect(x - 3, y - 3, 6, 6);
    pen.fillStyle = colours.waiting;
  }
  pen.strokeStyle = mark.word === 'kill' ? colours.panel : colours.mark;
  pen.fill();
  pen.stroke();
}

// The container's place at a height of a row's canvas, -1 for the strip.
function laneAt(pod, y) {
  return y < STRIP + 3 ? -1 : Math.min(pod.containers.length - 1, Math.floor((y - STRIP - 3) / LANE));
}

// How many seconds are near a pointer.
function reachOf(area) {
  return 6 * (view.to - view.from) / (area.right - area.left);
}

// What a click or a pointer at a place of a row means: events within some pixels, of that lane before all others.
function eventsAt(row, area, x, y) {
  const reach = reachOf(area);
  const at = momentAt(area, x);
  const near = row.pod.list.filter((event) => Math.abs(event.at - at) <= reach);
  const lane = laneAt(row.pod, y);
  const own = near.filter((event) => lane < 0 ? ['ready', 'unready', 'phase'].includes(event.word) || isOfPod(event)
    : event.place === lane || isOfPod(event));
  return own.length ? own : near;
}

// What was done to the whole pod.
function isOfPod(event) {
  return ['evicted', 'kubelet', 'ended', 'deleted', 'names'].includes(event.word);
}

function rowTip(row, area, x, y) {
  const {pod} = row;
  const at = momentAt(area, x);
  const lane = laneAt(pod, y);
  const lines = [moment(Math.round(at))];
  if (isInGap(at)) return gapTip(at);
  if (pod.first === null || at < pod.first) return `${lines[0]}\n${pod.name} is not there yet`;
  if (at > endOf(pod)) return `${lines[0]}\n${pod.name} ${pod.end ? `has ended as ${pod.end[1]}` : 'is gone'}`;
  if (lane < 0) {
    const found = spansOf(pod).ready.find((span) => span[0] <= at && at <= span[1]);
    lines.push(found ? (found[2] === 'ready' ? 'ready' : 'not ready') : 'Ready is not known here');
  } else {
    const span = stateAt(pod.containers[lane], at);
    if (span) lines.push(`${pod.containers[lane].name}: ${stateWords(pod, lane, span)}`);
    const wait = waitAt(pod, lane, at);
    if (wait) lines.push(`waits: ${data.waits[wait[3]]}`);
  }
  const events = eventsAt(row, area, x, y);
  for (const event of events.slice(0, 3)) lines.push(`${moment(event.at)} ${told(event)}`);
  if (events.length > 3) lines.push(`and ${events.length - 3} more events`);
  return lines.join('\n');
}

function stateWords(pod, lane, span) {
  if (span[1] === 0) return 'waiting';
  if (span[1] === 1) return `running, attempt ${span[2]}`;
  const died = pod.list.find((one) => one.word === 'died' && one.place === lane && one.rest[0] === span[2]);
  const code = span[3] === null ? ', code unknown' : ` with code ${span[3]}`;
  return `terminated${code}${died ? causeWords(died) : ''}, attempt ${span[2]}`;
}
