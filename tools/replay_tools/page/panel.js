// The panel at the side: the story of a pod, the why of an event, the keys.
const panel = document.getElementById('panel');
const MOST_EVENTS = 400, MOST_ROWS = 12, MOST_MOMENTS = 6;
let comesBack = null;

function openPanel(title, parts, before) {
  if (panel.hidden) comesBack = document.activeElement;
  const top = element('div', undefined, 'top');
  if (before) top.append(pressable('‹', before, 'Back to the story'));
  top.append(element('h2', title), pressable('close', closePanel, 'Close (Esc)'));
  panel.replaceChildren(top, ...parts);
  panel.hidden = false;
  document.getElementById('tip').hidden = true;
  panel.scrollTop = 0;
  standBeside(true);
  draw(true);
  panel.focus({preventScroll: true});
}

function closePanel() {
  if (panel.hidden) return;
  panel.hidden = true;
  panel.replaceChildren();
  standBeside(false);
  if (comesBack && comesBack.isConnected) comesBack.focus({preventScroll: true});
}

// On a wide screen the lanes make room for the panel.
function standBeside(is) {
  if (document.body.classList.contains('beside') === is) return;
  document.body.classList.toggle('beside', is);
  draw(true);
}

function pressable(words, pressed, title) {
  const made = element('button', words);
  if (title) made.title = title;
  made.addEventListener('click', pressed);
  return made;
}

function tableOf(heads, lines, marked) {
  const [holder, made] = [element('div', undefined, 'scroll'), element('table')];
  const head = made.insertRow();
  for (const words of heads) head.append(element('th', words));
  lines.forEach((line, place) => {
    const row = made.insertRow();
    if (marked && marked(place)) row.className = 'victim';
    line.forEach((cell) => row.append(element('td', String(cell), /^-?\d+$/.test(cell) ? 'number' : undefined)));
  });
  holder.append(made);
  return holder;
}

function said(words) {
  return element('p', words, 'quiet');
}

// --- a pod's story ---

function openStory(pod) {
  const ended = pod.end ? `, ended ${moment(pod.end[0])} as ${pod.end[1]}` : '';
  const gone = typeof pod.gone === 'number' ? `, gone before ${moment(pod.gone)}` : '';
  const first = pod.first === null ? 'no tick' : `first tick ${moment(pod.first)}`;
  const byRules = data.kubelet && !data.kubelet.names && (pod.eviction || isEvicted(pod)) ? 'by the rules ' : '';
  const restarts = pod.containers.map((one) => [one.name, one.state, one.code === null ? '-' : one.code, one.restarts,
    one.ready, one.started]);
  const conditions = pod.conditions.map(([kind, value, since, reason]) =>
    [kind, value, since === null ? '-' : moment(since), reason || '-']);
  openPanel(pod.name, [
    ...kubeletWords(pod).map((words) => element('p', words)), element('p', worstWords(pod)),
    said(`${byRules}${pod.phase}${reasonWords(pod)}, ${pod.qos}, ${first}${ended}${gone}; `
      + `not ready ${seconds(pod.unready)} in all`),
    ...(pod.doubted === undefined ? [] : [element('p', `what it did at ${moment(pod.doubted)} is guessed, `
      + 'as before a gap: no line after it has the pod')]),
    element('h2', containersTitle(pod)),
    tableOf(['container', 'state', 'code', 'restarts', 'ready', 'started'], restarts),
    ...usedParts(pod),
    element('h2', 'Conditions'), tableOf(['condition', 'value', 'since', 'reason'], conditions),
    ...waitParts(pod),
    element('h2', 'Events'), ...eventList(pod, pod.list, false),
  ]);
}

function waitParts(pod) {
  if (!pod.waits || !pod.waits.length) return [];
  const lines = pod.waits.slice(-MOST_ROWS).map(([place, since, until, words]) =>
    said(`${moment(since)} to ${until === null ? 'the end' : moment(until)}: ${pod.containers[place].name} waits: `
      + data.waits[words]));
  const cut = pod.waits.length - lines.length;
  return [element('h2', 'Waits'), ...(cut ? [said(`${cut} earlier waits are left out.`)] : []), ...lines];
}

// Of an eviction by the rules the reason names its threshold.
function reasonWords(pod) {
  if (!pod.reason) return '';
  return ` (${pod.reason}${pod.eviction ? ` by ${pod.eviction.signal} ${pod.eviction.kind}` : ''})`;
}

// What still ran as the pod ended or went is shown as it was seen then.
function containersTitle(pod) {
  const isOver = pod.end || typeof pod.gone === 'number';
  const ran = isOver && pod.containers.some((one) => one.state === 'Running');
  return ran ? 'Containers, each in the last state that was recorded' : 'Containers';
}

// Events with a button each that opens its why below it; those in view, where there are too many.
function eventList(pod, events, open) {
  const whole = events.length;
  if (whole > MOST_EVENTS) events = events.filter((event) => event.at >= view.from && event.at <= view.to);
  const cut = events.slice(0, MOST_EVENTS);
  const parts = cut.map((event) => eventItem(pod, event, open));
  const count = whole - cut.length;
  if (count) parts.push(said(`${count} of ${whole} events are left out: zoom to where they are.`));
  return parts.length ? parts : [said('none')];
}

const DOTS = {started: 'running', died: 'failed', kill: 'kill', ready: 'ready', unready: 'unready', backoff: 'waiting',
  restart: 'accent', evicted: 'failed', kubelet: 'failed', ended: 'failed',
  said: 'said', resized: 'accent'};

function eventItem(pod, event, open) {
  const [holder, button] = [element('div', undefined, 'event'), element('button')];
  const dot = element('span', undefined, 'dot');
  const colour = event.word === 'died' && event.rest[1] === 0 ? 'ended' : DOTS[event.word] || 'ended';
  dot.style.background = `var(--${colour})`;
  const name = event.place < 0 ? '' : `${pod.containers[event.place].name} `;
  button.append(element('span', moment(event.at), 'at'), dot, element('span', name + told(event)));
  button.setAttribute('aria-expanded', String(open));
  holder.append(button);
  const unfold = () => holder.append(whyOf(pod, event));
  button.addEventListener('click', () => {
    const is = holder.lastChild !== button;
    if (is) holder.lastChild.remove(); else unfold();
    button.setAttribute('aria-expanded', String(!is));
  });
  if (open) unfold();
  return holder;
}

// --- why ---

function openWhy(pod, events) {
  const title = events.length === 1 ? `why: ${told(events[0])}` : `why: ${events.length} events`;
  const key = pressable(pod.name, () => openStory(pod));
  key.className = 'name';
  openPanel(title, [key, ...eventList(pod, events, events.length <= 4)], () => openStory(pod));
}

function whyOf(pod, event) {
  const holder = element('div', undefined, 'why');
  holder.append(...whyParts(pod, event));
  return holder;
}

function whyParts(pod, event) {
  switch (event.word) {
    case 'died': return [...becauseParts(event), ...listedParts(pod, event)];
    case 'started': return listedParts(pod, event);
    case 'backoff': case 'restart': return exitParts(pod, event);
    case 'evicted': return [...kubeletWords(pod).map(said), ...evictedParts(pod)];
    case 'kubelet': return [said(rulesWords(pod.fact))];
    case 'ended': case 'names': return kubeletWords(pod).map(said);
    case 'deleted': case 'said': case 'resized': return [];
    case 'phase': return phaseParts(pod, event);
    default: return resultParts(pod, event);
  }
}

function becauseParts(event) {
  return event.rest.length > 4 ? data.causes[event.rest[4]].slice(1).map((words) => element('p', words)) : [];
}

function lackOf(what) {
  return [said(`The page was made without a trace, which has ${what}.`)];
}

const LISTED = ['CONTAINER_CREATED', 'CONTAINER_RUNNING', 'CONTAINER_EXITED', 'CONTAINER_UNKNOWN'];

function listingWords(listing) {
  if (!listing || listing[1] < 0) return 'did not list it';
  return `listed attempt ${listing[1]} as ${LISTED[listing[2]]}${listing[2] === 2 && listing[3] !== null
    ? ` with code ${listing[3]}` : ''}`;
}

function listedParts(pod, event) {
  if (!data.hasTrace) return lackOf('what the ticks listed');
  const listings = entries(pod.listings[event.place], 4);
  const place = placeBefore(listings.length, (one) => listings[one][0], event.at);
  const parts = [said(`This tick ${listingWords(listings[place])}.`)];
  if (place <= 0) return [...parts, said('No tick before it listed anything else.')];
  const before = tickMoments[placeBefore(tickMoments.length, (one) => tickMoments[one], listings[place][0]) - 1];
  return [...parts, said(`Until ${moment(before)} the ticks ${listingWords(listings[place - 1])}.`)];
}

function phaseParts(pod, event) {
  if (!data.hasTrace) return lackOf('what the ticks listed');
  return [said('The tick lists:'), tableOf(['container', 'attempt', 'state', 'code'], pod.containers.map((one, at) => {
    const listings = entries(pod.listings[at], 4);
    const place = placeBefore(listings.length, (of) => listings[of][0], event.at);
    if (place < 0 || listings[place][1] < 0) return [one.name, '-', 'not listed', '-'];
    const [, attempt, state, code] = listings[place];
    return [one.name, attempt, LISTED[state], state !== 2 ? '-' : code === null ? 'unknown' : code];
  }))];
}

// The exits that count for a restart: as many as the number of the newest one.
function exitParts(pod, event) {
  const exits = pod.list.filter((one) => one.number < event.number && one.place === event.place && one.word === 'died');
  const newest = exits[exits.length - 1];
  if (!newest) return [said('No exit is in the report.')];
  const counted = exits.slice(exits.length - newest.rest[2]);
  const kept = counted.slice(-MOST_ROWS);
  const name = pod.policies ? pod.policies[event.place] : pod.policy;
  const policy = name ? ` (policy ${name})` : '';
  const columns = kept.some(reasonOf) ? 6 : 5;
  const parts = [said(`Exits that count${policy}; the delay goes by the last number:`),
    tableOf(['number', 'attempt', 'died', 'run', 'code', 'reason'].slice(0, columns),
      kept.map((one) => [one.rest[2], one.rest[0], moment(one.at), `${one.rest[3]} s`,
        one.rest[1] === null ? 'unknown' : one.rest[1],
        reasonOf(one) || '-'].slice(0, columns)))];
  if (kept.length < counted.length) parts.push(said(`${counted.length - kept.length} earlier exits are left out.`));
  return parts;
}

function resultParts(pod, event) {
  if (event.word === 'unready'
    && pod.list.some((one) => one.word === 'died' && one.at === event.at && one.place === event.place)) {
    return [said('It died at this tick.')];
  }
  if (!data.hasTrace) return lackOf('the results of probes');
  const kinds = {kill: [event.rest[1]], ready: ['startup', 'readiness'], unready: ['readiness'],
    'startup-passed': ['startup']}[event.word];
  const start = pod.list.filter((one) => one.number < event.number && one.place === event.place
    && one.word === 'started').pop();
  const probes = pod.probes.filter((probe) => probe[0] === event.place && kinds.includes(probe[1]));
  if (!probes.length && pod.guessed) return [said('Its manifest is unknown: whether it has probes is too.')];
  if (!probes.length) return [said('It has no startup and no readiness probe.')];
  return probes.flatMap((probe) => probeParts(probe, start ? start.at : 0, event.at));
}

function probeParts(probe, since, until) {
  const [, kind, failures, successes, delay, period, flat] = probe;
  const head = said(`${kind}Probe: failureThreshold ${failures}, successThreshold ${successes}, `
    + `initialDelaySeconds ${delay}, periodSeconds ${period}`);
  if (!flat) return [head, said('Its results are left out of the page.')];
  const runs = resultRuns(flat, since, until);
  const kept = runs.slice(-MOST_ROWS);
  const parts = [head, said(`Its results since the instance started at ${moment(since)}:`),
    tableOf(['result', 'in a row', 'moments'],
      kept.map((run) => [run.said, run.moments.length, momentsWords(run.moments)]))];
  if (kept.length < runs.length) parts.push(said(`${runs.length - kept.length} earlier runs of results are left out.`));
  return parts;
}

function momentsWords(moments) {
  if (moments.length <= MOST_MOMENTS) return moments.map(moment).join(', ');
  return `${moment(moments[0])}, ${moment(moments[1])}, .. ${moment(moments[moments.length - 1])}`;
}

function evictedParts(pod) {
  const {around, signal, at} = pod.eviction;
  if (!around) return lackOf("the signal's samples and the pods' usage");
  const since = around.since === null ? '' : `; active since ${moment(around.since)}`;
  const before = around.before === null ? 'no eviction before' : `the eviction before was at ${moment(around.before)}`;
  const parts = [said(around.threshold + since),
    ...(around.pause ? [said(`${around.pause}; ${before}`)] : []),
    ...sampleParts(signal, around, at),
    said('Pods that were present and had not ended:'),
    tableOf(['place', 'pod', 'usage', 'request', 'above', 'priority', 'class', ''], around.rows,
      (place) => around.rows[place][7] !== '')];
  if (around.more) parts.push(said(`${around.more} further pods are left out.`));
  parts.push(said(`Their order: ${around.order}.`));
  if (!around.first) parts.push(said('The evicted pod does not come first in it.'));
  return parts;
}

function sampleParts(name, around, at) {
  const signal = data.signals.find((one) => one.name === name);
  if (!signal) return [];
  const from = around.since === null ? at : around.since;
  const after = new Map(around.after);
  const found = [];
  let place = placeBefore(tickMoments.length, (one) => tickMoments[one], at);
  // a value that a tick repeats is no sample of its own
  const isNew = (one) => one === 0 || tickMoments[one - 1] < from || after.has(tickMoments[one])
    || signal.values[one] !== signal.values[one - 1];
  for (; place >= 0 && tickMoments[place] >= from; place--) if (isNew(place)) found.unshift(place);
  const kept = found.length <= MOST_ROWS ? found : [found[0], ...found.slice(1 - MOST_ROWS)];
  const heads = after.size ? ['moment', name, 'after reclaim'] : ['moment', name];
  const parts = [said('Samples since it became active:'), tableOf(heads, kept.map((one) => {
    const cells = [moment(tickMoments[one]), amount(signal.values[one], signal.bytes)];
    if (!after.size) return cells;
    return [...cells, after.has(tickMoments[one]) ? amount(after.get(tickMoments[one]), signal.bytes) : '-'];
  }))];
  const count = found.length - kept.length;
  if (count) parts.push(said(`${count} samples after the first are left out.`));
  return parts;
}

// --- keys ---

const KEYS = [['/', 'filter by name'], ['j, k', 'next and previous pod'], ['Enter', "the chosen pod's story"],
  ['n, p', 'next and previous event of the chosen pod, with its why'], ['+, -', 'zoom in and out'],
  ['←, →', 'move in time'], ['0', 'the whole span'], ['u', 'seconds, times of UTC or of your zone'], ['t', 'light or dark'],
  ['Esc', 'close, or clear the filter'], ['?', 'these keys']];

function openKeys() {
  const made = element('table');
  for (const [keys, what] of KEYS) {
    const row = made.insertRow();
    const cell = row.insertCell();
    keys.split(', ').forEach((key) => cell.append(element('kbd', key), ' '));
    row.append(element('td', what));
  }
  openPanel('Keys', [made, said('Drag over a lane or a chart to zoom, or pinch it. A click on a pod opens its '
    + 'story, one on a mark or a cross the why of the events there. A mark shows all events within five pixels; '
    + 'where marks are dense, a strip below the lane has their colours. A click on the name of a signal makes its '
    + 'chart tall or low.')]);
}
