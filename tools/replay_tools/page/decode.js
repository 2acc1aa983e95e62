// The data of the page, with moments from lists of differences. Moments are seconds since the first one.
const data = JSON.parse(document.getElementById('data').textContent);

// The values of a list of values with how often each comes in a row.
function spread(list) {
  const found = [];
  for (let place = 0; place < list.length; place += 2) {
    for (let count = list[place + 1]; count > 0; count--) found.push(list[place]);
  }
  return found;
}

function sums(list) {
  let sum = 0;
  return list.map((value) => (sum += value));
}

const tickMoments = sums(spread(data.tickSteps));

// Entries of a flat list of so many columns, the first of which is a difference of moments.
function entries(list, columns) {
  const found = [];
  let at = 0;
  for (let place = 0; place < list.length; place += columns) {
    at += list[place];
    found.push([at, ...list.slice(place + 1, place + columns)]);
  }
  return found;
}

function eventsOf(pod) {
  let at = 0;
  const events = pod.events.map((event, number) => {
    at += event[0];
    return {at, place: event[1], word: data.words[event[2]], rest: event.slice(3), number, pod};
  });
  const add = (at, word, rest) => events.push({at, place: -1, word, rest, number: events.length, pod});
  if (pod.fact) add(pod.fact.at, pod.fact.kind === 'ended' ? 'ended' : 'kubelet', [pod.fact.kind, pod.fact.why]);
  if (pod.deleted) add(pod.deleted[0], 'deleted', [pod.deleted[1]]);
  for (const word of ['said', 'resized']) {
    for (const [since, place, words] of pod[word] || []) {
      events.push({at: since, place, word, rest: [data.saids[words]], number: events.length, pod});
    }
  }
  return events.sort((a, b) => a.at - b.at);
}

// Results of a probe as runs of equal ones, from one moment until another.
function resultRuns(flat, since, until) {
  const runs = [];
  let last = 0;
  for (let place = 0; place < flat.length; place += 4) {
    let at = last + flat[place];
    const [step, count, said] = [flat[place + 1], flat[place + 2], data.results[flat[place + 3]]];
    if (at > until) break;
    for (let number = 0; number < count; number++) {
      if (number > 0) at += step;
      if (at >= since && at <= until) {
        if (!runs.length || runs[runs.length - 1].said !== said) runs.push({said, moments: []});
        runs[runs.length - 1].moments.push(at);
      }
    }
    last = at;
  }
  return runs;
}

// A pod's decoded lists are made when they are first looked at.
function lazily(pod, name, make) {
  Object.defineProperty(pod, name, {configurable: true, get() {
    const value = make();
    Object.defineProperty(pod, name, {value});
    return value;
  }});
}

const keyCounts = new Map();
data.podList.forEach((pod) => keyCounts.set(pod.key, (keyCounts.get(pod.key) || 0) + 1));

const facts = data.kubelet ? [...data.kubelet.evicted, ...data.kubelet.ended] : [];

data.podList.forEach((pod, number) => {
  pod.number = number;
  pod.name = keyCounts.get(pod.key) > 1 ? `${pod.key}, number ${number}` : pod.key;
  pod.restarts = pod.containers.reduce((sum, container) => sum + container.restarts, 0);
  pod.isReady = pod.conditions.some((one) => one[0] === 'Ready' && one[1] === 'True');
  pod.eviction = data.evictions.find((one) => one.pod === number) || null;
  pod.fact = facts.find((one) => one.pod === number) || null;
  pod.kills = pod.events.filter((event) => data.words[event[2]] === 'kill').length;
  lazily(pod, 'list', () => eventsOf(pod));
  pod.containers.forEach((container) => lazily(container, 'spans', () => entries(container.states, 4)));
  lazily(pod, 'uses', () => pod.used.map((one) => one ? entries(one.uses, one.columns) : []));
});
data.signals.forEach((signal) => { signal.values = spread(signal.samples); });

// The last place whose moment is not after a moment, by `of` at each place; -1 without one.
function placeBefore(length, of, at) {
  let [low, high] = [0, length];
  while (low < high) {
    const middle = (low + high) >> 1;
    if (of(middle) <= at) low = middle + 1; else high = middle;
  }
  return low - 1;
}

// Whether the kubelet evicted a pod, if the trace shows that, or else whether the rules do.
function isEvicted(pod) {
  return Boolean(data.kubelet ? pod.fact && pod.fact.kind === 'evicted' : pod.eviction);
}

// The order that all tools have.
function isWorse(left, right) {
  return left.rank - right.rank;
}

// Words of moments and amounts.
const view = {from: 0, to: Math.max(data.last, 1), clock: data.clock};
const LAST_DATE = 253402300799;

function moment(at) {
  const whole = data.first + at;
  if (view.clock === 'seconds' || whole > LAST_DATE) return String(whole);
  const date = new Date(whole * 1000);
  const ahead = view.clock === 'local' ? -date.getTimezoneOffset() : 0;
  const text = new Date((whole + 60 * ahead) * 1000).toISOString().slice(0, 19).replace('T', ' ');
  return text + (view.clock === 'local' ? zoneWords(ahead) : 'Z');
}

// How far a zone is from UTC, as +01:00, by its minutes.
function zoneWords(ahead) {
  const two = (number) => String(Math.floor(Math.abs(number))).padStart(2, '0');
  return `${ahead < 0 ? '-' : '+'}${two(ahead / 60)}:${two(ahead % 60)}`;
}

function shortMoment(at, step) {
  const text = moment(at);
  if (!text.includes(':')) return text;
  return step >= 86400 ? text.slice(5, 10) : text.slice(11, step < 60 ? 19 : 16);
}

function amount(units, isBytes) {
  if (units === null) return 'no value';
  if (!isBytes) return units.toLocaleString('en');
  let place = 0;
  while (Math.abs(units) >= 1024 && place < 6) { units /= 1024; place++; }
  return `${Number(units.toFixed(2))}${['', 'Ki', 'Mi', 'Gi', 'Ti', 'Pi', 'Ei'][place]}`;
}

function seconds(count) {
  if (count < 120) return `${count} s`;
  if (count < 7200) return `${Number((count / 60).toFixed(1))} min`;
  if (count < 172800) return `${Number((count / 3600).toFixed(1))} h`;
  return `${Number((count / 86400).toFixed(1))} days`;
}

// Causes of a difference, each after a semicolon; their numbers are moments.
function causesWords(causes) {
  return causes.map((cause) => `; ${cause.map((part) => typeof part === 'number' ? moment(part) : part).join(' ')}`)
    .join('');
}

function rulesWords(fact) {
  if (!fact.judged && fact.rules === null) return `the rules can't judge it${causesWords(fact.causes)}`;
  const does = `the rules, over the recorded samples, ${fact.agrees ? 'agree' : 'differ'}: they `;
  const verb = data.kubelet.names ? 'name' : 'evict';
  if (fact.rules === null) return `${does}do not ${verb} it${causesWords(fact.causes)}`;
  const apart = fact.rules - fact.at;
  const when = apart ? `, ${Math.abs(apart)} s ${apart > 0 ? 'after' : 'before'}` : '';
  if (fact.named && fact.agrees) {
    return `the rules name it too: ${fact.named.join(' ')}, at ${moment(fact.rules)}${when}`;
  }
  return `${does}${verb} it at ${moment(fact.rules)}${when}${causesWords(fact.causes)}`;
}

// What the kubelet did to a pod and what the rules do, as sentences; none if no trace shows it.
function kubeletWords(pod) {
  if (pod.fact) {
    const did = `the kubelet ${pod.fact.kind} it at ${moment(pod.fact.at)}: ${pod.fact.why}`;
    return pod.fact.kind === 'evicted' || pod.fact.rules !== null ? [did, rulesWords(pod.fact)] : [did];
  }
  const alone = data.kubelet && data.kubelet.alone.find((one) => one[0] === pod.number);
  if (!alone) return [];
  const [at, times] = data.kubelet.named[pod.number] || [pod.eviction.at, 1];
  const verb = data.kubelet.names ? 'name' : 'evict';
  return [`the kubelet was not seen to evict it; the rules, over the recorded samples, ${verb} it at `
    + `${moment(at)}${times > 1 ? `, the first of ${times} times` : ''}${causesWords(alone[1])}`];
}

// The worst that happened to a pod, and its place among all.
function worstWords(pod) {
  const worst = pod.worst ? `${moment(pod.worst[0])} ${pod.worst[1]}` : 'nothing bad';
  return `the worst: ${worst}; place ${pod.rank} of ${data.podList.length}`;
}

// Why an instance died, as far as it is known.
function causeWords(event) {
  const said = event.rest.length > 4 ? data.causes[event.rest[4]][0] : '';
  return said && `: ${said}`;
}

// The one word of why it died, where a trace has it.
function reasonOf(event) {
  return (causeWords(event).match(/^: ([A-Z]\w+)/) || [])[1] || null;
}

// Why a container waits at a moment, or null; the moment may be the end, at which what has no end still waits.
function waitAt(pod, place, at) {
  return (pod.waits || []).find((one) => one[0] === place && one[1] <= at && (one[2] === null || at < one[2])) || null;
}

function waitWord(wait) {
  return data.waits[wait[3]].split(':')[0];
}

// An event in words, with what several traces do not know of it.
function told(event) {
  return toldOf(event) + ((event.pod.notes || {})[event.number] || '');
}

// Its kind's sentence, of the table that all tools read, with the values of its fields, and what the trace has next to
// it; and its attempt, if it has one.
function toldOf(event) {
  const [fields, sentence] = data.told[event.word];
  const values = {why: causeWords(event)};
  fields.forEach((name, place) => { values[name] = event.rest[place]; });
  const filled = (words) => words.replace(/\{(\w+)\}/g, (_, name) => values[name]);
  const words = values.code === null ? data.toldGuessed : sentence;
  const more = (event.pod.more || {})[event.number] || '';
  return filled(words) + more + ('attempt' in values ? filled(data.toldAttempt) : '');
}
