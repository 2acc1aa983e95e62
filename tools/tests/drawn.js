// Runs the scripts of a page of tools/page without a browser, with as much of a document as they need, opens the story
// of a pod, and writes as JSON its sentences, and what its charts of memory and processor time draw and show. test_page.py
// runs it by node.
//
// usage: node drawn.js PAGE.html POD light|dark MOMENT ..
'use strict';
const fs = require('fs');
const vm = require('vm');
const [path, key, theme, ...moments] = process.argv.slice(2);
const page = fs.readFileSync(path, 'utf8');
const WIDTH = 588;

// What is drawn, in the colours that it is drawn in.
function penOf() {
  const pen = {drawn: [], path: []};
  const add = (what) => (...given) => pen.path.push([what, ...given]);
  const take = (what) => () => pen.drawn.push([what, what === 'stroke' ? pen.strokeStyle : pen.fillStyle, pen.path]);
  Object.assign(pen, {beginPath: () => { pen.path = []; }, moveTo: add('move'), lineTo: add('line'), arc: add('arc'),
    rect: add('rect'), stroke: take('stroke'), fill: take('fill'), measureText: (text) => ({width: 6 * text.length}),
    fillText: (text) => pen.drawn.push(['text', pen.fillStyle, text]),
    fillRect: (...box) => pen.drawn.push(['box', pen.fillStyle, box])});
  for (const name of ['scale', 'save', 'restore', 'clip', 'setLineDash', 'closePath']) pen[name] = () => {};
  return pen;
}

class Part {
  constructor(kind) {
    Object.assign(this, {kind, children: [], dataset: {}, isConnected: true, clientWidth: WIDTH, offsetHeight: 20,
      hidden: true, words: ''});
    this.style = {setProperty() {}};
    this.classList = {toggle() {}, contains: () => false};
  }
  append(...parts) { this.children.push(...parts); }
  replaceChildren(...parts) { this.children = parts; }
  insertRow() { const row = new Part('tr'); this.append(row); return row; }
  getBoundingClientRect() { return {top: 0, left: 0, bottom: 0}; }
  getContext() { this.pen = penOf(); return this.pen; }
  set textContent(words) { this.words = words; }
  get textContent() { return this.words + this.children.map((one) => one.textContent || one).join(''); }
  querySelectorAll(kind) { return this.children.flatMap((one) => one instanceof Part
    ? [...(one.kind === kind ? [one] : []), ...one.querySelectorAll(kind)] : []); }
  querySelector(kind) { return this.querySelectorAll(kind)[0]; }
}
for (const name of ['setAttribute', 'addEventListener', 'focus', 'remove', 'click']) Part.prototype[name] = () => {};

const parts = new Map();
const byId = (name) => parts.get(name) || parts.set(name, new Part(name)).get(name);
byId('data').textContent = page.match(/<script type="application\/json" id="data">(.*?)<\/script>/s)[1];
const ground = page.match(theme === 'dark' ? /:root\[data-theme=dark\]\{([^}]*)/ : /:root\{([^}]*)/)[1];
const style = {getPropertyValue: (name) => ground.match(new RegExp(`${name}:([^;]*)`))[1].trim()};
const listens = {addEventListener() {}};
const frames = [];
const window = {innerHeight: 900, innerWidth: 1280, matchMedia: () => ({...listens, matches: theme === 'dark'}),
  ...listens};
const document = {...listens, getElementById: byId, createElement: (kind) => new Part(kind), body: new Part('body'),
  documentElement: new Part('html'), querySelector: () => new Part('header')};
const script = page.match(/<script>\n(.*)<\/script>/s)[1].replace(/\}\)\(\);\s*$/,
  'globalThis.shown = {data, openStory, usedCharts};})();');
const context = {window, document, performance, getComputedStyle: () => style,
  requestAnimationFrame: (done) => frames.push(done)};
vm.runInNewContext(script, context);
const {data, openStory, usedCharts} = context.shown;
openStory(data.podList.find((pod) => pod.key === key));
while (frames.length) frames.shift()();
const said = byId('panel').children.filter((one) => one.className === 'quiet').map((one) => one.textContent);
const words = byId('panel').children.filter((one) => one.kind === 'p').map((one) => one.textContent);
console.log(JSON.stringify({words, said: usedCharts.length ? said.slice(1) : said, colours: Object.fromEntries(
  ['signal', 'hard', 'soft', 'shade'].map((name) => [name, style.getPropertyValue(`--${name}`)])),
charts: usedCharts.map((chart) => ({drawn: chart.canvas.pen.drawn,
  tips: moments.map((at) => chart.tip(Number(at) - data.first))}))}));
