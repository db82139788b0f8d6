// page.js PAGE: runs the script of a page over elements that only keep what they are given. It prints how many strokes of segments are drawn,
// of how many segments they are, how many are drawn without path 0, and the words of the first one under the mouse. It fails where a look at
// a tenth of the time draws other segments than those that are on their way then.
'use strict';
const fs = require('fs'), vm = require('vm');
const [, json, script] = fs.readFileSync(process.argv[2], 'utf8').match(/<script type='application\/json' id='run'>(.*?)<\/script>\s*<script>(.*?)<\/script>/s);

class Element {
  constructor() {
    Object.assign(this, { listeners: {}, parts: {}, style: {}, dataset: {}, innerHTML: '', textContent: '', clientWidth: 1000, offsetWidth: 300, offsetHeight: 40 });
  }
  part(name) { return this.parts[name] ??= new Element(); }
  querySelector(name) { return this.part(name); }
  get firstChild() { return this.part('first'); }
  append(child) { this.part('children').last = child; this.parts.first ??= child.parts.first; }
  setAttribute(name, value) { this.part('attributes')[name] = value; }
  setPointerCapture() {}
  addEventListener(name, listener) { this.listeners[name] = listener; }
  getBoundingClientRect() { return { left: 0, top: 0, width: this.clientWidth }; }
}

const elements = { run: Object.assign(new Element(), { textContent: json }) };
const context = vm.createContext({
  document: {
    getElementById: id => elements[id] ??= new Element(), createElement: () => new Element(), createElementNS: () => new Element(),
    documentElement: new Element(),
  },
  addEventListener: () => {}, requestAnimationFrame: draw => draw(), matchMedia: () => ({ matches: false }), innerWidth: 1000, innerHeight: 1000,
});
vm.runInContext(script + '\nglobalThis.page = { charts, run, shown, whole, zoom };', context);
const { charts, shown, whole, zoom } = context.page;
const lanes = charts[charts.length - 1];
const drawn = () => lanes.svg.innerHTML.match(/data-segment='\d+'/g) ?? [];

const all = drawn(), hit = lanes.hits[0];
lanes.svg.listeners.pointermove({ clientX: (hit.x1 + hit.x2) / 2, clientY: (hit.y1 + hit.y2) / 2 });
const words = elements.tip.innerHTML;
elements.paths.firstChild.listeners.change({ target: { checked: false } });
const others = drawn().length;
shown.paths.add(0);
zoom(0, whole.to / 10);
const { segments, script: { paths } } = context.page.run;
const last = segment => segment.lost ? segment.tick + paths[segment.path].delay / 2 : Math.max(segment.tick, ...segment.ticks);
const near = segments.filter(segment => segment.tick <= shown.to && last(segment) >= shown.from).length;
if (drawn().length !== near) throw new Error(`${near} segments are on their way by ${shown.to}, ${drawn().length} are drawn`);
console.log(all.length, new Set(all).size, others, words);
