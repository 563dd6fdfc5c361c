// Runs the script of a page under node, over a small stand-in for the elements of a browser:
// node checks/page_dom.js PAGE < ACTIONS
//
// PAGE is a file that `aqs draw --page` wrote, and ACTIONS a list in JSON: {"key": K}, {"click": ID},
// {"set": [ID, VALUE]} of a slider or a list, or {"bar": N}, a click on the Nth bar of the picture. What the page shows
// at first, and after each action, is written as a list in JSON. The first element of all is how many milliseconds the
// script ran before it showed anything.
'use strict';
const fs = require('fs');

class Element {
  constructor(name) {
    Object.assign(this, { tagName: name.toUpperCase(), attributes: {}, children: [], heard: {}, own: '', value: '' });
  }

  setAttribute(name, value) { this.attributes[name] = value; }

  appendChild(child) { this.children.push(child); }

  replaceChildren(...children) { this.children = children; this.own = ''; }

  addEventListener(name, call) { this.heard[name] = call; }

  get textContent() { return this.own + this.children.map((child) => child.textContent).join(''); }

  set textContent(text) { this.own = text; this.children = []; }
}

const html = fs.readFileSync(process.argv[2], 'utf8');
const byId = {};
for (const [, name, id] of html.matchAll(/<(\w+)[^>]*? id='(\w+)'/g)) byId[id] = new Element(name);
byId.data.textContent = html.match(/<script type='application\/json' id='data'>\n([^]*?)<\/script>/)[1];
const script = html.match(/<script>([^]*?)<\/script>/)[1];
const page = new Element('document');
page.getElementById = (id) => byId[id];
page.createElement = (name) => new Element(name);
page.createElementNS = (space, name) => new Element(name);

const bars = () => byId.picture.children.filter((it) => ['x', 's', 'w', 'z'].includes(it.attributes.class));
const shown = () => ({
  title: byId.title.textContent,
  part: byId.part.textContent,
  wrong: byId.wrong.textContent,
  why: byId.why.textContent,
  entry: byId.entry.textContent,
  state: byId.state.children.map((line) => line.textContent),
  found: byId.found.textContent,
  titles: bars().map((bar) => bar.textContent),
  labels: byId.picture.children.filter((it) => it.tagName === 'TEXT' && it.attributes.x === '8'
    && it.textContent.startsWith('seat ')).map((it) => it.textContent),
  seats: byId.seat.children.map((it) => it.textContent),
});

const begun = process.hrtime.bigint();
new Function('document', script)(page);
const said = [Number(process.hrtime.bigint() - begun) / 1e6, shown()];
for (const action of JSON.parse(fs.readFileSync(0, 'utf8'))) {
  if (action.key) page.heard.keydown({ key: action.key, target: page, preventDefault() {} });
  if (action.click) byId[action.click].heard.click();
  if (action.bar !== undefined) bars()[action.bar].heard.click();
  if (action.set) {
    byId[action.set[0]].value = action.set[1];
    if (byId[action.set[0]].heard.input) byId[action.set[0]].heard.input();
  }
  said.push(shown());
}
console.log(JSON.stringify(said));
