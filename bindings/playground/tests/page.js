// Runs the page's script over the least of a browser's document that it needs: `node tests/page.js`, of version 18 or
// later. What a server would answer is made here.
'use strict';
const assert = require('node:assert');
const fs = require('node:fs');
const path = require('node:path');
const { test } = require('node:test');
const vm = require('node:vm');

const KINDS = ['TUPLE_EXPR', 'L_PAREN', 'IDENT'];
const MOST = 2 << 20;
const HEIGHT = 400;
let made = 0;

class Element {
  constructor() {
    made += 1;
    Object.assign(this, { children: [], style: {}, dataset: {}, attributes: new Map(), listeners: new Map(),
      className: '', textContent: '', value: '', hidden: false, scrollTop: 0, scrollLeft: 0, clientHeight: HEIGHT });
    this.classList = { toggle: (name, on) => { if (on) this.className += ' ' + name; } };
  }
  append(...list) {
    for (const it of list) if (it instanceof Element) it.parent = this;
    this.children.push(...list);
  }
  replaceChildren(...list) {
    this.children = [];
    this.append(...list);
  }
  replaceWith(other) {
    other.parent = this.parent;
    this.parent.children[this.parent.children.indexOf(this)] = other;
  }
  remove() { this.parent.children.splice(this.parent.children.indexOf(this), 1); }
  get lastChild() { return this.children.at(-1); }
  setAttribute(name, value) { this.attributes.set(name, value); }
  removeAttribute(name) { this.attributes.delete(name); }
  addEventListener(name, listener) { this.listeners.set(name, listener); }
  setSelectionRange() {}
  // All that is written in it.
  written() {
    return this.textContent + this.children.map((it) => (it instanceof Element ? it.written() : it)).join('');
  }
}

const elements = new Map();
function byId(id) {
  if (!elements.has(id)) elements.set(id, new Element());
  return elements.get(id);
}
function fire(id, name, event = {}) {
  byId(id).listeners.get(name)({ preventDefault() {}, target: byId(id), ...event });
}
// What the server answers next, and the texts that it was asked for.
let answer = () => new Response(answerFor([], []));
const asked = [];
Object.assign(globalThis, {
  document: { getElementById: byId, createElement: () => new Element(), activeElement: null },
  location: { hash: '' },
  ResizeObserver: class { observe() {} },
  requestAnimationFrame: (call) => call(),
  fetch: async (target, request) => {
    asked.push(request.body);
    return answer();
  },
});
function answerFor(steps, messages) {
  const numbers = Uint32Array.from([steps.length, ...steps]);
  return Buffer.concat([Buffer.from(numbers.buffer), Buffer.from(JSON.stringify(messages))]);
}
// The steps of so many brackets inside one another, none of which is closed, and their messages.
function brackets(depth) {
  const steps = [], messages = [];
  for (let i = 0; i < depth; i += 1) steps.push(4 * 0 + 1, 4 * 1 + 2, 1);
  for (let i = 0; i < depth; i += 1) {
    steps.push(0);
    messages.push(depth, 'expected R_PAREN');
  }
  return answerFor(steps, messages);
}
// Types a text, whose answer is this, and waits until it is shown.
async function type(text, next) {
  answer = next;
  byId('text').value = text;
  fire('text', 'input');
  await new Promise((done) => { setTimeout(done, 0); });
  while (vm.runInThisContext('isAsked')) await new Promise((done) => { setTimeout(done, 1); });
}
const rows = () => byId('rows').children.map((row) => row.written());

byId('data').textContent = JSON.stringify({ kinds: KINDS, most: MOST, text: '' });
const script = path.join(__dirname, '../src/page.js');
vm.runInThisContext(fs.readFileSync(script, 'utf8'), { filename: script });

test('a tree that is too deep is not shown, and the page says why', async () => {
  const why = 'the tree is too deep to be shown: it has more than 10000 levels';
  await type('(', () => new Response(brackets(1)));
  assert.deepStrictEqual(rows(), ['\u25beTUPLE_EXPR', 'L_PAREN "(" \u25c2 expected R_PAREN']);
  await type('('.repeat(20000), () => new Response(why + '\n', { status: 422 }));
  assert.strictEqual(byId('notice').textContent, 'The tree is too deep to be shown: it has more than 10000 levels.');
  assert.strictEqual(byId('notice').hidden, false);
  assert.deepStrictEqual(rows(), []);
  assert.strictEqual(byId('headline').textContent, '');
  await type('((', () => new Response(brackets(2)));
  assert.strictEqual(byId('notice').hidden, true);
  assert.strictEqual(rows().length, 4);
});

test('of a deep tree the rows in view are drawn', async () => {
  const depth = 10000;
  await type('('.repeat(depth), () => new Response(brackets(depth)));
  const before = made;
  fire('more', 'click');
  fire('tree', 'keydown', { key: 'End' });
  assert.strictEqual(byId('rows').style.height, 2 * depth * 20 + 'px');
  assert.strictEqual(byId('place').textContent, 'L_PAREN at 1:10000: "("');
  assert.ok(rows().length > 0 && rows().length <= HEIGHT / 20 + 4, 'rows: ' + rows().length);
  assert.strictEqual(byId('rows').lastChild.style.top, (2 * depth - 1) * 20 + 'px');
  // Besides the rows, the line has a piece for each of the tokens that are drawn of it.
  assert.ok(made - before < 3 * 4000 + 1000, 'elements: ' + (made - before));
  assert.strictEqual(byId('messages').children.length, 101);
});

test('the places of messages count characters', async () => {
  const places = async (text, messages) => {
    await type(text, () => new Response(answerFor([1, 4 * 2 + 2, text.length, 0], messages)));
    return byId('messages').children.map((it) => it.children[0].textContent);
  };
  const messages = [0, 'a', 1, 'b', 3, 'c', 4, 'd', 3, 'e', 5, 'f', 8, 'g', 4, 'h'];
  const wanted = ['1:1 a', '1:2 b', '1:3 c', '1:4 d', '1:3 e', '2:1 f', '2:3 g', '1:4 h'];
  assert.deepStrictEqual(await places('a\u{1f980}b\n\u{1f980}c', messages), wanted);
  // Another text is counted anew.
  assert.deepStrictEqual(await places('abcdef', [5, 'a']), ['1:6 a']);
});

test('a text that is too long is not asked for', async () => {
  const before = asked.length;
  await type('x'.repeat(MOST + 1), () => new Response('', { status: 500 }));
  assert.strictEqual(byId('notice').textContent, 'The text has more than 2 MB, and is not parsed.');
  assert.strictEqual(asked.length, before);
  await type('x'.repeat(MOST), () => new Response(answerFor([1, 4 * 2 + 2, MOST, 0], [])));
  assert.strictEqual(byId('notice').hidden, true);
  assert.strictEqual(asked.length, before + 1);
});
