'use strict';
const byId = (id) => document.getElementById(id);
const ROW = 20;
const LONGEST_LINE = 4000;
const MOST_LISTED = 100;
const MOST_IN_LINE = 4;
// How many levels of a tree are open at first.
const LEVELS = 3;
const { kinds, most } = JSON.parse(byId('data').textContent);
const textPane = byId('text');
const treePane = byId('tree');

// Where a pane is scrolled to and how high it is, as its last event said: to ask it for them has all of the page laid out.
const views = new Map();
function look(pane) {
  views.set(pane, { top: pane.scrollTop, left: pane.scrollLeft, height: pane.clientHeight });
}
// The first row in view, and the one after the last, of so many.
function rowsInView(pane, count) {
  const { top, height } = views.get(pane);
  return [Math.max(0, Math.floor(top / ROW) - 2), Math.min(count, Math.ceil((top + height) / ROW) + 2)];
}

// The tree's items, nodes and tokens, in the order of the text. An item's children are those after it up to `end`.
// Places are units of UTF-16.
let tree = noTree();
let messages = [];
let folded = new Set();
let hits = new Set();
let chosen = 0;
let text = '';
let lineStarts = [0];

function noTree() {
  const list = () => new Int32Array(0);
  return { count: 0, kind: list(), leaf: list(), parent: list(), end: list(), depth: list(), start: list(),
    stop: list(), leaves: list() };
}

// Reads the numbers of a tree's steps, of which each item has two.
function treeOf(numbers) {
  const count = numbers.length / 2;
  const list = () => new Int32Array(count);
  const made = { count, kind: list(), leaf: list(), parent: list(), end: list(), depth: list(), start: list(),
    stop: list(), leaves: list() };
  let item = 0, leaves = 0, open = -1, depth = 0, at = 0;
  for (let i = 0; i < numbers.length; i += 1) {
    if (numbers[i] === 0) {
      made.end[open] = item;
      made.stop[open] = at;
      open = made.parent[open];
      depth -= 1;
      continue;
    }
    made.kind[item] = numbers[i] >> 2;
    made.parent[item] = open;
    made.depth[item] = depth;
    made.start[item] = at;
    if ((numbers[i] & 3) === 1) {
      open = item;
      depth += 1;
    } else {
      i += 1;
      at += numbers[i];
      made.leaf[item] = 1;
      made.stop[item] = at;
      made.end[item] = item + 1;
      made.leaves[leaves] = item;
      leaves += 1;
    }
    item += 1;
  }
  made.leaves = made.leaves.subarray(0, leaves);
  return made;
}

function colourOf(name) {
  if (name === 'WHITESPACE') return '';
  if (name.endsWith('COMMENT') || name === 'SHEBANG' || name === 'FRONTMATTER') return 'c';
  if (name === 'IDENT') return 'i';
  if (name === 'LIFETIME_IDENT') return 'l';
  if (name === 'ERROR') return 'e';
  if (name.endsWith('_KW')) return 'k';
  if (name.endsWith('_NUMBER')) return 'n';
  if (name.endsWith('STRING') || name === 'CHAR' || name === 'BYTE') return 's';
  return 'p';
}
const colours = kinds.map(colourOf);

// The last index of a sorted list whose value is at most this one, or 0.
function lastUpTo(length, valueAt, value) {
  let low = 0, high = length - 1;
  while (low < high) {
    const middle = (low + high + 1) >> 1;
    if (valueAt(middle) <= value) low = middle;
    else high = middle - 1;
  }
  return low;
}
const leafIndexAt = (place) => lastUpTo(tree.leaves.length, (k) => tree.start[tree.leaves[k]], place);
const lineAt = (place) => lastUpTo(lineStarts.length, (k) => lineStarts[k], place);
const counted = (n, what) => n.toLocaleString('en') + ' ' + what + (n === 1 ? '' : 's');

// How many characters of a line are before a place. It is counted on from the place that was asked for last: of many
// messages at the end of a long line each would else have the whole line counted.
let lastAsked = { line: -1, place: 0, before: 0 };
function charactersBefore(line, place) {
  const isFurther = lastAsked.line === line && lastAsked.place <= place;
  let at = isFurther ? lastAsked.place : lineStarts[line];
  let before = isFurther ? lastAsked.before : 0;
  for (; at < place; at += text.codePointAt(at) > 0xffff ? 2 : 1) before += 1;
  lastAsked = { line, place, before };
  return before;
}
// A place as the line and the character in it, from 1.
function placeName(place) {
  const line = lineAt(place);
  return line + 1 + ':' + (charactersBefore(line, place) + 1);
}
function piece(className, content) {
  const span = document.createElement('span');
  span.className = className;
  span.textContent = content;
  return span;
}

// Shows rows in a box, each a text of all that is seen of it and how it is made. A row that shows the same as before
// stays: to make all of them anew takes longer than to parse the text.
function showRows(box, list) {
  list.forEach(([shown, make], i) => {
    const old = box.children[i];
    if (old && old.shown === shown) return;
    const row = make();
    row.shown = shown;
    if (old) old.replaceWith(row);
    else box.append(row);
  });
  while (box.children.length > list.length) box.lastChild.remove();
}

// The text: the lines in view are drawn under the field that is typed in, whose own letters are not seen.
function findLines() {
  lineStarts = [0];
  lastAsked.line = -1;
  for (let at = text.indexOf('\n'); at >= 0; at = text.indexOf('\n', at + 1)) lineStarts.push(at + 1);
}
function lineStop(line) {
  return line + 1 < lineStarts.length ? lineStarts[line + 1] - 1 : text.length;
}
// What a line shows: its pieces, each a class and a text.
function linePieces(line) {
  const start = lineStarts[line], whole = lineStop(line);
  const stop = Math.min(whole, start + LONGEST_LINE);
  const from = tree.start[chosen], to = tree.stop[chosen];
  const marks = tree.count > 0 && to - from < text.length;
  const pieces = [];
  let at = start;
  for (let k = leafIndexAt(start); at < stop && k < tree.leaves.length; k += 1) {
    const leaf = tree.leaves[k];
    const end = Math.min(stop, tree.stop[leaf]);
    if (end <= at) continue;
    const on = marks && tree.start[leaf] >= from && tree.stop[leaf] <= to ? ' on' : '';
    pieces.push(colours[tree.kind[leaf]] + on + (wrongLeaves.has(leaf) ? ' wavy' : ''), text.slice(at, end));
    at = end;
  }
  if (at < whole) pieces.push('', text.slice(at, whole));
  const said = notes.get(line);
  if (said && said.atEnd) pieces.push('wavy', '\u00a0');
  if (said) pieces.push('note', '\u25c2 ' + said.texts.join('; '));
  return pieces;
}
function lineRow(line, pieces) {
  const row = document.createElement('div');
  row.className = 'line';
  row.dataset.number = line + 1;
  row.style.top = line * ROW + 'px';
  for (let i = 0; i < pieces.length; i += 2) row.append(piece(pieces[i], pieces[i + 1]));
  return row;
}
function drawText() {
  const [first, last] = rowsInView(textPane, lineStarts.length);
  const { top, left } = views.get(textPane);
  const list = [];
  for (let line = first; line < last; line += 1) {
    const pieces = linePieces(line);
    list.push([line + '\n' + pieces.join('\n'), () => lineRow(line, pieces)]);
  }
  showRows(byId('under'), list);
  byId('under').style.transform = 'translate(' + -left + 'px,' + -top + 'px)';
}

// The messages: the item at whose place each stands, and the line at whose end it is shown.
const notes = new Map();
const saidAt = new Map();
const wrongLeaves = new Set();
function placeMessages(said) {
  messages = [];
  notes.clear();
  saidAt.clear();
  wrongLeaves.clear();
  for (let i = 0; i < said.length; i += 2) {
    const place = said[i];
    const item = tree.leaves.length > 0 ? tree.leaves[leafIndexAt(place)] : 0;
    const line = lineAt(place);
    messages.push({ place, item, said: said[i + 1] });
    if (!notes.has(line)) notes.set(line, { texts: [], atEnd: false });
    if (notes.get(line).texts.length < MOST_IN_LINE) notes.get(line).texts.push(said[i + 1]);
    if (place === lineStop(line)) notes.get(line).atEnd = true;
    else wrongLeaves.add(item);
    if (!saidAt.has(item)) saidAt.set(item, []);
    if (saidAt.get(item).length < MOST_IN_LINE) saidAt.get(item).push(said[i + 1]);
  }
}
function listMessages() {
  byId('headline').textContent = messages.length === 0 ? 'No messages' : counted(messages.length, 'message');
  const list = messages.slice(0, MOST_LISTED).map((message) => {
    const entry = document.createElement('li');
    const button = document.createElement('button');
    button.type = 'button';
    button.textContent = placeName(message.place) + ' ' + message.said;
    button.addEventListener('click', () => choose(message.item, null));
    entry.item = message.item;
    entry.append(button);
    return entry;
  });
  if (messages.length > MOST_LISTED) {
    const entry = document.createElement('li');
    entry.textContent = (messages.length - MOST_LISTED).toLocaleString('en') + ' more stand at their lines';
    list.push(entry);
  }
  byId('messages').replaceChildren(...list);
}

// The tree: only the rows in view are in the document.
let rows = new Int32Array(0);
let rowCount = 0;
function layTree() {
  if (rows.length < tree.count) rows = new Int32Array(tree.count);
  rowCount = 0;
  for (let item = 0; item < tree.count;) {
    rows[rowCount] = item;
    rowCount += 1;
    item = folded.has(item) ? tree.end[item] : item + 1;
  }
  byId('rows').style.height = rowCount * ROW + 'px';
}
const rowOf = (item) => lastUpTo(rowCount, (k) => rows[k], item);
function short(item) {
  const most = tree.leaf[item] ? 60 : 40;
  const start = tree.start[item], stop = tree.stop[item];
  const whole = text.slice(start, Math.min(stop, start + most));
  const more = stop - start > most ? '\u2026' : '';
  return tree.leaf[item] ? JSON.stringify(whole) + more : whole.replace(/\s+/g, ' ') + more;
}
// What a row of the tree shows.
function rowParts(index) {
  const item = rows[index];
  const folds = !tree.leaf[item] && tree.end[item] > item + 1;
  const isOpen = !folded.has(item);
  const isShort = tree.leaf[item] || !isOpen;
  return {
    index, folds, isOpen, kind: tree.kind[item], leaf: tree.leaf[item] === 1, depth: tree.depth[item],
    chosen: item === chosen, hit: hits.has(tree.kind[item]), text: isShort ? short(item) : '', said: (saidAt.get(item) ?? []).join('; '),
  };
}
function itemRow(parts) {
  const name = kinds[parts.kind];
  const row = document.createElement('div');
  row.className = 'item';
  row.classList.toggle('leaf', parts.leaf);
  row.classList.toggle('wrong', name === 'ERROR');
  row.classList.toggle('hit', parts.hit);
  row.setAttribute('role', 'treeitem');
  row.setAttribute('aria-level', parts.depth + 1);
  row.setAttribute('aria-selected', parts.chosen ? 'true' : 'false');
  if (parts.folds) row.setAttribute('aria-expanded', parts.isOpen ? 'true' : 'false');
  row.style.top = parts.index * ROW + 'px';
  row.style.paddingLeft = 4 + Math.min(parts.depth, 200) * 14 + 'px';
  const fold = piece('fold', parts.folds ? (parts.isOpen ? '\u25be' : '\u25b8') : '');
  fold.setAttribute('aria-hidden', 'true');
  row.append(fold, piece('kind', name));
  if (parts.text) row.append(' ', piece(parts.leaf ? colours[parts.kind] : 'short', parts.text));
  if (parts.said) row.append(' ', piece('said', '\u25c2 ' + parts.said));
  return row;
}
function drawTree() {
  const [first, last] = rowsInView(treePane, rowCount);
  const list = [];
  for (let index = first; index < last; index += 1) {
    const parts = rowParts(index);
    list.push([Object.values(parts).join('\n'), () => itemRow(parts)]);
  }
  showRows(byId('rows'), list);
  // The numbers of the items change where a token comes or goes before them.
  for (let index = first; index < last; index += 1) {
    const row = byId('rows').children[index - first];
    if (row.item === rows[index]) continue;
    row.item = rows[index];
    row.id = 'item-' + rows[index];
  }
  if (byId('item-' + chosen)) treePane.setAttribute('aria-activedescendant', 'item-' + chosen);
  else treePane.removeAttribute('aria-activedescendant');
}
function setOpen(item, open) {
  if (tree.leaf[item] || tree.end[item] === item + 1) return;
  if (open) folded.delete(item);
  else folded.add(item);
  if (!open && chosen > item && chosen < tree.end[item]) choose(item, treePane);
  layTree();
  drawTree();
}
function bringIntoView(pane, top) {
  const view = views.get(pane);
  if (top < view.top || top + ROW > view.top + view.height) {
    pane.scrollTop = Math.max(0, top - view.height / 3);
    look(pane);
  }
}

// Marks an item on both sides. The text moves only where the choice was not made in it.
function choose(item, from) {
  if (tree.count === 0) return;
  chosen = item;
  let opened = false;
  for (let up = tree.parent[item]; up >= 0; up = tree.parent[up]) opened = folded.delete(up) || opened;
  if (opened) layTree();
  bringIntoView(treePane, rowOf(item) * ROW);
  if (from !== textPane) bringIntoView(textPane, lineAt(tree.start[item]) * ROW);
  drawTree();
  drawText();
  byId('place').textContent = kinds[tree.kind[item]] + ' at ' + placeName(tree.start[item]) + ': ' + short(item);
  for (const entry of byId('messages').children) entry.className = entry.item === item ? 'chosen' : '';
}
function chooseAtCaret() {
  if (tree.leaves.length === 0) return;
  let k = leafIndexAt(textPane.selectionStart);
  const isBlank = colours[tree.kind[tree.leaves[k]]] === '';
  // Behind the end of a word the word is meant, not the white space.
  if (isBlank && k > 0 && tree.start[tree.leaves[k]] === textPane.selectionStart) k -= 1;
  choose(tree.leaves[k], textPane);
}

// After an edit the old tree is stretched over the new text until its own comes: what was typed is where it was typed.
function stretch(old, now) {
  const most = Math.min(old.length, now.length);
  let before = 0, after = 0;
  while (before < most && old.charCodeAt(before) === now.charCodeAt(before)) before += 1;
  while (after < most - before &&
    old.charCodeAt(old.length - 1 - after) === now.charCodeAt(now.length - 1 - after)) after += 1;
  const from = old.length - after, by = now.length - old.length;
  const moved = (place) => (place <= before ? place : place >= from ? place + by : before);
  if (tree.count === 0) return;
  // Of the items that begin before the edit only those around it end after it: the last one, and those that hold it.
  const last = lastUpTo(tree.count, (item) => tree.start[item], before);
  for (let item = last + 1; item < tree.count; item += 1) {
    tree.start[item] = moved(tree.start[item]);
    tree.stop[item] = moved(tree.stop[item]);
  }
  for (let item = last; item >= 0; item = tree.parent[item]) tree.stop[item] = moved(tree.stop[item]);
}
// The folded nodes of the new tree: those of a kind and a place where one was folded.
function keepFolds(old, made) {
  const keys = new Set();
  for (const item of folded) if (item < old.count) keys.add(old.start[item] * 512 + old.kind[item]);
  folded = new Set();
  if (keys.size === 0) return;
  for (let item = 0; item < made.count; item += 1) {
    if (!made.leaf[item] && keys.has(made.start[item] * 512 + made.kind[item])) folded.add(item);
  }
}

// Folds the nodes from a level on.
function foldFrom(level) {
  folded = new Set();
  for (let item = 0; item < tree.count; item += 1) {
    if (!tree.leaf[item] && tree.depth[item] >= level && tree.end[item] > item + 1) folded.add(item);
  }
}
function foldAll(level) {
  foldFrom(level);
  if (folded.size > 0 && tree.count > 0) {
    // What is chosen stays in view: the outermost folded node around it is chosen in its place.
    let item = chosen;
    for (let up = tree.parent[chosen]; up >= 0; up = tree.parent[up]) if (folded.has(up)) item = up;
    chosen = item;
  }
  layTree();
  if (tree.count > 0) choose(chosen, treePane);
}

// The kinds that a search finds, and the items of these kinds.
let found = [];
function searchKinds() {
  const asked = byId('kind').value.trim().toUpperCase();
  const exact = kinds.includes(asked);
  hits = new Set();
  kinds.forEach((name, kind) => {
    if (asked !== '' && (exact ? name === asked : name.includes(asked))) hits.add(kind);
  });
  found = [];
  if (hits.size > 0) for (let item = 0; item < tree.count; item += 1) if (hits.has(tree.kind[item])) found.push(item);
  byId('found').textContent = asked === '' ? '' : found.length === 0 ? 'none' : found.length + ' found';
}
function goToFound(isForward) {
  if (found.length === 0) return;
  const upTo = lastUpTo(found.length, (k) => found[k], chosen);
  let next;
  if (isForward) next = found[upTo] > chosen ? upTo : (upTo + 1) % found.length;
  else next = found[upTo] < chosen ? upTo : (upTo + found.length - 1) % found.length;
  choose(found[next], null);
  byId('found').textContent = next + 1 + ' of ' + found.length;
}

// A text in the part of an address that no browser sends: its bytes, made shorter, in the letters of base64.
async function packed(bytes, stream) {
  const answer = new Response(new Blob([bytes]).stream().pipeThrough(stream));
  return new Uint8Array(await answer.arrayBuffer());
}
async function fragmentOf(whole) {
  const bytes = await packed(new TextEncoder().encode(whole), new CompressionStream('deflate-raw'));
  let letters = '';
  for (const byte of bytes) letters += String.fromCharCode(byte);
  return btoa(letters).replaceAll('+', '-').replaceAll('/', '_').replaceAll('=', '');
}
async function textOf(fragment) {
  const letters = atob(fragment.replaceAll('-', '+').replaceAll('_', '/'));
  const bytes = Uint8Array.from(letters, (letter) => letter.charCodeAt(0));
  return new TextDecoder('utf-8', { fatal: true }).decode(await packed(bytes, new DecompressionStream('deflate-raw')));
}
async function makeLink() {
  const words = new URLSearchParams({ edition: byId('edition').value, entry: byId('entry').value });
  history.replaceState(null, '', '#' + words + '&text=' + await fragmentOf(text));
  byId('state').textContent = 'the address holds the text';
}
// Reads the text that the address holds, if it holds one.
async function readLink() {
  const words = new URLSearchParams(location.hash.slice(1));
  if (!words.has('text')) return;
  try {
    textPane.value = await textOf(words.get('text'));
  } catch {
    byId('state').textContent = 'the address holds no text';
    return;
  }
  for (const name of ['edition', 'entry']) {
    const field = byId(name);
    if ([...field.options].some((it) => it.value === words.get(name))) field.value = words.get(name);
  }
}

// Shows no tree, and says why.
function showNone(why) {
  tree = noTree();
  folded = new Set();
  chosen = 0;
  placeMessages([]);
  layTree();
  listMessages();
  searchKinds();
  drawTree();
  drawText();
  byId('notice').textContent = why;
  byId('notice').hidden = false;
  byId('headline').textContent = '';
  byId('counts').textContent = '';
  byId('place').textContent = '';
  byId('state').textContent = '';
  isFirst = true;
}

// One text is asked for at a time; what was typed meanwhile is asked for next.
let isFirst = true;
let isAsked = false;
let isStale = false;
async function ask() {
  if (isAsked) {
    isStale = true;
    return;
  }
  isAsked = true;
  isStale = false;
  const asked = text, begin = performance.now();
  if (new Blob([asked]).size > most) {
    showNone('The text has more than ' + most / (1 << 20) + ' MB, and is not parsed.');
    isAsked = false;
    return;
  }
  try {
    const query = 'edition=' + byId('edition').value + '&entry=' + byId('entry').value;
    const response = await fetch('/parse?' + query, { method: 'POST', body: asked });
    if (response.ok) {
      const bytes = await response.arrayBuffer();
      if (text === asked) draw(bytes, begin);
    } else {
      const why = (await response.text()).trim();
      showNone(why.charAt(0).toUpperCase() + why.slice(1) + '.');
    }
  } catch (error) {
    byId('state').textContent = 'no answer: ' + error.message;
  }
  isAsked = false;
  if (isStale || text !== asked) ask();
}
function draw(bytes, begin) {
  const count = new Uint32Array(bytes, 0, 1)[0];
  const made = treeOf(new Uint32Array(bytes, 4, count));
  keepFolds(tree, made);
  tree = made;
  chosen = 0;
  if (isFirst) foldFrom(LEVELS);
  isFirst = false;
  byId('notice').hidden = true;
  placeMessages(JSON.parse(new TextDecoder().decode(new Uint8Array(bytes, 4 + 4 * count))));
  layTree();
  listMessages();
  searchKinds();
  if (tree.leaves.length > 0 && document.activeElement === textPane) chooseAtCaret();
  else {
    drawTree();
    drawText();
  }
  const nodes = tree.count - tree.leaves.length;
  byId('counts').textContent = counted(tree.leaves.length, 'token') + ', ' + counted(nodes, 'node');
  byId('state').textContent = Math.round(performance.now() - begin) + ' ms';
}

textPane.addEventListener('input', () => {
  const old = text;
  text = textPane.value;
  ask();
  stretch(old, text);
  findLines();
  drawText();
});
textPane.addEventListener('scroll', () => { look(textPane); drawText(); }, { passive: true });
textPane.addEventListener('click', chooseAtCaret);
textPane.addEventListener('keyup', (event) => {
  if (event.key.startsWith('Arrow') || event.key === 'Home' || event.key === 'End') chooseAtCaret();
});
treePane.addEventListener('scroll', () => { look(treePane); requestAnimationFrame(drawTree); }, { passive: true });
treePane.addEventListener('click', (event) => {
  const row = event.target.closest('.item');
  if (!row) return;
  if (event.target.className === 'fold') setOpen(row.item, folded.has(row.item));
  else choose(row.item, treePane);
});
treePane.addEventListener('dblclick', (event) => {
  const row = event.target.closest('.item');
  if (row) setOpen(row.item, folded.has(row.item));
});
treePane.addEventListener('keydown', (event) => {
  if (event.altKey || event.ctrlKey || event.metaKey || tree.count === 0) return;
  const index = rowOf(chosen);
  const page = Math.max(1, Math.floor(views.get(treePane).height / ROW) - 1);
  const by = { ArrowDown: 1, ArrowUp: -1, PageDown: page, PageUp: -page, Home: -rowCount, End: rowCount }[event.key];
  if (by !== undefined) choose(rows[Math.max(0, Math.min(rowCount - 1, index + by))], treePane);
  else if (event.key === 'ArrowRight') setOpen(chosen, true);
  else if (event.key === 'ArrowLeft' && !tree.leaf[chosen] && !folded.has(chosen)) setOpen(chosen, false);
  else if (event.key === 'ArrowLeft') choose(Math.max(0, tree.parent[chosen]), treePane);
  else return;
  event.preventDefault();
});
byId('less').addEventListener('click', () => foldAll(LEVELS));
byId('more').addEventListener('click', () => foldAll(Infinity));
byId('kind').addEventListener('input', () => { searchKinds(); drawTree(); });
byId('search').addEventListener('submit', (event) => { event.preventDefault(); goToFound(true); });
byId('previous').addEventListener('click', () => goToFound(false));
byId('link').addEventListener('click', makeLink);
for (const name of [...kinds].sort()) {
  const option = document.createElement('option');
  option.value = name;
  byId('kinds').append(option);
}
byId('entry').addEventListener('change', ask);
byId('edition').addEventListener('change', ask);
new ResizeObserver(() => { look(textPane); look(treePane); drawTree(); drawText(); }).observe(treePane);
textPane.value = JSON.parse(byId('data').textContent).text;
readLink().then(() => {
  text = textPane.value;
  textPane.setSelectionRange(0, 0);
  look(textPane);
  look(treePane);
  findLines();
  drawText();
  ask();
});
