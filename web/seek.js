'use strict';
// The part of the page's worker that finds what is looked for in the last answer: the node around a place of the text, nodes by kind or name, and
// all places that are told to be wrong.

const seek = (() => {
  const MOST_HITS = 1000;
  /** The most levels that are opened at once, and the most nodes around a place that are named. */
  const [MOST_LEVELS, MOST_NAMED] = [500, 9];
  /** A fault's line ends, or it tells a place. What stands in a string has a backslash before each quotation mark. */
  const PLACE = /\n|"start":(\d+),"end":(\d+)/g;
  /** How many numbers a mark has: where it begins, where it ends, and whether it is a note. */
  const MARK_LENGTH = 3;

  /** How a node lies to a part of the text: around it, or only beside it; or neither. */
  function liesAt(head, start, end) {
    const [from, to] = [Number(head[2]), Number(head[3])];
    if (from > start || to < end) return null;
    return start === end && start === to ? 'beside' : 'around';
  }

  /** Where the last node of a list up to an index begins; a hole is none. */
  function placeUpTo(list, index) {
    while (index >= 0 && written[list[index]] !== OPEN) index--;
    return index < 0 ? -1 : Number(headOf(list[index])[2]);
  }

  /** The node of a list in which some text lies, or that ends there. Nodes stand in the order of their places; comments and tokens are none. */
  function innerOfList({ from, path }, start, end) {
    if (written[from + 1] === OPEN && !headOf(from + 1)) return null;
    const list = startsOf(from);
    let low = 0;
    for (let high = list.length; low < high;) {
      const middle = (low + high) >> 1;
      if (placeUpTo(list, middle) > start) high = middle;
      else low = middle + 1;
    }
    while (low > 0 && written[list[low - 1]] !== OPEN) low--;
    const head = low > 0 && headOf(list[low - 1]);
    const lies = head && liesAt(head, start, end);
    return lies ? { way: [{ from: list[low - 1], path: `${path}/${low - 1}`, head }], lies } : null;
  }

  /** What a part of a node is to some text: a node, or a list with one, in which the text lies. */
  function innerOfPart(inner, start, end) {
    if (written[inner.from] === OPEN_LIST) {
      const below = innerOfList(inner, start, end);
      return below && { way: [inner, ...below.way], lies: below.lies };
    }
    const head = written[inner.from] === OPEN && headOf(inner.from);
    const lies = head && liesAt(head, start, end);
    return lies ? { way: [{ ...inner, head }], lies } : null;
  }

  /** The part of a node in which some text lies, with the list that it stands in. What only ends there is taken where nothing else is. */
  function innerOf({ from, path }, start, end) {
    let beside = null;
    for (const part of partsAt(from)) {
      const found = innerOfPart({ from: part.from, path: `${path}/${part.name}` }, start, end);
      if (found?.lies === 'around') return found;
      beside = found ?? beside;
    }
    return beside;
  }

  /** The nodes and lists from the whole to the innermost node around a part of the text. */
  function wayTo(start, end) {
    const way = [{ from: TREE.length, path: '/', head: headOf(TREE.length) }];
    for (let found; (found = innerOf(way.at(-1), start, end));) way.push(...found.way);
    return way;
  }

  /** The path of the innermost node of a way that is not too deep to be opened. */
  const pathOf = way => way.findLast((it, index) => it.head && index < MOST_LEVELS).path;

  /** Has a list show a part of it that stands at an index. */
  function windowTo(path, index) {
    const [first, end] = windows.get(path) ?? [0, MOST_ENTRIES];
    if (index >= first && index < end) return;
    const begin = Math.max(0, index - (MOST_ENTRIES >> 1));
    windows.set(path, [begin, begin + MOST_ENTRIES]);
  }

  /** Opens all that stands above a path, and nothing that was opened for the last one that was looked at. */
  function follow(path) {
    followed = new Set();
    const names = path.slice(2).split('/');
    let above = '/';
    for (const name of names) {
      followed.add(above);
      if (/^\d+$/.test(name)) windowTo(above, Number(name));
      above += `/${name}`;
    }
  }

  const treeShown = () => entryOf({ name: '', from: TREE.length }, '');

  const isTree = () => parts.textOf(written, 0, TREE.length) === TREE && written[TREE.length] === OPEN;

  /** A node in few words. */
  function saidAt({ from, head }) {
    const name = nameAt(from);
    return name ? `${head[1]} ${shortened(name)}` : head[1];
  }

  /** The innermost node around a part of the text. `unfolds` has the tree opened to it. */
  function around([start, end], unfolds) {
    if (!isTree()) return { at: [start, end], way: [] };
    const way = wayTo(start, end);
    const { head } = way.at(-1);
    const path = pathOf(way);
    if (unfolds) follow(path);
    const said = way.filter(it => it.head).slice(-MOST_NAMED).map(saidAt);
    const found = { at: [start, end], path, start: Number(head[2]), end: Number(head[3]), way: said };
    return unfolds ? { ...found, tree: treeShown() } : found;
  }

  /** The tree, opened to a path. */
  function unfolded(path) {
    follow(path);
    return { path, tree: treeShown() };
  }

  /** What stands in a list once more of it is shown. */
  function widened(id, isBefore) {
    const { from, path } = places[id];
    const [first, end] = windows.get(path) ?? [0, MOST_ENTRIES];
    windows.set(path, isBefore ? [Math.max(0, first - MOST_ENTRIES), end] : [first, end + MOST_ENTRIES]);
    return entriesOf(from, path);
  }

  /** The name of a node, as `nameAt` finds it in what was written. */
  function nameOf(node, levels = MOST_NAME_LEVELS) {
    if (typeof node === 'string') return node;
    if (Array.isArray(node)) return nameOf(node[0], levels);
    return node && NAMES[node.type] && levels > 0 ? nameOf(node[NAMES[node.type]], levels - 1) : undefined;
  }

  /** The path of what stands in the objects and lists above it, or of the innermost that is not too deep to be opened. */
  function pathTo(at) {
    const names = [];
    for (; at; at = at.above) if (at.level < MOST_LEVELS) names.push(`/${at.name}`);
    return names.reverse().join('');
  }

  /** The nodes whose kind, or kind and name, hold some words, and how many there are. Capitals count as small letters. */
  function searched(words) {
    const wanted = words.toLowerCase();
    const hits = [];
    let count = 0;
    const left = wanted && isTree() ? [{ node: JSON.parse(valueOf(TREE.length)), name: '', level: 0, above: null }] : [];
    while (left.length > 0) {
      const at = left.pop();
      const { type, start, end } = at.node;
      if (typeof type === 'string' && start !== undefined && `${type} ${nameOf(at.node) ?? ''}`.toLowerCase().includes(wanted)) {
        count++;
        if (hits.length < MOST_HITS) hits.push({ path: pathTo(at), start, end });
      }
      const inner = [];
      for (const name in at.node) if (typeof at.node[name] === 'object' && at.node[name]) inner.push({ node: at.node[name], name, level: at.level + 1, above: at });
      while (inner.length > 0) left.push(inner.pop());
    }
    return { words, hits, count };
  }

  /** The places of all faults and of their notes, sorted by where they begin. */
  function marksOf() {
    if (faultPlaces.length === 0) return new Int32Array(0);
    const text = parts.textOf(written, faultPlaces[0][0], faultPlaces.at(-1)[1]);
    const marks = [];
    let isNote = 0;
    for (const [, start, end] of text.matchAll(PLACE)) {
      if (start !== undefined) marks.push([Number(start), Number(end), isNote]);
      isNote = start === undefined ? 0 : 1;
    }
    marks.sort((a, b) => a[0] - b[0]);
    const numbers = new Int32Array(marks.length * MARK_LENGTH);
    marks.forEach((mark, index) => numbers.set(mark, index * MARK_LENGTH));
    return numbers;
  }

  return { around, unfolded, widened, searched, marksOf };
})();
