// The tree: a row for each entry that the worker handed out. Of these the document holds those in sight.

/** How far a level is moved in, and up to which. */
const [STEP, MOST_STEPS] = [14, 40];
/** The entry that stands for the parts of a long list that are not shown. */
const isRest = ({ name }) => name === '..';

class TreeView {
  /** `tells` has what becomes of a choice: `light`, `select`, `toggle`, `widen`, `copy`, `search`. */
  constructor(pane, tells) {
    Object.assign(this, { pane, tells, listed: [], cursor: 0, lit: -1, root: null });
    this.rows = new Rows(pane, index => this.row(index));
    this.resizeWithNextFrame = withNextFrame(() => this.rows.resize(this.listed.length));
    // A row that is painted anew between press and release gets no click.
    pane.addEventListener('mousedown', event => this.clicked(event));
    pane.addEventListener('keydown', event => this.key(event));
  }

  /** Shows the tree of a new text, or why there is none, with the next frame: to ask how high the pane is has the browser lay out all. */
  renew(root, why) {
    this.take(root, why);
    this.resizeWithNextFrame();
  }

  /** Shows a tree at once. */
  show(root) {
    this.take(root, '');
    this.rows.resize(this.listed.length);
  }

  /** Takes in a tree. The cursor stays where it was, or goes to what that is folded into. */
  take(root, why) {
    const path = this.listed[this.cursor]?.path ?? '/';
    const lit = this.listed[this.lit]?.path;
    this.root = root;
    this.listed = root ? this.unfolded(root, 1, '', null) : [];
    this.cursor = Math.max(0, this.indexOf(path));
    this.lit = lit === undefined ? -1 : this.indexOf(lit);
    $('none').hidden = root !== null;
    $('none').textContent = root ? '' : why;
    this.pane.hidden = root === null;
    this.named();
  }

  /** An entry and all that is shown below it. */
  unfolded(entry, level, above, parent) {
    const row = { entry, level, parent, path: `${above}/${entry.name}` };
    return [row, ...(entry.entries ?? []).flatMap(it => this.unfolded(it, level + 1, row.path, row))];
  }

  /** The row of a path, or of the innermost that it is folded into. */
  indexOf(path) {
    const found = new Map(this.listed.map((row, index) => [row.path, index]));
    for (; path.length > 1; path = path.slice(0, path.lastIndexOf('/'))) if (found.has(path)) return found.get(path);
    return this.listed.length > 0 ? 0 : -1;
  }

  /** Shows what stands in an entry that was opened, or that nothing does where it was closed. */
  fill(id, entries) {
    const row = this.listed.find(({ entry }) => entry.id === id);
    if (!row) return;
    row.entry.entries = entries;
    this.show(this.root);
  }

  move(index) {
    this.cursor = Math.max(0, Math.min(index, this.listed.length - 1));
    this.rows.reveal(this.cursor);
    this.rows.paint();
    this.named();
  }

  /** Names the row of the cursor to who does not see it. */
  named() {
    this.pane.setAttribute('aria-activedescendant', `node-${this.cursor}`);
  }

  /** Lights the row of a path, and has it seen. */
  light(path) {
    this.lit = path === undefined ? -1 : this.indexOf(path);
    if (this.lit >= 0) this.rows.reveal(this.lit);
    else this.rows.touch();
  }

  /** Goes to a path. */
  goTo(path) {
    this.lit = this.indexOf(path);
    this.move(this.lit);
  }

  row(index) {
    const { entry, level } = this.listed[index];
    const row = make('div', 'row');
    Object.assign(row, { id: `node-${index}`, role: 'treeitem', ariaLevel: level, ariaSelected: index === this.cursor });
    row.dataset.index = index;
    row.style.paddingLeft = `${12 + STEP * Math.min(level - 1, MOST_STEPS)}px`;
    if (index === this.lit) row.classList.add('lit');
    if (index === this.cursor) row.classList.add('cursor');
    row.append(...(isRest(entry) ? this.rest(entry) : this.shown(entry, row)));
    return row;
  }

  rest({ label }) {
    return [make('span', 'twist', ''), make('span', 'rest', `.. ${label}`)];
  }

  /** What a row shows: the field, the kind, the name, the place. */
  shown(entry, row) {
    const canOpen = entry.id !== undefined && entry.label !== '[]';
    const isOpen = entry.entries !== undefined;
    if (canOpen) row.ariaExpanded = isOpen;
    const shown = [make('span', 'twist', canOpen ? (isOpen ? '\u25be' : '\u25b8') : '')];
    if (entry.name !== '') shown.push(make('span', 'key', `${entry.name}: `));
    shown.push(make('span', entry.id === undefined ? 'field' : 'kind', entry.label));
    if (entry.called) shown.push(make('span', 'called', ` ${entry.called}`));
    if (entry.start !== undefined) shown.push(make('span', 'place', ` ${entry.start}\u2013${entry.end}`));
    return shown;
  }

  /** Opens or closes an entry. */
  toggle(index) {
    const { entry } = this.listed[index];
    if (entry.id === undefined || entry.label === '[]') return;
    this.tells.toggle(entry.id, entry.entries === undefined);
  }

  /** Goes to a row, and lights its text. */
  choose(index) {
    this.move(index);
    const { entry, parent } = this.listed[this.cursor];
    this.lit = this.cursor;
    this.tells.light(entry.start === undefined ? this.nodeAbove(parent) : entry);
    this.rows.touch();
  }

  /** The node that a value or a list belongs to. */
  nodeAbove(row) {
    while (row && row.entry.start === undefined) row = row.parent;
    return row?.entry;
  }

  /** Shows more of a long list, before or behind what is shown. */
  widen(index) {
    const { parent } = this.listed[index];
    this.tells.widen(parent.entry.id, this.listed[index - 1] === parent);
  }

  clicked(event) {
    const row = event.target.closest('.row');
    if (!row || event.button !== 0) return;
    const index = Number(row.dataset.index);
    const { entry } = this.listed[index];
    if (isRest(entry)) return this.widen(index);
    this.choose(index);
    const isList = entry.id !== undefined && entry.start === undefined;
    if (isList || event.target.closest('.twist') || event.detail === 2) this.toggle(index);
  }

  /** Goes into an entry, or opens it. */
  right() {
    const { entry } = this.listed[this.cursor];
    if (entry.entries?.length > 0) this.choose(this.cursor + 1);
    else this.toggle(this.cursor);
  }

  /** Closes an entry, or goes to what it stands in. */
  left() {
    const { entry, parent } = this.listed[this.cursor];
    if (entry.entries) this.toggle(this.cursor);
    else if (parent) this.choose(this.listed.indexOf(parent));
  }

  enter() {
    const { entry, parent } = this.listed[this.cursor];
    if (isRest(entry)) this.widen(this.cursor);
    else this.tells.select(entry.start === undefined ? this.nodeAbove(parent) : entry);
  }

  key(event) {
    if (event.ctrlKey || event.metaKey || event.altKey || this.listed.length === 0) return;
    const page = Math.max(1, Math.floor(this.pane.clientHeight / ROW) - 1);
    const keys = {
      ArrowUp: () => this.choose(this.cursor - 1),
      ArrowDown: () => this.choose(this.cursor + 1),
      PageUp: () => this.choose(this.cursor - page),
      PageDown: () => this.choose(this.cursor + page),
      Home: () => this.choose(0),
      End: () => this.choose(this.listed.length - 1),
      ArrowRight: () => this.right(),
      ArrowLeft: () => this.left(),
      ' ': () => this.toggle(this.cursor),
      Enter: () => this.enter(),
      c: () => this.tells.copy(this.listed[this.cursor]),
      '/': () => this.tells.search(),
    };
    if (!Object.hasOwn(keys, event.key)) return;
    event.preventDefault();
    keys[event.key]();
  }
}
