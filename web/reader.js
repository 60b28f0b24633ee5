// A text that is only read. The document holds its rows in sight, so that a long one is soon open. It has a cursor, which keys and clicks move.

/** The most units of a line that a row has: a longer line goes on in further rows, which have no number. */
const WIDEST_ROW = 400;
/** Lines end as ECMA-262 has it: "Line Terminators" (section 12.3). */
const TERMINATORS = /\r\n|[\n\r\u2028\u2029]/g;
/** Characters that are not seen, or that turn the direction of a text. They are shown by their numbers. */
const HIDDEN = /[\0-\x08\x0b\x0c\x0e-\x1f\x7f-\x9f\xad\u061c\u200b-\u200f\u202a-\u202e\u2060-\u206f\ufeff]/g;

class Reader extends TextView {
  /** `tells` has what becomes of a choice: `move`, `enter`, `step`, `search`. */
  constructor(pane, source, tells) {
    const rows = new Rows(pane, index => this.row(index));
    super(pane, rows.shown);
    Object.assign(this, { rows, source, tells, starts: [], ends: [], lines: [], caret: 0 });
    this.cut();
    const digits = String(this.lineCount).length;
    pane.style.setProperty('--digits', digits);
    this.margin = digits * this.width() + 32;
    rows.resize(this.starts.length);
    // A row that is painted anew between press and release gets no click.
    pane.addEventListener('mouseup', event => this.clicked(event));
    pane.addEventListener('keydown', event => this.key(event));
  }

  cut() {
    TERMINATORS.lastIndex = 0;
    let from = 0;
    for (let line = 1; ; line++) {
      const found = TERMINATORS.exec(this.source);
      this.cutLine(line, from, found ? found.index : this.source.length);
      this.lineCount = line;
      if (!found) return;
      from = TERMINATORS.lastIndex;
    }
  }

  cutLine(line, from, to) {
    do {
      const end = Math.min(this.whole(Math.min(from + WIDEST_ROW, to)), to);
      this.starts.push(from);
      this.ends.push(end);
      this.lines.push(line);
      line = '';
      from = end;
    } while (from < to);
  }

  endOf(row) {
    return this.ends[row];
  }

  touch() {
    this.rows.touch();
  }

  row(index) {
    const [from, to] = [this.starts[index], this.ends[index]];
    const row = make('div', 'row');
    Object.assign(row.dataset, { line: this.lines[index], row: index });
    row.append(...this.pieces(from, to, this.marks.between(from, to + 1)));
    return row;
  }

  /** The cursor, and what is shown by its number. */
  breaks(from, to) {
    const hidden = Array.from(this.source.slice(from, to).matchAll(HIDDEN), ({ index }) => ({ start: from + index, end: from + index + 1 }));
    return [{ start: this.caret, end: this.caret + 1 }, ...hidden];
  }

  looks(offset, marks) {
    const looks = super.looks(offset, marks);
    return offset === this.caret ? `${looks} caret` : looks;
  }

  piece(from, to, looks) {
    const piece = super.piece(from, to, looks);
    piece.dataset.from = from;
    if (piece.textContent.search(HIDDEN) === 0) {
      piece.classList.add('hidden');
      piece.dataset.code = `U+${this.source.charCodeAt(from).toString(16).toUpperCase().padStart(4, '0')}`;
    }
    return piece;
  }

  range() {
    return [this.caret, this.caret];
  }

  reveal(offset) {
    this.rows.reveal(this.rowOf(offset));
    // A row that is not there yet can't be scrolled to sideways.
    this.rows.paint();
    this.revealAcross(offset, this.margin);
  }

  /** Goes to an offset. */
  go(offset) {
    this.caret = Math.max(0, Math.min(offset, this.source.length));
    this.reveal(this.caret);
    this.tells.move();
  }

  /** Goes to a part of the text, which is lit. */
  select(start, end) {
    this.pane.focus({ preventScroll: true });
    this.show(start, end);
    this.go(start);
  }

  /** Goes so many rows down, as far along in its row. */
  goBy(count) {
    const from = this.rowOf(this.caret);
    const to = Math.max(0, Math.min(from + count, this.starts.length - 1));
    this.go(Math.min(this.starts[to] + this.caret - this.starts[from], this.ends[to]));
  }

  clicked(event) {
    const row = event.target.closest('.row');
    if (!row || event.button !== 0 || !getSelection().isCollapsed) return;
    const piece = event.target.closest('[data-from]');
    this.go(piece ? this.offsetIn(piece, event.clientX) : this.ends[row.dataset.row]);
  }

  /** The offset at a place of the window in a piece of a row. */
  offsetIn(piece, x) {
    const node = piece.firstChild;
    const range = document.createRange();
    range.setStart(node, 0);
    let low = 0;
    for (let high = node.length; high - low > 1;) {
      const middle = (low + high) >> 1;
      range.setEnd(node, middle);
      if (range.getBoundingClientRect().right <= x) low = middle;
      else high = middle;
    }
    return Number(piece.dataset.from) + low;
  }

  /** The offset behind the character at the cursor, or the one before it. */
  beside(by) {
    const { source, caret } = this;
    const isPair = at => source.codePointAt(at) > 0xffff || source.startsWith('\r\n', at);
    return by > 0 ? caret + (isPair(caret) ? 2 : 1) : caret - (isPair(caret - 2) ? 2 : 1);
  }

  key(event) {
    if (event.ctrlKey || event.metaKey || event.altKey) return;
    const page = Math.max(1, Math.floor(this.pane.clientHeight / ROW) - 1);
    const row = this.rowOf(this.caret);
    const keys = {
      ArrowLeft: () => this.go(this.beside(-1)),
      ArrowRight: () => this.go(this.beside(1)),
      ArrowUp: () => this.goBy(-1),
      ArrowDown: () => this.goBy(1),
      PageUp: () => this.goBy(-page),
      PageDown: () => this.goBy(page),
      Home: () => this.go(this.starts[row]),
      End: () => this.go(this.ends[row]),
      Enter: () => this.tells.enter(),
      n: () => this.tells.step(1),
      p: () => this.tells.step(-1),
      '/': () => this.tells.search(),
    };
    if (!Object.hasOwn(keys, event.key)) return;
    event.preventDefault();
    keys[event.key]();
  }
}
