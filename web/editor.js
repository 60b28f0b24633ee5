// A text that one types. Behind the area for it lies a layer that has the lines in sight once more, unseen: it shows what is underlined and lit.

/** The most units of a line that the layer has; of a longer one it has those in sight. */
const WIDEST = 1000;
/** Characters of one width. */
const EVEN = /^[ -~]*$/;

class Editor extends TextView {
  constructor(area, layer, gutter) {
    super(area, layer);
    Object.assign(this, { area, layer, gutter, hasSeparators: false, touch: withNextFrame(() => this.paint()) });
    area.addEventListener('scroll', () => this.paint());
    new ResizeObserver(() => this.paint()).observe(area);
  }

  /** Takes in a text that was changed. */
  take(source) {
    const by = source.length - this.source.length;
    if (this.marks.count > 0) this.marks = this.marks.move(this.area.selectionEnd - by, by);
    this.source = source;
    this.lit = { start: 0, end: 0 };
    this.starts = [0];
    for (let at = -1; (at = source.indexOf('\n', at + 1)) >= 0;) this.starts.push(at + 1);
    this.hasSeparators = /[\u2028\u2029]/.test(source);
    this.touch();
  }

  endOf(row) {
    return row + 1 < this.starts.length ? this.starts[row + 1] - 1 : this.source.length;
  }

  /** The number of the line that a row begins with. An area breaks no line at the separators of ECMA-262, 12.3. */
  lineOf(row) {
    if (!this.hasSeparators) return row + 1;
    return row + 1 + (this.source.slice(0, this.starts[row]).match(/[\u2028\u2029]/g)?.length ?? 0);
  }

  paint() {
    const { scrollTop, scrollLeft, clientHeight } = this.area;
    const first = Math.max(0, Math.floor(scrollTop / ROW));
    const end = Math.min(this.starts.length, Math.ceil((scrollTop + clientHeight) / ROW) + 1);
    const rows = [];
    const numbers = [];
    for (let row = first; row < end; row++) {
      rows.push(this.row(row, scrollLeft));
      numbers.push(make('div', '', this.lineOf(row)));
    }
    const top = first * ROW - scrollTop;
    this.layer.replaceChildren(...rows);
    this.layer.style.transform = `translate(${-scrollLeft}px, ${top}px)`;
    this.gutter.replaceChildren(...numbers);
    this.gutter.style.transform = `translateY(${top}px)`;
    this.widen(String(this.lineOf(this.starts.length - 1)).length);
  }

  /** Makes room for the numbers of lines. The text is laid out anew only where that changes. */
  widen(digits) {
    if (this.digits === digits) return;
    this.digits = digits;
    this.gutter.parentElement.style.width = `calc(${digits}ch + 20px)`;
  }

  /** A row of the layer: empty where there is nothing to show. */
  row(index, scrolled) {
    const row = make('div');
    let from = this.starts[index];
    let to = this.endOf(index);
    const marks = this.marks.between(from, to + 1);
    const { start, end } = this.lit;
    if (marks.length === 0 && (start > to || end <= from)) return row;
    if (to - from > WIDEST) {
      const before = Math.max(0, Math.floor(scrolled / this.width()) - 10);
      if (EVEN.test(this.source.slice(from, from + before))) {
        row.style.paddingLeft = `${before * this.width()}px`;
        from += before;
        to = Math.min(to, from + WIDEST);
      }
    }
    row.append(...this.pieces(from, to, marks));
    return row;
  }

  /** Scrolls to an offset that is out of sight. */
  reveal(offset) {
    const { area } = this;
    const row = this.rowOf(offset);
    if (row * ROW < area.scrollTop || (row + 1) * ROW > area.scrollTop + area.clientHeight) area.scrollTop = row * ROW - area.clientHeight / 2;
    this.revealAcross(offset, 0);
    this.touch();
  }

  range() {
    return [this.area.selectionStart, this.area.selectionEnd];
  }

  /** Goes to a part of the text. */
  select(start, end) {
    this.area.focus({ preventScroll: true });
    this.area.setSelectionRange(start, Math.max(end, start + 1));
    this.reveal(start);
  }
}
