// A text in rows, with what is underlined and lit in it. An area that one types in (editor.js) and a text that is only read (reader.js) are such views.

/** How many numbers a mark has: where it begins, where it ends, and whether it is a note. */
const MARK_LENGTH = 3;

/** What is underlined, by where it begins. */
class Marks {
  constructor(numbers) {
    this.numbers = numbers;
    this.count = numbers.length / MARK_LENGTH;
    this.furthest = new Int32Array(this.count);
    let furthest = 0;
    for (let index = 0; index < this.count; index++) {
      furthest = Math.max(furthest, this.end(index));
      this.furthest[index] = furthest;
    }
  }

  start(index) {
    return this.numbers[index * MARK_LENGTH];
  }

  /** A mark of nothing is one of what stands behind it. */
  end(index) {
    return Math.max(this.numbers[index * MARK_LENGTH + 1], this.start(index) + 1);
  }

  /** Those with a place between two offsets. */
  between(from, to) {
    let low = 0;
    for (let high = this.count; low < high;) {
      const middle = (low + high) >> 1;
      if (this.start(middle) < to) low = middle + 1;
      else high = middle;
    }
    const found = [];
    for (let index = low - 1; index >= 0 && this.furthest[index] > from; index--) {
      if (this.end(index) > from) found.push({ start: this.start(index), end: this.end(index), isNote: this.numbers[index * MARK_LENGTH + 2] === 1 });
    }
    return found.reverse();
  }

  /** Has all that stands behind a change move with it, until the text is answered. */
  move(from, by) {
    for (let index = 0; index < this.count; index++) {
      for (const at of [index * MARK_LENGTH, index * MARK_LENGTH + 1]) if (this.numbers[at] >= from) this.numbers[at] += by;
    }
    return new Marks(this.numbers);
  }
}

/** What both views have. Each says besides where a row ends (`endOf`), how it is painted (`touch`) and scrolled to (`reveal`), where its cursor is
 * (`range`), and how one goes to a part of its text (`select`). */
class TextView {
  /** `pane` scrolls and takes keys, `sheet` holds the rows. */
  constructor(pane, sheet) {
    Object.assign(this, { pane, sheet, source: '', starts: [0], lit: { start: 0, end: 0 } });
    this.marks = new Marks(new Int32Array(0));
  }

  mark(numbers) {
    this.marks = new Marks(numbers);
    this.touch();
  }

  light(start, end) {
    this.lit = { start, end };
    this.touch();
  }

  /** Lights a part of the text, and scrolls to it. */
  show(start, end) {
    this.light(start, Math.max(end, start + 1));
    this.reveal(start);
  }

  /** The row that holds an offset. */
  rowOf(offset) {
    let low = 0;
    for (let high = this.starts.length; high - low > 1;) {
      const middle = (low + high) >> 1;
      if (this.starts[middle] <= offset) low = middle;
      else high = middle;
    }
    return low;
  }

  /** The width of a character of a text of one width. */
  width() {
    if (!this.char) {
      const probe = this.sheet.appendChild(make('span', '', 'x'.repeat(100)));
      this.char = probe.getBoundingClientRect().width / 100;
      probe.remove();
    }
    return this.char;
  }

  /** Scrolls sideways to an offset that is out of sight. `margin` is what numbers of lines take of the pane. */
  revealAcross(offset, margin) {
    const { pane } = this;
    const left = (offset - this.starts[this.rowOf(offset)]) * this.width();
    const seen = pane.clientWidth - margin;
    if (left < pane.scrollLeft || left + 8 * this.width() > pane.scrollLeft + seen) pane.scrollLeft = left - seen / 2;
  }

  /** A part of a line, cut where it changes its looks. */
  pieces(from, to, marks) {
    const cuts = new Set([from, to]);
    for (const { start, end } of [...marks, this.lit, ...this.breaks(from, to)]) {
      if (start < to && end > from) cuts.add(this.whole(Math.max(start, from))).add(this.whole(Math.min(end, to)));
    }
    const sorted = [...cuts].sort((a, b) => a - b);
    const pieces = sorted.slice(1).map((end, index) => this.piece(sorted[index], end, this.looks(sorted[index], marks)));
    const tail = this.looks(to, marks);
    if (tail && to === this.endOf(this.rowOf(to))) pieces.push(make('span', `${tail} tail`));
    return pieces;
  }

  piece(from, to, looks) {
    return make('span', looks, this.source.slice(from, to));
  }

  /** Where a view cuts a line besides. */
  breaks() {
    return [];
  }

  /** An offset, or the next where it parts a character of two units. */
  whole(offset) {
    return offset > 0 && this.source.codePointAt(offset - 1) > 0xffff ? offset + 1 : offset;
  }

  looks(offset, marks) {
    const looks = [];
    const here = marks.filter(({ start, end }) => start <= offset && offset < end);
    if (here.some(it => !it.isNote)) looks.push('wrong');
    else if (here.length > 0) looks.push('noted');
    if (this.lit.start <= offset && offset < this.lit.end) looks.push('lit');
    return looks.join(' ');
  }
}
