'use strict';
// Lines of text in a box that is scrolled. Of many lines only those in sight are in the document.

class Rows {
  // `box` is what `scroller` scrolls, or scrolls itself. All lines have one height, in CSS pixels, which the style of `.row` gives.
  constructor(box, scroller = box) {
    this.box = box;
    this.scroller = scroller;
    this.count = 0;
    this.from = this.to = 0;
    this.sheet = document.createElement('div');
    this.sheet.className = 'sheet';
    box.append(this.sheet);
    scroller.addEventListener('scroll', () => this.draw(), { passive: true });
    new ResizeObserver(() => this.draw()).observe(scroller);
  }

  static height = 20;
  static few = 400; // so many lines are all in the document
  static more = 30; // so many are drawn beyond each edge

  // Shows lines: `fill(row, n)` makes the n-th of `count`, from 0 on, in an element.
  show(count, fill) {
    this.count = count;
    this.fill = fill;
    this.sheet.style.height = `${count * Rows.height}px`;
    this.from = this.to = 0;
    this.sheet.replaceChildren();
    this.draw();
  }

  // The text of the n-th line of such as the worker gives.
  static line({ bytes, ends }, n) {
    return new TextDecoder().decode(bytes.subarray(n > 0 ? ends[n - 1] + 1 : 0, ends[n]));
  }

  // Shows such lines.
  showLines(lines) {
    this.show(lines.ends.length, (row, n) => { row.textContent = Rows.line(lines, n); });
  }

  // The first line in sight, and the one after the last.
  span() {
    if (this.count <= Rows.few) return [0, this.count];
    const top = this.scroller.scrollTop - (this.box === this.scroller ? 0 : this.box.offsetTop);
    const first = Math.floor(top / Rows.height) - Rows.more;
    const last = Math.ceil((top + this.scroller.clientHeight) / Rows.height) + Rows.more;
    return [Math.max(0, Math.min(first, this.count)), Math.max(0, Math.min(last, this.count))];
  }

  draw() {
    const [from, to] = this.span();
    if (from === this.from && to === this.to) return;
    [this.from, this.to] = [from, to];
    this.redraw();
  }

  // Draws again what is in sight.
  redraw() {
    const rows = [];
    for (let n = this.from; n < this.to; n++) {
      const row = document.createElement('div');
      row.className = 'row';
      row.style.top = `${n * Rows.height}px`;
      row.dataset.n = n;
      this.fill(row, n);
      rows.push(row);
    }
    this.sheet.replaceChildren(...rows);
  }

  // Scrolls so that a line is in sight.
  reveal(n) {
    const top = n * Rows.height + (this.box === this.scroller ? 0 : this.box.offsetTop);
    const { scrollTop, clientHeight } = this.scroller;
    if (top < scrollTop) this.scroller.scrollTop = top;
    else if (top + Rows.height > scrollTop + clientHeight) this.scroller.scrollTop = top + Rows.height - clientHeight;
  }
}
