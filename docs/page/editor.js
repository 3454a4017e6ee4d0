'use strict';
// A text that is edited, with a row beside each of its lines. Of a long text the text area holds only a part: one that holds 100,000 lines
// takes seconds for a key.

class Editor {
  static whole = 2000; // a text with no more lines is held whole
  static part = 400; // so many lines of a longer one are held
  static edge = 60; // the caret is kept so many lines from an edge of the part

  // `fill` fills the row beside a line, as in rows.js. `edited` is called after each change, and `moved` with the line of the caret.
  constructor(scroller, fill, edited, moved) {
    Object.assign(this, { scroller, fill, edited, moved, lines: [''], top: 0, held: 1 });
    this.area = scroller.querySelector('textarea');
    this.rows = new Rows(scroller.querySelector('div'), scroller);
    this.area.addEventListener('input', () => this.take());
    this.area.addEventListener('keydown', event => this.leap(event));
    this.area.addEventListener('selectionchange', () => this.follow());
    scroller.addEventListener('scroll', () => this.slide(), { passive: true });
  }

  // The number of lines; what follows the last end of a line is one if it has a character.
  get count() {
    return this.lines.length - (this.lines.at(-1) === '' ? 1 : 0);
  }

  get text() {
    return this.lines.join('\n');
  }

  set text(text) {
    this.lines = text.split('\n');
    this.hold(0);
    this.show();
  }

  get isWhole() {
    return this.lines.length <= Editor.whole;
  }

  get hasFocus() {
    return document.activeElement === this.area;
  }

  // Holds the part from a line on, or the whole.
  hold(top) {
    const held = this.isWhole ? this.lines.length : Editor.part;
    this.top = Math.max(0, Math.min(top, this.lines.length - held));
    this.held = held;
    this.area.value = this.lines.slice(this.top, this.top + held).join('\n');
    this.place();
  }

  place() {
    this.area.style.top = `${this.top * Rows.height}px`;
    this.area.style.height = `${this.held * Rows.height}px`;
  }

  show() {
    this.rows.show(this.count + 1, this.fill);
  }

  // Takes over what was typed.
  take() {
    const now = this.area.value.split('\n');
    this.lines = [...this.lines.slice(0, this.top), ...now, ...this.lines.slice(this.top + this.held)];
    this.held = now.length;
    if (this.isWhole ? this.held < this.lines.length : this.held > 2 * Editor.part) this.holdAbout(this.caret);
    this.place();
    this.show();
    this.edited();
  }

  // The line of the caret, from 0 on, and how many characters stand before it there.
  get caret() {
    const before = this.area.value.slice(0, this.area.selectionEnd).split('\n');
    return { line: this.top + before.length - 1, column: before.at(-1).length };
  }

  set caret({ line, column }) {
    const held = Math.max(this.top, Math.min(line, this.top + this.held - 1));
    let at = 0;
    for (let n = this.top; n < held; n++) at += this.lines[n].length + 1;
    at += Math.min(column, this.lines[held].length);
    this.area.setSelectionRange(at, at);
  }

  // Holds the part about the caret's place.
  holdAbout(caret) {
    this.hold(caret.line - Editor.part / 2);
    this.caret = caret;
  }

  isNearEdge(line) {
    return (this.top > 0 && line < this.top + Editor.edge)
      || (this.top + this.held < this.lines.length && line >= this.top + this.held - Editor.edge);
  }

  // Follows the caret, which was moved by hand.
  follow() {
    if (!this.hasFocus || this.area.selectionStart !== this.area.selectionEnd) return;
    const caret = this.caret;
    if (this.isNearEdge(caret.line)) this.holdAbout(caret);
    this.moved(caret.line);
  }

  // Puts the caret into a line, unless it is there.
  go(line) {
    if (this.hasFocus && this.caret.line === line) return;
    if (this.isNearEdge(line) || line < this.top || line >= this.top + this.held) this.hold(line - Editor.part / 2);
    this.caret = { line, column: 0 };
  }

  // The keys that go by more than a line: the text area knows neither what is in sight nor what it doesn't hold.
  leap(event) {
    const page = Math.max(1, Math.floor(this.scroller.clientHeight / Rows.height) - 1);
    const caret = this.caret, end = this.lines.length - 1;
    const places = { PageUp: caret.line - page, PageDown: caret.line + page };
    if (event.ctrlKey || event.metaKey) Object.assign(places, { Home: 0, End: end });
    if (event.shiftKey || !(event.key in places)) return;
    event.preventDefault();
    const line = Math.max(0, Math.min(places[event.key], end));
    this.holdAbout({ line, column: event.key === 'End' ? Infinity : event.key === 'Home' ? 0 : caret.column });
    this.moved(line);
  }

  // Holds what was scrolled into sight.
  slide() {
    if (this.isWhole) return;
    const first = Math.floor(this.scroller.scrollTop / Rows.height);
    const last = first + Math.ceil(this.scroller.clientHeight / Rows.height);
    if (first >= this.top && last <= this.top + this.held) return;
    const caret = this.caret;
    this.hold(Math.floor((first + last - Editor.part) / 2));
    this.caret = { line: Math.max(first, Math.min(caret.line, last)), column: caret.column };
  }
}
