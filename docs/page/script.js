'use strict';
// The half of the page that replays a script.

class ScriptHalf {
  // `say` is called with what the user must know.
  constructor(machine, say) {
    const find = id => document.getElementById(id);
    Object.assign(this, { machine, say, line: 0, told: [], faults: new Map(), end: '', ran: null });
    this.editor = new Editor(find('editor'), (row, n) => this.fill(row, n), () => this.typed(), n => this.follow(n + 1));
    this.size = find('size');
    this.slider = find('line');
    this.words = find('words');
    this.list = new Rows(find('list'));
    this.steps = new Picture(find('steps'));
    this.picture = new Picture(find('picture'));
    this.size.addEventListener('input', () => this.later());
    this.slider.addEventListener('input', () => this.go(this.slider.valueAsNumber));
    find('back').addEventListener('click', () => this.go(this.line - 1));
    find('forth').addEventListener('click', () => this.go(this.line + 1));
    find('stop').addEventListener('click', () => {
      machine.stop();
      say('It was stopped. What is changed next is replayed.');
    });
    addEventListener('resize', () => this.settle());
    machine.slow = slow => { find('stop').hidden = !slow; };
    find('lines').addEventListener('click', event => {
      const row = event.target.closest('.row');
      if (row) this.go(Number(row.dataset.n) + 1);
    });
  }

  get count() {
    return this.editor.count;
  }

  // Puts a script into the editor, and shows the zone after a line; after the last, if none is given.
  put(script, size, line = Infinity) {
    this.size.value = size;
    this.settle();
    this.told = [];
    this.faults = new Map();
    this.editor.text = script;
    this.turn(line);
    this.editor.go(Math.max(0, this.line - 1));
    this.later();
  }

  // Lets the pictures take just the room that they need.
  settle() {
    this.steps.settle();
    this.picture.settle();
  }

  typed() {
    this.turn(this.editor.caret.line + 1);
    this.later();
  }

  follow(line) {
    if (Math.min(line, this.count) !== this.line) this.go(line);
  }

  // Shows the zone after a line; line 0 is the launch.
  go(line) {
    this.turn(line);
    this.editor.go(Math.max(0, this.line - 1));
    this.look();
  }

  // Marks a line as the one that is shown.
  turn(line) {
    this.line = Math.max(0, Math.min(line, this.count));
    this.slider.max = this.count;
    this.slider.value = this.line;
    this.slider.setAttribute('aria-valuetext', this.line ? `after line ${this.line}` : 'after the launch');
    document.getElementById('which').textContent = this.line ? `line ${this.line} of ${this.count}` : 'launch';
    this.editor.rows.reveal(Math.max(0, this.line - 1));
    this.editor.rows.redraw();
  }

  // Fills a row beside a line of the script: its number, and what its calls returned.
  fill(row, n) {
    const line = n + 1, faults = this.faults.get(line);
    const number = document.createElement('span'), told = document.createElement('span');
    number.className = 'number';
    told.className = 'told';
    number.textContent = line <= this.count ? line : '';
    told.textContent = told.title = faults ?? this.told[line] ?? (line > this.count ? this.end : '');
    row.classList.toggle('here', line === this.line);
    row.classList.toggle('faulty', faults !== undefined);
    row.append(number, told);
  }

  // Replays the script once nothing is typed for a moment.
  later() {
    clearTimeout(this.pending);
    this.pending = setTimeout(() => this.replay(), this.count < 5000 ? 60 : 300);
  }

  zoneSize() {
    const size = this.size.valueAsNumber;
    return size >= 0 && size <= 0xffffffff ? size : 0;
  }

  async replay() {
    this.pending = 0;
    const script = this.editor.text, size = this.zoneSize();
    const made = await this.machine.ask('replay', { size, script });
    if (!made) return;
    this.say(made.code === 0 ? '' : ScriptHalf.why(made.code));
    this.took = made.took;
    this.ran = { size, script: script.slice(0, made.read) };
    this.hear(made.transcript);
    this.blame(made.faults);
    if (made.read < script.length) this.end = '';
    this.editor.rows.redraw();
    await this.look();
  }

  static why(code) {
    if (code === -50) return 'A partition has a multiple of 16 bytes, from 512 to 134,217,728.';
    return 'The module has no memory left.';
  }

  // Puts what a transcript says beside the lines that it names. An entry of a grow-zone script begins with '+'.
  hear(transcript) {
    this.told = [];
    this.end = '';
    for (const entry of transcript.split('\n')) {
      const blank = entry.indexOf(' '), line = Number(entry.slice(entry[0] === '+' ? 1 : 0, blank));
      if (line > 0) this.told[line] = (this.told[line] ? `${this.told[line]}, ` : '') + entry.slice(blank + 1);
      else if (entry.startsWith('end ')) this.end = entry;
    }
  }

  // Puts what is wrong beside the lines that are faulty.
  blame(faults) {
    this.faults = new Map();
    for (const entry of faults.split('\n')) {
      const [, line, words] = /^(\d+):\d+: (.*)$/.exec(entry) ?? [];
      if (line && !this.faults.has(Number(line))) this.faults.set(Number(line), words);
    }
  }

  // Shows the zone after the line.
  async look() {
    if (!this.ran) return;
    const line = this.line, ran = this.ran;
    const zone = await this.machine.ask('zone', { ...ran, line });
    if (!zone) return;
    this.picture.show(zone.picture);
    this.list.showLines(zone.list);
    const call = line ? await this.machine.ask('call', { ...ran, line }) : { words: `launch in ${ran.size} bytes`, steps: '', took: 0 };
    if (!call) return;
    this.words.textContent = this.faults.get(line) ?? call.words.trimEnd();
    this.steps.show(call.steps);
    this.shown = { line, took: zone.took + call.took };
  }
}

// A picture in SVG that the module drew, in a tree of its own, so that its style is its own too.
class Picture {
  static style = new CSSStyleSheet();
  static {
    Picture.style.replaceSync('svg[role=img] { display: block; width: 100%; min-width: 600px; height: auto; }');
  }

  constructor(box) {
    this.box = box;
    this.root = box.attachShadow({ mode: 'open' });
    this.root.adoptedStyleSheets = [Picture.style];
  }

  // Shows a picture, or nothing. The box gets no lower, so that what stands below it does not jump from line to line.
  show(svg) {
    this.box.hidden = svg === '';
    if (svg === '') return;
    const drawn = document.importNode(new DOMParser().parseFromString(svg, 'image/svg+xml').documentElement, true);
    drawn.setAttribute('role', 'img');
    drawn.setAttribute('aria-label', drawn.querySelector('text')?.textContent ?? '');
    this.root.replaceChildren(drawn);
    this.box.style.minHeight = `${Math.max(parseFloat(this.box.style.minHeight) || 0, this.box.offsetHeight)}px`;
  }

  // Lets the box get lower again.
  settle() {
    this.box.style.minHeight = '';
  }
}
