'use strict';
// The half of the page that reads a resource fork and changes it.

class ForkHalf {
  constructor(machine, say) {
    const find = id => document.getElementById(id);
    Object.assign(this, { machine, say, file: null, name: '', rows: [], chosen: -1 });
    this.panel = find('fork');
    this.info = find('info');
    this.listing = find('listing');
    this.statement = find('statement');
    this.told = find('statement-told');
    this.lines = new Rows(this.listing);
    this.bytes = new Rows(find('bytes'));
    this.source = new Rows(find('source'));
    this.listing.addEventListener('keydown', event => this.move(event));
    this.listing.addEventListener('click', event => {
      const row = event.target.closest('.row');
      if (row) this.choose(Number(row.dataset.n));
    });
    this.statement.addEventListener('input', () => this.lint());
    this.statement.addEventListener('keydown', event => {
      if (event.key === 'Enter' && (event.ctrlKey || event.metaKey)) this.set();
    });
    find('set').addEventListener('click', () => this.set());
    find('back-to').addEventListener('click', () => this.revert());
    find('save').addEventListener('click', () => this.save());
    find('typed').addEventListener('change', () => this.derez());
    find('print').addEventListener('click', () => this.derez());
  }

  static longest = 50000; // a resource with more bytes has no statement here
  static large = 1000000; // the source of a file with more bytes is printed when it is asked for

  // Opens a file.
  async open(name, file) {
    this.name = name;
    this.first = file;
    await this.read(file, 0);
  }

  // Shows a file, with a resource chosen.
  async read(file, chosen) {
    const made = await this.machine.ask('fork', { file });
    if (!made) return;
    this.file = file;
    this.rows = made.rows;
    this.panel.hidden = false;
    document.getElementById('file-name').textContent = this.name + (file === this.first ? '' : ', changed');
    this.info.textContent = `${made.check}\n${made.info}`.trimEnd();
    this.lines.show(this.rows.length, (row, n) => {
      row.textContent = Rows.line(made.listing, n);
      row.id = `resource-${n}`;
      row.role = 'option';
      row.ariaSelected = n === this.chosen;
    });
    document.getElementById('resource').hidden = this.rows.length === 0;
    await this.choose(Math.min(chosen, this.rows.length - 1));
    document.getElementById('print').hidden = file.length <= ForkHalf.large;
    if (file.length <= ForkHalf.large) await this.derez();
    else this.source.show(0);
  }

  // Shows a resource of the listing.
  async choose(n) {
    this.chosen = n;
    this.lines.redraw();
    if (n < 0) return;
    this.lines.reveal(n);
    this.listing.setAttribute('aria-activedescendant', `resource-${n}`);
    const { kind, id, size } = this.rows[n], stated = size <= ForkHalf.longest;
    const made = await this.machine.ask('resource', { file: this.file, kind, id, stated });
    if (!made) return;
    this.statement.disabled = document.getElementById('set').disabled = !stated;
    this.statement.value = made.source;
    this.statement.rows = Math.min(made.source.split('\n').length + 1, 16);
    this.told.textContent = stated ? '' : 'The resource is too large to be changed here.';
    this.showBytes(made.bytes);
  }

  // Shows bytes: their place, 16 in hexadecimal, and as characters of Mac OS Roman.
  showBytes(bytes) {
    const roman = new TextDecoder('macintosh');
    this.bytes.show(Math.ceil(bytes.length / 16), (row, n) => {
      const part = bytes.subarray(n * 16, n * 16 + 16);
      const digits = Array.from(part, byte => byte.toString(16).padStart(2, '0')).join(' ').padEnd(47);
      const place = (n * 16).toString(16).padStart(6, '0');
      row.textContent = `${place}  ${digits}  ${roman.decode(part).replace(/[\0-\x1f\x7f]/g, '.')}`;
    });
  }

  async derez() {
    const made = await this.machine.ask('derez', { file: this.file, typed: document.getElementById('typed').checked ? 1 : 0 });
    if (made) this.source.showLines(made.source);
  }

  // The arrow keys go through the listing.
  move(event) {
    const page = Math.max(1, Math.floor(this.listing.clientHeight / Rows.height) - 1);
    const steps = { ArrowUp: -1, ArrowDown: 1, PageUp: -page, PageDown: page, Home: -Infinity, End: Infinity };
    if (!(event.key in steps)) return;
    event.preventDefault();
    this.choose(Math.max(0, Math.min(this.chosen + steps[event.key], this.rows.length - 1)));
  }

  // Says what is wrong with the statement as it is typed.
  async lint() {
    const made = await this.machine.ask('lint', { source: this.statement.value });
    if (made) this.told.textContent = made.faults.trimEnd();
  }

  // Sets the resource to what the statement states.
  async set() {
    const { kind, id } = this.rows[this.chosen];
    const made = await this.machine.ask('set', { file: this.file, kind, id, source: this.statement.value });
    if (!made) return;
    if (made.code !== 0) {
      this.told.textContent = ForkHalf.why(made);
      return;
    }
    await this.read(made.bytes, this.chosen);
    this.told.textContent = 'It is set. Save the file to keep it.';
  }

  static why({ code, error, line }) {
    if (code === 65536) return 'The module has no memory left.';
    if (line) return `Line ${line} can't be read.`;
    if (error === -192) return 'No statement states a resource of this type and ID.';
    return `The fork can't be written: ${error}.`;
  }

  revert() {
    this.read(this.first, this.chosen);
  }

  // Gives the file to the browser to be saved, in the wrapper that it has.
  save() {
    const link = document.createElement('a');
    link.href = URL.createObjectURL(new Blob([this.file], { type: 'application/octet-stream' }));
    link.download = this.name;
    link.click();
    setTimeout(() => URL.revokeObjectURL(link.href), 1000);
  }
}
