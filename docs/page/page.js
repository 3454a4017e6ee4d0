'use strict';
// The page: its two halves, what is dropped on it, and the link that holds a script.

const byId = id => document.getElementById(id);

// Says what the user must know: what went wrong, or what was done well; or that there is nothing.
function say(text, isGood = false) {
  byId('said').textContent = text;
  byId('said').classList.toggle('good', isGood);
  byId('said').hidden = text === '';
}

// The module's bytes: from its file where pages may read files, else from the text of macmem-wasm.js.
async function moduleBytes() {
  if (location.protocol !== 'file:') return (await fetch('macmem.wasm')).arrayBuffer();
  const script = document.createElement('script');
  script.src = 'macmem-wasm.js';
  await new Promise((done, failed) => {
    script.onload = done;
    script.onerror = failed;
    document.head.append(script);
  });
  return fromBase64(MACMEM_WASM).buffer;
}

function fromBase64(text) {
  return Uint8Array.from(atob(text), it => it.charCodeAt(0));
}

// The link's text for a script, and back: deflated, in the letters of base64 for addresses.
const Link = {
  longest: 16 * 1024 * 1024, // a script that is longer is not taken from a link

  async pipe(bytes, through) {
    const parts = [];
    let length = 0;
    for await (const part of new Blob([bytes]).stream().pipeThrough(through)) {
      length += part.length;
      if (length > Link.longest) throw new RangeError('the script is too long');
      parts.push(part);
    }
    return new Uint8Array(await new Blob(parts).arrayBuffer());
  },

  async of(script, size, line) {
    const packed = await Link.pipe(script, new CompressionStream('deflate-raw'));
    const letters = btoa(Array.from(packed, it => String.fromCharCode(it)).join(''));
    const text = letters.replaceAll('+', '-').replaceAll('/', '_').replaceAll('=', '');
    return `#size=${size}&line=${line}&script=${text}`;
  },

  async read(fragment) {
    const words = new URLSearchParams(fragment.slice(1));
    if (!words.has('script')) return null;
    const packed = fromBase64(words.get('script').replaceAll('-', '+').replaceAll('_', '/'));
    const script = new TextDecoder().decode(await Link.pipe(packed, new DecompressionStream('deflate-raw')));
    return { script, size: Number(words.get('size') ?? 1024), line: Number(words.get('line') ?? Infinity) };
  },
};

const bytes = moduleBytes();
bytes.catch(error => say(`The module can't be read: ${error.message ?? error}.`));
const scriptHalf = new ScriptHalf(new Macmem(bytes, say), say);
const forkHalf = new ForkHalf(new Macmem(bytes, say), say);

// The list of examples: scripts, and forks.
function listExamples() {
  for (const [id, examples] of [['example', EXAMPLES.scripts], ['fork-example', EXAMPLES.forks]]) {
    for (const { name } of examples) byId(id).add(new Option(name));
  }
  byId('example').addEventListener('change', event => {
    const it = EXAMPLES.scripts.find(it => it.name === event.target.value);
    if (it) scriptHalf.put(it.text, it.size, 1);
  });
  byId('fork-example').addEventListener('change', event => {
    const it = EXAMPLES.forks.find(it => it.name === event.target.value);
    if (it) forkHalf.open(it.name, fromBase64(it.base64));
  });
}

// Whether bytes are a text, which can be a script.
function isText(bytes) {
  if (bytes.includes(0)) return false;
  try {
    new TextDecoder('utf-8', { fatal: true }).decode(bytes);
    return true;
  } catch {
    return false;
  }
}

// Takes a file: a text is a script, unless it is BinHex; all else is taken for a file with a fork.
async function take(file) {
  const bytes = new Uint8Array(await file.arrayBuffer());
  const text = isText(bytes) ? new TextDecoder().decode(bytes) : '';
  if (text !== '' && !text.includes('(This file must be converted with BinHex')) {
    scriptHalf.put(text, byId('size').value);
    byId('script').focus();
  } else {
    await forkHalf.open(file.name, bytes);
    byId('listing').focus();
  }
}

function takeDrops() {
  addEventListener('dragover', event => {
    event.preventDefault();
    document.body.classList.add('over');
  });
  addEventListener('dragleave', () => document.body.classList.remove('over'));
  addEventListener('drop', event => {
    event.preventDefault();
    document.body.classList.remove('over');
    if (event.dataTransfer.files.length > 0) take(event.dataTransfer.files[0]);
  });
  byId('file').addEventListener('change', event => {
    if (event.target.files.length > 0) take(event.target.files[0]);
    event.target.value = '';
  });
}

// The address has no link to a script that is another by now.
function dropLink() {
  if (location.hash !== '') history.replaceState(null, '', location.pathname + location.search);
}

// Puts the link for the script into the address, and onto the clipboard where the browser allows that.
async function link() {
  const fragment = await Link.of(scriptHalf.editor.text, byId('size').value, scriptHalf.line);
  history.replaceState(null, '', fragment);
  try {
    await navigator.clipboard.writeText(location.href);
    say('The link is on the clipboard, and in the address.', true);
  } catch {
    say('The link is in the address.', true);
  }
}

async function readLink() {
  try {
    const it = await Link.read(location.hash);
    if (it) scriptHalf.put(it.script, it.size, it.line);
    return it !== null;
  } catch (error) {
    say(`The link can't be read: ${error.message ?? error}.`);
    return false;
  }
}

async function begin() {
  listExamples();
  takeDrops();
  byId('link').addEventListener('click', link);
  for (const id of ['script', 'size', 'example']) byId(id).addEventListener('input', dropLink);
  addEventListener('hashchange', readLink);
  if (await readLink()) return;
  byId('example').value = 'kept_pointer.script';
  const it = EXAMPLES.scripts.find(it => it.name === 'kept_pointer.script');
  scriptHalf.put(it.text, it.size, 8);
}

begin();
