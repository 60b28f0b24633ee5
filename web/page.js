// The part of the page that is seen. The worker parses, so nothing here waits.

const FLAGS = {
  decorators: 'decorators',
  decoratorsBeforeExport: 'decorators before export',
  exportDefaultFrom: 'export v from',
  importAttributes: 'import attributes',
  allowReturnOutsideFunction: 'return outside functions',
  autoAccessors: 'accessor',
  explicitResourceManagement: 'using',
};
const LANGUAGE = { plain: 'plain language' };
const EXTRAS = { locations: 'lines and columns', ranges: 'ranges', comments: 'comments', tokens: 'tokens' };
const BOXES = { ...LANGUAGE, ...FLAGS, ...EXTRAS };
const FIRST = 'while (a) b;\nbreak\n';
/** The options that an address does not tell. */
const FIRST_OPTIONS = { goal: 'auto', limit: 200 };

const text = $('text');
const editor = new Editor(text, $('layer'), $('numbers'));

for (const [name, label] of Object.entries(BOXES)) {
  const box = Object.assign(make('input'), { type: 'checkbox', id: name });
  const line = make('label');
  line.append(box, ` ${label}`);
  $('flags').append(line);
}

function optionsNow() {
  const options = { sourceType: $('goal').value, limit: Number($('limit').value), flags: Object.keys(FLAGS).filter(it => $(it).checked) };
  for (const name of Object.keys({ ...LANGUAGE, ...EXTRAS })) options[name] = $(name).checked;
  return options;
}

// The text and the options, kept in the address.

let keeping;

/** Keeps them once typing rests. */
function keep() {
  clearTimeout(keeping);
  keeping = setTimeout(async () => {
    const boxes = Object.keys(BOXES).filter(it => $(it).checked);
    const hash = await packed(text.value) + optionsPacked({ goal: $('goal').value, limit: Number($('limit').value), boxes }, FIRST_OPTIONS);
    history.replaceState(null, '', hash ? `#${hash}` : location.pathname + location.search);
  }, 300);
}

/** Shows what an address keeps. */
async function opened() {
  const { source = FIRST, goal, limit, boxes } = await linkRead(location.hash, FIRST_OPTIONS);
  $('goal').value = goal;
  $('limit').value = limit;
  for (const name of Object.keys(BOXES)) $(name).checked = boxes.includes(name);
  text.value = source;
  changed();
}

// One text is with the worker at a time, and behind it the newest.

let isBusy = true;
let isStale = false;
let number = 0;
let asked = '';

function ask() {
  isStale = isBusy;
  if (isBusy) return;
  isBusy = true;
  worker.postMessage({ text: asked, options: optionsNow(), number });
}

function send(source) {
  asked = source;
  number += 1;
  document.documentElement.dataset.asked = number;
  clearTimeout(moving);
  isGoing = false;
  keep();
  ask();
}

function changed() {
  send(text.value);
  editor.take(asked);
}

/** What a key that is about to be taken in makes of the text: the worker begins with it while the browser lays the text out. */
function foreseen({ inputType, data }) {
  if (inputType !== 'insertText' || !data) return;
  send(text.value.slice(0, text.selectionStart) + data + text.value.slice(text.selectionEnd));
}

function edited() {
  if (text.value === asked) editor.take(asked);
  else changed();
}

const worker = workerOf();

/** Shows an answer, and what it took. */
function showTimed(data) {
  show(data);
  text.setAttribute('aria-invalid', data.count > 0);
  $('state').textContent = data.failure ?? `${countSaid(data.count, data.more)}, ${data.ms.toFixed(1)} ms`;
}

worker.onmessage = ({ data }) => {
  if (data.ready || data.faults && data.number !== undefined) {
    isBusy = false;
    if (data.ready) isStale = true;
    else showTimed(data);
    if (isStale) ask();
  } else if (data.failure) {
    $('state').textContent = data.failure;
  } else if (!isBusy) {
    heard(data);
  }
};

async function start() {
  const letters = Uint8Array.from(atob($('module').textContent), it => it.charCodeAt(0));
  worker.postMessage({ module: await piped(letters, new DecompressionStream('gzip')) });
  startView();
  text.addEventListener('beforeinput', foreseen);
  text.addEventListener('input', edited);
  document.addEventListener('selectionchange', () => document.activeElement === text && !isBusy && moved());
  addEventListener('hashchange', opened);
  for (const it of [$('goal'), $('limit'), ...Object.keys(BOXES).map($)]) it.addEventListener('change', () => changed());
  await opened();
}

start();
