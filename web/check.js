// The page that ecma-check writes. Its data stand in blocks: the name, the text and the faults before this script, the tree behind it, so that a
// long one does not keep the text waiting.

/** What the block of a name holds; it is let go once it is read. */
function taken(name) {
  const block = document.querySelector(`script[type="application/json"][id=${name}]`);
  const text = block.textContent;
  block.remove();
  return text;
}

const fileName = JSON.parse(taken('name'));
const told = taken('faults');

const editor = new Reader($('text'), JSON.parse(taken('source')), {
  move: moved,
  enter: goToTree,
  step: by => faults.step(by),
  search: () => $('search').focus(),
});

const worker = workerOf();

worker.onmessage = ({ data }) => {
  if (!data.faults || data.number === undefined) return heard(data);
  show(data);
  $('state').textContent = data.failure ?? `${editor.lineCount} ${editor.lineCount === 1 ? 'line' : 'lines'}, ${countSaid(data.count, data.more)}`;
};

document.title = `${fileName} - ecma-check`;
$('file').textContent = fileName;
startView();

/** The tree and the faults as the parser answers them: a line for each fault, and how many more there are. */
function answerText(tree) {
  const lines = told.split('\n').filter(line => line !== '');
  const isMore = line => line.includes('"severity":"more"');
  const more = lines.filter(isMore).map(line => `,"more":${JSON.parse(line).count}`).join('');
  return `{"tree":${tree},"faults":[${lines.filter(line => !isMore(line)).map(line => `${line}\n`).join()}]${more}}`;
}

/** Hands the tree, which was read last, to the worker, and the faults with it. */
function treeRead() {
  const tree = taken('tree');
  const written = new TextEncoder().encode(answerText(tree));
  worker.postMessage({ written, hasTree: tree.startsWith('{') }, [written.buffer]);
}
