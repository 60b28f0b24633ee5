// What the address keeps: the text, packed, and behind that the options that are not as they are at first. `#TEXT&as=module&limit=9&with=a,b`

const KEPT_BYTES = 65536;

async function piped(bytes, stream) {
  return new Uint8Array(await new Response(new Blob([bytes]).stream().pipeThrough(stream)).arrayBuffer());
}

async function packed(source) {
  const bytes = await piped(new TextEncoder().encode(source), new CompressionStream('deflate-raw'));
  if (bytes.length > KEPT_BYTES) return '';
  let letters = '';
  for (const byte of bytes) letters += String.fromCharCode(byte);
  return btoa(letters).replaceAll('+', '-').replaceAll('/', '_').replaceAll('=', '');
}

async function unpacked(letters) {
  const bytes = Uint8Array.from(atob(letters.replaceAll('-', '+').replaceAll('_', '/')), it => it.charCodeAt(0));
  return new TextDecoder().decode(await piped(bytes, new DecompressionStream('deflate-raw')));
}

/** Options as the end of an address. */
function optionsPacked({ goal, limit, boxes }, first) {
  const words = [];
  if (goal !== first.goal) words.push(`as=${goal}`);
  if (limit !== first.limit) words.push(`limit=${limit}`);
  if (boxes.length > 0) words.push(`with=${boxes.join(',')}`);
  return words.map(it => `&${it}`).join('');
}

/** The options of an address; what is not told is as at first. */
function optionsUnpacked(words, first) {
  const told = new URLSearchParams(words);
  const limit = Number(told.get('limit') ?? first.limit);
  return {
    goal: ['auto', 'script', 'module', 'program'].includes(told.get('as')) ? told.get('as') : first.goal,
    limit: Number.isInteger(limit) && limit >= 0 && limit <= 1000 ? limit : first.limit,
    boxes: (told.get('with') ?? '').split(',').filter(it => it !== ''),
  };
}

/** What an address keeps. A text that cannot be read is none. */
async function linkRead(hash, first) {
  const [letters, ...words] = hash.slice(1).split('&');
  const source = letters === '' ? undefined : await unpacked(letters).catch(() => undefined);
  return { source, ...optionsUnpacked(words.join('&'), first) };
}
