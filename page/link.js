// Links that hold the texts in their fragment, which a browser sends to no server: base64 of deflated JSON.

const TEXT_NAMES = ['schema', 'policies', 'links', 'entities', 'requests'];

const through = async (bytes, stream) => new Uint8Array(await new Response(new Blob([bytes]).stream().pipeThrough(stream)).arrayBuffer());

// The languages of schemas and policies. A link of the default one says no language, as links did before there was another.
const DEFAULT_LANGUAGE = 3, LANGUAGE_4 = 4;

// The fragment of a state: its texts, whether any decimal is accepted, and the language.
async function fragmentOf({ texts, anyDecimal, language }) {
  const held = { ...texts, anyDecimal, language: language === DEFAULT_LANGUAGE ? undefined : language };
  const bytes = await through(new TextEncoder().encode(JSON.stringify(held)), new CompressionStream('deflate-raw'));
  let letters = '';
  for (let at = 0; at < bytes.length; at += 4096) letters += String.fromCharCode(...bytes.subarray(at, at + 4096));
  return '#1.' + btoa(letters).replaceAll('+', '-').replaceAll('/', '_').replaceAll('=', '');
}

// The state of a fragment. It throws where the fragment is not one that `fragmentOf` makes.
async function stateOf(fragment) {
  if (!fragment.startsWith('#1.')) throw new Error('the link has another form');
  const letters = atob(fragment.slice(3).replaceAll('-', '+').replaceAll('_', '/'));
  const bytes = await through(Uint8Array.from(letters, letter => letter.charCodeAt(0)), new DecompressionStream('deflate-raw'));
  const held = JSON.parse(new TextDecoder().decode(bytes));
  const texts = Object.fromEntries(TEXT_NAMES.map(name => [name, held[name]]));
  if (!Object.values(texts).every(text => typeof text === 'string')) throw new Error('the link lacks a text');
  const language = held.language ?? DEFAULT_LANGUAGE;
  if (![DEFAULT_LANGUAGE, LANGUAGE_4].includes(language)) throw new Error('the link has another language');
  return { texts, anyDecimal: held.anyDecimal === true, language };
}
