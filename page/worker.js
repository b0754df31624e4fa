// The worker: it holds an engine, and works on one message at a time. The first message has the module; each later one has texts, or a
// question about the texts before it.
let engine = null, published = null;

// The number of the last work, its settings, its request lines and its answers; and an engine for other policies, once there was a
// question for one.
let last = { number: 0 }, apart = null;

const FILES = ['schema', 'policies', 'links', 'entities'];

// A policy with a fault, of which the page says nothing: the engine has words for warnings only where there is a fault.
const FAULTY = '\n@id("of the playground") permit(principal, action, resource) when { 1 };';

// The bytes of texts. A text of links that is blank means that there is no file of links, and has no bytes.
function encoded(texts) {
  const given = { ...texts, links: texts.links.trim() === '' ? '' : texts.links };
  return Object.fromEntries(Object.entries(given).map(([name, text]) => [name, new TextEncoder().encode(text)]));
}

// The module from its base64 of gzip.
async function moduleOf(packed) {
  const bytes = Uint8Array.from(atob(packed), letter => letter.charCodeAt(0));
  const stream = new Blob([bytes]).stream().pipeThrough(new DecompressionStream('gzip'));
  return WebAssembly.compile(await new Response(stream).arrayBuffer());
}

// A call with its time in milliseconds.
function timed(call) {
  const began = performance.now(), ended = call();
  return { ...ended, milliseconds: performance.now() - began };
}

// The words on the warnings of policies that are accepted. If the engine stops or runs out of memory, there are none, and the answers are
// as they are without.
function warnings(texts, settings) {
  const ended = timed(() => engine.explain(encoded({ ...texts, policies: texts.policies + FAULTY }), settings));
  return ended.status === 0 ? ended : { ...ended, status: 0, text: '' };
}

// Whether the engine answers for these files already.
const isPublished = (texts, settings) =>
  published !== null && published.settings === settings && FILES.every(name => published.texts[name] === texts[name]);

// What the engine says of the texts: report, words, and answers where the files are accepted. Files that are as they were are not read
// again, so a change of requests alone is answered at once.
function worked({ texts, settings }) {
  const { requests, ...files } = encoded(texts), done = {};
  if (!isPublished(texts, settings)) {
    published = null;
    done.report = timed(() => engine.validate(files, settings));
    done.publish = timed(() => engine.publish(files, settings));
    done.words = done.publish.status === 0 ? warnings(texts, settings) : timed(() => engine.explain(files, settings));
    if (done.publish.status !== 0) return done;
    if (engine.handle === 0n) engine.publish(files, settings);
    published = { texts, settings };
  }
  done.answers = timed(() => engine.answer(requests));
  if (done.answers.status === 'stopped') published = null;
  done.memory = engine.exports.memory.buffer.byteLength;
  return done;
}

// Why those of the lines from one place to another are refused that are: the place of each, from 0, and the words of the engine.
function refusedLines({ from, to }) {
  const refused = [];
  for (let place = from; place < Math.min(to, last.answers.length) && published; place++) {
    const number = JSON.parse(last.answers[place]).refused;
    if (number === undefined) continue;
    const { status, text } = engine.explainLine(new TextEncoder().encode(last.lines[place]), number);
    if (status === 'stopped') published = null;
    if (text !== '') refused.push({ place, words: JSON.parse(text) });
  }
  return refused;
}

// Works on texts, and explains the first refused lines.
function workedAndExplained(data) {
  const done = worked(data), isAnswered = done.answers?.status === 0;
  const answers = isAnswered ? done.answers.text.split('\n').filter(line => line !== '') : [];
  last = { number: data.number, settings: data.settings, lines: data.texts.requests.split('\n'), answers };
  apart = null;
  done.refused = refusedLines({ from: 0, to: data.first });
  return done;
}

// What an engine of their own answers for other texts to the request line of a place.
function answeredApart({ texts, place }) {
  if (apart === null) {
    const other = new Engine(engine.module);
    apart = { other, publish: other.publish(encoded(texts), last.settings) };
  }
  const { other, publish } = apart, answer = publish.status === 0 ? other.answer(new TextEncoder().encode(last.lines[place])) : publish;
  if (answer.status !== 0) apart = null;
  return answer;
}

// The reply to a question about the last work: why some lines are refused, or the answer to a line for other texts.
function replied(data) {
  if (data.number !== last.number) return null;
  return data.texts ? answeredApart(data) : refusedLines(data);
}

self.onmessage = async ({ data }) => {
  try {
    if (data.packed) {
      const began = performance.now();
      engine = new Engine(await moduleOf(data.packed));
      self.postMessage({ ready: performance.now() - began });
    } else if (data.question) {
      self.postMessage({ question: data.question, reply: replied(data) });
    } else {
      self.postMessage({ done: workedAndExplained(data) });
    }
  } catch (fault) {
    self.postMessage({ failed: String(fault.message ?? fault) });
  }
};
