// What the module of the playground says of rows of texts, in the form of tests/page/rows.c. tools/running/page_test evaluates this after
// page/engine.js, in an empty page.

let engine = null;

// Makes an engine of the module at an address, with the most bytes of memory that it may have.
async function begin(address, most = MOST_MEMORY) {
  engine = new Engine(await WebAssembly.compileStreaming(fetch(address)), most);
  return engine.exports.memory.buffer.byteLength;
}

// The lines of a row. No call may leave a block of memory in use.
function judged(settings, [schema, policies, links, entities, requests]) {
  const files = { schema, policies, links, entities }, lines = [];
  const add = (call, { status, text }) => { lines.push(`${call} ${status} ${text}\n`); return status; };
  add('validate', engine.validate(files, settings));
  add('words', engine.explain(files, settings, 0));
  add('json', engine.explain(files, settings, 1));
  if (add('publish', engine.publish(files, settings)) === 0) add('answer', engine.answer(requests));
  engine.free();
  const left = engine.exports.in_use();
  if (left !== 0n) throw new Error(`${left} blocks are left`);
  return lines.join('') + '\x1e';
}

// The lines of the rows that an address has.
async function judgedRows(address) {
  const bytes = new Uint8Array(await (await fetch(address)).arrayBuffer()), view = new DataView(bytes.buffer), found = [];
  let at = 0;
  const number = () => view.getUint32((at += 4) - 4, true);
  const text = () => { const length = number(); return bytes.subarray(at, at += length); };
  while (at < bytes.length) {
    const settings = number();
    found.push(judged(settings, [text(), text(), text(), text(), text()]));
  }
  return found.join('');
}

// Publishes and answers with little memory: for each limit what the calls end with. The limits rise by pages of 64 KiB.
async function judgedWithLittle(address, row, pages) {
  const least = await begin(address), bytes = new Uint8Array(await (await fetch(row)).arrayBuffer()), found = [];
  const module = engine.module;
  for (let page = 0; page < pages; page++) {
    engine = new Engine(module, BigInt(least + page * 65536));
    const ended = await judgedRows(row).catch(fault => String(fault));
    found.push(ended);
  }
  return found;
}

const encoded = files => Object.fromEntries(Object.entries(files).map(([name, text]) => [name, new TextEncoder().encode(text)]));

// A call for whose text there is not enough memory, and the next one.
function judgedRoom(files) {
  engine.room = engine.most;
  return [engine.validate(encoded(files), 0), engine.validate(encoded(files), 0)].map(({ status, text }) => [status, text]);
}

// A call that comes when the stack of the browser is nearly used up: it stops in the module, and the next one is right.
function judgedDeep(files) {
  const bytes = encoded(files), before = engine.exports, right = engine.validate(bytes, 0);
  let stopped = null;
  const down = () => {
    try {
      down();
    } catch {
      if (!stopped) {
        const ended = engine.validate(bytes, 0);
        if (ended.status === 'stopped') stopped = ended;
      }
    }
  };
  down();
  const after = engine.validate(bytes, 0);
  return { right, stopped, after, isAnother: engine.exports !== before };
}
