// The calls of the engine's module. Texts go in as bytes; a status and a text come out. An address is a BigInt, since the memory
// of the module has 64 bits. The statuses are those of c/cedar.h, and 'stopped' for a call that ended in a trap.

// The memory that the module may have, and the first room for a text, in bytes.
const MOST_MEMORY = 2n ** 31n;
const FIRST_ROOM = 65536n;

class OutOfMemory extends Error {}

class Engine {
  constructor(module, most = MOST_MEMORY) {
    this.module = module;
    this.most = most;
    this.room = FIRST_ROOM;
    this.begin();
  }

  // Makes an instance. After a trap the old one is spent: its memory is as the trap left it, and it refuses every call.
  begin() {
    this.exports = new WebAssembly.Instance(this.module, {}).exports;
    this.exports.set_most(this.most);
    this.handle = 0n;
  }

  // What `cedar validate` prints.
  validate({ schema, policies, links }, settings) {
    return this.call((put, text) => this.exports.cedar_raw_validate(...put(schema), ...put(policies), ...put(links), settings, ...text));
  }

  // Why the files are refused or have faults: a JSON object on each line, or words where `format` is 0. Nothing if they are accepted.
  explain({ schema, policies, links, entities }, settings, format = 1) {
    return this.call((put, text) => this.exports.cedar_raw_explain(
      ...put(schema), ...put(policies), ...put(links), ...put(entities), settings, format, ...text));
  }

  // Has `answer` use these files. The text is that of a refusal or a report, if there is one.
  publish({ schema, policies, links, entities }, settings) {
    return this.call((put, text, take) => this.exports.cedar_raw_publish(
      this.made(), ...put(schema), ...put(policies), ...put(links), ...put(entities), settings, take(16), ...text));
  }

  // What `cedar authorize` prints for request lines.
  answer(lines) {
    return this.call((put, text) => this.exports.cedar_raw_answer(this.made(), ...put(lines), ...text));
  }

  // Why a request line is refused with a number: a JSON object. Nothing if it is not.
  explainLine(line, number) {
    return this.call((put, text) => this.exports.cedar_raw_explain_line(this.made(), ...put(line), 0, number, 1, ...text));
  }

  // Frees the handle, and what it leads to.
  free() {
    if (this.handle === 0n) return;
    this.exports.cedar_raw_free(this.number(this.handle));
    this.exports.give_back(this.handle);
    this.handle = 0n;
  }

  // The address of the handle, which is made once for each instance.
  made() {
    if (this.handle !== 0n) return this.handle;
    const handle = this.exports.take(8n);
    if (handle === 0n) throw new OutOfMemory();
    if (this.exports.cedar_raw_new(handle) !== 0) {
      this.exports.give_back(handle);
      throw new OutOfMemory();
    }
    this.handle = handle;
    return handle;
  }

  // The number of 64 bits at an address.
  number(at) {
    return new DataView(this.exports.memory.buffer).getBigUint64(Number(at), true);
  }

  // Makes a call, and frees what it was given. make(put, text, take) gives its status: put(bytes) gives the address and the length of a
  // copy; `text` has the buffer for the text, its length, and where the length of the text goes; take(n) gives the address of n bytes.
  call(make) {
    const taken = [];
    const take = length => {
      const at = this.exports.take(BigInt(length));
      if (at === 0n) throw new OutOfMemory();
      taken.push(at);
      return at;
    };
    const put = bytes => {
      const at = take(Math.max(1, bytes.length));
      new Uint8Array(this.exports.memory.buffer, Number(at), bytes.length).set(bytes);
      return [at, BigInt(bytes.length)];
    };
    try {
      const ended = this.written(make, put, take);
      taken.forEach(at => this.exports.give_back(at));
      return ended;
    } catch (fault) {
      if (fault instanceof OutOfMemory) {
        this.room = FIRST_ROOM;
        taken.forEach(at => this.exports.give_back(at));
        return { status: 1, text: '' };
      }
      this.begin();
      return { status: 'stopped', text: '', why: String(fault.message ?? fault) };
    }
  }

  // Makes a call, and makes it again with a larger buffer if the text does not fit.
  written(make, put, take) {
    const length = take(8);
    for (;;) {
      const room = this.room, at = this.exports.take(room);
      if (at === 0n) throw new OutOfMemory();
      try {
        const status = make(put, [at, room, length], take), count = this.number(length);
        if (count <= room) {
          const bytes = new Uint8Array(this.exports.memory.buffer, Number(at), status === 1 ? 0 : Number(count));
          return { status, text: new TextDecoder().decode(bytes) };
        }
        this.room = count;
      } finally {
        if (!this.isSpent()) this.exports.give_back(at);
      }
    }
  }

  // Whether a call has ended in a trap.
  isSpent() {
    return this.exports.is_inside() !== 0;
  }
}
