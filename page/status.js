// The line that says what the engine has come to, which a screen reader reads out, and the figures at the foot of the page.

// What is said of the files for each status of a publication.
const SAID = {
  0: 'The files are accepted, and the requests are answered.',
  2: 'A file is refused, so no request is answered: the report says why.',
  3: 'The policies have faults, so no request is answered: the report says why.',
};

const REFUSED = {
  schema: 'the schema is refused', policies: 'the policies are refused', links: 'the links are refused',
  entities: 'the entities are refused',
};

// The count of faults and warnings, which is the last line of a report.
function countOf(report) {
  const { faults, warnings } = objectsOf(report).at(-1);
  return `${counted(faults, 'fault')}, ${counted(warnings, 'warning')}`;
}

class Status {
  constructor() {
    this.line = document.getElementById('status');
    this.figures = document.getElementById('figures');
    // What is said once before the rest, and the milliseconds that the engine took to load.
    this.first = '';
    this.loaded = 0;
  }

  // Says a sentence, as good news, as an error or as neither.
  say(text, kind) {
    this.line.textContent = text;
    this.line.className = kind;
  }

  // Says what the calls of the engine ended with.
  show({ report, publish, words, answers, memory }) {
    const calls = Object.entries({ validate: report, publish, explain: words, answer: answers }).filter(([, call]) => call);
    const stopped = calls.filter(([, call]) => call.status === 'stopped');
    const isOutOfMemory = calls.some(([, call]) => call.status === 1);
    const names = stopped.map(([name, call]) => `${name}: ${call.why}`).join('; ');
    const said = stopped.length ? `The engine stopped and was started anew (${names}).`
      : isOutOfMemory ? 'The engine ran out of memory. Nothing was decided.' : SAID[publish.status];
    this.say([this.first, said].join(' ').trim(), stopped.length || isOutOfMemory || publish.status ? 'error' : 'good');
    this.first = '';
    const times = [['validated', report], ['published', publish], ['answered', answers]].filter(([, call]) => call);
    const parts = times.map(([what, call]) => `${what} in ${milliseconds(call.milliseconds)}`);
    if (memory) parts.push(`${Math.round(memory / 1048576)} MiB of memory`);
    this.figures.textContent = [`engine loaded in ${milliseconds(this.loaded)}`, ...parts].join(' · ');
  }
}
