// The page: it gives the texts to the worker at each change, and shows what comes back.

const inside = id => document.getElementById(id).textContent;

const NEEDS = 'It needs WebAssembly with a 64-bit memory, which Chromium 133, Firefox 134 and later have.';

// The milliseconds after a change after which the texts are kept.
const KEPT_AFTER = 300;

// The bits of the settings that the engine takes.
const ANY_DECIMAL_BIT = 1, LANGUAGE_4_BIT = 2;

class Page {
  constructor() {
    this.examples = JSON.parse(inside('examples'));
    this.numbers = JSON.parse(inside('numbers'));
    this.editors = Object.fromEntries(TEXT_NAMES.map(name => [name, new Editor(name)]));
    this.view = new View(this.numbers, () => this.texts(), place => this.show(place), question => this.ask(question));
    this.status = new Status();
    this.anyDecimal = document.getElementById('any-decimal');
    this.language4 = document.getElementById('language-4');
    this.example = document.getElementById('example');
    this.dialog = document.getElementById('replacing');
    // The fragment of the address that the texts belong to; the texts that are in the link or the example there; and the wait before
    // changed texts are kept.
    this.fragment = '';
    this.original = '';
    this.keeping = null;
    // The number of the last work that was begun; whether it goes on; and whether a text has changed since.
    this.number = 0;
    this.isBusy = true;
    this.isWaiting = false;
    // What the worker has said of the files that it has, and what is shown.
    this.judged = {};
    this.last = null;
    // The questions that the worker has not replied to, by their numbers, and how many there were.
    this.questions = new Map();
    this.questionCount = 0;
  }

  // Starts the worker, and shows the texts that are kept, those of the link or the first example.
  async start() {
    this.startWorker();
    document.getElementById('sum').textContent = document.getElementById('module').dataset.sum;
    this.example.append(...Object.keys(this.examples).map(name => element('option', {}, name)));
    this.example.append(element('option', { value: '', hidden: '' }, 'of your own'));
    this.example.addEventListener('change', () => this.chosen(this.example.value));
    this.dialog.addEventListener('click', ({ target }) => target.value && this.dialog.close(target.value));
    window.addEventListener('pagehide', () => this.keep());
    [this.anyDecimal, this.language4].forEach(it => it.addEventListener('change', () => this.changed()));
    Object.values(this.editors).forEach(({ area }) => area.addEventListener('input', () => this.changed()));
    document.getElementById('copy-link').addEventListener('click', () => this.copyLink());
    document.querySelectorAll('details.raw').forEach(it => it.addEventListener('toggle', () => this.showPrinted()));
    window.addEventListener('hashchange', () => this.openLink());
    await this.openLink();
  }

  startWorker() {
    const source = new Blob([inside('engine'), inside('worker')], { type: 'text/javascript' });
    this.worker = new Worker(URL.createObjectURL(source));
    this.worker.addEventListener('message', ({ data }) => this.heard(data));
    this.worker.addEventListener('error', event => this.fail(event.message));
    this.worker.postMessage({ packed: inside('module') });
  }

  fail(why) {
    document.documentElement.dataset.failed = why;
    this.status.say(`The engine does not run here: ${why}. ${NEEDS}`, 'error');
  }

  texts() {
    return Object.fromEntries(TEXT_NAMES.map(name => [name, this.editors[name].text]));
  }

  // The texts and the settings, as they are kept and put into a link.
  state() {
    return { texts: this.texts(), anyDecimal: this.anyDecimal.checked, language: this.language4.checked ? LANGUAGE_4 : DEFAULT_LANGUAGE };
  }

  // The settings as the engine takes them.
  settings() {
    return (this.anyDecimal.checked ? ANY_DECIMAL_BIT : 0) | (this.language4.checked ? LANGUAGE_4_BIT : 0);
  }

  // Puts texts into the page.
  fill({ texts, anyDecimal, language }) {
    for (const name of TEXT_NAMES) this.editors[name].text = texts[name];
    this.anyDecimal.checked = anyDecimal;
    this.language4.checked = language === LANGUAGE_4;
    document.getElementById('links-part').open = texts.links.trim() !== '';
    this.work();
  }

  // Puts texts of a link or of an example into the page, which are not lost when others take their place.
  fillOriginal(state) {
    this.fill(state);
    this.original = JSON.stringify(this.state());
  }

  choose(name) {
    this.example.value = name;
    const { language, ...texts } = this.examples[name];
    this.fillOriginal({ texts, anyDecimal: false, language });
  }

  // Shows an example that the reader has chosen. Where that loses texts, it asks before.
  async chosen(name) {
    if (JSON.stringify(this.state()) !== this.original && !await this.mayReplace()) {
      this.example.value = '';
      return;
    }
    clearTimeout(this.keeping);
    this.keeping = null;
    forget(this.fragment);
    this.choose(name);
  }

  // Asks whether an example may replace the texts. The promise gives the answer.
  mayReplace() {
    this.dialog.returnValue = 'keep';
    this.dialog.showModal();
    return new Promise(give => this.dialog.addEventListener('close', () => give(this.dialog.returnValue === 'replace'), { once: true }));
  }

  changed() {
    this.example.value = '';
    clearTimeout(this.keeping);
    this.keeping = setTimeout(() => this.keep(), KEPT_AFTER);
    this.work();
  }

  // Keeps the texts, if they have changed since they were kept.
  keep() {
    if (this.keeping !== null) keep(this.fragment, this.state());
    clearTimeout(this.keeping);
    this.keeping = null;
  }

  async openLink() {
    this.keep();
    this.fragment = location.hash;
    const kept = keptState(this.fragment);
    this.example.value = '';
    this.original = '';
    if (kept) {
      this.status.first = 'Here are your texts again.';
      return this.fill(kept);
    }
    const first = Object.keys(this.examples)[0];
    if (this.fragment === '') return this.choose(first);
    try {
      this.fillOriginal(await stateOf(this.fragment));
    } catch {
      this.status.first = 'The link holds no texts of this page, so here is an example.';
      this.choose(first);
    }
  }

  // Puts the texts into the address of the page, and the address where it can be pasted from.
  async copyLink() {
    this.keep();
    const state = this.state();
    history.replaceState(null, '', await fragmentOf(state));
    this.fragment = location.hash;
    this.original = JSON.stringify(state);
    try {
      await navigator.clipboard.writeText(location.href);
      this.status.say('The link is copied.', 'good');
    } catch {
      this.status.say('The link is in the address bar: copy it from there.', 'good');
    }
  }

  // Has the worker work on the texts as they are now; while it is busy, on what they will be when it has ended.
  work() {
    this.isWaiting = this.isBusy;
    if (this.isBusy) return;
    this.isBusy = true;
    this.number += 1;
    this.sent = this.texts();
    this.late = setTimeout(() => this.status.say('Working', ''), 400);
    this.worker.postMessage({ number: this.number, texts: this.sent, settings: this.settings(), first: ANSWERS_AT_ONCE });
  }

  // Asks the worker about the texts that are shown. The promise gives null if there are others by then.
  ask(question) {
    const number = this.number, place = ++this.questionCount;
    this.worker.postMessage({ ...question, question: place, number });
    return new Promise(give => this.questions.set(place, reply => give(number === this.number ? reply : null)));
  }

  replied({ question, reply }) {
    this.questions.get(question)(reply);
    this.questions.delete(question);
  }

  // Hears that the engine is ready, what it has done, what it replies, or that it does not run.
  heard(data) {
    const { ready, done, failed } = data;
    if (data.question) return this.replied(data);
    clearTimeout(this.late);
    this.isBusy = false;
    if (failed !== undefined) return this.fail(failed);
    if (ready !== undefined) {
      this.status.loaded = ready;
      return this.work();
    }
    if (done.report) this.judged = { report: done.report, publish: done.publish, words: done.words };
    if (this.isWaiting) return this.work();
    this.showDone({ ...this.judged, answers: done.answers, refused: done.refused, memory: done.memory });
  }

  showDone(done) {
    this.last = { done, texts: this.sent };
    this.showFindings(findingsOf(done, this.sent, this.numbers), done);
    this.showAnswers(done);
    this.showPrinted();
    this.status.show(done);
    document.documentElement.dataset.shown = String(this.number);
  }

  showFindings(findings, { report, publish }) {
    const shown = findings.map(finding => this.view.finding(finding));
    if (!shown.length && publish.status === 0) shown.push(element('li', { class: 'nothing' }, 'The policies have no faults.'));
    document.getElementById('report').replaceChildren(...shown);
    const notes = findings.filter(it => it.number === undefined).length;
    const count = [0, 3].includes(report.status) ? countOf(report.text) + (notes ? `, ${counted(notes, 'note')}` : '') : '';
    document.getElementById('report-count').textContent = publish.status === 2 ? REFUSED[findings[0].file] : count;
    for (const [name, editor] of Object.entries(this.editors)) {
      const own = findings.filter(it => it.file === name);
      editor.mark(own.flatMap(it => it.marks.map((mark, place) => ({ ...mark, kind: place ? 'also' : it.kind }))));
    }
  }

  showAnswers({ answers, refused: words }) {
    const list = document.getElementById('answers'), count = document.getElementById('answers-count');
    list.replaceChildren(element('li', { class: 'nothing' }, 'No request is answered.'));
    count.textContent = '';
    if (answers?.status !== 0) return;
    const all = this.view.answers(answers.text, this.sent, words, list, lines => this.markRequests(lines));
    const of = kind => all.filter(it => it.decision === kind).length;
    const allowed = of('allow'), denied = of('deny'), refused = all.length - allowed - denied;
    count.textContent = `${allowed} allow, ${denied} deny${refused ? `, ${refused} refused` : ''}`;
  }

  // Marks request lines that are refused.
  markRequests(lines) {
    const text = this.sent.requests;
    this.editors.requests.mark(lines.map(line => ({ ...rangeOfLine(text, line), kind: 'warning' })));
  }

  // Shows what the program would print, where that is open.
  showPrinted() {
    if (!this.last) return;
    const { report, publish, answers } = this.last.done;
    const texts = { 'report-text': publish.status === 2 ? publish.text : report.text, 'answers-text': answers?.text ?? '' };
    for (const [id, text] of Object.entries(texts)) {
      const place = document.getElementById(id);
      place.textContent = place.parentElement.open ? text : '';
    }
  }

  show(place) {
    if (place) this.editors[place.name].show(place.from, place.to);
    else this.status.say('The policy is not in the texts any more.', 'error');
  }
}

const page = new Page();
page.start().catch(fault => page.fail(String(fault.message ?? fault)));
