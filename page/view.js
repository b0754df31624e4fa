// What is shown of the engine's work: findings on the files, and the answers to request lines.

// The answers that are shown at first, and that each press of the button below them adds.
const ANSWERS_AT_ONCE = 200;

// The errors of a policy in words.
const ERRORS = { overflow: 'an integer overflows', missing_entity: 'an entity is not stored', decimal: 'a string is not a decimal' };

// What a policy came to, in words.
const RESULTS = {
  satisfied: 'is satisfied', overridden: 'is satisfied, and overridden', erred: 'failed and was skipped', false: 'is false',
};

// The policies that are false by their scopes of which the names are shown.
const NAMED_AT_ONCE = 20;

class View {
  // `numbers` is what docs/REFUSALS.md says of each number. `texts()` gives the texts as they are now, and `show(place)` shows a place in
  // one of them: its name, from and to. `ask(question)` promises what the worker replies, or null if it has other texts by then.
  constructor(numbers, texts, show, ask) {
    this.numbers = numbers;
    this.texts = texts;
    this.show = show;
    this.ask = ask;
  }

  // A button that shows a place when it is pressed.
  placeButton(label, place, kind = 'place') {
    return element('button', { type: 'button', class: kind, click: () => this.show(place()) }, label);
  }

  // A button with the id of a policy that shows the policy.
  policyButton(id) {
    return this.placeButton(id, () => placeOfPolicy(this.texts(), id), 'policy');
  }

  finding(finding) {
    const { kind, number, reason, part, notes, hint, policy, environments } = finding;
    const called = number === undefined ? kind : `${kind} ${number}`;
    const title = element('h3', {}, element('span', { class: 'number' }, called), ' ', ...sentence(reason));
    const shown = element('li', { class: `finding ${kind}` }, title, element('p', {}, ...this.placesOf(finding)));
    if (part) shown.append(element('p', {}, ...sentence(part)));
    if (policy !== undefined) shown.append(element('p', {}, 'policy ', this.policyButton(policy)));
    if (notes.length) shown.append(this.notes(notes));
    if (hint) shown.append(element('p', { class: 'hint' }, 'Hint: ', ...sentence(hint)));
    if (environments.length) shown.append(this.environments(environments));
    return shown;
  }

  // The notes of a finding or on a refused request.
  notes(notes) {
    return element('ul', { class: 'notes' }, ...notes.map(note => element('li', {}, ...sentence(note))));
  }

  // The places of a finding, each with what is said of it; or only the file.
  placesOf({ file, marks }) {
    if (!marks.length) return [file];
    return marks.map(mark => {
      const button = this.placeButton(`${file}, line ${mark.line}, column ${mark.column}`, () => ({ name: file, ...mark }));
      return element('span', { class: 'mark' }, button, ' ', ...sentence(mark.says));
    });
  }

  // The environments of a fault. They are open if there is one.
  environments(environments) {
    const rows = environments.map(({ principal, action, resource }) =>
      element('li', {}, element('code', {}, `${principal}, ${action.type}::${JSON.stringify(action.id)}, ${resource}`)));
    const title = element('summary', {}, `in ${counted(environments.length, 'environment')}`);
    const shown = element('details', { class: 'environments' }, title, element('ul', {}, ...rows));
    shown.open = environments.length === 1;
    return shown;
  }

  // Shows the first answers in a list, and a button for more. `refused` has the words on the first refused lines, and `mark(lines)` marks
  // the lines of those that are shown. Gives all answers.
  answers(text, texts, refused, list, mark) {
    const answers = objectsOf(text), lines = texts.requests.split('\n'), marked = [];
    let shown = 0;
    this.answered = texts;
    this.made = undefined;
    const add = found => {
      const words = new Map(found.map(it => [it.place, it.words]));
      for (const end = Math.min(shown + ANSWERS_AT_ONCE, answers.length); shown < end; shown++) {
        list.append(this.answer(answers[shown], shown + 1, lines[shown], words.get(shown)));
        if (answers[shown].refused) marked.push(shown + 1);
      }
      if (shown < answers.length) list.append(this.moreButton(answers.length - shown, more));
      mark(marked);
    };
    const more = async () => {
      const from = shown, found = await this.ask({ from, to: from + ANSWERS_AT_ONCE });
      if (!found || shown !== from) return;
      list.querySelector('.more').remove();
      add(found);
    };
    list.replaceChildren();
    add(refused);
    return answers;
  }

  moreButton(others, add) {
    const label = `Show more of the other ${others.toLocaleString('en')}`;
    return element('li', { class: 'more' }, element('button', { type: 'button', click: add }, label));
  }

  answer(answer, line, request, words) {
    const kind = answer.decision ?? 'refused';
    const place = this.placeButton(`line ${line}`, () => ({ name: 'requests', ...rangeOfLine(this.texts().requests, line) }));
    const why = answer.decision ? this.why(answer) : this.whyRefused(answer.refused, words);
    const shown = element('li', { class: `answer ${kind}` }, place, ' ', element('span', { class: 'decision' }, kind), ' ', ...why,
      element('div', { class: 'request' }, requestInShort(request)));
    if (answer.decision) shown.append(this.policies(answer, line - 1));
    return shown;
  }

  // What each policy came to for the request of a place, which is found out once it is opened.
  policies(answer, place) {
    const shown = element('details', { class: 'policies' }, element('summary', {}, 'what each policy came to'));
    shown.addEventListener('toggle', async () => shown.append(await this.results(answer, place)), { once: true });
    return shown;
  }

  async results(answer, place) {
    const says = text => element('p', {}, ...sentence(text));
    this.made ??= madeOf(this.answered);
    if (!this.made) return says('The policies are too long for this page: `cedar why` says it.');
    const ended = await this.ask({ texts: this.made.texts, place });
    if (ended?.status !== 0) return says('The engine did not find it out.');
    if (!this.made.policies.length) return says('There are no policies.');
    const results = resultsOf(this.made.policies, answer, ended.text), others = results.filter(it => it.result === 'scope');
    const shown = element('ul', {}, ...results.filter(it => it.result !== 'scope').map(it => this.result(it)));
    if (others.length) shown.append(this.others(others));
    return shown;
  }

  // The policies that are false by their scopes: how many, and the names of the first ones.
  others(others) {
    const named = this.named(others.slice(0, NAMED_AT_ONCE).map(it => it.id)), more = others.length > NAMED_AT_ONCE ? [' and others'] : [];
    return element('li', { class: 'others' }, `false by scope: ${others.length.toLocaleString('en')} (`, ...named, ...more, ')');
  }

  // What a policy came to.
  result({ id, effect, result, part, error }) {
    const shown = element('li', { class: result }, effect, ' ', this.policyButton(id), ` ${RESULTS[result]}`);
    if (!part) return shown;
    const text = this.answered.policies, line = lineOf(text, part.from);
    const column = [...text.slice(lineStart(text, line), part.from)].length + 1;
    const place = this.placeButton(`line ${line}, column ${column}`, () => ({ name: 'policies', ...part }));
    const ends = error ? `: ${ERRORS[error] ?? error}` : part.clause === 'unless' ? ' is true' : ' is false';
    shown.append(': ', place, ' ', element('code', {}, text.slice(part.from, part.to).replace(/\s+/g, ' ')), ends);
    return shown;
  }

  // Why a request is decided as it is, in the words of `cedar why`.
  why({ decision, determining, erring }) {
    const effect = decision === 'allow' ? 'permit' : 'forbid', isOne = determining.length === 1;
    const why = determining.length
      ? [`since the ${effect}${isOne ? '' : 's'} `, ...this.named(determining), isOne ? ' is satisfied' : ' are satisfied']
      : ['since no permit is satisfied'];
    const failed = erring.map(({ policy, error }) =>
      element('span', { class: 'erring' }, '; ', this.policyButton(policy), ` failed (${ERRORS[error] ?? error}) and was skipped`));
    return [...why, ...failed];
  }

  // The buttons of policies, joined as in a sentence.
  named(ids) {
    const before = place => place === 0 ? '' : place === ids.length - 1 ? ' and ' : ', ';
    return ids.flatMap((id, place) => [before(place), this.policyButton(id)]);
  }

  // Why a request is refused, in the words of the engine. If it has none, they are those of the number.
  whyRefused(number, words) {
    const { when, remedy } = rowOf(this.numbers, 'requests', number);
    const { reason, notes = [], hint } = words ?? { reason: when, hint: remedy };
    const why = [element('span', { class: 'number' }, String(number)), ': ', ...sentence(reason)];
    if (notes.length) why.push(this.notes(notes));
    if (hint) why.push(element('p', { class: 'hint' }, 'Hint: ', ...sentence(hint)));
    return why;
  }
}

// The principal, the action and the resource of a request line; or its beginning, if it does not have them.
function requestInShort(line) {
  try {
    const { principal, action, resource } = JSON.parse(line);
    const uid = it => typeof it === 'string' ? it : `${it.type}::${JSON.stringify(it.id)}`;
    return [principal, action, resource].map(uid).join(', ');
  } catch {
    return line.slice(0, 200);
  }
}
