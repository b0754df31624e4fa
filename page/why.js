// What each policy came to for a request, and the part of it that decided. The engine finds this out: it answers the request for other
// policies, which are made of those of the page. For each part of a policy there is a permit that has the parts up to it. So the first of
// these permits that is not satisfied has the part that decided.

const WORDS = /\/\/[^\n]*|"(?:[^"\\]|\\[^])*"|[A-Za-z_]\w*|&&|\|\||[^\s]/g;

// The most UTF-16 units of the policies and links that are made, and how many are reckoned for a link.
const MOST_MADE = 4000000;
const FOR_LINK = 200;

// The words of a statement, each with its range and with how many brackets are around it. The two brackets of a pair have the same number.
function wordsOf(text, { from, to }) {
  const words = [];
  let depth = 0;
  for (const { 0: word, index } of text.slice(from, to).matchAll(WORDS)) {
    if (word.startsWith('//')) continue;
    if (')]}'.includes(word)) depth--;
    words.push({ word, from: from + index, to: from + index + word.length, depth });
    if ('([{'.includes(word)) depth++;
  }
  return words;
}

// The sides of a condition: those of its `&&` after `when`, and those of its `||` after `unless`. If it is of another form, it is one side.
function sidesOf(clause, words) {
  const has = word => words.some(it => it.depth === 1 && it.word === word), sides = [[]];
  const cut = has('if') || (clause === 'when' && has('||')) ? '' : clause === 'when' ? '&&' : '||';
  for (const it of words) {
    if (it.depth === 1 && it.word === cut) sides.push([]);
    else sides.at(-1).push(it);
  }
  return sides.map(side => ({ clause, from: side[0].from, to: side.at(-1).to }));
}

// The effect of a statement, its parts, which are its scope and each side of its conditions, and whether it is a template.
function policyOf(text, statement) {
  const words = wordsOf(text, statement), outer = words.filter(it => it.depth === 0);
  const at = outer.findIndex(({ word }, place) => ['permit', 'forbid'].includes(word) && outer[place - 1]?.word !== '@');
  const [effect, open, close, ...clauses] = outer.slice(at);
  const inside = (begin, end) => words.filter(it => it.from > begin.from && it.from < end.from);
  const parts = [{ clause: '', from: open.from, to: close.to }];
  for (let place = 0; place + 2 < clauses.length; place += 3) {
    const [clause, begin, end] = clauses.slice(place);
    parts.push(...sidesOf(clause.word, inside(begin, end)));
  }
  return { effect: effect.word, parts, isTemplate: inside(open, close).some(it => it.word === '?') };
}

// The permits for the parts of a policy. That of a part has the id `key.place`.
function permitsOf(text, key, parts) {
  let before = '';
  return parts.map(({ clause, from, to }, place) => {
    const part = text.slice(from, to);
    before += clause ? ` ${clause} { ${part} }` : part;
    return `@id("${key}.${place}") permit${before};\n`;
  }).join('');
}

// The policies of texts, each with its id, effect, parts and key, and the texts that the engine is asked about. Null if they are too long.
function madeOf(texts) {
  if (texts.policies.length + texts.links.length > MOST_MADE) return null;
  const statements = statementsOf(texts.policies).map(it => ({ ...it, ...policyOf(texts.policies, it) }));
  const links = texts.links.trim() === '' ? [] : JSON.parse(texts.links), linked = new Set(links.map(it => it.template_id));
  const policies = statements.map((it, key) => ({ ...it, key: String(key) }));
  const used = policies.filter(it => !it.isTemplate || linked.has(it.id));
  const templates = new Map(used.map(it => [it.id, it]));
  const own = links.map((it, place) => ({ ...templates.get(it.template_id), id: it.link_id, key: `link${place}`, args: it.args }));
  const length = sum(used, it => it.parts.length * (it.to - it.from)) + sum(own, it => it.parts.length * FOR_LINK);
  if (length > MOST_MADE) return null;
  const made = own.flatMap(({ key, args, parts }, place) => parts.map((_, part) =>
    ({ template_id: `${templates.get(links[place].template_id).key}.${part}`, link_id: `${key}.${part}`, args })));
  const permits = used.map(it => permitsOf(texts.policies, it.key, it.parts)).join('');
  const asked = { ...texts, policies: permits, links: links.length ? JSON.stringify(made) : '', requests: '' };
  return { policies: [...policies.filter(it => !it.isTemplate), ...own], texts: asked };
}

const sum = (all, number) => all.reduce((before, it) => before + number(it), 0);

// What a policy came to, for the answer to the permits: satisfied, or false or erred with the part that decided, and its place.
function resultOf(policy, { determining, erring }) {
  const place = policy.parts.findIndex((_, part) => !determining.has(`${policy.key}.${part}`));
  if (place < 0) return { ...policy, result: 'satisfied' };
  const error = erring.get(`${policy.key}.${place}`);
  return { ...policy, result: error ? 'erred' : place ? 'false' : 'scope', part: policy.parts[place], error };
}

// What each policy came to, for the answer and the text of the answer to the permits. They are in the order of `cedar why`: those that
// determine the decision, those that erred, those that are overridden, and those that are false.
function resultsOf(policies, answer, text) {
  const { determining, erring } = JSON.parse(text);
  const found = { determining: new Set(determining), erring: new Map(erring.map(it => [it.policy, it.error])) };
  const own = new Set(answer.determining), results = policies.map(it => resultOf(it, found));
  const overridden = results.map(it => it.result === 'satisfied' && !own.has(it.id) ? { ...it, result: 'overridden' } : it);
  return ['satisfied', 'erred', 'overridden', 'false', 'scope'].flatMap(kind => overridden.filter(it => it.result === kind));
}
