// What the engine says of the files, as findings to show. A finding has a kind (error or warning), a number, a reason in words, the text
// that it is about with marks in it, notes, a hint, and the environments that have it.

// The JSON objects of a text, one on each line.
const objectsOf = text => text.split('\n').filter(line => line !== '').map(line => JSON.parse(line));

// What docs/REFUSALS.md says of a number of a section: when it comes and what to do.
const rowOf = (numbers, section, number) => numbers[section]?.[number] ?? { when: `number ${number}`, remedy: '' };

// The faults and warnings of a report, those of one policy and number together, in the order in which they come first.
function groupsOf(report) {
  const groups = new Map();
  for (const line of objectsOf(report)) {
    if (line.policy === undefined) continue;
    const number = line.fault ?? line.warning, key = JSON.stringify([line.policy, number]);
    if (!groups.has(key)) groups.set(key, { kind: line.fault ? 'error' : 'warning', number, policy: line.policy, environments: [] });
    if (line.fault) groups.get(key).environments.push({ principal: line.principal, action: line.action, resource: line.resource });
  }
  return [...groups.values()];
}

// The ranges that an explanation marks in a text. Without marks it is the character at its place.
function rangesOf(text, words) {
  const place = { line: words.line, column: words.column, end_column: words.column + 1, says: '' };
  return (words.marks ?? (words.line ? [place] : [])).map(({ line, column, end_column: end, end_line: last = line, says }) =>
    ({ from: unitAt(text, line, column), to: unitAt(text, last, end), line, column, says }));
}

// The range of an offset in bytes, where there are no words.
function rangesOfByte(text, offset) {
  if (offset === undefined) return [];
  const from = unitOfByte(text, offset), line = lineOf(text, from);
  return [{ from, to: from + 1, line, column: from - lineStart(text, line) + 1, says: '' }];
}

// Whether a note names the policy and counts its environments, which a finding shows in another way.
const isAboutEnvironments = (note, policy) => note.startsWith(`policy \`${policy}\`, in `);

// The findings of a report: its groups, each with the words of the engine if it has words for it.
function findingsOfReport(report, words, texts, numbers) {
  return groupsOf(report).map(group => {
    const said = words.find(it => it.number === group.number && it.policy === group.policy), row = rowOf(numbers, 'faults', group.number);
    return {
      ...group, file: 'policies', part: '', reason: said?.reason ?? row.when, hint: said ? said.hint : row.remedy,
      marks: said ? rangesOf(texts.policies, said) : [],
      notes: (said?.notes ?? []).filter(note => !isAboutEnvironments(note, group.policy)),
    };
  });
}

// The findings of words that have no number, since the report says nothing of them: a part of a policy that is always false.
function findingsWithoutNumber(words, texts) {
  return words.filter(it => it.reason && it.number === undefined).map(({ severity, policy, reason, hint, notes = [], ...said }) => ({
    kind: severity, file: 'policies', part: '', environments: [], policy, reason, hint, notes, marks: rangesOf(texts.policies, said),
  }));
}

// The finding of a refusal: its line, with the words of the engine if it has words for it.
function findingOfRefusal(line, words, texts, numbers) {
  const text = texts[line.file], said = words.find(it => it.number === line.refused), row = rowOf(numbers, line.file, line.refused);
  return {
    kind: 'error', number: line.refused, file: line.file, reason: said?.reason ?? row.when, part: said?.part, environments: [],
    marks: said ? rangesOf(text, said) : rangesOfByte(text, line.offset), notes: said?.notes ?? [], hint: said ? said.hint : row.remedy,
  };
}

// The findings of what the worker has done. Of files that are accepted the words have warnings, and a fault that the worker put in.
function findingsOf(done, texts, numbers) {
  const words = done.words.status === 0 ? objectsOf(done.words.text) : [];
  if (done.publish.status === 2) return [findingOfRefusal(objectsOf(done.publish.text)[0], words, texts, numbers)];
  if (![0, 3].includes(done.report.status)) return [];
  const own = done.publish.status === 0 ? words.filter(it => it.severity === 'warning') : words;
  return [...findingsOfReport(done.report.text, own, texts, numbers), ...findingsWithoutNumber(own, texts)];
}
