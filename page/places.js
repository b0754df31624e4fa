// Where things are in the texts. The engine counts lines and characters from 1, and bytes from 0; a text area counts UTF-16 units from 0.

const GAP = String.raw`(?:\s|//[^\n]*\n)*`, STRING = String.raw`"(?:[^"\\]|\\[^])*"`;
const TOKENS = new RegExp(String.raw`//[^\n]*|@${GAP}id${GAP}\(${GAP}(${STRING})${GAP}\)|${STRING}|;|[^\s/]|/`, 'g');

const ESCAPES = { n: '\n', r: '\r', t: '\t', 0: '\0' };

// The unit at which a line begins, or the end of the text.
function lineStart(text, line) {
  let at = 0;
  for (let count = 1; count < line; count++) {
    const feed = text.indexOf('\n', at);
    if (feed < 0) return text.length;
    at = feed + 1;
  }
  return at;
}

// The unit of a line and a column.
function unitAt(text, line, column) {
  let at = lineStart(text, line);
  for (let count = 1; count < column && at < text.length && text[at] !== '\n'; count++) {
    at += text.codePointAt(at) > 0xffff ? 2 : 1;
  }
  return at;
}

// The unit of an offset in bytes.
function unitOfByte(text, offset) {
  return new TextDecoder().decode(new TextEncoder().encode(text).subarray(0, offset)).length;
}

// The line of a unit, from 1.
function lineOf(text, unit) {
  let line = 1;
  for (let at = text.indexOf('\n'); at >= 0 && at < unit; at = text.indexOf('\n', at + 1)) line++;
  return line;
}

// The range of a line, without its line feed.
function rangeOfLine(text, line) {
  const from = lineStart(text, line), feed = text.indexOf('\n', from);
  return { from, to: feed < 0 ? text.length : feed };
}

// The string that a literal of a policy text writes.
function unescaped(literal) {
  return literal.slice(1, -1).replace(/\\(?:u\{([0-9A-Fa-f]+)\}|x([0-9A-Fa-f]{2})|([^]))/g, (all, point, byte, letter) => {
    const code = parseInt(point ?? byte ?? '', 16);
    return letter !== undefined ? ESCAPES[letter] ?? letter : code <= 0x10ffff ? String.fromCodePoint(code) : all;
  });
}

// The statements of a policy text, each with its range and its id. The text need not be a right one.
function statementsOf(text) {
  const statements = [];
  let from = -1, id = null;
  for (const token of text.matchAll(TOKENS)) {
    if (token[0].startsWith('//')) continue;
    if (from < 0) from = token.index;
    if (token[1] !== undefined && id === null) id = unescaped(token[1]);
    if (token[0] === ';') {
      statements.push({ from, to: token.index + 1, id: id ?? `policy${statements.length}` });
      from = -1;
      id = null;
    }
  }
  return statements;
}

// Where a policy is: the statement with its id, or else the id of its link. Null if it is in neither.
function placeOfPolicy(texts, id) {
  const statement = statementsOf(texts.policies).find(it => it.id === id);
  if (statement) return { name: 'policies', from: statement.from, to: statement.to };
  const literal = JSON.stringify(id), at = texts.links.indexOf(literal);
  return at < 0 ? null : { name: 'links', from: at, to: at + literal.length };
}
