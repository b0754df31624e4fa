// The texts that a reader has changed, which the storage of the browser keeps over a reload: those of the page, and beside them those of
// the last link. A browser may refuse storage, for example in a private window or for texts that are too large. Then nothing is kept.

const keyOf = fragment => fragment === '' ? 'bobbinjade playground' : 'bobbinjade playground, link';

// What a use of the storage gives, or null where the browser refuses it.
function stored(use) {
  try {
    return use(window.localStorage);
  } catch {
    return null;
  }
}

// Has the storage forget the texts of the page, or of a link.
function forget(fragment) {
  stored(storage => storage.removeItem(keyOf(fragment)));
}

// Keeps a state for the address with a fragment, in the place of an earlier one.
function keep(fragment, state) {
  forget(fragment);
  stored(storage => storage.setItem(keyOf(fragment), JSON.stringify({ ...state, fragment })));
}

// The state that is kept for a fragment, or null.
function keptState(fragment) {
  const held = stored(storage => JSON.parse(storage.getItem(keyOf(fragment))));
  if (held?.fragment !== fragment || !TEXT_NAMES.every(name => typeof held.texts?.[name] === 'string')) return null;
  return { texts: held.texts, anyDecimal: held.anyDecimal === true, language: held.language === LANGUAGE_4 ? LANGUAGE_4 : DEFAULT_LANGUAGE };
}
