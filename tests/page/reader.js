// What a reader does with the playground, for tools/running/page_test, which evaluates this in the page.
const reader = {
  // Chooses an example. Gives whether the page asks before it replaces the texts.
  choose(name) {
    const select = document.getElementById('example');
    select.value = name;
    select.dispatchEvent(new Event('change'));
    return page.dialog.open;
  },

  // From here on, `reader.closed` is the promise that the page has heard that the dialog was closed. A browser reports it after the dialog is gone.
  closing() {
    reader.closed = new Promise(done => page.dialog.addEventListener('close', () => setTimeout(done), { once: true }));
  },

  // Presses a button of the dialog, and waits until the page has heard of it.
  async answer(value) {
    reader.closing();
    page.dialog.querySelector(`[value=${value}]`).click();
    await reader.closed;
  },

  // Writes a text, as if it were typed.
  write(name, text) {
    const area = document.getElementById(name);
    area.value = text;
    area.dispatchEvent(new Event('input'));
  },

  // The texts of elements.
  texts: selector => [...document.querySelectorAll(selector)].map(it => it.textContent),

  // The policies that each answer names.
  policies: () => [...document.querySelectorAll('#answers > .answer')]
    .map(answer => [...answer.querySelectorAll('.policy')].map(it => it.textContent)),

  // Opens what each policy came to, of each answer.
  openPolicies() {
    for (const it of document.querySelectorAll('#answers .policies')) it.open = true;
  },

  // What each answer says of policies, once that is there: of each its id, effect, result and the range of the part, if it names one; and
  // how many are false by their scopes.
  results: () => [...document.querySelectorAll('#answers .policies')].map(it => [
    [...it.querySelectorAll('li:not(.others)')].map(row => {
      const place = row.querySelector('.place'), { policies } = page.editors;
      place?.click();
      const [from, to] = [policies.area.selectionStart, policies.area.selectionEnd];
      return [row.querySelector('.policy').textContent, row.firstChild.textContent.trim(), row.className, ...place ? [[from, to]] : []];
    }),
    Number(it.querySelector('.others')?.firstChild.textContent.match(/\d+/)[0] ?? 0),
  ]),

  // Scrolls a text to a line. Gives the numbers of the lines that are drawn beside it, and how many pixels that of this line is below it.
  async numbers(name, line) {
    const editor = page.editors[name], { area, numbers } = editor;
    area.scrollTop = (line - 3) * editor.height() + 5;
    area.scrollLeft = 40;
    await new Promise(done => requestAnimationFrame(() => setTimeout(done)));
    const drawn = numbers.textContent.split('\n').map(Number), place = drawn.indexOf(line);
    const first = area.getBoundingClientRect().top + parseFloat(getComputedStyle(area).paddingTop) - area.scrollTop;
    return [drawn, numbers.getBoundingClientRect().top - first + (place - line + 1) * editor.height()];
  },

  // What is copied where all of the page is selected.
  copied() {
    getSelection().selectAllChildren(document.body);
    const copied = getSelection().toString();
    getSelection().removeAllRanges();
    return copied;
  },

  // What each refused answer says: its number, the reason, what is wrong, and the hint.
  refused: () => [...document.querySelectorAll('#answers > .refused')].map(answer => {
    const part = name => answer.querySelector(name)?.textContent ?? null;
    const notes = [...answer.querySelectorAll('.notes li')].map(it => it.textContent);
    const own = [...answer.childNodes].filter(it => it.nodeType === Node.TEXT_NODE || it.tagName === 'CODE').map(it => it.textContent);
    return [part('.number'), own.join('').trim().replace(/^: /, ''), notes, part('.hint')];
  }),

  // Presses the first button with a text. Gives the text area that has the focus then, and what is selected there.
  press(selector, text) {
    [...document.querySelectorAll(selector)].find(it => it.textContent === text).click();
    const area = document.activeElement;
    return [area.id, area.value.slice(area.selectionStart, area.selectionEnd)];
  },

  // The status and the text of a call for what is shown.
  done(call) {
    const ended = page.last.done[call];
    return ended ? [ended.status, ended.text] : null;
  },

  // Types letters at the end of the requests. Gives the longest time in milliseconds for which the page did not go on.
  async type(letters) {
    const area = document.getElementById('requests');
    let last = performance.now(), longest = 0, isOn = true;
    const tick = () => {
      const now = performance.now();
      longest = Math.max(longest, now - last);
      last = now;
      if (isOn) setTimeout(tick, 0);
    };
    area.focus();
    area.setSelectionRange(area.value.length, area.value.length);
    tick();
    for (const letter of letters) {
      document.execCommand('insertText', false, letter);
      await new Promise(done => setTimeout(done, 5));
    }
    while (page.isBusy || page.isWaiting) await new Promise(done => setTimeout(done, 5));
    isOn = false;
    return longest;
  },

  // Types letters at the place of the cursor, all at once.
  burst(letters) {
    for (const letter of letters) document.execCommand('insertText', false, letter);
  },

  // The colours of elements, each once.
  colours: selector => [...new Set([...document.querySelectorAll(selector)].map(it => getComputedStyle(it).color))],

  // The contrast of each element of these selectors with what is behind it (WCAG 2.1, contrast ratio).
  contrasts(selectors) {
    const channel = part => (part /= 255) <= 0.04045 ? part / 12.92 : ((part + 0.055) / 1.055) ** 2.4;
    const parts = colour => colour.match(/[\d.]+/g).map(Number);
    const light = ([red, green, blue]) => 0.2126 * channel(red) + 0.7152 * channel(green) + 0.0722 * channel(blue);
    const behind = at => {
      for (; at; at = at.parentElement) {
        const found = parts(getComputedStyle(at).backgroundColor);
        if (found.length === 3) return found;
      }
      return [255, 255, 255];
    };
    return selectors.flatMap(selector => [...document.querySelectorAll(selector)].slice(0, 20).map(it => {
      const [most, least] = [light(parts(getComputedStyle(it).color)), light(behind(it))].sort((a, b) => b - a);
      return [selector, (most + 0.05) / (least + 0.05)];
    }));
  },
};
