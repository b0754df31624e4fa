// A text area with the numbers of its lines, in which ranges are marked. The marks are drawn below the text, line by line, and move with
// it. Of the numbers only those in view are drawn, so they cost the same for every length of the text.
class Editor {
  constructor(name) {
    this.name = name;
    this.area = document.getElementById(name);
    this.box = this.area.parentElement;
    this.marks = this.box.querySelector('.marks');
    this.numbers = this.box.querySelector('.numbers');
    this.lines = 1;
    this.area.addEventListener('scroll', () => this.follow());
    this.area.addEventListener('input', () => this.count());
    new ResizeObserver(() => this.follow()).observe(this.area);
  }

  get text() {
    return this.area.value;
  }

  set text(text) {
    this.area.value = text;
    this.area.scrollTop = 0;
    this.area.scrollLeft = 0;
    this.count();
  }

  // Counts the lines, and makes room for the digits of the last number.
  count() {
    this.lines = lineOf(this.text, Infinity);
    this.box.style.setProperty('--digits', Math.max(2, String(this.lines).length));
    this.follow();
  }

  // Marks ranges, each with a kind: error, warning, or also for what is beside them. A range of several lines is marked in its first.
  mark(ranges) {
    this.marks.replaceChildren(...ranges.map(range => this.drawn(range)));
    this.area.setAttribute('aria-invalid', String(ranges.some(it => it.kind === 'error')));
    this.follow();
  }

  drawn({ from, to, kind }) {
    const text = this.text, line = lineOf(text, from), { from: begin, to: end } = rangeOfLine(text, line);
    const row = element('div', { class: 'marked-line' }, text.slice(begin, from));
    row.style.setProperty('--line', line - 1);
    row.append(element('mark', { class: kind }, text.slice(from, Math.min(Math.max(to, from + 1), end)) || ' '));
    return row;
  }

  // Moves what is drawn below the text with it, and draws the numbers that are in view.
  follow() {
    const { scrollLeft, scrollTop, clientHeight } = this.area, height = this.height();
    const first = Math.max(0, Math.floor(scrollTop / height) - 1);
    const last = Math.min(this.lines, Math.ceil((scrollTop + clientHeight) / height) + 1);
    const drawn = Array.from({ length: Math.max(0, last - first) }, (_, place) => first + place + 1).join('\n');
    if (this.numbers.textContent !== drawn) this.numbers.textContent = drawn;
    this.numbers.style.transform = `translateY(${first * height - scrollTop}px)`;
    this.marks.style.transform = `translate(${-scrollLeft}px, ${-scrollTop}px)`;
  }

  // The height of a line in pixels.
  height() {
    return parseFloat(getComputedStyle(this.area).lineHeight);
  }

  // Selects a range and brings it into view.
  show(from, to) {
    const height = this.height(), line = lineOf(this.text, from);
    const details = this.area.closest('details');
    if (details) details.open = true;
    this.area.focus();
    this.area.setSelectionRange(from, to);
    this.area.scrollTop = Math.max(0, (line - 3) * height);
    this.area.scrollLeft = 0;
    this.area.scrollIntoView({ block: 'nearest' });
  }
}
