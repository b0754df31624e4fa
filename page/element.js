// Elements of the page. Text from files and from the engine becomes text nodes only, and never markup.

// An element with attributes and children, which are elements or strings. An attribute that is a function listens to an event.
function element(tag, attributes = {}, ...children) {
  const made = document.createElement(tag);
  for (const [name, value] of Object.entries(attributes)) {
    if (typeof value === 'function') made.addEventListener(name, value);
    else made.setAttribute(name, value);
  }
  made.append(...children);
  return made;
}

// A sentence, in which what is between backquotes is code.
const sentence = text => text.split('`').map((part, place) => place % 2 ? element('code', {}, part) : part);

// A count with its noun, which gets an s for more than one.
const counted = (count, noun) => `${count.toLocaleString('en')} ${noun}${count === 1 ? '' : 's'}`;

const milliseconds = time => time < 10 ? `${time.toFixed(1)} ms` : `${Math.round(time).toLocaleString('en')} ms`;
