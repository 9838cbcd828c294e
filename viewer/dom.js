// Makes parts of the page. A text of a document comes in as a text node alone, so that markup in it stays text.

/**
 * An element with children. Functions among its attributes listen to the event of that name. Attributes and children
 * that are absent or false are left out.
 */
export function make(tag, attributes = {}, ...children) {
  const element = document.createElement(tag);
  for (const [name, value] of Object.entries(attributes)) {
    if (typeof value === 'function') element.addEventListener(name, value);
    else if (isThere(value)) element.setAttribute(name, value === true ? '' : value);
  }
  element.append(...children.flat().filter(isThere));
  return element;
}

const isThere = value => value !== undefined && value !== null && value !== false;

/** Gives an element these children. Those that it has alike stay, with what the reader has chosen in them. */
export function update(element, children) {
  children.forEach((child, n) => {
    const old = element.childNodes[n];
    if (!old) element.append(child);
    else if (old !== child && !old.isEqualNode(child)) old.replaceWith(child);
  });
  while (element.childNodes.length > children.length) element.lastChild.remove();
}

/** A text with its language, if it is there. */
export function spokenText(entry, attributes = {}) {
  return entry && make('span', { lang: entry.language, dir: 'auto', ...attributes }, entry.text);
}

/** The text, as a link where it is the address of a web page. No other scheme becomes a link. */
export function webLink(text) {
  if (!/^https?:\/\//i.test(text)) return text;
  return make('a', { href: text, target: '_blank', rel: 'noopener noreferrer' }, text);
}

export const isPicture = contentType => /^image\/[\w.+-]+$/i.test(contentType ?? '');

/** The picture of a Blob, or undefined where it has none. A picture runs no scripts, of whatever type it is. */
export function picture({ contentType, value }, alternative) {
  if (!isPicture(contentType) || !value) return undefined;
  return make('img', { src: `data:${contentType};base64,${value}`, alt: alternative });
}

/** A table of names and what stands behind them, without those behind which nothing stands. */
export function facts(rows) {
  const filled = rows.filter(([, content]) => isThere(content) && content !== '');
  const cells = filled.flatMap(([name, content]) => [make('dt', {}, name), make('dd', {}, content)]);
  return make('dl', { class: 'facts' }, cells);
}
