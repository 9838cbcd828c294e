// The reader's language, and texts in it.

const FALLBACK = 'en';
const KEY = 'language';

let chosen = stored() ?? primary(navigator.language || FALLBACK);
const met = new Set([chosen, FALLBACK]);

/** Tells by `met` that a text in a new language was met, and by `chosen` that the reader chose another one. */
export const languages = new EventTarget();

export const chosenLanguage = () => chosen;
export const metLanguages = () => [...met].sort();

export function chooseLanguage(language) {
  chosen = language;
  try {
    localStorage.setItem(KEY, language);
  } catch { /* a browser that keeps nothing */ }
  languages.dispatchEvent(new Event('chosen'));
}

/** Of a text in several languages the one for the reader: theirs, else English, else the first. */
export function spoken(texts) {
  if (!texts?.length) return undefined;
  texts.forEach(text => meet(primary(text.language)));
  const inLanguage = language => texts.find(text => primary(text.language) === language);
  return inLanguage(chosen) ?? inLanguage(FALLBACK) ?? texts[0];
}

function meet(language) {
  if (met.has(language)) return;
  met.add(language);
  languages.dispatchEvent(new Event('met'));
}

/** The name of a language in itself. */
export function languageName(language) {
  try {
    return new Intl.DisplayNames([language], { type: 'language' }).of(language);
  } catch {
    return language;
  }
}

function primary(tag) {
  return tag.split('-')[0].toLowerCase();
}

function stored() {
  try {
    return localStorage.getItem(KEY);
  } catch {
    return undefined;
  }
}
