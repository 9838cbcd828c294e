// The list of documents: a collection in pages, or what a search finds.

import { contentOf, nameOf } from './documents.js';
import { make, spokenText } from './dom.js';
import { addressOf, COLLECTIONS } from './routes.js';
import { documentsOf, ifThere, questionsOf } from './search.js';
import { read } from './server.js';

const PAGE = 100;

/** Where the documents of a collection are listed; submodels without their elements. */
const PATHS = { shells: '/shells', submodels: '/submodels/$metadata', 'concept-descriptions': '/concept-descriptions' };

/** Shows the list of a route. */
export async function showList(room, { collection, text }, signal) {
  room.replaceChildren();
  if (collection === 'find') await showFound(room, text, signal);
  else await showCollection(room, collection, signal);
}

const STOPS = 'a, button';

/** Makes a list one stop of Tab, in which the arrow keys lead from entry to entry. */
export function moveByKeys(room) {
  room.addEventListener('focusin', ({ target }) => setStop(room, target));
  room.addEventListener('keydown', event => {
    const step = { ArrowDown: 1, ArrowUp: -1 }[event.key];
    if (!step) return;
    event.preventDefault();
    const stops = [...room.querySelectorAll(STOPS)];
    stops[stops.indexOf(event.target) + step]?.focus();
  });
}

function setStop(room, stop) {
  for (const it of room.querySelectorAll(STOPS)) it.tabIndex = it === stop ? 0 : -1;
}

/** Marks the entry of the document that is shown. */
export function markCurrent(room, { collection, id }) {
  const current = id !== undefined && addressOf({ collection, id });
  for (const link of room.querySelectorAll('a')) {
    if (link.getAttribute('href') === current) link.setAttribute('aria-current', 'page');
    else link.removeAttribute('aria-current');
  }
  setStop(room, room.querySelector('[aria-current]') ?? room.querySelector(STOPS));
}

async function showCollection(room, collection, signal) {
  const entries = make('ul');
  room.append(entries);
  const count = await showPage(entries, { collection, path: PATHS[collection] }, signal);
  if (!count) room.append(make('p', { class: 'hint' }, `There are no ${COLLECTIONS[collection].toLowerCase()}.`));
}

/** Appends a page of documents, with a button for the next page where there is one; answers how many it has. */
async function showPage(entries, question, signal, cursor) {
  const query = new URLSearchParams({ ...question.words, limit: PAGE, ...(cursor && { cursor }) });
  const { result, paging_metadata: { cursor: next } } = await read(`${question.path}?${query}`, signal);
  const documents = await documentsOf(result, signal);
  const added = documents.map(it => makeEntry(question.collection, it));
  entries.append(...added);
  if (next) entries.append(moreButton(() => showPage(entries, question, signal, next)));
  if (cursor) added[0]?.firstChild.focus();
  return documents.length;
}

function moreButton(showNext) {
  const click = async () => {
    await showNext();
    place.remove();
  };
  const place = make('li', {}, make('button', { class: 'more', click }, 'Show more'));
  return place;
}

function makeEntry(collection, identifiable) {
  const { id } = identifiable;
  const name = nameOf(identifiable, contentOf(identifiable));
  const identifier = name.text !== id && make('small', {}, id);
  return make('li', {}, make('a', { href: addressOf({ collection, id }) }, spokenText(name), identifier));
}

/** Shows what each question of a search finds, below its title. */
async function showFound(room, text, signal) {
  const hint = make('p', { class: 'hint', role: 'status' }, 'Searching …');
  room.append(hint);
  const parts = questionsOf(text).map(question => ({ question, entries: make('ul') }));
  const counts = await Promise.all(parts.map(({ question, entries }) => showAnswer(entries, question, signal)));
  const found = parts.filter((_, n) => counts[n]);
  room.append(...found.flatMap(({ question, entries }) => [make('h2', {}, question.title), entries]));
  hint.textContent = found.length ? `Found for “${text}”` : `Nothing here has “${text}” as its identifier, idShort, `
    + 'semantic id or global asset id. Other asset ids are found by name and value, as serialNumber=7-0815.';
}

async function showAnswer(entries, question, signal) {
  if (!question.one) return showPage(entries, question, signal);
  const document = await ifThere(read(question.one, signal));
  if (document) entries.append(makeEntry(question.collection, document));
  return document ? 1 : 0;
}
