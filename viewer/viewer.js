// The page: it shows the list and the document that stand behind `#` in its address.

import { make } from './dom.js';
import { chooseLanguage, chosenLanguage, languageName, languages, metLanguages } from './language.js';
import { markCurrent, moveByKeys, showList } from './list.js';
import { showDocument } from './pages.js';
import { addressOf, routeOf } from './routes.js';
import { keepListening, presence, Refusal } from './server.js';

const TITLE = document.title;
const START = { collection: 'shells' };
const rooms = Object.fromEntries(['list', 'document', 'details'].map(id => [id, document.getElementById(id)]));

/** What stands in the rooms: its address, and the control that ends it. */
let list = {};
let shown = {};

const currentRoute = () => routeOf(location.hash) ?? START;

/** Shows what the address names. A list stays beside the documents that are chosen in it. */
function go() {
  const route = currentRoute();
  const { collection, id } = route;
  document.body.classList.toggle('has-document', id !== undefined);
  if (id === undefined) leaveDocument();
  else changeDocument(route);
  if (id === undefined || !list.route) changeList(id === undefined ? route : { collection });
  else markCurrent(rooms.list, route);
}

async function changeList(route) {
  list.control?.abort();
  list = { route, control: new AbortController() };
  const { signal } = list.control;
  markCollection(addressOf(route));
  await orSay(rooms.list, showList(rooms.list, route, signal), signal);
  if (signal.aborted) return;
  markCurrent(rooms.list, currentRoute());
  openFirst(route);
}

function markCollection(address) {
  for (const link of document.querySelectorAll('#collections a')) {
    if (link.getAttribute('href') === address) link.setAttribute('aria-current', 'true');
    else link.removeAttribute('aria-current');
  }
}

/** Opens the first document where the address is empty or it is the only one found, and where both have room. */
function openFirst({ collection }) {
  const [first, ...others] = rooms.list.querySelectorAll('a');
  const isWanted = location.hash === '' || (collection === 'find' && !others.length);
  if (first && isWanted && getComputedStyle(rooms.document).display !== 'none') location.replace(first.href);
}

async function changeDocument(route) {
  const address = addressOf({ collection: route.collection, id: route.id });
  if (address === shown.address) {
    shown.page?.follow(route);
    return;
  }
  leaveDocument();
  shown = { address, control: new AbortController() };
  const { signal } = shown.control;
  const page = await orSay(rooms.document, showDocument(rooms, route, signal), signal);
  if (!signal.aborted) shown.page = page;
}

function leaveDocument() {
  shown.control?.abort();
  shown = {};
  rooms.details.hidden = true;
  rooms.document.replaceChildren(make('p', { class: 'hint' }, 'Choose a document in the list.'));
  document.title = TITLE;
}

/** Waits for what is shown in a room; where the server refuses it, its words are shown instead. */
async function orSay(room, showing, signal) {
  try {
    return await showing;
  } catch (error) {
    if (signal.aborted) return undefined;
    if (!(error instanceof Refusal)) throw error;
    room.replaceChildren(make('p', { class: 'notice', role: 'alert' }, error.message));
    return undefined;
  }
}

function startLanguages() {
  const select = document.getElementById('language');
  const fill = () => {
    select.replaceChildren(...metLanguages().map(value => make('option', { value }, languageName(value))));
    select.value = chosenLanguage();
  };
  fill();
  languages.addEventListener('met', fill);
  languages.addEventListener('chosen', () => {
    if (list.route) changeList(list.route);
    shown.page?.redraw();
  });
  select.addEventListener('change', () => chooseLanguage(select.value));
}

function startSearch() {
  const form = document.getElementById('search');
  form.addEventListener('submit', event => {
    event.preventDefault();
    const text = form.elements.text.value.trim();
    location.hash = addressOf(text ? { collection: 'find', text } : START);
  });
}

function startPresence() {
  const line = document.getElementById('absence');
  const away = 'The server does not answer. This page goes on by itself when it does.';
  presence.addEventListener('away', () => { line.textContent = away; });
  presence.addEventListener('back', () => { line.textContent = ''; });
  keepListening();
}

startLanguages();
startSearch();
startPresence();
moveByKeys(rooms.list);
addEventListener('hashchange', go);
go();
