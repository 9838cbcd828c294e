// The pages of one shell, one submodel and one concept description.

import { conceptOf } from './concepts.js';
import { Details } from './details.js';
import { contentOf, lastKey, nameOf, versionOf } from './documents.js';
import { facts, make, spokenText } from './dom.js';
import { spoken } from './language.js';
import { keepReading } from './live.js';
import { readChildren, rootOf, TreeNode } from './nodes.js';
import { showPicture } from './pictures.js';
import { assetFacts, referenceLink, routeWithin, semanticLink } from './references.js';
import { addressOf, COLLECTIONS } from './routes.js';
import { pathOf, read, segment } from './server.js';
import { Tree } from './tree.js';

const PAGES = { shells: showShell, submodels: showSubmodel, 'concept-descriptions': showConcept };

/**
 * Shows the document of a route in the rooms of the page. What this answers can `follow` another route in the same
 * document, and `redraw` it in another language.
 */
export function showDocument(rooms, route, signal) {
  return PAGES[route.collection](rooms, route, signal);
}

async function showShell(rooms, route, signal) {
  const shell = await read(`/shells/${segment(route.id)}`, signal);
  const submodels = (shell.submodels ?? []).map(lastKey);
  const within = { id: shell.id, submodels: new Set(submodels) };
  const picture = make('div', { class: 'picture' });
  const head = makeHead(() => [picture, titleOf('Shell', shell), shellFacts(shell)]);
  const page = showTree(rooms, { root: rootOf(submodels), label: 'Submodels', head, shell: within, signal });
  const follow = ({ submodel, path }) => submodel && page.reveal(submodel, path);
  showPicture(picture, submodels, signal);
  follow(route);
  return { follow, redraw: page.redraw };
}

async function showSubmodel(rooms, route, signal) {
  const submodel = await read(`${pathOf(route.id)}/$metadata`, signal);
  const root = new TreeNode(undefined, 0, route.id, '', submodel);
  [root.concept] = await Promise.all([conceptOf(submodel.semanticId), readChildren(root, signal)]);
  const head = makeHead(() => [titleOf('Submodel', submodel, root.concept), submodelFacts(submodel, root.concept)]);
  const page = showTree(rooms, { root, label: 'Elements', head, signal });
  const follow = ({ id, path }) => page.reveal(id, path);
  follow(route);
  return { follow, redraw: page.redraw };
}

async function showConcept(rooms, route, signal) {
  const concept = await read(`/concept-descriptions/${segment(route.id)}`, signal);
  const head = makeHead(() => [titleOf('Concept description', concept, contentOf(concept)), conceptFacts(concept)]);
  rooms.document.replaceChildren(backLink(route.collection), head.element);
  return { follow: () => {}, redraw: head.redraw };
}

/** A head whose parts can be made anew. */
function makeHead(parts) {
  const element = make('div', { class: 'head' }, parts());
  return { element, redraw: () => element.replaceChildren(...parts()) };
}

/** The name, the identifier and the description of a document. */
function titleOf(kind, identifiable, concept) {
  const { id, description } = identifiable;
  const name = nameOf(identifiable, concept);
  document.title = name.text;
  return make('div', { class: 'title' },
    make('p', { class: 'crumbs' }, kind),
    make('h1', {}, spokenText(name)),
    name.text !== id && make('p', { class: 'identifier' }, id),
    description && make('p', { class: 'text' }, spokenText(spoken(description))));
}

function shellFacts(shell) {
  const { assetInformation } = shell;
  return facts([
    ['Asset', assetInformation.assetKind],
    ['Asset type', assetInformation.assetType],
    ...assetFacts(assetInformation),
    ['Derived from', referenceLink(shell.derivedFrom)],
    ['Version', versionOf(shell)],
  ]);
}

function submodelFacts(submodel, concept) {
  return facts([
    ['Semantic id', semanticLink(submodel.semanticId, concept)],
    ['Kind', submodel.kind],
    ['Version', versionOf(submodel)],
    ['Template', submodel.administration?.templateId],
  ]);
}

function conceptFacts(concept) {
  const content = contentOf(concept) ?? {};
  return facts([
    ['Preferred name', spokenText(spoken(content.preferredName))],
    ['Short name', spokenText(spoken(content.shortName))],
    ['Definition', spokenText(spoken(content.definition))],
    ['Unit', content.unit],
    ['Symbol', content.symbol],
    ['Data type', content.dataType],
    ['Value format', content.valueFormat],
    ['Value', content.value],
    ['Values', content.valueList?.valueReferencePairs.map(({ value }) => value).join(', ')],
    ['Source', content.sourceOfDefinition],
    ...(concept.isCaseOf ?? []).map(reference => ['Case of', referenceLink(reference)]),
    ['Version', versionOf(concept)],
    ['Used by', make('a', { href: addressOf({ collection: 'find', text: concept.id }) }, 'find this semantic id')],
  ]);
}

/** On a narrow page, the way back to the list. */
function backLink(collection) {
  return make('a', { class: 'back', href: addressOf({ collection }) }, `‹ ${COLLECTIONS[collection]}`);
}

/** Shows a head and a tree below it, and keeps the values in sight up to date. */
function showTree(rooms, { root, label, head, shell, signal }) {
  const details = new Details({ room: rooms.details, shell, signal });
  const onActive = node => node && keepAddress(node, shell, signal);
  const tree = new Tree({ root, label, scroller: rooms.document, shell, signal, details, onActive });
  rooms.document.replaceChildren(backLink(shell ? 'shells' : 'submodels'), head.element, tree.element);
  rooms.document.scrollTop = 0;
  tree.rebuild();
  keepReading(tree, signal);
  const redraw = () => {
    head.redraw();
    tree.refresh();
    details.show(details.node);
  };
  return { redraw, reveal: (submodel, path) => tree.guard(tree.reveal(submodel, path)) };
}

const REST = 300;    // so long the choice rests before it is kept, in ms
let timer;

/** Lets the address of the page lead to the chosen node, where the reader hasn't gone on by then. */
function keepAddress({ submodel, path }, shell, signal) {
  const address = addressOf(routeWithin(shell, { collection: 'submodels', id: submodel, path }));
  const { hash } = location;
  clearTimeout(timer);
  timer = setTimeout(() => {
    if (!signal.aborted && location.hash === hash) history.replaceState(null, '', address);
  }, REST);
}
