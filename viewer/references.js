// References as links that lead on.

import { lastKey, referenceText } from './documents.js';
import { make } from './dom.js';
import { addressOf, routeOfReference } from './routes.js';

/** A route to a submodel, within the shell that is shown where that has the submodel. */
export function routeWithin(shell, route) {
  if (route.collection !== 'submodels' || !shell?.submodels.has(route.id)) return route;
  return { collection: 'shells', id: shell.id, submodel: route.id, path: route.path };
}

/** Where a reference leads: to what it names here, or to a search for its last key. */
export function addressOfReference(reference, shell) {
  const route = routeOfReference(reference) ?? { collection: 'find', text: lastKey(reference) };
  return addressOf(routeWithin(shell, route));
}

/** A link with the last key, or with all. */
export function referenceLink(reference, shell, isWhole = false) {
  if (!reference) return undefined;
  const all = referenceText(reference);
  return make('a', { href: addressOfReference(reference, shell), title: all }, isWhole ? all : lastKey(reference));
}

/** A link to the concept description of a semantic id where it is here, else to a search for the id. */
export function semanticLink(semanticId, concept, shell) {
  if (!semanticId || !concept) return referenceLink(semanticId, shell, true);
  const href = addressOf({ collection: 'concept-descriptions', id: concept.id });
  return make('a', { href }, referenceText(semanticId));
}

/** Asset ids as rows of a table, with links to a search for the shells that have them. */
export function assetFacts({ globalAssetId, specificAssetIds = [] }) {
  const link = (text, shown) => make('a', { href: addressOf({ collection: 'find', text }) }, shown);
  return [
    ['Global asset id', globalAssetId && link(globalAssetId, globalAssetId)],
    ...specificAssetIds.map(({ name, value }) => [name, link(`${name}=${value}`, value)]),
  ];
}
