// Where the page is, as it stands behind `#` in its address:
//   #/shells   #/shells/{id}   #/shells/{id}/submodels/{id}/{path}   #/submodels/{id}/{path}
//   #/concept-descriptions/{id}   #/find/{text}
// Identifiers are base64url, as in the paths of the server.

import { segment, unsegment } from './server.js';

export const COLLECTIONS = { shells: 'Shells', submodels: 'Submodels', 'concept-descriptions': 'Concept descriptions' };

/**
 * The address of a route: `collection`, and with a document its `id`. Within a shell `submodel` is the identifier of
 * one of its submodels. `path` leads to an element. A search has the collection `find` and a `text`.
 */
export function addressOf({ collection, id, submodel, path, text }) {
  if (collection === 'find') return `#/find/${encodeURIComponent(text)}`;
  const parts = [collection];
  if (id !== undefined) parts.push(segment(id));
  if (submodel !== undefined) parts.push('submodels', segment(submodel));
  if (path) parts.push(encodeURIComponent(path));
  return `#/${parts.join('/')}`;
}

/** The route of an address, or undefined where it is none. */
export function routeOf(hash) {
  const [, collection, coded, ...rest] = hash.split('/');
  if (collection === 'find') return { collection, text: decoded(coded ?? '') };
  if (!(collection in COLLECTIONS)) return undefined;
  if (!coded) return { collection };
  const route = { collection, id: unsegment(coded) };
  if (collection === 'shells' && rest[0] === 'submodels') {
    route.submodel = unsegment(rest[1] ?? '');
    route.path = decoded(rest[2] ?? '');
  } else if (collection === 'submodels') route.path = decoded(rest[0] ?? '');
  return route.id === undefined ? { collection } : route;
}

function decoded(text) {
  try {
    return decodeURIComponent(text);
  } catch {
    return '';
  }
}

/** Where a model reference leads, or undefined for one that names nothing of a repository. */
export function routeOfReference(reference) {
  const [first, ...rest] = reference?.keys ?? [];
  if (reference?.type !== 'ModelReference') return undefined;
  if (first.type === 'AssetAdministrationShell') return { collection: 'shells', id: first.value };
  if (first.type === 'ConceptDescription') return { collection: 'concept-descriptions', id: first.value };
  if (first.type !== 'Submodel') return undefined;
  return { collection: 'submodels', id: first.value, path: elementPath(rest) };
}

/** The path of the element to which keys lead. Behind the key of a list stands a place in it. */
function elementPath(keys) {
  return keys.reduce((path, key, n) => {
    if (n > 0 && keys[n - 1].type === 'SubmodelElementList') return `${path}[${key.value}]`;
    return path ? `${path}.${key.value}` : key.value;
  }, '');
}
