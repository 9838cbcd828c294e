// Concept descriptions: what semantic ids mean. Each is asked for once.

import { contentOf, lastKey } from './documents.js';
import { read, segment, Refusal } from './server.js';

const asked = new Map();

/** What the concept description says that a semantic id names, or undefined where there is none. */
export function conceptOf(semanticId) {
  if (!semanticId) return Promise.resolve(undefined);
  const id = lastKey(semanticId);
  if (!asked.has(id)) asked.set(id, readConcept(id));
  return asked.get(id);
}

async function readConcept(id) {
  try {
    const concept = await read(`/concept-descriptions/${segment(id)}`);
    return { id, preferredName: concept.displayName, definition: concept.description, ...contentOf(concept) };
  } catch (error) {
    if (error instanceof Refusal) return undefined;
    asked.delete(id);
    throw error;
  }
}
