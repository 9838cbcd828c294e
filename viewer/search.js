// The questions that a search asks: a text may be an identifier, an idShort, a semantic id or an asset id.

import { read, Refusal, segment } from './server.js';

const coded = value => segment(JSON.stringify(value));
const external = value => coded({ type: 'ExternalReference', keys: [{ type: 'GlobalReference', value }] });
const toConcept = value => coded({ type: 'ModelReference', keys: [{ type: 'ConceptDescription', value }] });

/**
 * Each question has a title and a collection, and either `path` and `words` of a list that the server shows in pages,
 * or the path of `one` document.
 */
export function questionsOf(text) {
  const shells = { collection: 'shells', path: '/shells' };
  const submodels = { collection: 'submodels', path: '/submodels/$metadata' };
  const concepts = { collection: 'concept-descriptions', path: '/concept-descriptions' };
  return [
    { collection: 'shells', title: 'Shell', one: `/shells/${segment(text)}` },
    { collection: 'submodels', title: 'Submodel', one: `/submodels/${segment(text)}/$metadata` },
    { collection: 'concept-descriptions', title: 'Concept description', one: `/concept-descriptions/${segment(text)}` },
    { ...shells, title: 'Shells of this asset', path: '/lookup/shells', words: { assetIds: coded(assetId(text)) } },
    { ...shells, title: 'Shells with this idShort', words: { idShort: text } },
    { ...submodels, title: 'Submodels with this idShort', words: { idShort: text } },
    { ...concepts, title: 'Concept descriptions with this idShort', words: { idShort: text } },
    { ...submodels, title: 'Submodels with this semantic id', words: { semanticId: external(text) } },
    { ...submodels, title: 'Submodels of this concept', words: { semanticId: toConcept(text) } },
    { ...concepts, title: 'Concept descriptions that are a case of it', words: { isCaseOf: external(text) } },
  ];
}

/** The asset id that is looked for: `name=value`, or the global one. */
function assetId(text) {
  const [, name, value] = text.match(/^(\w[\w.-]*)=(.+)$/) ?? [];
  return name ? { name, value } : { name: 'globalAssetId', value: text };
}

/** The documents of a list's page, which may name shells by their identifiers alone. */
export function documentsOf(result, signal) {
  return Promise.all(result.map(async it => {
    if (typeof it !== 'string') return it;
    return await ifThere(read(`/shells/${segment(it)}`, signal)) ?? { id: it };
  }));
}

/** What is read, or undefined where the server has none. */
export async function ifThere(reading) {
  try {
    return await reading;
  } catch (error) {
    if (error instanceof Refusal) return undefined;
    throw error;
  }
}
