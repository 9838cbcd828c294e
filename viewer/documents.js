// What documents and their elements say: names, children, values, and how values are sent. Both are referables.

import { spoken } from './language.js';

/** The attribute in which a referable of that kind has its children. */
const CHILDREN = {
  Submodel: 'submodelElements',
  SubmodelElementCollection: 'value',
  SubmodelElementList: 'value',
  Entity: 'statements',
  AnnotatedRelationshipElement: 'annotations',
};
const VARIABLES = ['inputVariables', 'outputVariables', 'inoutputVariables'];

const NUMERIC = new Set(['decimal', 'double', 'float', 'integer', 'byte', 'short', 'int', 'long', 'unsignedByte',
  'unsignedShort', 'unsignedInt', 'unsignedLong', 'positiveInteger', 'nonNegativeInteger', 'negativeInteger',
  'nonPositiveInteger'].map(name => `xs:${name}`));

export const takesChildren = ({ modelType }) => modelType in CHILDREN || modelType === 'Operation';
export const hasValueForm = ({ modelType }) => !['Capability', 'Operation'].includes(modelType);

export function childrenOf(referable) {
  if (referable.modelType !== 'Operation') return referable[CHILDREN[referable.modelType]] ?? [];
  return VARIABLES.flatMap(name => referable[name] ?? []).map(variable => variable.value);
}

/** The path of the nth child of the element at a path. */
export function childPath(parent, path, child, n) {
  if (parent.modelType === 'SubmodelElementList') return `${path}[${n}]`;
  return path ? `${path}.${child.idShort}` : child.idShort;
}

/** The name for the reader, as a text that may have a language. Items of lists may have none. */
export function nameOf(referable, concept) {
  const name = spoken(referable.displayName) ?? spoken(concept?.preferredName);
  return name ?? { text: referable.idShort ?? referable.id };
}

/** The content of the data specification that a referable has. */
export function contentOf(referable) {
  return referable.embeddedDataSpecifications?.find(it => it.dataSpecificationContent)?.dataSpecificationContent;
}

/** What an element means: by its own data specification, else by its concept description. */
export function meaningOf({ referable, concept }) {
  return (referable && contentOf(referable)) ?? concept ?? {};
}

export function versionOf({ administration }) {
  if (!administration?.version) return undefined;
  const { version, revision } = administration;
  return revision ? `${version}, revision ${revision}` : version;
}

export const lastKey = reference => reference.keys.at(-1).value;
export const referenceText = reference => reference.keys.map(key => key.value).join(' / ');

export function rangeText({ min, max }) {
  return min || max ? `${min ?? '−∞'} to ${max ?? '∞'}` : undefined;
}

/** The number that an element has, or undefined. */
export function numberOf({ modelType, valueType, value }) {
  if (modelType !== 'Property' || !NUMERIC.has(valueType) || !value) return undefined;
  const number = Number(value);
  return Number.isFinite(number) ? number : undefined;
}

// ---- value forms

/**
 * The value forms of children in that of their parent, each in its place and undefined where it has none; or undefined
 * where that is the value form of other children.
 */
export function childForms(parent, form, children) {
  const count = children.filter(hasValueForm).length;
  if (parent.modelType === 'SubmodelElementList') {
    let place = 0;
    return form.length === count ? children.map(child => (hasValueForm(child) ? form[place++] : undefined)) : undefined;
  }
  const named = new Map(Object.entries(namedForms(parent, form)));
  const isTheirs = named.size === count && children.every(child => !hasValueForm(child) || named.has(child.idShort));
  return isTheirs ? children.map(child => named.get(child.idShort)) : undefined;
}

function namedForms({ modelType }, form) {
  if (modelType === 'Entity') return form.statements;
  if (modelType === 'AnnotatedRelationshipElement') return Object.assign({}, ...form.annotations);
  return form;
}

const ifGiven = value => value ?? undefined;
const textOf = value => (value === null || value === undefined ? undefined : String(value));

/** The attributes that the value form of an element of that kind gives. */
const ATTRIBUTES = {
  Property: form => ({ value: textOf(form) }),
  MultiLanguageProperty: form => ({
    value: form.flatMap(Object.entries).map(([language, text]) => ({ language, text })),
  }),
  Range: form => ({ min: textOf(form.min), max: textOf(form.max) }),
  File: form => ({ contentType: form.contentType, value: ifGiven(form.value) }),
  Blob: form => ({ contentType: form.contentType }),
  ReferenceElement: form => ({ value: ifGiven(form) }),
  RelationshipElement: form => ({ first: ifGiven(form.first), second: ifGiven(form.second) }),
  AnnotatedRelationshipElement: form => ({ first: ifGiven(form.first), second: ifGiven(form.second) }),
  Entity: form => ({ entityType: ifGiven(form.entityType), globalAssetId: ifGiven(form.globalAssetId) }),
  BasicEventElement: form => ({ observed: ifGiven(form.observed) }),
};

/** Lays a value form over an element, and says whether that changes it. */
export function lay(element, form) {
  const attributes = ATTRIBUTES[element.modelType]?.(form) ?? {};
  const before = JSON.stringify(Object.keys(attributes).map(name => element[name]));
  Object.assign(element, attributes);
  return before !== JSON.stringify(Object.values(attributes));
}

const LEAST = -(2n ** 63n);
const GREATEST = 2n ** 64n - 1n;

/** Whether the text is a whole number that the server takes as a number. */
function isWhole(text) {
  return /^(0|-?[1-9]\d{0,19})$/.test(text) && BigInt(text) >= LEAST && BigInt(text) <= GREATEST;
}

/** A value as JSON: whole numbers of a type of numbers and truth values as such, all else as a string. */
export function valueJson(text, valueType) {
  if (valueType === 'xs:boolean' && ['true', 'false'].includes(text)) return text;
  return NUMERIC.has(valueType) && isWhole(text) ? text : JSON.stringify(text);
}
