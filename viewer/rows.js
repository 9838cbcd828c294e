// A row of the tree: the kind, the name, the value with its unit, and the line of a number.

import { meaningOf, nameOf, numberOf, rangeText, takesChildren } from './documents.js';
import { make, spokenText } from './dom.js';
import { canEdit } from './editor.js';
import { chosenLanguage, spoken } from './language.js';
import { draw, plot } from './plot.js';
import { referenceLink } from './references.js';

const FLASH = 1500;     // so long a value that changed is marked, in ms
const LONGEST = 300;    // so many characters of a value stand in its row

/** The kinds by their usual short names, and in words. */
export const KINDS = {
  Submodel: ['SM', 'Submodel'],
  SubmodelElementCollection: ['SMC', 'Collection'],
  SubmodelElementList: ['SML', 'List'],
  Property: ['Prop', 'Property'],
  MultiLanguageProperty: ['MLP', 'Multi-language property'],
  Range: ['Range', 'Range'],
  File: ['File', 'File'],
  Blob: ['Blob', 'Blob'],
  ReferenceElement: ['Ref', 'Reference'],
  RelationshipElement: ['Rel', 'Relationship'],
  AnnotatedRelationshipElement: ['RelA', 'Annotated relationship'],
  Entity: ['Ent', 'Entity'],
  BasicEventElement: ['Evt', 'Event'],
  Operation: ['Opr', 'Operation'],
  Capability: ['Cap', 'Capability'],
};

/** An empty row, to be filled. */
export function makeRow(node) {
  const cells = ['name', 'value', 'trend'].map(name => make('div', { class: name }));
  return Object.assign(make('div', { class: 'row', role: 'treeitem', id: node.key }, cells), { node });
}

/** Shows in a row what its node says. A value that is being changed stays as it is. */
export function fillRow(row, { isActive, isEdited, shell }) {
  const { node } = row;
  const [name, value, trend] = row.children;
  setState(row, isActive, isEdited);
  fillOnce(name, node, () => nameParts(node));
  if (isEdited) value.filled = undefined;
  else fillOnce(value, node, () => valueParts(node, shell));
  value.classList.toggle('editable', Boolean(node.referable) && canEdit(node.referable));
  value.classList.toggle('changed', Date.now() - node.changedAt < FLASH);
  row.classList.toggle('bare', !value.firstChild && !value.classList.contains('editable'));
  fillTrend(trend, node);
}

/** Fills a cell anew where what its node says has changed, or the reader's language. */
function fillOnce(cell, node, parts) {
  const state = `${node.version} ${chosenLanguage()}`;
  if (cell.filled === state) return;
  cell.filled = state;
  cell.replaceChildren(...parts());
}

function setState(row, isActive, isEdited) {
  const { node } = row;
  row.classList.toggle('edited', isEdited);
  row.style.setProperty('--level', node.level - 1);
  row.setAttribute('aria-level', node.level);
  row.setAttribute('aria-posinset', node.place + 1);
  row.setAttribute('aria-setsize', node.parent.children.length);
  row.setAttribute('aria-selected', isActive);
  if (canOpen(node)) row.setAttribute('aria-expanded', node.isOpen);
  else row.removeAttribute('aria-expanded');
}

export function canOpen({ referable, path, fault }) {
  return referable ? takesChildren(referable) : !path && !fault;
}

function nameParts(node) {
  const { referable, concept, path, submodel, place } = node;
  const [short, kind] = KINDS[referable?.modelType ?? (path ? '' : 'Submodel')] ?? ['', ''];
  const name = referable ? nameOf(referable, concept) : { text: path || submodel };
  const idShort = referable?.idShort;
  const title = spoken(meaningOf(node).definition)?.text;
  return [
    make('span', { class: 'twisty', 'aria-hidden': 'true' }),
    make('abbr', { class: 'kind', title: kind }, short),
    spokenText({ ...name, text: name.text ?? `[${place}]` }, { class: 'label', title }),
    ...(idShort && !isSame(idShort, name.text) ? [make('span', { class: 'short' }, idShort)] : []),
  ];
}

/** Whether two names differ in no more than spaces, signs and capitals, as RotationSpeed and rotation speed. */
function isSame(one, other) {
  const plain = text => text.toLowerCase().replace(/[^\p{L}\p{N}]/gu, '');
  return plain(one) === plain(other);
}

function valueParts(node, shell) {
  const { referable, fault } = node;
  if (fault) return [make('span', { class: 'refused' }, fault)];
  const content = referable && (VALUES[referable.modelType]?.(referable, shell) ?? descriptionOf(referable));
  if (!content) return [];
  const unit = ['Property', 'Range'].includes(referable.modelType) && meaningOf(node).unit;
  return [make('span', { class: 'text' }, content), ...(unit ? [make('span', { class: 'unit' }, unit)] : [])];
}

const descriptionOf = ({ description }) => spokenText(spoken(description), { class: 'dim' });

/** What stands in the row for the value of an element of that kind. */
const VALUES = {
  Property: ({ value }) => value && shortened(value),
  MultiLanguageProperty: ({ value }) => spokenText(spoken(value)),
  Range: rangeText,
  File: ({ value }) => value && shortened(value),
  Blob: ({ contentType }) => contentType,
  ReferenceElement: ({ value }, shell) => rowLink(value, shell),
  RelationshipElement: relation,
  AnnotatedRelationshipElement: relation,
  Entity: ({ globalAssetId, entityType }) => globalAssetId ?? entityType,
  BasicEventElement: ({ observed }, shell) => rowLink(observed, shell),
};

function shortened(text) {
  return text.length > LONGEST ? `${text.slice(0, LONGEST)}…` : text;
}

function relation({ first, second }, shell) {
  return [rowLink(first, shell), ' → ', rowLink(second, shell)];
}

/** A link that is no stop of Tab, since the details have it too. */
function rowLink(reference, shell) {
  const link = referenceLink(reference, shell);
  if (link) link.tabIndex = -1;
  return link;
}

function fillTrend(cell, { referable, points }) {
  if (!referable || numberOf(referable) === undefined || points.length < 2) {
    cell.replaceChildren();
    return;
  }
  if (!cell.firstChild) cell.append(plot('spark'));
  draw(cell.firstChild, points);
}
