// What the chosen element says besides its value: what it means, its line over time, its attributes.

import { hasValueForm, meaningOf, nameOf, numberOf, rangeText } from './documents.js';
import { facts, isPicture, make, picture, spokenText, update, webLink } from './dom.js';
import { languageName, spoken } from './language.js';
import { bounds, draw, plot } from './plot.js';
import { assetFacts, referenceLink, semanticLink } from './references.js';
import { KINDS } from './rows.js';
import { read, Refusal } from './server.js';

export class Details {
  /** `room` is the part of the page that shows them, for as long as the signal lets it. */
  constructor({ room, shell, signal }) {
    Object.assign(this, { room, shell, signal });
    this.show(undefined);
  }

  /** Shows a node, or nothing. */
  show(node) {
    this.node = node;
    this.shown = undefined;
    this.room.hidden = true;
    this.picture = make('div');
    this.chart = plot('chart');
    this.labels = ['high', 'low', 'from', 'to'].map(label => make('span', { class: label }));
    this.figure = make('figure', { hidden: true }, this.chart, this.labels);
    this.refresh();
    if (node?.referable?.modelType === 'Blob') this.showPicture(node);
  }

  /** Shows what is new of the node. */
  refresh() {
    const { node } = this;
    if (!node?.referable || this.signal.aborted) return;
    if (this.shown !== node.version) this.fill(node);
    this.shown = node.version;
    this.drawChart(node);
  }

  fill(node) {
    const { referable, concept, place } = node;
    const name = nameOf(referable, concept);
    const close = make('button', { class: 'close', 'aria-label': 'Close', click: () => this.show(undefined) }, '✕');
    update(this.room, [
      make('p', { class: 'crumbs' }, KINDS[referable.modelType]?.[1], close),
      make('h2', {}, spokenText({ ...name, text: name.text ?? `[${place}]` })),
      make('div', {}, valueOf(node)),
      this.picture,
      this.figure,
      make('div', {}, texts(node)),
      facts([...ownFacts(referable, this.shell), ...commonFacts(node, this.shell)]),
      make('p', { class: 'links' }, linksOf(node)),
    ]);
    this.room.hidden = false;
  }

  async showPicture(node) {
    if (!isPicture(node.referable.contentType)) return;
    const { picture: room } = this;
    try {
      room.replaceChildren(picture(await read(`${node.address}?extent=withBlobValue`, this.signal), node.path) ?? '');
    } catch (error) {
      if (!(error instanceof Refusal) && !this.signal.aborted) throw error;
    }
  }

  drawChart({ referable, points }) {
    this.figure.hidden = numberOf(referable) === undefined || points.length < 2;
    if (this.figure.hidden) return;
    draw(this.chart, points);
    const { low, high } = bounds(points);
    const clock = ({ time }) => new Date(time).toLocaleTimeString([], { hour12: false });
    const marks = [high, low === high ? '' : low, clock(points[0]), clock(points.at(-1))];
    this.labels.forEach((label, n) => { label.textContent = marks[n]; });
  }
}

/** The value, a number in large letters. */
function valueOf(node) {
  const { referable } = node;
  const text = { Property: referable.value, Range: rangeText(referable) }[referable.modelType];
  if (text === undefined) return undefined;
  const { unit } = meaningOf(node);
  const isText = referable.modelType === 'Property' && numberOf(referable) === undefined;
  return make('p', { class: isText ? 'text' : 'number' }, webLink(text), unit && make('span', { class: 'unit' }, unit));
}

/** The description, and the definition of the concept. */
function texts(node) {
  const found = [spoken(node.referable.description), spoken(meaningOf(node).definition)].filter(Boolean);
  return found.map(text => make('p', { class: 'text' }, spokenText(text)));
}

/** What elements of one kind say. */
function ownFacts(element, shell) {
  return OWN_FACTS[element.modelType]?.(element, reference => referenceLink(reference, shell, true)) ?? [];
}

const ends = ({ first, second }, link) => [['From', link(first)], ['To', link(second)]];

const OWN_FACTS = {
  Property: ({ valueType, valueId }, link) => [['Value type', valueType], ['Value id', link(valueId)]],
  MultiLanguageProperty: ({ value = [] }) => value.map(text => [languageName(text.language), spokenText(text)]),
  Range: ({ valueType }) => [['Value type', valueType]],
  File: ({ value, contentType }) => [['File', value && webLink(value)], ['Content type', contentType]],
  Blob: ({ contentType }) => [['Content type', contentType]],
  ReferenceElement: ({ value }, link) => [['Leads to', link(value)]],
  RelationshipElement: ends,
  AnnotatedRelationshipElement: ends,
  Entity: element => [['Entity type', element.entityType], ...assetFacts(element)],
  BasicEventElement: ({ observed, direction, state, lastUpdate }, link) => [
    ['Observes', link(observed)], ['Direction', direction], ['State', state], ['Last update', lastUpdate]],
  SubmodelElementList: ({ typeValueListElement, valueTypeListElement }) => [
    ['Items', typeValueListElement], ['Value type', valueTypeListElement]],
};

/** What all may say. */
function commonFacts({ referable, concept, path, submodel }, shell) {
  const { semanticId, supplementalSemanticIds = [], qualifiers = [], extensions = [] } = referable;
  return [
    path ? ['Path', path] : ['Identifier', submodel],
    ['Semantic id', semanticLink(semanticId, concept, shell)],
    ...supplementalSemanticIds.map(reference => ['Supplemental semantic id', referenceLink(reference, shell, true)]),
    ...qualifiers.map(({ type, value }) => [`Qualifier ${type}`, value]),
    ...extensions.map(({ name, value }) => [`Extension ${name}`, value]),
  ];
}

/** Where programs read it. */
function linksOf({ address, referable }) {
  const link = (path, text) => make('a', { href: path, target: '_blank', rel: 'noopener' }, text);
  return [link(address, 'JSON'), hasValueForm(referable) && link(`${address}/$value`, 'Value as JSON')];
}
