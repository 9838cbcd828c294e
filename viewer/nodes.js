// The submodels and elements of a tree. What they say is read when they come into sight, their children when they are
// opened.

import { conceptOf } from './concepts.js';
import { childPath, childrenOf } from './documents.js';
import { pathOf, read, Refusal } from './server.js';

/** So many children are read at once. Those of a submodel with more are read in pages, as they come into sight. */
export const MANY = 1000;
const PAGE = 100;

const NO_POINTS = [];

let count = 0;

/** A place in the tree: a submodel, or the element at a path in it. */
export class TreeNode {
  constructor(parent, place, submodel, path, referable) {
    this.number = count++;
    this.parent = parent;
    this.place = place;             // among the children of its parent
    this.submodel = submodel;       // by its identifier
    this.path = path;               // of the element, and empty for the submodel
    this.referable = referable;     // what is there, once it is read
    this.concept = undefined;       // what its semantic id means
    this.fault = undefined;         // the server's words, where it isn't to be had
    this.version = 0;               // how often one of these changed
    this.changedAt = 0;             // when its value changed
    this.points = NO_POINTS;        // its number in the last minutes
    this.children = undefined;
    this.isOpen = false;
    this.isDescribed = false;
    this.pages = undefined;         // those of its children that are asked for
  }

  get key() {
    return `node-${this.number}`;
  }

  get address() {
    return pathOf(this.submodel, this.path);
  }

  get level() {
    return this.parent ? this.parent.level + 1 : 0;
  }
}

/** A node whose children are submodels. */
export function rootOf(submodels) {
  const root = new TreeNode(undefined, 0, undefined, '', {});
  root.children = submodels.map((submodel, place) => new TreeNode(root, place, submodel, ''));
  return root;
}

/** Reads the children of a node. Those that were there keep what is open in them. */
export async function readChildren(node, signal) {
  if (!node.path) {
    await readElements(node, signal);
    return;
  }
  const element = await read(`${node.address}?level=core`, signal);
  adopt(node, childrenOf(element).map((child, n) => [childPath(element, node.path, child, n), child]));
}

async function readElements(node, signal) {
  const paths = await read(`${node.address}/$path?level=core`, signal);
  if (paths.length > MANY) {
    adopt(node, paths.map(path => [path, undefined]));
    return;
  }
  const submodel = await read(`${node.address}?level=core`, signal);
  adopt(node, childrenOf(submodel).map(child => [child.idShort, child]));
}

function adopt(node, entries) {
  const before = new Map(node.children?.map(child => [child.path, child]));
  node.pages = undefined;
  node.children = entries.map(([path, referable], place) => {
    const child = before.get(path);
    if (!child) return new TreeNode(node, place, node.submodel, path, referable);
    return Object.assign(child, { place, referable, fault: undefined, isDescribed: false, version: child.version + 1 });
  });
}

/** Reads what nodes lack to be shown, and calls `show` when there is more of them. */
export async function describe(nodes, signal, show) {
  nodes.forEach(node => { node.isDescribed = true; });
  await Promise.all(nodes.map(node => readReferable(node, signal)));
  show();
  await Promise.all(nodes.map(readConcept));
  show();
}

async function readReferable(node, signal) {
  if (node.referable) return;
  try {
    if (node.path) await readPage(node.parent, Math.floor(node.place / PAGE), signal);
    else node.referable = await read(`${node.address}/$metadata`, signal);
  } catch (error) {
    if (!(error instanceof Refusal)) throw error;
    node.fault = error.message;
  }
  node.version += 1;
}

async function readConcept(node) {
  const concept = await conceptOf(node.referable?.semanticId);
  if (concept) Object.assign(node, { concept, version: node.version + 1 });
}

/** Reads a page of the elements of a submodel, once; and all their paths again, where these are others by now. */
function readPage(submodel, page, signal) {
  submodel.pages ??= new Map();
  const { pages } = submodel;
  if (!pages.has(page)) {
    const reading = readPart(submodel, page * PAGE, PAGE, signal);
    pages.set(page, reading.then(elements => elements ?? readElements(submodel, signal)));
  }
  return pages.get(page);
}

/** Reads so many elements of a submodel from a place on; answers them where they are those that are known there. */
export async function readPart(submodel, first, limit, signal) {
  const query = new URLSearchParams({ level: 'core', limit, ...(first && { cursor: first }) });
  const { result } = await read(`${submodel.address}/submodel-elements?${query}`, signal);
  const nodes = submodel.children.slice(first, first + limit);
  if (nodes.length !== result.length || nodes.some((node, n) => node.path !== result[n].idShort)) return undefined;
  nodes.forEach((node, n) => { node.referable ??= result[n]; });
  return result;
}

/** The nodes that are shown one below another. */
export function openNodes(node, found = []) {
  for (const child of node.children ?? []) {
    found.push(child);
    if (child.isOpen) openNodes(child, found);
  }
  return found;
}

/** The paths on the way to an element, its own last: `A`, `A.B`, `A.B[0]`. */
export function pathsTo(path) {
  return Array.from(path.matchAll(/[.[]|$/g), ({ index }) => path.slice(0, index)).filter(Boolean);
}
