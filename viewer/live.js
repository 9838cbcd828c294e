// Reads the values in sight again every two seconds, by one request for each open collection of which a value is there.

import { childForms, hasValueForm, lay, numberOf, takesChildren } from './documents.js';
import { MANY, readChildren, readPart } from './nodes.js';
import { withPoint } from './plot.js';
import { pause, readValue, Refusal } from './server.js';

const PERIOD = 2000;

/** Goes on until the tree is left. */
export async function keepReading(tree, signal) {
  let fault;
  while (!signal.aborted) {
    if (!document.hidden) {
      const before = fault;
      fault = await readOnce(tree, signal);
      if (fault || before) tree.say(fault);
      tree.refresh();
    }
    await pause(PERIOD, signal);
  }
}

/** Reads each part of the tree in sight; answers the server's words where it refuses one. */
async function readOnce(tree, signal) {
  const parts = [...byParent(tree.nodesInSight().filter(hasValue))];
  const faults = await Promise.all(parts.map(([parent, nodes]) => readPartOf(tree, parent, nodes, signal)));
  return faults.find(Boolean);
}

/** Whether the value of a node is read with those of its siblings. */
function hasValue({ referable, parent }) {
  return referable && hasValueForm(referable) && !takesChildren(referable) && hasValueForm(parent.referable);
}

function byParent(nodes) {
  const parts = new Map();
  for (const node of nodes) parts.set(node.parent, [...(parts.get(node.parent) ?? []), node]);
  return parts;
}

/** Reads nodes of one parent again; answers the server's words where it refuses. */
async function readPartOf(tree, parent, nodes, signal) {
  try {
    const isKnown = await readValues(parent, nodes, signal);
    if (!isKnown) {
      await readChildren(parent, signal);
      tree.rebuild();
    }
    return undefined;
  } catch (error) {
    if (signal.aborted) return undefined;
    if (error instanceof Refusal) return error.message;
    throw error;
  }
}

/** Answers whether the children of the parent are those that are known. */
function readValues(parent, nodes, signal) {
  if (parent.children.length <= MANY) return readAll(parent, signal);
  const part = between(nodes);
  const canBeTogether = !parent.path && part.every(({ referable }) => referable && !takesChildren(referable));
  return canBeTogether ? readTogether(parent, part, signal) : readEach(nodes, signal);
}

/** The nodes of one parent from the first to the last of these. */
function between(nodes) {
  const places = nodes.map(node => node.place);
  return nodes[0].parent.children.slice(Math.min(...places), Math.max(...places) + 1);
}

async function readAll(parent, signal) {
  const form = await readValue(`${parent.address}/$value?level=core`, signal);
  const forms = childForms(parent.referable, form, parent.children.map(child => child.referable));
  forms?.forEach((childForm, n) => childForm !== undefined && take(parent.children[n], childForm));
  return Boolean(forms);
}

async function readTogether(submodel, nodes, signal) {
  const elements = await readPart(submodel, nodes[0].place, nodes.length, signal);
  elements?.forEach((element, n) => {
    const isChanged = JSON.stringify(element) !== JSON.stringify(nodes[n].referable);
    note(Object.assign(nodes[n], { referable: element }), isChanged);
  });
  return Boolean(elements);
}

async function readEach(nodes, signal) {
  await Promise.all(nodes.map(node => readNode(node, signal)));
  return true;
}

/** Reads the value of one element. */
export async function readNode(node, signal) {
  take(node, await readValue(`${node.address}/$value`, signal));
}

function take(node, form) {
  note(node, lay(node.referable, form));
}

/** Remembers the number of an element, and when its value changed. */
function note(node, isChanged) {
  const time = Date.now();
  if (isChanged) Object.assign(node, { changedAt: time, version: node.version + 1 });
  const number = numberOf(node.referable);
  if (number !== undefined) node.points = withPoint(node.points, time, number);
}
