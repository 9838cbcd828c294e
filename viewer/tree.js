// A tree of which only the rows in sight are on the page. The tree itself has the focus, and names its active row.

import { make } from './dom.js';
import { canEdit, edit } from './editor.js';
import { readNode } from './live.js';
import { describe, openNodes, pathsTo, readChildren } from './nodes.js';
import { addressOfReference } from './references.js';
import { canOpen, fillRow, makeRow } from './rows.js';
import { Refusal } from './server.js';

const MARGIN = 6;    // rows above and below those in sight
const REST = 40;     // what comes into sight is read once it rests there for so long, in ms

export class Tree {
  /**
   * The children of `root` are shown, and scrolled in `scroller`. References to submodels of the `shell` stay in it.
   * `details` show the active node, and `onActive` is told of it. All ends with the `signal`.
   */
  constructor({ root, label, scroller, shell, signal, details, onActive }) {
    Object.assign(this, { root, scroller, shell, signal, details, onActive });
    this.nodes = [];
    this.rows = new Map();
    this.active = undefined;
    this.edited = undefined;
    this.choices = 0;    // counts what was made active
    this.notice = make('p', { class: 'notice', role: 'alert' });
    this.field = make('div', { class: 'tree', role: 'tree', tabindex: '0', 'aria-label': label });
    this.field.addEventListener('keydown', event => this.press(event));
    this.field.addEventListener('click', event => this.click(event));
    this.emptiness = make('p', { class: 'hint', hidden: true }, `There are no ${label.toLowerCase()}.`);
    this.element = make('div', {}, this.notice, this.field, this.emptiness);
    this.followScroller();
  }

  followScroller() {
    const { scroller, signal } = this;
    const observer = new ResizeObserver(() => this.draw());
    observer.observe(scroller);
    signal.addEventListener('abort', () => observer.disconnect());
    scroller.addEventListener('scroll', () => this.draw(), { signal });
  }

  /** Shows one line above the tree, or none. */
  say(text = '') {
    if (this.notice.textContent !== text) this.notice.textContent = text;
  }

  // ---- rows

  /** Finds anew which nodes are open. */
  rebuild() {
    this.nodes = openNodes(this.root);
    this.emptiness.hidden = this.nodes.length > 0;
    if (this.active && !this.nodes.includes(this.active)) this.activate(undefined);
    this.draw();
  }

  /** Brings the rows in sight onto the page, and takes the others from it. */
  draw() {
    if (this.signal.aborted) return;
    this.height = parseFloat(getComputedStyle(this.field).getPropertyValue('--row'));
    this.field.style.height = `${this.nodes.length * this.height}px`;
    const places = this.placesInSight();
    this.dropRows(new Set(places.map(place => this.nodes[place])));
    let next = this.field.firstChild;
    for (const place of places) {
      const row = this.rowOf(this.nodes[place]);
      row.style.transform = `translateY(${place * this.height}px)`;
      if (row === next) next = next.nextSibling;
      else this.field.insertBefore(row, next);
    }
    this.refresh();
    this.readSoon();
  }

  /** Takes all rows from the page but those of these nodes. */
  dropRows(nodes) {
    for (const [node, row] of this.rows) {
      if (nodes.has(node)) continue;
      row.remove();
      this.rows.delete(node);
    }
  }

  rowOf(node) {
    if (!this.rows.has(node)) this.rows.set(node, makeRow(node));
    return this.rows.get(node);
  }

  /** The places of the rows in sight and of a few more, and that of the row that is being changed. */
  placesInSight() {
    const above = this.above();
    const first = Math.max(0, Math.floor(above / this.height) - MARGIN);
    const last = Math.min(this.nodes.length, Math.ceil((above + this.scroller.clientHeight) / this.height) + MARGIN);
    const places = Array.from({ length: Math.max(0, last - first) }, (_, n) => first + n);
    const edited = this.edited ? this.nodes.indexOf(this.edited) : -1;
    if (edited >= 0 && edited < first) places.unshift(edited);
    if (edited >= last) places.push(edited);
    return places;
  }

  /** How much of the tree is scrolled out of sight above. */
  above() {
    return this.scroller.getBoundingClientRect().top - this.field.getBoundingClientRect().top;
  }

  /** Shows in the rows on the page what their nodes say. */
  refresh() {
    if (this.signal.aborted) return;
    for (const [node, row] of this.rows) {
      fillRow(row, { isActive: node === this.active, isEdited: node === this.edited, shell: this.shell });
    }
    if (this.rows.has(this.active)) this.field.setAttribute('aria-activedescendant', this.active.key);
    else this.field.removeAttribute('aria-activedescendant');
    this.details.refresh();
  }

  // ---- reading

  /** The nodes whose values are read again: those on the page, and the active one. */
  nodesInSight() {
    return [...new Set([...this.rows.keys(), ...(this.active ? [this.active] : [])])];
  }

  readSoon() {
    clearTimeout(this.timer);
    this.timer = setTimeout(() => this.readSight(), REST);
  }

  readSight() {
    const nodes = [...this.rows.keys()].filter(node => !node.isDescribed);
    if (nodes.length) this.guard(describe(nodes, this.signal, () => this.rebuild()));
  }

  /** Waits for what may be refused, and says so above the tree. */
  async guard(promise) {
    try {
      await promise;
    } catch (error) {
      if (this.signal.aborted) return;
      if (!(error instanceof Refusal)) throw error;
      this.say(error.message);
    }
  }

  // ---- opening

  async open(node) {
    if (!node.children) await readChildren(node, this.signal);
    node.isOpen = true;
    this.rebuild();
  }

  close(node) {
    node.isOpen = false;
    this.rebuild();
  }

  toggle(node) {
    if (node.isOpen) this.close(node);
    else this.guard(this.open(node));
  }

  /** Opens the way to an element, or a submodel itself, and makes it active, if the reader chooses nothing meanwhile. */
  async reveal(submodel, path) {
    const { root } = this;
    this.choices += 1;
    const choice = this.choices;
    let node = root.submodel === submodel ? root : root.children.find(child => child.submodel === submodel);
    for (const step of pathsTo(path)) {
      if (node) node = await this.childAt(node, step);
    }
    if (!path && node && node !== root) await this.open(node);
    if (choice !== this.choices || node === root) return;
    if (!node) {
      this.say(`not found: ${path || submodel}`);
      return;
    }
    this.activate(node, 3);
    this.field.focus({ preventScroll: true });
  }

  /** Opens a node, and finds its child at a path, which may be new. */
  async childAt(node, path) {
    await this.open(node);
    const find = () => node.children.find(child => child.path === path);
    if (!find()) await readChildren(node, this.signal);
    this.rebuild();
    return find();
  }

  // ---- the active node

  /** Makes a node active, and scrolls until it is in sight, with so many rows on both sides. */
  activate(node, margin = 0) {
    this.active = node;
    this.choices += 1;
    this.say('');
    this.details.show(node);
    this.onActive(node);
    if (node) this.scrollTo(node, margin);
    this.draw();
  }

  scrollTo(node, margin) {
    const top = this.nodes.indexOf(node) * this.height - this.above();
    const room = this.scroller.clientHeight - this.height;
    const space = margin * this.height;
    if (top < space) this.scroller.scrollBy(0, top - space);
    else if (top > room - space) this.scroller.scrollBy(0, top - room + space);
  }

  /** Makes the node active that stands so many rows below the active one, or the first or last one. */
  step(count) {
    const index = this.nodes.indexOf(this.active) + count;
    this.activate(this.nodes[Math.max(0, Math.min(index, this.nodes.length - 1))], 1);
  }

  get page() {
    return Math.max(1, Math.floor(this.scroller.clientHeight / this.height) - 1);
  }

  // ---- changing

  /** Has the value of a node changed in its row. */
  change(node) {
    if (!node.referable || !canEdit(node.referable) || this.edited === node) return;
    this.edited = node;
    this.scrollTo(node, 1);
    this.draw();
    edit(this.rows.get(node).children[1], node, isChanged => this.endChange(node, isChanged));
  }

  endChange(node, isChanged) {
    if (this.edited !== node) return;
    this.edited = undefined;
    if (this.field.contains(document.activeElement)) this.field.focus({ preventScroll: true });
    this.draw();
    if (isChanged) this.guard(readNode(node, this.signal).then(() => this.refresh()));
  }

  // ---- the reader's doings

  click(event) {
    const row = event.target.closest('.row');
    if (!row || event.target.closest('a, .editor')) return;
    const { node } = row;
    this.activate(node);
    if (event.target.closest('.editable')) this.change(node);
    else if (canOpen(node) && (!node.isOpen || event.target.closest('.twisty'))) this.toggle(node);
  }

  press(event) {
    if (event.target !== this.field || event.ctrlKey || event.altKey || event.metaKey) return;
    const answer = KEYS[event.key];
    if (!answer || !this.nodes.length) return;
    event.preventDefault();
    answer(this, this.active);
  }
}

/** What each key does to the tree and its active node, if there is one. */
const KEYS = {
  ArrowDown: tree => tree.step(1),
  ArrowUp: tree => tree.step(-1),
  PageDown: tree => tree.step(tree.page),
  PageUp: tree => tree.step(-tree.page),
  Home: tree => tree.step(-Infinity),
  End: tree => tree.step(Infinity),
  ArrowRight: openOrEnter,
  ArrowLeft: closeOrLeave,
  Enter: (tree, node) => node && act(tree, node),
  ' ': (tree, node) => node && canOpen(node) && tree.toggle(node),
  Escape: tree => tree.details.show(undefined),
};

function openOrEnter(tree, node) {
  if (!node || !canOpen(node)) return;
  if (!node.isOpen) tree.guard(tree.open(node));
  else if (node.children.length) tree.step(1);
}

function closeOrLeave(tree, node) {
  if (node?.isOpen) tree.close(node);
  else if (node && node.parent !== tree.root) tree.activate(node.parent, 1);
}

/** Changes a value, follows a reference, or opens or closes what has children. */
function act(tree, node) {
  const { referable } = node;
  if (referable && canEdit(referable)) tree.change(node);
  else if (referable?.modelType === 'ReferenceElement' && referable.value) {
    location.hash = addressOfReference(referable.value, tree.shell);
  } else if (canOpen(node)) tree.toggle(node);
}
