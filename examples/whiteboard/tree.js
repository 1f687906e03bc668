// A room's Storage tree, and what operations do to it. Operations are the objects of the wire.

import { between, isPosition } from "./positions.js";

export const OBJECT = 0, LIST = 1, MAP = 2, REGISTER = 3;

const DEEPEST = 60;
const KIND_OF = { 2: LIST, 4: OBJECT, 7: MAP, 8: REGISTER };
const TYPE_OF = { [LIST]: 2, [OBJECT]: 4, [MAP]: 7, [REGISTER]: 8 };

// Texts in the order of their UTF-8 bytes: that of code units, but that surrogates stand above all others.
export function compare(a, b) {
  const rank = (unit) => (unit >= 0xe000 ? unit - 0x800 : unit >= 0xd800 ? unit + 0x2000 : unit);
  for (let i = 0; i < a.length && i < b.length; i++) {
    if (a[i] !== b[i]) return rank(a.charCodeAt(i)) - rank(b.charCodeAt(i));
  }
  return a.length - b.length;
}

// Nodes are never changed, but replaced, so that a copy of the maps is a copy of the tree.
export class Tree {
  constructor() {
    this.nodes = new Map([["root", { parent: null, key: "", depth: 0, kind: OBJECT, data: {} }]]);
    this.kids = new Map(); // from a node to its children: a map from key to id
  }

  copy() {
    const tree = new Tree();
    tree.nodes = new Map(this.nodes);
    tree.kids = new Map([...this.kids].map(([id, kids]) => [id, new Map(kids)]));
    return tree;
  }

  get(id) {
    return this.nodes.get(id);
  }

  childAt(id, key) {
    return this.kids.get(id)?.get(key);
  }

  // The children of a node, in order of their keys.
  children(id) {
    return [...(this.kids.get(id) ?? [])].sort((a, b) => compare(a[0], b[0])).map(([, child]) => child);
  }

  put(id, node) {
    this.nodes.set(id, node);
    if (!this.kids.has(node.parent)) this.kids.set(node.parent, new Map());
    this.kids.get(node.parent).set(node.key, id);
  }

  // Takes a node and all below it out.
  remove(id) {
    for (const child of [...(this.kids.get(id) ?? new Map()).values()]) this.remove(child);
    const node = this.nodes.get(id);
    this.kids.get(node.parent).delete(node.key);
    this.kids.delete(id);
    this.nodes.delete(id);
  }

  // A node and all below it, each before its children.
  *preorder(id) {
    yield id;
    for (const child of this.children(id)) yield* this.preorder(child);
  }

  // What the room shows below a node, as JSON.
  view(id = "root") {
    const node = this.nodes.get(id);
    if (node.kind === REGISTER) return node.data;
    if (node.kind === LIST) return this.children(id).map((child) => this.view(child));
    const below = this.children(id).map((child) => [this.nodes.get(child).key, this.view(child)]);
    return Object.fromEntries([...Object.entries(node.data ?? {}), ...below]);
  }
}

// The tree that the items of a state spell.
export function treeOf(items) {
  const tree = new Tree();
  for (const [id, item] of items) {
    if (id === "root") {
      tree.nodes.set("root", { ...tree.get("root"), data: item.data });
    } else {
      const depth = tree.get(item.parentId).depth + 1;
      tree.put(id, { parent: item.parentId, key: item.parentKey, depth, kind: item.type, data: item.data });
    }
  }
  return tree;
}

const replacedBy = (tree, op) => {
  const node = op.deletedId === undefined || op.deletedId === "root" ? undefined : tree.get(op.deletedId);
  return node !== undefined && node.parent === op.parentId ? op.deletedId : undefined;
};

// The position that an operation gets in a list, or null where it would be too long. A taken one becomes one between it
// and the next; a replaced item doesn't count, and a moved one counts only as the next.
function settledKey(tree, list, key, own, replaced) {
  const taken = tree.childAt(list, key);
  if (taken === undefined || taken === own || taken === replaced) return key;
  const above = tree.children(list)
    .filter((id) => id !== replaced)
    .map((id) => tree.get(id).key)
    .find((other) => compare(other, key) > 0);
  const made = between(key, above ?? null);
  return made.length > 4096 ? null : made;
}

// The operation as it is settled on a tree, or null where it is void and changes nothing.
export function live(tree, op) {
  const node = tree.get(op.id);
  if (op.type in KIND_OF) {
    const parent = tree.get(op.parentId);
    if (!parent || parent.kind === REGISTER || node || parent.depth >= DEEPEST) return null;
    if (parent.kind !== LIST) return op;
    if (!isPosition(op.parentKey)) return null;
    const parentKey = settledKey(tree, op.parentId, op.parentKey, undefined, replacedBy(tree, op));
    return parentKey === null ? null : { ...op, parentKey };
  }
  if (!node) return null;
  if (op.type === 3 || op.type === 6) return node.kind === OBJECT ? op : null;
  if (op.id === "root") return null;
  if (op.type === 5) return op;
  if (tree.get(node.parent).kind !== LIST || !isPosition(op.parentKey)) return null;
  const parentKey = settledKey(tree, node.parent, op.parentKey, op.id, undefined);
  return parentKey === null ? null : { ...op, parentKey };
}

const without = (data, key) => Object.fromEntries(Object.entries(data).filter(([name]) => name !== key));

// Takes the field or the child at a key out.
function clear(tree, id, key) {
  const child = tree.childAt(id, key);
  const node = tree.get(id);
  if (child !== undefined) tree.remove(child);
  else if (node.kind === OBJECT && Object.hasOwn(node.data, key)) {
    tree.nodes.set(id, { ...node, data: without(node.data, key) });
  }
}

// Does an operation to a tree.
export function step(tree, op) {
  const settled = live(tree, op);
  if (settled === null) return;
  const { id } = settled;
  const node = tree.get(id);
  if (settled.type in KIND_OF) {
    const parent = tree.get(settled.parentId);
    const replaced = replacedBy(tree, settled);
    if (parent.kind !== LIST) clear(tree, settled.parentId, settled.parentKey);
    else if (replaced !== undefined) tree.remove(replaced);
    const { parentId, parentKey: key, type, data } = settled;
    tree.put(id, { parent: parentId, key, depth: parent.depth + 1, kind: KIND_OF[type], data });
  } else if (settled.type === 3) {
    for (const key of Object.keys(settled.data)) {
      const child = tree.childAt(id, key);
      if (child !== undefined) tree.remove(child);
    }
    tree.nodes.set(id, { ...node, data: { ...node.data, ...settled.data } });
  } else if (settled.type === 5) {
    tree.remove(id);
  } else if (settled.type === 6) {
    clear(tree, id, settled.key);
  } else {
    tree.kids.get(node.parent).delete(node.key);
    tree.put(id, { ...node, key: settled.parentKey });
  }
}

// The creates that put a node and all below it back.
function restoredNode(tree, id) {
  return [...tree.preorder(id)].map((each) => {
    const { parent, key, kind, data } = tree.get(each);
    const op = { type: TYPE_OF[kind], id: each, parentId: parent, parentKey: key };
    return data === undefined ? op : { ...op, data };
  });
}

function restoredSlot(tree, id, key) {
  const { kind, data } = tree.get(id);
  if (kind === OBJECT && Object.hasOwn(data, key)) return [{ type: 3, id, data: { [key]: data[key] } }];
  const child = tree.childAt(id, key);
  return child === undefined ? [] : restoredNode(tree, child);
}

// The operations, without ids of their own, that take an operation on this tree back.
export function reverse(tree, op) {
  const settled = live(tree, op);
  if (settled === null) return [];
  const { id } = settled;
  const node = tree.get(id);
  if (settled.type in KIND_OF) {
    const replaced = replacedBy(tree, settled);
    const isItem = tree.get(settled.parentId).kind === LIST;
    const back = isItem
      ? (replaced === undefined ? [] : restoredNode(tree, replaced))
      : restoredSlot(tree, settled.parentId, settled.parentKey);
    return [{ type: 5, id }, ...back];
  }
  if (settled.type === 3) {
    const old = Object.keys(settled.data).filter((key) => Object.hasOwn(node.data, key));
    const fields = Object.fromEntries(old.map((key) => [key, node.data[key]]));
    const others = Object.keys(settled.data).filter((key) => !old.includes(key)).sort(compare);
    const update = old.length === 0 ? [] : [{ type: 3, id, data: fields }];
    return update.concat(...others.map((key) => {
      const back = restoredSlot(tree, id, key);
      return back.length === 0 ? [{ type: 6, id, key }] : back;
    }));
  }
  if (settled.type === 5) return restoredNode(tree, id);
  if (settled.type === 6) return restoredSlot(tree, id, settled.key);
  return [{ type: 1, id, parentKey: node.key }];
}
