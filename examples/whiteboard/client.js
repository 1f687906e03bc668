// A client of a room: it shows its own changes at once, keeps what isn't acknowledged over a lost connection, and takes
// its own changes back. `docs/protocol.md` says what it sends and takes.

import { FIRST, after, before, between } from "./positions.js";
import { LIST, MAP, OBJECT, REGISTER, Tree, compare, reverse, step, treeOf } from "./tree.js";

const UNDO_ENTRIES = 50;
const FINAL_CLOSES = [4400, 4402, 4403, 4404, 4406, 4408];

export const object = (fields = {}) => ({ kind: OBJECT, fields });
export const list = (items = []) => ({ kind: LIST, items });
export const map = (fields = {}) => ({ kind: MAP, fields });
const isLive = (value) => typeof value?.kind === "number" && (value.fields ?? value.items) !== undefined;

class Refused extends Error {}

export class Client {
  constructor(room, { name, onChange = () => {}, onEvent = () => {}, onStatus = () => {} } = {}) {
    Object.assign(this, { room, name, onChange, onEvent, onStatus });
    this.forget();
  }

  // A client that has no session yet.
  forget() {
    this.stage = "idle"; // then dialled, connected, synced
    this.actor = this.key = null;
    this.batches = []; // lists of operations beyond `told`, the first made first
    this.told = 0; // the clock of the last own operation that the log has
    this.number = 0; // the number of the last update taken
    this.confirmed = this.shown = null;
    this.parts = [];
    this.nextNode = 1;
    this.sent = 0; // the last clock that was sent on this connection
    this.me = {};
    this.unsent = new Set(); // names of presence
    this.queued = []; // events
    this.others = new Map(); // from actor to presence
    this.names = new Map(); // from actor to name
    this.undone = [];
    this.done = [];
    this.bag = null; // the entry of a pause
  }

  // ---- the connection

  // Opens a connection, and opens another one each time that it is lost, until `close`.
  open(url, Socket = globalThis.WebSocket, wait = 250) {
    const socket = new Socket(url);
    this.socket = socket;
    this.reopen = () => this.open(url, Socket, Math.min(wait * 2, 8000));
    socket.onopen = () => this.dial();
    socket.onmessage = (message) => {
      if (socket !== this.socket) return;
      wait = 250;
      this.receive(message.data);
    };
    socket.onclose = (closed) => {
      if (socket === this.socket) this.closed(closed.code, closed.reason, wait);
    };
    socket.onerror = () => {};
  }

  close() {
    const { socket } = this;
    this.socket = null;
    this.lost();
    socket?.close();
  }

  closed(code, reason, wait) {
    this.lost();
    if (code === 4401) this.forget(); // the session isn't known: what isn't acknowledged is given up
    if (FINAL_CLOSES.includes(code)) {
      this.onStatus(`closed: ${code} ${reason}`);
      return;
    }
    this.onStatus("connecting");
    setTimeout(() => this.socket !== null && this.reopen(), wait);
  }

  lost() {
    this.stage = "idle";
    this.queued = [];
    this.others.clear();
    this.parts = [];
    this.sent = this.told;
  }

  send(...messages) {
    this.socket.send(JSON.stringify(messages));
  }

  dial() {
    this.lost();
    this.stage = "dialled";
    const { room, actor, key, name } = this;
    const hello = { type: 1, room };
    if (actor !== null) hello.resume = { actor, key };
    else if (name !== undefined) hello.name = name;
    this.send(hello);
  }

  // Takes a frame of the server. One that can't be is a reason to give the connection up and to begin anew.
  receive(text) {
    if (text === "pong") return;
    try {
      const frame = JSON.parse(text);
      for (const message of Array.isArray(frame) ? frame : [frame]) this.handle(message);
    } catch (error) {
      this.onStatus(`refused: ${error.message}`);
      this.socket.close();
      return;
    }
    this.onChange();
  }

  handle(message) {
    const { type } = message;
    if (type === 104) this.takeRoom(message);
    else if (this.stage !== "connected" && this.stage !== "synced") throw new Refused(`message ${type}`);
    else if (type === 100) this.takePresence(message);
    else if (type === 101) this.takeJoined(message.actor);
    else if (type === 102) this.others.delete(message.actor);
    else if (type === 103) this.onEvent(message.actor, message.event);
    else if (type === 200) this.takeState(message);
    else if (type === 201) this.takeUpdate(message);
    else throw new Refused(`message ${type}`);
  }

  takeRoom({ actor, key, users }) {
    if (this.stage !== "dialled" || (this.actor !== null && this.actor !== actor)) throw new Refused("room state");
    Object.assign(this, { actor, key, stage: "connected" });
    this.names = new Map(Object.entries(users).map(([other, user]) => [Number(other), user.name ?? ""]));
    this.others.clear();
    this.unsent.clear();
    this.send({ type: 100, targetActor: -1, data: this.me });
    this.send({ type: 200 });
    this.onStatus("connected");
  }

  takePresence({ actor, targetActor, data }) {
    const known = this.others.get(actor);
    if (targetActor !== undefined) this.others.set(actor, data);
    else if (known !== undefined) this.others.set(actor, { ...known, ...data });
  }

  takeJoined(actor) {
    this.others.delete(actor);
    this.send({ type: 100, targetActor: actor, data: this.me });
  }

  takeState({ seq, last, items, more }) {
    if (this.parts.some((part) => part.seq !== seq || part.last !== last)) throw new Refused("parts of two states");
    this.parts.push({ seq, last, items });
    if (more) return;
    const all = this.parts.flatMap((part) => part.items);
    if (seq < this.number || last < this.told || last > this.lastIssued()) throw new Refused("an older state");
    this.confirmed = treeOf(all);
    Object.assign(this, { parts: [], number: seq, stage: "synced" });
    this.acknowledge(last);
    this.sent = this.told;
    this.rebuild();
    this.flush();
  }

  takeUpdate({ seq, ops }) {
    if (this.stage !== "synced" || this.parts.length > 0 || seq !== this.number + 1) throw new Refused(`update ${seq}`);
    const own = ops.map((op) => op.opId.split(":").map(Number)).filter(([actor]) => actor === this.actor);
    const isPending = this.batches.length > 0;
    for (const op of ops) {
      step(this.confirmed, op);
      if (!isPending) step(this.shown, op);
    }
    this.number = seq;
    if (own.length > 0) this.acknowledge(own[own.length - 1][1]);
    if (isPending) this.rebuild();
  }

  // The log has the own operations up to this clock.
  acknowledge(clock) {
    this.told = clock;
    this.sent = Math.max(this.sent, clock);
    this.batches = this.batches
      .map((batch) => batch.filter((op) => clockOf(op) > clock))
      .filter((batch) => batch.length > 0);
  }

  rebuild() {
    this.shown = this.confirmed.copy();
    for (const batch of this.batches) for (const op of batch) step(this.shown, op);
  }

  // Sends what is unsent: one patch of presence, the events, and each batch that wasn't sent on this connection.
  flush() {
    if (this.stage !== "connected" && this.stage !== "synced") return;
    if (this.unsent.size > 0) {
      this.send({ type: 100, data: Object.fromEntries([...this.unsent].map((name) => [name, this.me[name]])) });
      this.unsent.clear();
    }
    for (const event of this.queued.splice(0)) this.send({ type: 103, event });
    if (this.stage !== "synced") return;
    for (const ops of this.batches.filter((batch) => clockOf(batch[batch.length - 1]) > this.sent)) {
      this.send({ type: 201, ops });
      this.sent = clockOf(ops[ops.length - 1]);
    }
  }

  // ---- presence and events

  setPresence(patch) {
    Object.assign(this.me, patch);
    for (const name of Object.keys(patch)) this.unsent.add(name);
  }

  broadcast(event) {
    this.queued.push(event);
  }

  // ---- edits; each is a batch of its own

  get isLoaded() {
    return this.shown !== null;
  }

  lastIssued() {
    const batch = this.batches[this.batches.length - 1];
    return batch === undefined ? this.told : clockOf(batch[batch.length - 1]);
  }

  // Makes a batch of operations that have no ids of their own yet, shows it, and answers what takes it back.
  issue(bodies) {
    const first = this.lastIssued() + 1;
    const ops = bodies.map((body, at) => ({ ...body, opId: `${this.actor}:${first + at}` }));
    const back = [];
    for (const op of ops) {
      back.unshift(...reverse(this.shown, op));
      step(this.shown, op);
    }
    if (ops.length > 0) this.batches.push(ops);
    this.onChange();
    return back;
  }

  edit(bodies) {
    const back = this.issue(bodies);
    if (back.length === 0) return;
    if (this.bag === null) this.note(back);
    else this.bag.unshift(...back);
    this.undone = [];
  }

  note(back) {
    this.done.push(back);
    if (this.done.length > UNDO_ENTRIES) this.done.shift();
  }

  newNode() {
    return `${this.actor}:${this.nextNode++}`;
  }

  // The creates of a value: a plain one is a register.
  creates(parentId, parentKey, value) {
    const id = this.newNode();
    const at = { id, parentId, parentKey };
    if (!isLive(value)) return [{ type: 8, ...at, data: value }];
    if (value.kind === LIST) {
      let key = null;
      const items = value.items.flatMap((item) => {
        key = key === null ? FIRST : after(key);
        return this.creates(id, key, item);
      });
      return [{ type: 2, ...at }, ...items];
    }
    const entries = Object.entries(value.fields).sort(([a], [b]) => compare(a, b));
    const isField = ([, member]) => value.kind === OBJECT && !isLive(member);
    const members = entries.filter((entry) => !isField(entry))
      .flatMap(([key, member]) => this.creates(id, key, member));
    const own = value.kind === MAP ? { type: 7, ...at }
      : { type: 4, ...at, data: Object.fromEntries(entries.filter(isField)) };
    return [own, ...members];
  }

  // Sets a name of an object or a map.
  set(id, key, value) {
    const isField = this.shown.get(id).kind === OBJECT && !isLive(value);
    this.edit(isField ? [{ type: 3, id, data: { [key]: value } }] : this.creates(id, key, value));
  }

  update(id, fields) {
    this.edit([{ type: 3, id, data: fields }]);
  }

  // Takes a name of an object or a map away.
  delete(id, key) {
    const child = this.shown.childAt(id, key);
    if (this.shown.get(id).kind === OBJECT) this.edit([{ type: 6, id, key }]);
    else if (child !== undefined) this.edit([{ type: 5, id: child }]);
  }

  keysOf(id) {
    return this.shown.children(id).map((child) => this.shown.get(child).key);
  }

  insert(id, index, value) {
    const keys = this.keysOf(id);
    const key = keys.length === 0 ? FIRST
      : index === 0 ? before(keys[0])
      : index === keys.length ? after(keys[index - 1])
      : between(keys[index - 1], keys[index]);
    this.edit(this.creates(id, key, value));
  }

  push(id, value) {
    this.insert(id, this.keysOf(id).length, value);
  }

  // Puts a value in the place of the item at an index.
  put(id, index, value) {
    const item = this.shown.children(id)[index];
    const [first, ...below] = this.creates(id, this.shown.get(item).key, value);
    this.edit([{ ...first, intent: "set", deletedId: item }, ...below]);
  }

  // Moves the item at one index to another.
  move(id, from, to) {
    if (from === to) return;
    const keys = this.keysOf(id);
    const parentKey = from < to
      ? (to === keys.length - 1 ? after(keys[to]) : between(keys[to], keys[to + 1]))
      : (to === 0 ? before(keys[0]) : between(keys[to - 1], keys[to]));
    this.edit([{ type: 1, id: this.shown.children(id)[from], parentKey }]);
  }

  take(id, index) {
    this.edit([{ type: 5, id: this.shown.children(id)[index] }]);
  }

  // ---- history

  // Until `resume` all edits are one entry.
  pause() {
    this.bag ??= [];
  }

  resume() {
    if (this.bag !== null && this.bag.length > 0) this.note(this.bag);
    this.bag = null;
  }

  undo() {
    this.resume();
    const entry = this.done.pop();
    if (entry !== undefined) this.undone.push(this.issue(entry));
  }

  redo() {
    this.resume();
    const entry = this.undone.pop();
    if (entry !== undefined) this.note(this.issue(entry));
  }
}

const clockOf = (op) => Number(op.opId.split(":")[1]);
