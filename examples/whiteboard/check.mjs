// Tries the client's tree against a served room, without a browser: some clients edit at random, lose their
// connections, undo and redo, and must all show the same in the end.
//
//     node --experimental-websocket examples/whiteboard/check.mjs ws://127.0.0.1:7000 ROOM [SEED]

import { Client, list, map, object } from "./client.js";

const [url, room, seed = "1"] = process.argv.slice(2);
let state = Number(seed);
const draw = (below) => {
  state = (Math.imul(state, 1664525) + 1013904223) >>> 0;
  return Math.floor((state / 4294967296) * below);
};
const pause = (ms) => new Promise((done) => setTimeout(done, ms));

async function until(what, test) {
  for (let turn = 0; turn < 600; turn++) {
    if (test()) return;
    await pause(20);
  }
  throw new Error(`never: ${what}`);
}

const value = () => [
  () => 7,
  () => object({ x: draw(9), in: list([draw(9)]) }),
  () => list([1, object({ y: draw(9) })]),
  () => map({ a: draw(9) }),
][draw(4)]();

function edit(client) {
  const nodes = [...client.shown.nodes];
  const [id, node] = nodes[draw(nodes.length)];
  const name = "abc"[draw(3)];
  const count = client.shown.children(id).length;
  if (node.kind === 1) {
    const deed = draw(5);
    if (deed === 0 || count === 0) client.insert(id, draw(count + 1), value());
    else if (deed === 1) client.push(id, value());
    else if (deed === 2) client.move(id, draw(count), draw(count));
    else if (deed === 3) client.put(id, draw(count), value());
    else client.take(id, draw(count));
  } else if (node.kind !== 3) {
    if (draw(3) === 0) client.delete(id, name);
    else client.set(id, name, value());
  }
}

function act(client) {
  const deed = draw(20);
  if (deed === 0) client.undo();
  else if (deed === 1) client.redo();
  else if (deed === 2) client.pause();
  else if (deed === 3) client.resume();
  else if (deed === 4) client.setPresence({ at: draw(9) });
  else if (deed === 5 && draw(4) === 0) client.socket.close();
  else edit(client);
  if (draw(3) === 0) client.flush();
}

const clients = [1, 2, 3].map((number) => new Client(room, { name: `client ${number}` }));
for (const client of clients) client.open(url);
await until("loaded", () => clients.every((client) => client.stage === "synced"));
for (let turn = 0; turn < 600; turn++) {
  const client = clients[draw(clients.length)];
  if (client.isLoaded) act(client);
  if (draw(10) === 0) await pause(draw(15));
}
await until("acknowledged", () => {
  for (const client of clients) client.flush();
  return clients.every((client) => client.stage === "synced" && client.batches.length === 0);
});
const last = Math.max(...clients.map((client) => client.number));
await until("all updates", () => clients.every((client) => client.number >= last));
const sorted = (v) => (Array.isArray(v) ? v.map(sorted) : v !== null && typeof v === "object"
  ? Object.fromEntries(Object.entries(v).sort().map(([name, member]) => [name, sorted(member)])) : v);
const views = clients.map((client) => JSON.stringify(sorted(client.shown.view())));
await until("presence", () => clients.every((client) => clients.every((other) => other === client
  || JSON.stringify(sorted(client.others.get(other.actor) ?? null)) === JSON.stringify(sorted(other.me)))));
for (const client of clients) client.close();
if (new Set(views).size !== 1) throw new Error(`they differ:\n${views.join("\n")}`);
console.log(`${last} updates, the same view of ${views[0].length} bytes\n${views[0]}`);
