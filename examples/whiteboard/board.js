// The page: shapes in the list `shapes` of the room's root, the last one in front, and everybody's cursors.
// `index.html?room=NAME&server=ws://HOST:PORT&name=WHO`.

import { Client, list, object } from "./client.js";

const SVG = "http://www.w3.org/2000/svg";
const asked = new URLSearchParams(location.search);
const byId = (id) => document.getElementById(id);
const board = byId("board");
const name = asked.get("name") ?? "somebody";
let chosen = null; // a node
let drag = null; // from where a shape is moved

const client = new Client(asked.get("room") ?? "room", {
  name,
  onChange: () => requestAnimationFrame(draw),
  onStatus: (text) => { byId("status").textContent = text; },
});
client.setPresence({ name });
client.open(asked.get("server") ?? "ws://127.0.0.1:7000");
setInterval(() => client.flush(), 40);

// ---- what is shown

const shapes = () => (client.isLoaded ? client.shown.childAt("root", "shapes") : undefined);

function shapeList() {
  if (shapes() === undefined) client.set("root", "shapes", list());
  return shapes();
}

function element(kind, attributes) {
  const made = document.createElementNS(SVG, kind);
  for (const [key, value] of Object.entries(attributes)) made.setAttribute(key, value);
  return made;
}

function drawShape(id) {
  const { kind, x, y, width, height, fill } = client.shown.get(id).data;
  const made = kind === "ellipse"
    ? element("ellipse", { cx: x + width / 2, cy: y + height / 2, rx: width / 2, ry: height / 2 })
    : element("rect", { x, y, width, height });
  made.setAttribute("fill", fill);
  made.setAttribute("class", id === chosen ? "shape chosen" : "shape");
  made.dataset.id = id;
  return made;
}

const colour = (actor) => `hsl(${(actor * 67) % 360} 70% 45%)`;

function drawCursor(actor, { cursor, name: who = client.names.get(actor) ?? "" }) {
  const made = element("g", { class: "cursor", transform: `translate(${cursor.x} ${cursor.y})`, fill: colour(actor) });
  const label = element("text", { x: 12, y: 18 });
  label.textContent = who;
  made.append(element("path", { d: "M0 0 L0 16 L5 12 L11 12 Z" }), label);
  return made;
}

// Draws anew what shows: the shapes in their order, then the cursors.
function draw() {
  if (!client.isLoaded) return;
  const list = shapes();
  const ids = list === undefined ? [] : client.shown.children(list);
  if (!ids.includes(chosen)) chosen = null;
  const cursors = [...client.others].filter(([, other]) => other.cursor?.x !== undefined);
  board.replaceChildren(...ids.map(drawShape), ...cursors.map(([actor, other]) => drawCursor(actor, other)));
}

// ---- what the user does; numbers of a room are whole

function add(kind) {
  if (!client.isLoaded) return;
  const at = () => 40 + Math.floor(Math.random() * 300);
  client.push(shapeList(), object({ kind, x: at(), y: at(), width: 120, height: 80, fill: byId("fill").value }));
}

function place(event) {
  const box = board.getBoundingClientRect();
  return { x: Math.round(event.clientX - box.left), y: Math.round(event.clientY - box.top) };
}

board.addEventListener("pointerdown", (event) => {
  chosen = event.target.dataset.id ?? null;
  draw();
  if (chosen === null) return;
  const { x, y } = client.shown.get(chosen).data;
  const from = place(event);
  drag = { dx: x - from.x, dy: y - from.y };
  client.pause(); // all steps of a drag are one entry
  board.setPointerCapture(event.pointerId);
});

board.addEventListener("pointermove", (event) => {
  const cursor = place(event);
  client.setPresence({ cursor });
  if (drag !== null && chosen !== null && client.shown.get(chosen) !== undefined) {
    client.update(chosen, { x: cursor.x + drag.dx, y: cursor.y + drag.dy });
  }
});

board.addEventListener("pointerup", () => {
  if (drag !== null) client.resume();
  drag = null;
});

const index = () => client.shown.children(shapes()).indexOf(chosen);
const onChosen = (act) => () => {
  if (chosen !== null && client.shown?.get(chosen) !== undefined) act();
};
byId("rect").onclick = () => add("rect");
byId("ellipse").onclick = () => add("ellipse");
byId("fill").onchange = onChosen(() => client.update(chosen, { fill: byId("fill").value }));
byId("front").onclick = onChosen(() => client.move(shapes(), index(), client.shown.children(shapes()).length - 1));
byId("delete").onclick = onChosen(() => client.take(shapes(), index()));
byId("undo").onclick = () => client.isLoaded && client.undo();
byId("redo").onclick = () => client.isLoaded && client.redo();

globalThis.whiteboard = { client, shapes }; // for the browser's console, and for try.py
