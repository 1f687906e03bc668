// A connection by Node's own WebSocket, or by `ws` where it is installed: sends one update and sees it again. Status 77
// where there is neither.

const found = globalThis.WebSocket ?? (await import("ws").then((ws) => ws.WebSocket, () => undefined));
if (found === undefined) process.exit(77);

const socket = new found(process.argv[2]);
const say = (message) => socket.send(JSON.stringify([message]));
let own;
socket.onopen = () => say({ type: 1, room: "room" });
socket.onmessage = ({ data }) => {
  const message = JSON.parse(data);
  if (message.type === 104) {
    own = `${message.actor}:1`;
    say({ type: 200 });
    say({ type: 201, ops: [{ type: 3, id: "root", opId: own, data: { node: message.actor } }] });
  } else if (message.type === 201 && message.ops[0].opId === own) {
    console.log("its update came back");
    process.exit(0);
  }
};
setTimeout(() => process.exit(1), 20000);
