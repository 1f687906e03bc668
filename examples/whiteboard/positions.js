// Positions: texts of the bytes 32 to 126 that don't end with a space, ordered as bytes. The items of a list stand in
// their order.

const LONGEST = 4096;

export const FIRST = "!";

export function isPosition(text) {
  return text.length >= 1 && text.length <= LONGEST && /^[ -~]*[!-~]$/.test(text);
}

const up = (text, at) => text.slice(0, at) + String.fromCharCode(text.charCodeAt(at) + 1);

// The position after x: its first character below "~" is raised, and the rest is cut.
export function after(x) {
  for (let at = 0; at < x.length; at++) if (x[at] !== "~") return up(x, at);
  return x + "!";
}

// The position before x.
export function before(x) {
  let at = 0;
  while (x[at] === " ") at++;
  if (at < x.length - 1) return x.slice(0, at + 1);
  if (x[at] === "!") return x.slice(0, at) + " ~";
  return x.slice(0, at) + String.fromCharCode(x.charCodeAt(at) - 1);
}

// A position between x and y. Behind its end x reads as spaces; a y that is absent (null) reads as "~" everywhere.
export function between(x, y) {
  const low = (at) => (at < x.length ? x.charCodeAt(at) : 32);
  const high = (at) => (y === null ? 126 : at < y.length ? y.charCodeAt(at) : 32);
  const front = (count) => x.padEnd(count, " ").slice(0, count);
  let at = 0;
  while (low(at) === high(at)) at++;
  if (high(at) >= low(at) + 2) {
    return front(at) + String.fromCharCode(Math.floor((low(at) + high(at)) / 2));
  }
  return front(at + 1) + between(x.slice(at + 1), null);
}
