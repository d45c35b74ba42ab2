// @ts-check
// What is shown stands in the page's address, so that back, forward and a sent link lead to it again: the blocks
// chosen, the page of a transaction or a lock, the arrival, the tab and the search.

const KINDS = { block: blocks, with: blocks, tx: txs, lock: locks };
const WAIT = 250; // milliseconds until the address is written, so that a slider that is dragged writes it once
const written = { timer: 0, push: false };

// The shortest front of an id, of at least eight digits, that no other of the list has.
function frontOf(list, n) {
  for (let most = 8; most < 64; most *= 2) {
    const front = list[n].id.slice(0, most);
    if (list.every((each, other) => other === n || !each.id.startsWith(front))) return front;
  }
  return list[n].id;
}

// The place in a list of what a name, or a front of an id of at least four digits, says alone; else null.
function placeOfWord(list, word) {
  const named = list.findIndex(each => each.name === word);
  if (named >= 0) return named;
  const found = /^[0-9a-f]{4,64}$/.test(word) ? list.flatMap((each, n) => each.id.startsWith(word) ? [n] : []) : [];
  return found.length === 1 ? found[0] : null;
}

function addressOf() {
  const words = new URLSearchParams(), page = state.page;
  if (state.one !== null) words.set("block", frontOf(blocks, state.one));
  if (state.two !== null) words.set("with", frontOf(blocks, state.two));
  if (page) words.set(page[0], frontOf(KINDS[page[0]], page[1]));
  if (state.at !== stops.length - 1) words.set("at", String(stops[state.at].arrivals));
  if (state.tab !== "txs") words.set("tab", state.tab);
  if (state.query) words.set("find", state.query);
  const text = words.toString();
  return text ? `#${text}` : "#";
}

// Writes the address once nothing has changed for a while; what was chosen anew is a step of its own.
function writeAddress(push) {
  written.push ||= push;
  clearTimeout(written.timer);
  written.timer = setTimeout(() => {
    const text = addressOf();
    if (text !== (location.hash || "#")) window.history[written.push ? "pushState" : "replaceState"](null, "", text);
    written.push = false;
  }, WAIT);
}

// The last stop that stands behind no more arrivals than this.
function stopBehind(text) {
  const arrivals = Number(text);
  if (text === null || !/^\d+$/.test(text)) return null;
  return stops.reduce((found, stop, n) => stop.arrivals <= arrivals ? n : found, 0);
}

// Takes what the address says, as far as there is such a block, transaction, lock, arrival or tab.
function readAddress() {
  clearTimeout(written.timer);
  written.push = false;
  const words = new URLSearchParams(location.hash.slice(1));
  const found = kind => words.has(kind) ? placeOfWord(KINDS[kind], words.get(kind)) : null;
  state.one = found("block");
  state.two = state.one === null ? null : found("with");
  if (state.two === state.one) state.two = null;
  const kind = ["tx", "lock"].find(each => found(each) !== null);
  state.page = kind ? [kind, found(kind)] : null;
  state.at = stopBehind(words.get("at")) ?? stops.length - 1;
  state.tab = TABS.includes(words.get("tab")) ? words.get("tab") : "txs";
  $("search").value = state.query = words.get("find") ?? "";
  state.shown = PAGE;
}

function followAddress() {
  readAddress();
  paint();
  if (state.one !== null) reveal(state.one);
}
