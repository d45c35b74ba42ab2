// @ts-check
// What is done by clicks and keys.

function paint(push = false) {
  if (!stops.length) return;
  seek(state.at);
  paintGraph();
  paintCounts();
  paintWhen();
  paintSide();
  writeAddress(push);
}

function go(stop) {
  state.at = Math.min(stops.length - 1, Math.max(0, stop));
  paint();
}

function choose(n) { state.one = state.cursor = n; state.two = null; paint(true); reveal(n); }
function letGo() { state.one = state.two = state.page = null; paint(true); }
function swap() { if (state.two !== null) { [state.one, state.two] = [state.two, state.one]; paint(true); } }

function pick(n, isFirst) {
  if (isFirst || state.one === null) { state.one = n; state.two = null; }
  else if (n === state.one) { if (state.two === null) state.one = null; state.two = null; }
  else state.two = n === state.two ? null : n;
  paint(true);
}

function nextTurn() {
  const found = state.two !== null ? pairHistory(state.one, state.two).map(each => each[0]) : [...turns].sort((a, b) => a - b);
  const next = found.find(stop => stop > state.at);
  if (next !== undefined) go(next);
  else { paintWhen(); $("when").append(" · no later turn"); }
}

function setTab(tab) { state.tab = tab; state.shown = PAGE; paintSide(); }
function setQuery(text) { $("search").value = state.query = text; state.shown = PAGE; paintSide(); }

function reveal(n) {
  const pane = $("pane"), around = pane.getBoundingClientRect(), box = shapes[n].group.getBoundingClientRect(), edge = 20;
  const x = box.left - around.left, y = box.top - around.top;
  if (x < edge || x + box.width > pane.clientWidth - edge) pane.scrollLeft += x - pane.clientWidth / 2;
  if (y < edge || y + box.height > pane.clientHeight - edge) pane.scrollTop += y - pane.clientHeight / 2;
}

// Aside the nearest block of the next column, upwards and downwards the next one of the same column.
function towards(across, down) {
  const here = blocks[state.cursor ?? state.one ?? 0];
  let best = null, least = Infinity;
  blocks.forEach((block, n) => {
    const dx = block.left - here.left, dy = block.top - here.top, ahead = dx * across + dy * down;
    if (!hasCome(n) || ahead <= 0) return;
    const far = across ? ahead * 1000 + Math.abs(dy) : dx ? Infinity : ahead;
    if (far < least) { least = far; best = n; }
  });
  return best;
}

const ARROWS = { ArrowLeft: [-1, 0], ArrowRight: [1, 0], ArrowUp: [0, -1], ArrowDown: [0, 1] };

function moveCursor(key) {
  const next = state.cursor === null ? state.one ?? 0 : towards(...ARROWS[key]);
  if (next === null) return;
  state.cursor = next;
  paintGraph();
  reveal(next);
  const word = state.one === null ? "" : `, ${saidIn(next)}`;
  $("said").textContent = `${blockName(next)}, ${standing(next)}${word}, ${counted(blocks[next].txs.length, "transaction", "transactions")}`;
}

function graphKey(event) {
  if (event.ctrlKey || event.metaKey || event.altKey) return;
  if (event.key in ARROWS) moveCursor(event.key);
  else if ((event.key === "Enter" || event.key === " ") && state.cursor !== null) pick(state.cursor, event.shiftKey);
  else return;
  event.preventDefault();
}

const ACTS = {
  "[": () => go(state.at - 1), "]": () => go(state.at + 1), Home: () => go(0), End: () => go(stops.length - 1),
  t: nextTurn, s: swap, Escape: letGo, "+": () => setZoom(state.zoom * 1.25), "=": () => setZoom(state.zoom * 1.25),
  "-": () => setZoom(state.zoom / 1.25), 0: () => setZoom(fitting()), "/": () => $("search").focus(),
};

function anyKey(event) {
  if (event.ctrlKey || event.metaKey || event.altKey || !(event.key in ACTS)) return;
  if (event.target === $("search") && event.key !== "Escape") return;
  if (event.target === $("search")) { setQuery(""); $("pane").focus(); } else ACTS[event.key]();
  event.preventDefault();
}

function listen() {
  listenToView();
  const acts = { first: () => go(0), back: () => go(state.at - 1), next: () => go(state.at + 1), last: () => go(stops.length - 1), turn: nextTurn, in: ACTS["+"], out: ACTS["-"], fit: ACTS[0] };
  for (const [id, act] of Object.entries(acts)) $(id).addEventListener("click", act);
  for (const tab of Object.keys(LISTS).concat("help")) $(`tab-${tab}`).addEventListener("click", () => setTab(tab));
  $("at").addEventListener("input", () => go(Number($("at").value)));
  $("search").addEventListener("input", () => setQuery($("search").value));
  $("search").addEventListener("keydown", event => { if (event.key === "Enter") goToFound(); });
  window.addEventListener("popstate", followAddress);
  $("pane").addEventListener("keydown", graphKey);
  document.addEventListener("keydown", anyKey);
}
