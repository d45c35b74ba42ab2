// @ts-check
// What the picture, the head and the foot show at a stop.

// What stands in a block on its transactions.
function carriedIn(n) {
  const those = blocks[n].txs;
  if (!those.length) return "";
  if (!isPresent(n)) return `${those.length} tx`;
  const told = those.length < 3 ? those.map(tx => (MARKS[stateOf(tx)] ?? "") + txName(tx)).join(" ") : "";
  if (told && told.length < 13) return told;
  const good = those.filter(tx => stateOf(tx) === "accepted").length;
  return [good && `✓${good}`, those.length - good && `✗${those.length - good}`].filter(Boolean).join(" ");
}

function kindOf(n, fresh) {
  const kinds = ["block"];
  if (!hasCome(n)) return "block absent";
  if (!isPresent(n)) kinds.push("waits");
  if (n === state.one) kinds.push("one");
  else if (state.one !== null && isPresent(n) && isPresent(state.one)) kinds.push(wordOf(state.one, n));
  if (n === state.two) kinds.push("two");
  if (fresh.has(n)) kinds.push("new");
  if (n === state.cursor) kinds.push("at");
  return kinds.join(" ");
}

function saidIn(n) {
  if (!isPresent(n)) return "waits";
  if (n === state.one) return "chosen";
  return state.one === null || !isPresent(state.one) ? "" : wordOf(state.one, n);
}

function paintGraph() {
  const before = state.at ? stops[state.at - 1].arrivals : -1;
  const fresh = new Set();
  blocks.forEach((block, n) => { if (isPresent(n) && block.present > before && state.at) fresh.add(n); });
  blocks.forEach((_, n) => {
    const shape = shapes[n], kind = kindOf(n, fresh);
    if (kind !== shape.kind) shape.group.setAttribute("class", shape.kind = kind);
    shape.arrow.setAttribute("class", !hasCome(n) ? "absent" : n === state.one || n === state.two ? "up" : "");
    if (!hasCome(n)) return;
    shape.word.textContent = saidIn(n);
    shape.carried.textContent = carriedIn(n);
  });
  askMap();
}

// The head and the foot.

function paintCounts() {
  const stop = stops[state.at];
  const each = [["blocks", stop.blocks], ["waiting", stop.waiting], ["accepted", stop.accepted], ["balances", stop.left]];
  $("counts").replaceChildren(...each.map(([name, count]) => make("li", {}, `${name} `, make("b", {}, String(count)))));
}

const moment = stop => stops[stop].arrivals ? `arrival ${stops[stop].arrivals}` : "the start";

function paintWhen() {
  const stop = stops[state.at], from = state.at ? stops[state.at - 1].arrivals : 0;
  const come = arrivals.slice(from, stop.arrivals), shown = come.slice(-2);
  const told = shown.map(each => (each.block === null ? "" : blockName(each.block) + ": ") + each.line);
  const more = come.length > shown.length ? `and ${come.length - shown.length} before; ` : "";
  $("at").value = state.at;
  $("at").setAttribute("aria-valuetext", moment(state.at));
  $("when").replaceChildren(make("b", {}, state.at ? `After arrival ${stop.arrivals} of ${arrivals.length}` : `At the start, of ${arrivals.length} arrivals`), " ", make("span", { class: "mono" }, named(more + told.join("; "))));
  for (const id of ["first", "back"]) $(id).disabled = state.at === 0;
  for (const id of ["last", "next"]) $(id).disabled = state.at === stops.length - 1;
}
