// @ts-check
// The lists beside the picture, and the help.

function lockRow(n) {
  const amount = amountOf(n) ?? "not asked", row = make("div", { class: amount === "0" || amount === "not asked" ? "row zero" : "row", "data-lock": n });
  row.append(make("div", { class: "top" }, lockButton(n), make("span", { class: "amount" }, amount)), make("p", { class: "mono soft" }, locks[n].id), chipsOf(left[n], "Balances"));
  return row;
}

function arrivalRow(n) {
  const arrival = arrivals[n], stop = stops.findIndex(each => each.arrivals >= n + 1), row = make("div", { class: "row", "data-arrival": n });
  const name = arrival.block === null ? "" : ` · ${blockName(arrival.block)}`;
  const jump = button(make("span", {}, `${n + 1}`, named(name)), () => go(stop), "link");
  row.append(make("div", { class: "top" }, jump, make("span", { class: "soft" }, `${arrival.size} bytes`)), make("p", { class: "mono" }, arrival.line));
  return row;
}

const LISTS = {
  txs: { name: "transactions", count: () => txs.length, fits: n => fits(keyOfTx(n), stateOf(n)), row: txRow },
  locks: { name: "locks", count: () => locks.length, fits: n => fits(keyOfLock(n), amountOf(n)), row: lockRow },
  arrivals: { name: "arrivals", count: () => arrivals.length, fits: n => fits(`${arrivals[n].line} ${arrivals[n].block === null ? "" : blockName(arrivals[n].block)}`.toLowerCase(), String(n + 1)), row: arrivalRow },
};

function paintList(list) {
  const found = [], asks = state.query.trim() !== "";
  for (let n = 0; n < list.count(); n++) if (!asks || list.fits(n)) found.push(n);
  const rows = found.slice(0, state.shown).map(list.row);
  const parts = [make("p", { class: "soft", id: "found" }, `${found.length} of ${list.count()} ${list.name}`), ...rows];
  if (found.length > state.shown) parts.push(button(`${Math.min(PAGE, found.length - state.shown)} more`, () => { state.shown += PAGE; paintSide(); }));
  const more = Object.entries(data.unlisted);
  if (list === LISTS.arrivals && more.length) parts.push(make("p", {}, "Beyond these: " + more.map(([word, count]) => `${count} ${word}`).join(", ") + "."));
  $("panel").replaceChildren(...parts);
}

const KEYS = [["arrows", "move in the graph"], ["Enter", "choose a block, and then a second one"], ["Shift+Enter", "choose another first one"], ["Esc", "let go"], ["s", "swap the two"], ["[ ]", "one arrival back or on"], ["Home End", "the start or the end"], ["t", "on to the next turn: of the chosen pair's word, else of any transaction's state"], ["+ - 0", "zoom, and all of it"], ["/", "search"]];
const HELP = [
  "Genesis stands at the left, and lines lead left from each block to its parents. The picture is dragged, and zoomed by the wheel or two fingers; the small map shows all of it. Where a block is chosen, the word in each other one says whether the chosen one comes before it, after it, or neither. A dashed ring marks what became present last; a dashed box waits for an ancestor.",
  "✓ and ✗ are accepted and rejected transactions.",
  "Each word, state and balance was written by the program spectre, which was asked for them behind each arrival that the slider stops at. What is proved is the program. This page, and the tool that wrote it, are not; and whoever gave you this page can have changed it.",
];

function paintHelp() {
  const rows = KEYS.flatMap(([keys, what]) => [make("dt", {}, make("kbd", {}, keys)), make("dd", {}, what)]);
  $("panel").replaceChildren(...HELP.map(text => make("p", {}, text)), make("h3", {}, "Keys"), make("dl", {}, ...rows));
}

function paintSide() {
  paintChosen();
  for (const tab of document.querySelectorAll("[role=tab]")) tab.setAttribute("aria-selected", tab.id === `tab-${state.tab}`);
  document.querySelector(".find").hidden = state.tab === "help";
  $("panel").setAttribute("aria-labelledby", `tab-${state.tab}`);
  if (state.tab === "help") paintHelp();
  else if (state.query.trim() && state.tab !== "arrivals") paintSearch();
  else paintList(LISTS[state.tab]);
  writeAddress(false);
}

const LEGEND = [["before", "before", "the chosen one comes before it"], ["after", "after", "it comes before the chosen one"], ["tie", "tie", "neither"], ["waits", "waits", "for an ancestor"]];

function paintLegend() {
  $("legend").replaceChildren(...LEGEND.map(([kind, word, meaning]) => {
    const mark = draw("svg", { width: 30, height: 16, "aria-hidden": "true" }), group = draw("g", { class: `block ${kind}` }), box = { x: 1, y: 1, width: 28, height: 14, rx: 4 };
    group.append(draw("rect", { class: "box", ...box }), draw("rect", { class: "hatch", ...box }));
    mark.append(group);
    return make("li", {}, mark, make("span", {}, make("b", {}, word), `: ${meaning}`));
  }));
}
