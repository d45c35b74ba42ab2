// @ts-check
// The pages of a transaction and of a lock: where coins come from and went, the rivals and sources of a rejected transaction, and
// what was left under a lock behind each arrival. Reasons are made of the program's words on pairs and states.

const pasts = blocks.map(() => null);

// The numbers of the blocks in a block's past.
function pastOf(n) {
  if (pasts[n]) return pasts[n];
  const found = new Set(), todo = [n];
  while (todo.length) {
    for (const each of blocks[todo.pop()].parents) {
      if (typeof each !== "number" || found.has(each)) continue;
      found.add(each);
      todo.push(each);
    }
  }
  return pasts[n] = found;
}

const txButton = n => button(named(txName(n)), () => showPage("tx", n), "link");
const lockButton = n => button(named(lockName(n)), () => showPage("lock", n), "link");

function outputLine(n, [amount, lock], place) {
  const after = (spends.get(`${n}.${place}`) ?? []).flatMap(([tx]) => [" · spent by ", txButton(tx), ` (${stateOf(tx) ?? "not present"})`]);
  return make("p", {}, `pays ${amount} to `, lockButton(lock), ...after);
}

function inputLine([tx, place, opened]) {
  const name = typeof tx === "number" ? txButton(tx) : make("span", { class: "mono" }, tail(tx));
  const output = typeof tx === "number" ? txs[tx].outputs[place] : null;
  const worth = output ? [` (${output[0]} of `, lockButton(output[1]), ")"] : [];
  return make("p", {}, "spends ", name, `.${place}`, ...worth, " with ", make("span", { class: "mono" }, named(preimage(opened))));
}

// The transactions that spend what this one does.
const rivalsOf = n => [...new Set(txs[n].inputs.flatMap(([from, place]) => spends.get(`${from}.${place}`).map(each => each[0])))].filter(each => each !== n);

function pairButton(x, y) {
  return button("the pair", () => { state.one = x; state.two = y; paint(true); reveal(x); }, "link");
}

// What a block beside or before this carrier has against it: the program's word, where it isn't `before`.
function whyAgainst(carrier, rival, other) {
  if (!isPresent(other) || other === carrier || pastOf(other).has(carrier)) return null;
  const holds = [blockButton(other), " carries ", txButton(rival), ", which spends the same"];
  if (pastOf(carrier).has(other)) return make("p", { "data-why": "past" }, "in ", blockButton(carrier), ": in its past ", ...holds, `, and is ${stateOf(rival)}`);
  const word = wordOf(carrier, other);
  if (word === "before") return null;
  return make("p", { "data-why": word }, "in ", blockButton(carrier), ": ", ...holds, word === "tie" ? ", and neither comes before the other" : ", and comes before it", " (", pairButton(carrier, other), ")");
}

function whyOfInput(carrier, [from]) {
  if (typeof from !== "number") return make("p", { "data-why": "input" }, "in ", blockButton(carrier), `: it spends of ${tail(from)}, which no kept block carries`);
  if (!carriers[from].some(each => pastOf(carrier).has(each))) return carrier === 0 ? null : make("p", { "data-why": "input" }, "in ", blockButton(carrier), ": it spends of ", txButton(from), ", which no block in its past carries");
  return stateOf(from) === "accepted" ? null : make("p", { "data-why": "input" }, "in ", blockButton(carrier), ": it spends of ", txButton(from), `, which is ${stateOf(from)}`);
}

function whyOf(n) {
  if (stateOf(n) !== "rejected") return [];
  const found = carriers[n].filter(isPresent).flatMap(carrier => [
    ...txs[n].inputs.map(input => whyOfInput(carrier, input)),
    ...rivalsOf(n).flatMap(rival => carriers[rival].map(other => whyAgainst(carrier, rival, other))),
  ]).filter(each => each !== null);
  return found.length ? [make("h3", {}, "its rivals and sources at this moment"), ...found.slice(0, 20), found.length > 20 ? make("p", {}, `and ${found.length - 20} more`) : null] : [];
}

function txDetails(n) {
  return [
    make("p", { class: "mono" }, txs[n].id),
    ...txs[n].inputs.map(inputLine), ...txs[n].outputs.map((each, place) => outputLine(n, each, place)),
    make("p", {}, "in ", ...carriers[n].flatMap(each => [blockButton(each), " "])),
    ...whyOf(n),
    chipsOf(states[n], "States"),
  ];
}

// The balance behind each arrival, as steps.
function plotOf(n) {
  const width = 260, height = 60, found = left[n], most = found.reduce((top, each) => BigInt(each[1]) > top ? BigInt(each[1]) : top, 1n);
  const last = Math.max(1, stops[stops.length - 1].arrivals), x = stop => (stops[stop].arrivals / last) * width;
  const y = amount => height - Number(BigInt(amount) * 1000n / most) / 1000 * (height - 6) - 2;
  const steps = found.map(([stop, amount], k) => `${k ? `H${x(stop)}V` : `M${x(stop)} `}${y(amount)}`).join("") + `H${width}`;
  const told = found.map(([stop, amount]) => `${moment(stop)}: ${amount}`).join(", ");
  const plot = draw("svg", { class: "plot", viewBox: `0 0 ${width} ${height}`, width, height, role: "img", "aria-label": `Balance: ${told}` });
  plot.append(draw("path", { class: "axis", d: `M0 ${height - 1}H${width}` }), draw("path", { class: "steps", d: found.length ? steps : "" }));
  plot.append(draw("path", { class: "here", d: `M${x(state.at)} 0V${height}` }));
  return make("div", {}, plot, make("p", { class: "soft" }, `0 to ${most} over ${last} arrivals`));
}

function coinsOf(n) {
  const found = [];
  txs.forEach((tx, number) => tx.outputs.forEach(([amount, lock], place) => {
    if (lock !== n || stateOf(number) !== "accepted") return;
    const by = (spends.get(`${number}.${place}`) ?? []).find(each => stateOf(each[0]) === "accepted");
    found.push(make("p", { "data-coin": "" }, `${amount} of `, txButton(number), `.${place}`, by ? " · spent by " : " · not spent", by ? txButton(by[0]) : ""));
  }));
  return found;
}

function lockDetails(n) {
  const coins = coinsOf(n), shown = coins.slice(0, 50), words = wordsOfLock(n);
  return [
    make("p", { class: "mono" }, locks[n].id),
    words.length ? make("p", {}, "opened by ", ...words.flatMap(each => [make("span", { class: "mono" }, named(each)), " "])) : null,
    make("p", {}, "balance ", make("b", {}, amountOf(n) ?? "not asked")), plotOf(n), chipsOf(left[n], "Balances"),
    make("h3", {}, counted(coins.length, "accepted output", "accepted outputs")), ...shown,
    coins.length > shown.length ? make("p", {}, `and ${coins.length - shown.length} more`) : null,
  ];
}

function pageDetails([kind, n]) {
  const name = kind === "tx" ? txName(n) : lockName(n), word = kind === "tx" ? stateOf(n) ?? "not present" : "lock";
  const head = make("div", { class: "top" }, make("h2", {}, named(name)), make("span", { class: `${word} state` }, word));
  const parts = (kind === "tx" ? txDetails(n) : lockDetails(n)).filter(each => each !== null);
  return make("div", { class: "details page row", "data-page": kind }, head, ...parts, button("close", () => { state.page = null; paint(true); }));
}

function showPage(kind, n) {
  state.page = [kind, n];
  paint(true);
  const aside = document.querySelector("aside");
  if (aside) aside.scrollTop = 0;
}
