// @ts-check
// One field that finds blocks, transactions and locks: by name, by any front of an id of at least four digits, by
// the word that opens a lock, and by what they have to do with each other. What is found stands in groups.

const keyOfTx = n => txs[n].key ??= [txs[n].name, txs[n].id, ...txs[n].outputs.map(each => `${locks[each[1]].name} ${locks[each[1]].id}`), ...txs[n].inputs.map(each => preimage(each[2])), ...carriers[n].map(each => `${blocks[each].name} ${blocks[each].id}`)].join(" ").toLowerCase();
const keyOfLock = n => locks[n].key ??= [locks[n].name ?? "", locks[n].id, ...wordsOfLock(n)].join(" ").toLowerCase();
const keyOfBlock = n => blocks[n].key ??= `${blocks[n].name ?? ""} ${blocks[n].id} ${blocks[n].txs.map(txName).join(" ")}`.toLowerCase();
const fits = (key, word) => state.query.trim().toLowerCase().split(/\s+/).every(each => key.includes(each) || each === word);

const spends = new Map(); // by transaction and place: the transactions that spend it, each with the preimage
txs.forEach((tx, n) => tx.inputs.forEach(([from, place, opened]) => {
  const key = `${from}.${place}`;
  if (!spends.has(key)) spends.set(key, []);
  spends.get(key).push([n, opened]);
}));

// The words that have opened a lock, as far as they stand in the transactions that spend of it.
function wordsOfLock(n) {
  const found = new Set();
  txs.forEach((tx, number) => tx.outputs.forEach(([, lock], place) => {
    if (lock === n) for (const [, opened] of spends.get(`${number}.${place}`) ?? []) found.add(preimage(opened));
  }));
  return [...found];
}

function blockRow(n) {
  const there = hasCome(n) ? standing(n) : "hasn't come yet";
  return make("div", { class: "row", "data-found-block": n }, make("div", { class: "top" }, blockButton(n), make("span", { class: "soft" }, there)), make("p", { class: "mono soft" }, blocks[n].id));
}

const GROUPS = [
  ["block", "blocks", blocks, keyOfBlock, blockRow],
  ["transaction", "transactions", txs, keyOfTx, n => txRow(n)],
  ["lock", "locks", locks, keyOfLock, n => lockRow(n)],
];

// Those whose name or id begins with what is sought come first.
function foundIn(list, keyOf) {
  const word = state.query.trim().toLowerCase(), first = [], rest = [];
  list.forEach((each, n) => {
    if (!fits(keyOf(n), list === txs ? stateOf(n) : list === locks ? amountOf(n) : "")) return;
    (each.id.startsWith(word) || (each.name ?? "").toLowerCase().startsWith(word) ? first : rest).push(n);
  });
  return first.concat(rest);
}

function paintSearch() {
  const groups = GROUPS.map(([one, many, list, keyOf, row]) => ({ one, many, row, found: foundIn(list, keyOf) }));
  const some = groups.filter(each => each.found.length);
  const told = some.length ? some.map(each => counted(each.found.length, each.one, each.many)).join(", ") : "Nothing has this name, id or word.";
  const parts = [make("p", { class: "soft", id: "found", role: "status" }, told)];
  for (const { many, found, row } of some) {
    parts.push(make("h3", { "data-group": many }, many), ...found.slice(0, state.shown).map(row));
    if (found.length > state.shown) parts.push(button(`${Math.min(PAGE, found.length - state.shown)} more ${many}`, () => { state.shown += PAGE; paintSide(); }));
  }
  $("panel").replaceChildren(...parts);
}

// Enter in the field goes to the first that is found.
function goToFound() {
  for (const [, many, list, keyOf] of GROUPS) {
    const n = foundIn(list, keyOf)[0];
    if (n === undefined) continue;
    if (many === "blocks") choose(n);
    else showPage(many === "locks" ? "lock" : "tx", n);
    return;
  }
}
