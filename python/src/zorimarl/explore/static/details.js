// @ts-check
// What is told of the chosen blocks.

const blockButton = n => button(named(blockName(n)), () => choose(n), "link");

function standing(n) {
  const block = blocks[n];
  if (!hasCome(n)) return "hasn't come yet";
  if (isPresent(n)) return n ? `present since arrival ${block.present}` : "genesis";
  return `kept at arrival ${block.came}, and waits for an ancestor`;
}

function parentsOf(block) {
  if (!block.parents.length) return ["none"];
  return block.parents.flatMap(each => [typeof each === "number" ? blockButton(each) : make("span", { class: "mono" }, each + " (not kept)"), " "]);
}

function chipsOf(found, name) {
  const chips = found.map(([stop, what]) => {
    const chip = button(`${moment(stop)}: ${what}`, () => go(stop));
    const next = found.find(each => each[0] > stop);
    if (stop <= state.at && (!next || next[0] > state.at)) chip.classList.add("now");
    return chip;
  });
  const listed = chips.slice(0, 40);
  return make("div", { class: "chips", "aria-label": name }, ...listed, chips.length > 40 ? `and ${chips.length - 40} more` : null);
}

function txRow(n) {
  const word = stateOf(n) ?? "not present", mark = MARKS[word] ?? "·", row = make("div", { class: "row", "data-tx": n });
  const name = button(make("span", {}, make("span", { class: word }, `${mark} `), named(txName(n))), () => {
    state.open.has(n) ? state.open.delete(n) : state.open.add(n);
    paintSide();
  }, "link");
  name.setAttribute("aria-expanded", state.open.has(n));
  row.append(make("div", { class: "top" }, name, make("span", { class: word + " state" }, word)));
  if (state.open.has(n)) row.append(...txDetails(n));
  return row;
}

// What stands on a block, and what of the present blocks is before, above and beside it.
function aroundOf(n) {
  const above = blocks.flatMap((_, other) => other !== n && isPresent(other) && pastOf(other).has(n) ? [other] : []);
  const children = above.filter(other => blocks[other].parents.includes(n)), present = blocks.filter((_, other) => isPresent(other)).length;
  const list = children.slice(0, 12).flatMap(each => [blockButton(each), " "]);
  return [
    ["children", make("span", {}, ...(children.length ? list : ["none"]), children.length > 12 ? `and ${children.length - 12} more` : null)],
    ["past", counted(pastOf(n).size, "block", "blocks")], ["future", counted(above.length, "block", "blocks")],
    ["beside it", isPresent(n) ? counted(present - 1 - above.length - pastOf(n).size, "block", "blocks") : "not present"],
  ];
}

function blockDetails(n) {
  const block = blocks[n], many = block.txs.length > 12 ? block.txs.slice(0, 12) : block.txs;
  const facts = [
    ["id", make("span", { class: "mono", "data-id": "" }, block.id)], ["standing", standing(n)],
    ["parents", make("span", {}, ...parentsOf(block))], ...aroundOf(n), ["salt", block.salt], ["nonce", block.nonce], ["bytes", String(block.size)],
  ];
  const list = make("dl", {}, ...facts.flatMap(([name, value]) => [make("dt", {}, name), make("dd", {}, value)]));
  const found = [make("h2", {}, named(blockName(n))), list];
  if (many.length) found.push(make("h3", {}, counted(block.txs.length, "transaction", "transactions")), ...many.map(txRow));
  if (many.length < block.txs.length) found.push(button("list all of them", () => { setTab("txs"); setQuery(block.id); }));
  return make("div", { class: "details", "data-block": n }, ...found);
}

function tally(n) {
  const counts = { before: 0, after: 0, tie: 0 };
  blocks.forEach((_, other) => { const word = wordOf(n, other); if (word in counts) counts[word]++; });
  return make("p", { class: "soft" }, "It comes before ", make("b", {}, String(counts.before)), ", after ", make("b", {}, String(counts.after)), " and ties with ", make("b", {}, String(counts.tie)), ".");
}

function sentence(x, y, word) {
  const names = [named(blockName(x)), named(blockName(y))];
  if (word === "before") return [names[0], " comes before ", names[1]];
  if (word === "after") return [names[1], " comes before ", names[0]];
  if (word === "tie") return ["Neither of ", names[0], " and ", names[1], " comes before the other"];
  return ["Not both of ", names[0], " and ", names[1], " are present"];
}

function pairDetails(x, y) {
  const word = wordOf(x, y);
  return [
    make("p", { class: "word", "data-word": word }, ...sentence(x, y, word)),
    make("p", { class: "mono", id: "vote" }, `vote ${blocks[x].id} ${blocks[y].id} ${word}`),
    chipsOf(pairHistory(x, y), "Words"),
    ...(isPresent(x) && isPresent(y) ? [make("p", { class: "soft" }, "Its certificate, of a feed of these blocks:"), make("p", { class: "mono", id: "certify" }, `spectre certify ${blocks[x].id} ${blocks[y].id}`)] : []),
    make("div", { class: "chips" }, button("swap (s)", swap), button("let go (Esc)", letGo)),
  ];
}

function paintChosen() {
  const { one, two } = state, page = state.page ? [pageDetails(state.page)] : [];
  if (one === null) {
    $("chosen").replaceChildren(...page, make("p", { class: "soft" }, blocks.length ? "Choose a block: each other one then shows whether the chosen one comes before it or after it. Choose a second one for the word on the two." : "There are no blocks to show."));
    return;
  }
  const parts = two === null ? [] : pairDetails(one, two);
  parts.push(blockDetails(one));
  if (two === null) parts.push(tally(one), button("let go (Esc)", letGo));
  else parts.push(blockDetails(two));
  $("chosen").replaceChildren(...page, ...parts);
}
