// @ts-check
// States and balances over the stops: lists of [stop, what].

const states = txs.map(() => []), left = locks.map(() => []), carriers = txs.map(() => []), turns = new Set();
stops.forEach((stop, number) => {
  for (const [word, those] of Object.entries(stop.states)) {
    for (const n of those) {
      if (states[n].length) turns.add(number);
      states[n].push([number, word]);
    }
  }
  for (const [n, amount] of stop.balances) left[n].push([number, amount]);
});
blocks.forEach((block, n) => block.txs.forEach(tx => carriers[tx].push(n)));

function lastOf(history) {
  for (let k = history.length - 1; k >= 0; k--) if (history[k][0] <= state.at) return history[k][1];
  return null;
}
const stateOf = n => lastOf(states[n]);
const amountOf = n => lastOf(left[n]);
