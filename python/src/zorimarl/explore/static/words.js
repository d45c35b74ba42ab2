// @ts-check
// The words of pairs at a stop. The pair of two blocks i < j has the place j(j-1)/2 + i; its word is turned round
// where it is read from its other block.

const pairs = { stop: -1, words: new Uint8Array(blocks.length * (blocks.length - 1) / 2), kept: [] };

function apply(text, words) {
  let at = 0, count = 0;
  for (let place = 0; place < text.length; place++) {
    const code = text.charCodeAt(place);
    if (code >= 48 && code <= 57) { count = count * 10 + code - 48; continue; }
    const end = at + (count || 1);
    if (code !== 61) words.fill(code, at, end);
    at = end;
    count = 0;
  }
}

function seek(stop) {
  if (stop < pairs.stop) {
    const near = Math.floor(stop / SNAP);
    pairs.words.set(pairs.kept[near]);
    pairs.stop = near * SNAP;
  }
  while (pairs.stop < stop) {
    apply(stops[++pairs.stop].words, pairs.words);
    if (pairs.stop % SNAP === 0) pairs.kept[pairs.stop / SNAP] ??= pairs.words.slice();
  }
}

const placeOf = (x, y) => { const i = Math.min(x, y), j = Math.max(x, y); return j * (j - 1) / 2 + i; };
const seen = (x, y, code) => { const word = WORDS[String.fromCharCode(code)]; return x < y ? word : OTHER[word] ?? word; };
const isPresent = n => blocks[n].present !== null && blocks[n].present <= stops[state.at].arrivals;
const hasCome = n => blocks[n].came <= stops[state.at].arrivals;

function wordOf(x, y) {
  if (!isPresent(x) || !isPresent(y)) return "absent";
  return x === y ? "same" : seen(x, y, pairs.words[placeOf(x, y)]);
}

// What one stop's text says of one place: the code of a letter, or 0 where nothing has changed.
function codeAt(text, wanted) {
  let at = 0, count = 0;
  for (let place = 0; place < text.length; place++) {
    const code = text.charCodeAt(place);
    if (code >= 48 && code <= 57) { count = count * 10 + code - 48; continue; }
    at += count || 1;
    count = 0;
    if (at > wanted) return code === 61 ? 0 : code;
  }
  return 0;
}

function pairHistory(x, y) {
  const found = [], place = placeOf(x, y);
  stops.forEach((stop, number) => {
    const code = codeAt(stop.words, place);
    if (code) found.push([number, seen(x, y, code)]);
  });
  return found;
}
