// @ts-check
// Where blocks stand in the picture, and their shapes.

const shapes = [];
let svg = null, size = { width: 0, height: 0 };

// Sideways: time goes to the right, and each depth has a column or several.
function place() {
  const xs = blocks.map(block => block.x), rows = Math.max(0, ...blocks.map(block => block.row));
  const low = Math.min(0, ...xs), high = Math.max(0, ...xs);
  size = { width: rows * COLUMN + WIDTH + 2 * MARGIN, height: (high - low) * ASIDE + HEIGHT + 2 * MARGIN };
  for (const block of blocks) {
    block.left = block.row * COLUMN + MARGIN;
    block.top = (block.x - low) * ASIDE + MARGIN;
  }
}

// From the left of a block to the right of each parent; past other columns in a bow.
function arrows(block) {
  const from = block.top + HEIGHT / 2, near = block.left;
  return block.parents.filter(each => typeof each === "number").map(each => {
    const parent = blocks[each], to = parent.top + HEIGHT / 2, far = parent.left + WIDTH, span = block.row - parent.row;
    const side = span > 1 ? (to < from ? -1 : 1) * Math.min(70, 20 + 10 * span) : 0, bend = Math.max(20, (near - far) / 2);
    return `M${near} ${from}C${near - bend} ${from + side} ${far + bend} ${to + side} ${far} ${to}`;
  }).join("");
}

function patterns() {
  const found = draw("defs"), lines = draw("pattern", { id: "lines", width: 7, height: 7, patternUnits: "userSpaceOnUse", patternTransform: "rotate(45)" });
  const dots = draw("pattern", { id: "dots", width: 8, height: 8, patternUnits: "userSpaceOnUse" });
  lines.append(draw("path", { d: "M0 0V7" }));
  dots.append(draw("circle", { cx: 2, cy: 2, r: 1.1 }), draw("circle", { cx: 6, cy: 6, r: 1.1 }));
  found.append(lines, dots);
  return found;
}

function shapeOf(block, n) {
  const group = draw("g", { class: "block", "data-block": n, transform: `translate(${block.left} ${block.top})` });
  const name = draw("text", { class: "name", x: WIDTH / 2, y: 16 }, cutName(blockName(n), 10));
  const word = draw("text", { class: "said", x: WIDTH / 2, y: 30 }), carried = draw("text", { class: "txs", x: WIDTH / 2, y: 43 });
  const box = { width: WIDTH, height: HEIGHT, rx: 6 };
  group.append(draw("rect", { class: "box", ...box }), draw("rect", { class: "hatch", ...box }));
  group.append(draw("rect", { class: "ring", x: -4, y: -4, width: WIDTH + 8, height: HEIGHT + 8, rx: 9 }), name, word, carried);
  group.addEventListener("click", event => { state.cursor = n; pick(n, event.shiftKey); });
  return { group, word, carried, arrow: draw("path", { d: arrows(block) }), kind: null };
}

function drawGraph() {
  place();
  svg = draw("svg", { viewBox: `0 0 ${size.width} ${size.height}` });
  const under = draw("g", { class: "arrows" }), over = draw("g");
  blocks.forEach((block, n) => {
    const shape = shapeOf(block, n);
    shapes.push(shape);
    under.append(shape.arrow);
    over.append(shape.group);
  });
  svg.append(patterns(), under, over);
  $("pane").append(svg);
}
