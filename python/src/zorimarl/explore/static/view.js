// @ts-check
// How the picture is moved: dragged, zoomed by the wheel or by two fingers, and seen whole on a small map.

const LEAST = 5; // so far is a press moved until it drags
const MAP = { width: 170, height: 110, least: 44 };
const held = new Map(); // the pointers that are down, and where each was last
const moved = { far: 0, factor: 1, at: [0, 0], asked: false, mapped: false };

const inPane = event => { const box = $("pane").getBoundingClientRect(); return [event.clientX - box.left, event.clientY - box.top]; };

// Zooms so that what stands at a point of the pane stays there; without one, at its middle.
function setZoom(zoom, at) {
  const pane = $("pane"), before = state.zoom, [x, y] = at ?? [pane.clientWidth / 2, pane.clientHeight / 2];
  const point = [(pane.scrollLeft + x) / before, (pane.scrollTop + y) / before];
  state.zoom = Math.min(3, Math.max(0.02, zoom));
  svg.setAttribute("width", size.width * state.zoom);
  svg.setAttribute("height", size.height * state.zoom);
  pane.scrollTo(point[0] * state.zoom - x, point[1] * state.zoom - y);
  askMap();
}

const fitting = () => Math.min($("pane").clientWidth / size.width, $("pane").clientHeight / size.height, 1.3) * 0.98;

// Zooms once for each picture, however often the wheel has told.
function askZoom(factor, at) {
  moved.factor *= factor;
  moved.at = at;
  if (moved.asked) return;
  moved.asked = true;
  requestAnimationFrame(() => {
    setZoom(state.zoom * moved.factor, moved.at);
    moved.factor = 1;
    moved.asked = false;
  });
}

function turnWheel(event) {
  event.preventDefault();
  const lines = event.deltaMode === 1 ? 16 : 1;
  askZoom(Math.exp(Math.max(-300, Math.min(300, -event.deltaY * lines)) * 0.002), inPane(event));
}

function holdPointer(event) {
  if (event.button !== 0) return;
  if (!held.size) moved.far = 0;
  held.set(event.pointerId, [event.clientX, event.clientY]);
}

function spread() {
  const [one, two] = [...held.values()];
  return Math.hypot(one[0] - two[0], one[1] - two[1]) || 1;
}

function movePointer(event) {
  const last = held.get(event.pointerId), pane = $("pane");
  if (!last) return;
  const dx = event.clientX - last[0], dy = event.clientY - last[1], before = held.size === 2 ? spread() : 0;
  held.set(event.pointerId, [event.clientX, event.clientY]);
  moved.far += Math.abs(dx) + Math.abs(dy);
  if (moved.far < LEAST) return;
  if (!pane.hasPointerCapture(event.pointerId)) pane.setPointerCapture(event.pointerId);
  pane.classList.add("dragged");
  if (before) askZoom(spread() / before, inPane(event));
  else pane.scrollBy(-dx, -dy);
}

function letPointerGo(event) {
  held.delete(event.pointerId);
  if (!held.size) $("pane").classList.remove("dragged");
}

// The small map: a mark for each block, and a frame around what the pane shows.

const MAP_COLOURS = { one: "--text", two: "--text", before: "--before-edge", after: "--after-edge", tie: "--tie-edge" };

// Across and down; of a long picture the map is taller than it would be.
function mapScale() {
  const across = Math.min(MAP.width / size.width, MAP.height / size.height);
  return [across, Math.max(across, Math.min(1, MAP.least / size.height))];
}

function paintMap() {
  const pane = $("pane"), map = $("map"), [across, down] = mapScale(), context = map.getContext("2d");
  map.hidden = pane.scrollWidth <= pane.clientWidth + 1 && pane.scrollHeight <= pane.clientHeight + 1;
  if (map.hidden) return;
  map.width = size.width * across;
  map.height = size.height * down;
  const style = getComputedStyle(document.documentElement);
  blocks.forEach((block, n) => {
    if (!hasCome(n)) return;
    const kind = Object.keys(MAP_COLOURS).find(each => shapes[n].group.classList.contains(each));
    context.fillStyle = style.getPropertyValue(kind ? MAP_COLOURS[kind] : "--edge");
    context.fillRect(block.left * across, block.top * down, Math.max(1.5, WIDTH * across), Math.max(1.5, HEIGHT * down));
  });
  context.strokeStyle = style.getPropertyValue("--accent");
  context.lineWidth = 2;
  const x = across / state.zoom, y = down / state.zoom;
  context.strokeRect(pane.scrollLeft * x + 1, pane.scrollTop * y + 1, Math.min(map.width, pane.clientWidth * x) - 2, Math.min(map.height, pane.clientHeight * y) - 2);
}

function askMap() {
  if (moved.mapped) return;
  moved.mapped = true;
  requestAnimationFrame(() => { moved.mapped = false; paintMap(); });
}

function goOnMap(event) {
  if (!(event.buttons & 1)) return;
  const pane = $("pane"), box = $("map").getBoundingClientRect(), [across, down] = mapScale(), zoom = state.zoom;
  pane.scrollTo((event.clientX - box.left) / across * zoom - pane.clientWidth / 2, (event.clientY - box.top) / down * zoom - pane.clientHeight / 2);
}

function listenToView() {
  const pane = $("pane"), map = $("map");
  pane.addEventListener("wheel", turnWheel, { passive: false });
  pane.addEventListener("pointerdown", holdPointer);
  pane.addEventListener("pointermove", movePointer);
  for (const kind of ["pointerup", "pointercancel", "lostpointercapture"]) pane.addEventListener(kind, letPointerGo);
  pane.addEventListener("click", event => { if (moved.far >= LEAST) event.stopPropagation(); }, true);
  pane.addEventListener("scroll", askMap);
  window.addEventListener("resize", askMap);
  for (const kind of ["pointerdown", "pointermove"]) map.addEventListener(kind, goOnMap);
}
