// @ts-check
// The data, what is chosen, and how elements are made. Each word, state and balance is one of the data, where the
// program wrote it. All text is put in as text.

/** Elements by their ids, which all stand in page.html. @type {(id: string) => any} */
const $ = id => document.getElementById(id);
const data = JSON.parse($("data").textContent);
const { blocks, txs, locks, arrivals, stops } = data;
const SVG = "http://www.w3.org/2000/svg";
const WIDTH = 78, HEIGHT = 50, COLUMN = 136, ASIDE = 0.66, MARGIN = 24, PAGE = 100, SNAP = 32;
const WORDS = { b: "before", a: "after", t: "tie" };
const OTHER = { before: "after", after: "before" };
const MARKS = { accepted: "✓", rejected: "✗" };
const state = { at: stops.length - 1, one: null, two: null, cursor: null, tab: "txs", query: "", shown: PAGE, open: new Set(), zoom: 1, page: null };
const TABS = ["txs", "locks", "arrivals", "help"];

function make(tag, more = {}, ...children) {
  const element = document.createElement(tag);
  for (const [key, value] of Object.entries(more)) {
    if (key === "class") element.className = value;
    else if (key === "click") element.addEventListener("click", value);
    else element.setAttribute(key, value);
  }
  element.append(...children.filter(child => child !== null && child !== undefined));
  return element;
}

function draw(tag, more = {}, text) {
  const element = document.createElementNS(SVG, tag);
  for (const [key, value] of Object.entries(more)) element.setAttribute(key, value);
  if (text !== undefined) element.textContent = text;
  return element;
}

// A name that can't change how what stands around it is read.
function named(text) {
  return make("bdi", {}, text.replace(/[\u0000-\u001f\u007f-\u009f\u200e\u200f\u202a-\u202e\u2066-\u2069]/g, "\ufffd"));
}

function button(text, click, kind = "") {
  return make("button", { type: "button", class: kind, click }, text);
}

function counted(count, one, many) { return `${count} ${count === 1 ? one : many}`; }

// Names.

const tail = id => ".." + id.slice(-6);
const blockName = n => blocks[n].name ?? tail(blocks[n].id);
const txName = n => txs[n].name ?? tail(txs[n].id);
const lockName = n => locks[n].name ?? tail(locks[n].id);
const cutName = (text, most) => text.length > most ? text.slice(0, most - 2) + ".." : text;

// A preimage as text where it is printable, else its digits.
function preimage(hex) {
  const bytes = (hex.match(/../g) ?? []).map(each => parseInt(each, 16));
  return bytes.every(byte => byte > 31 && byte < 127) ? `"${String.fromCharCode(...bytes)}"` : hex;
}
