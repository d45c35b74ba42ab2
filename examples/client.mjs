#!/usr/bin/env node
// A client of a node for Node 20, written from docs/FORMATS.md alone: its bytes, its blocks, and its talk.
//
//     node examples/client.mjs talk FILE [BITS]      each line of the input is a request, each answer is the node's
//     node examples/client.mjs vectors FILE ..       read the bytes in vectors/*.json; last line `N passed, M failed`
//
// Requests: `block SALT PARENT ..` (made, mined and sent), `vote X Y`, `tx ID`, `balance LOCK`, `pairs`, `report`;
// ids are digits, `G` is genesis. The program is the one that SPECTRE names, else bin/spectre.
// @ts-check
import { spawn } from "node:child_process";
import { createHash } from "node:crypto";
import { createInterface } from "node:readline";
import { fileURLToPath } from "node:url";

/** @typedef {{tx: string, index: number, preimage: string}} Input @typedef {{amount: string, lock: string}} Output */
/** @typedef {{id: string, inputs: Input[], outputs: Output[]}} Tx */
/** @typedef {{id: string, salt: string, nonce: string, parents: string[], transactions: Tx[]}} Block */

/** The first rule that bytes break, and the place of the field. */
export class Fault extends Error {
  constructor(/** @type {string} */ why, /** @type {number | undefined} */ at = undefined) {
    super(`${why} at ${at}`);
    this.why = why;
    this.at = at;
  }
}

export const sha = (/** @type {Uint8Array} */ bytes) => createHash("sha256").update(bytes).digest("hex");
/** A number in so many bytes. @param {number | bigint | string} value @param {number} width */
const little = (value, width) => Buffer.from(BigInt(value).toString(16).padStart(2 * width, "0"), "hex").reverse();
const hex = (/** @type {string} */ text) => Buffer.from(text, "hex");

/** Bytes that are read field by field, each whole before it is judged. */
export class Fields {
  constructor(/** @type {Buffer} */ bytes) { [this.bytes, this.at, this.begun] = [bytes, 0, 0]; }

  take(/** @type {number} */ width) {
    this.begun = this.at;
    if (this.bytes.length - this.at < width) throw new Fault("Short", this.begun);
    this.at += width;
    return this.bytes.subarray(this.begun, this.at);
  }

  long(/** @type {number} */ width) { return BigInt(`0x${Buffer.from(this.take(width)).reverse().toString("hex")}`); }
  number(/** @type {number} */ width) { return Number(this.long(width)); }
  rule(/** @type {string} */ why, /** @type {boolean} */ holds) { if (!holds) throw new Fault(why, this.begun); }

  /** A rule on no bytes, where reading stands. @param {string} why @param {boolean} holds */
  here(why, holds) {
    this.begun = this.at;
    this.rule(why, holds);
  }

  /** A number within bounds. @param {string} why @param {number} low @param {number} high @param {number} [width] */
  count(why, low, high, width = 1) {
    const value = this.number(width);
    this.rule(why, low <= value && value <= high);
    return value;
  }

  /** @template T @param {number} count @param {(before: T[]) => T} read */
  rows(count, read) {
    /** @type {T[]} */
    const found = [];
    while (found.length < count) found.push(read(found));
    return found;
  }
}

/** @param {Fields} fields @returns {Tx} */
function takeTx(fields) {
  const start = fields.at;
  let last = "", sum = 0n;
  const inputs = fields.rows(fields.count("InputCount", 0, 16), () => {
    const outpoint = fields.take(33).toString("hex");
    fields.rule("InputOrder", last < outpoint);
    last = outpoint;
    const preimage = fields.take(fields.count("PreimageLength", 1, 64)).toString("hex");
    return { tx: outpoint.slice(0, 64), index: parseInt(outpoint.slice(64), 16), preimage };
  });
  const outputs = fields.rows(fields.count("OutputCount", 1, 16), () => {
    const amount = fields.long(8);
    fields.rule("Amount", amount >= 1n);
    fields.rule("Sum", (sum += amount) < 1n << 63n);
    return { amount: String(amount), lock: fields.take(32).toString("hex") };
  });
  return { id: sha(fields.bytes.subarray(start, fields.at)), inputs, outputs };
}

/** @param {Buffer} bytes @returns {Tx} */
export function readTx(bytes) {
  const fields = new Fields(bytes);
  const tx = takeTx(fields);
  fields.here("Trailing", fields.at === bytes.length);
  return tx;
}

/** @param {Buffer} bytes @param {boolean} genesis @returns {Block} */
export function readBlock(bytes, genesis) {
  const fields = new Fields(bytes);
  /** @param {Tx} tx */
  const outpoints = (tx) => tx.inputs.map((each) => `${each.tx}.${each.index}`);
  fields.rule("TooLong", bytes.length <= 65536);
  fields.count("Version", 1, 1);
  const [salt, nonce] = [String(fields.long(8)), String(fields.long(8))];
  const parents = fields.rows(fields.count("ParentCount", genesis ? 0 : 1, genesis ? 0 : 64), (/** @type {string[]} */ before) => {
    const parent = fields.take(32).toString("hex");
    fields.rule("ParentOrder", !before.length || before[before.length - 1] < parent);
    return parent;
  });
  const transactions = fields.rows(fields.count("TxCount", 0, 256, 2), (/** @type {Tx[]} */ before) => {
    let tx;
    try {
      tx = takeTx(fields);
    } catch (fault) {
      throw fault instanceof Fault ? new Fault(`Tx(${fault.why})`, fault.at) : fault;
    }
    fields.here("Grant", genesis === !tx.inputs.length);
    fields.rule("SameTx", before.every((each) => each.id !== tx.id));
    fields.rule("SameOutpoint", !before.flatMap(outpoints).some((each) => outpoints(tx).includes(each)));
    return tx;
  });
  fields.here("Trailing", fields.at === bytes.length);
  return { id: sha(bytes), salt, nonce, parents, transactions };
}

/** The bytes of a transaction. @param {{inputs: Input[], outputs: Output[]}} tx */
export function txBytes({ inputs, outputs }) {
  const key = (/** @type {Input} */ each) => each.tx + little(each.index, 1).toString("hex");
  const spent = [...inputs].sort((one, two) => (key(one) < key(two) ? -1 : 1));
  const first = spent.map((each) => Buffer.concat([hex(key(each)), little(each.preimage.length / 2, 1), hex(each.preimage)]));
  const second = outputs.map((each) => Buffer.concat([little(each.amount, 8), hex(each.lock)]));
  return Buffer.concat([little(first.length, 1), ...first, little(second.length, 1), ...second]);
}

/** The bytes of a block with the least nonce that meets the work; genesis has no parents and needs none.
 * @param {{salt: number | string, parents: string[], txs?: Buffer[], bits?: number}} draft */
export function mined({ salt, parents, txs = [], bits = 0 }) {
  const ids = [...parents].sort().map(hex);
  const bytes = Buffer.concat([Buffer.of(1), little(salt, 8), little(0, 8), little(ids.length, 1), ...ids, little(txs.length, 2), ...txs]);
  for (let nonce = 0n; parents.length && BigInt(`0x${sha(bytes)}`) >> BigInt(256 - bits); ) bytes.writeBigUInt64LE((nonce += 1n), 9);
  return bytes;
}

const frame = (/** @type {string} */ kind, payload = Buffer.alloc(0)) => Buffer.concat([Buffer.from(kind), little(payload.length, 4), payload]);
const [LINE, MORE, FAULT] = [/^[ -~]{1,192}$/, /^(vote|accepted|tx|balances|balance) /, /^fault [ -~]{1,186}$/];

/** How the first line of an answer begins. @param {string} kind @param {Buffer} payload @returns {string[]} */
function firsts(kind, payload) {
  const text = payload.toString("hex");
  if (kind === "B") return [`kept ${sha(payload)} `, `known ${sha(payload)}\n`, "refused ", "full\n"];
  return [{ V: `vote ${text.slice(0, 64)} ${text.slice(64)} `, T: `tx ${text} `, U: `balance ${text} `, P: "pairs ", R: "blocks " }[kind] ?? ""];
}

/** A node on a journal's file. Each call answers the node's lines; calls may be made before others are answered. */
export class Node {
  /** @param {string[]} program @param {string} file @param {Buffer} genesis @param {number} [bits] @param {number} [profile] */
  constructor(program, file, genesis, bits = 0, profile = 1) {
    /** @type {{firsts: string[], left: number, lines: string[], done: (lines: string[]) => void, fail: (error: Error) => void}[]} */
    this.waiting = [];
    [this.line, this.fault, this.broken, this.code] = ["", "", "", /** @type {number | string | null} */ (null)];
    this.process = spawn(program[0], [...program.slice(1), "node", file], { stdio: ["pipe", "pipe", "inherit"] });
    this.ended = new Promise((done) => {
      this.process.on("error", (error) => done(this.over(String(error))));
      this.process.on("close", (code, signal) => done(this.over(code ?? String(signal))));
    });
    this.process.stdin.on("error", () => {}); // a node that ended reads no more: its code tells why
    this.process.stdout.setEncoding("latin1").on("data", (text) => this.read(text));
    this.process.stdin.write(Buffer.concat([Buffer.from(`SPCTRF0${profile}`), Buffer.of(bits), frame("B", genesis)]));
  }

  /** What the node writes is read whenever it comes, so that its pipe never fills. @param {string} text */
  read(text) {
    const lines = (this.line + text).split("\n");
    this.line = lines.pop() ?? ""; // a line counts once its end was read
    for (const line of this.line.length > 192 ? [...lines, this.line] : lines) if (!this.broken) this.take(line);
  }

  /** A line of an answer, or of a fault, behind which the node ends; any other one ends it at once. @param {string} line */
  take(line) {
    const first = this.waiting[0];
    const begins = first?.lines.length ? MORE.test(line) : first?.firsts.some((each) => `${line}\n`.startsWith(each));
    if (!this.fault && FAULT.test(line)) this.fault = line;
    else if (this.fault || !begins || !LINE.test(line)) {
      this.broken = `no answer: ${line}`;
      this.process.kill("SIGKILL");
    } else {
      // Pairs and reports say how many lines follow; behind those of a report stand those of its two lists.
      const [word, count] = line.split(" ");
      first.left += ({ pairs: Number(count), blocks: 1, accepted: Number(count) + 1, balances: Number(count) }[word] ?? 0) - 1;
      first.lines.push(line);
      if (!first.left) this.waiting.shift()?.done(first.lines);
    }
  }

  /** Once the node has ended, what isn't answered fails, and may have been done or not. @param {number | string} code */
  over(code) {
    const isShort = this.waiting.length || this.fault || this.line;
    this.code ??= code === 0 && isShort ? "0, which isn't its end" : code;
    for (const each of this.waiting.splice(0)) each.fail(this.why());
    return this.code;
  }

  why() { return new Error(`the node ended with ${this.code}: ${this.broken || this.fault}`); }

  /** @param {string} kind @param {Buffer} [payload] @returns {Promise<string[]>} */
  ask(kind, payload = Buffer.alloc(0)) {
    if (this.code !== null) return Promise.reject(this.why());
    this.process.stdin.write(frame(kind, payload)); // what the pipe doesn't take is kept, and written later
    return new Promise((done, fail) => this.waiting.push({ firsts: firsts(kind, payload), left: 1, lines: [], done, fail }));
  }

  /** The frame `E` ends the node, which answers all first: 0 is the good end. @returns {Promise<number | string>} */
  end() {
    this.process.stdin.end(frame("E"));
    return this.ended;
  }

  offer(/** @type {Buffer} */ block) { return this.ask("B", block); }
  vote(/** @type {string} */ x, /** @type {string} */ y) { return this.ask("V", hex(x + y)); }
  tx(/** @type {string} */ id) { return this.ask("T", hex(id)); }
  balance(/** @type {string} */ lock) { return this.ask("U", hex(lock)); }
  pairs() { return this.ask("P"); }
  report() { return this.ask("R"); }
}

/** Each line of the input is a request; answers come in their order. @param {string} file @param {number} bits */
async function talk(file, bits) {
  const genesis = mined({ salt: 0, parents: [] });
  const program = process.env.SPECTRE ?? fileURLToPath(new URL("../bin/spectre", import.meta.url));
  const node = new Node([program], file, genesis, bits);
  let failure = "";
  for await (const line of createInterface({ input: process.stdin })) {
    const [word, ...rest] = line.split(" ").map((each) => (each === "G" ? sha(genesis) : each));
    const kind = { block: "B", vote: "V", tx: "T", balance: "U", pairs: "P", report: "R" }[word];
    if (!kind) throw new Error(`no request: ${line}`);
    const payload = word === "block" ? mined({ salt: rest[0], parents: rest.slice(1), bits }) : hex(rest.join(""));
    node.ask(kind, payload).then((lines) => console.log(lines.join("\n")), (error) => (failure ||= error.message));
  }
  const code = await node.end();
  if (failure) console.error(failure);
  process.exitCode = typeof code === "number" ? code : 126;
}

if (process.argv[1] === fileURLToPath(import.meta.url)) {
  const [mode, ...rest] = process.argv.slice(2);
  if (mode === "talk" && rest.length) talk(rest[0], Number(rest[1] ?? 0));
  else if (mode === "vectors") import("../vectors/codecs.mjs").then(({ tryAll }) => (process.exitCode = tryAll(rest)));
  else process.exitCode = (console.error("usage: client.mjs talk FILE [BITS] | vectors FILE .."), 2);
}
