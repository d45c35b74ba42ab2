// Reads the vectors of bytes by what examples/client.mjs knows, and by readers of feeds, journals and certificates that
// stand on it, written from docs/FORMATS.md alone: `node examples/client.mjs vectors vectors/feeds.json ..`.
// @ts-check
import { readFileSync } from "node:fs";
import { isDeepStrictEqual } from "node:util";
import { Fault, Fields, readBlock, readTx, txBytes } from "../examples/client.mjs";

/** Bytes as the vectors have them: pieces of digits, with `*N` where a byte stands N times. @param {string} text */
const unspelled = (text) => Buffer.concat(text.split(" ").map((piece) => {
  const [digits, times] = piece.split("*");
  return times ? Buffer.alloc(Number(times), digits, "hex") : Buffer.from(digits, "hex");
}));
/** @param {{text?: string, bytes?: string}} value */
const got = (value) => (value.text === undefined ? unspelled(value.bytes ?? "") : Buffer.from(value.text, "latin1"));

/** @param {Buffer} text */
function readId(text) {
  const bad = text.findIndex((byte) => !/[0-9a-fA-F]/.test(String.fromCharCode(byte)));
  if (text.length % 2) throw new Fault("OddLength");
  if (text.length !== 64) throw new Fault("WrongLength");
  if (bad >= 0) throw new Fault("BadDigit", bad);
  return text.toString("latin1").toLowerCase();
}

/** A block within other bytes: its fault is that of the field. @param {Buffer} bytes @param {boolean} genesis @param {string} why @param {number} at */
function blockIn(bytes, genesis, why, at) {
  try {
    return readBlock(bytes, genesis);
  } catch {
    throw new Fault(why, at);
  }
}

const LENGTHS = /** @type {Record<string, [number, number]>} */ ({ B: [0, 65537], V: [64, 64], T: [32, 32], U: [32, 32], P: [0, 0], R: [0, 0], E: [0, 0] });

/** @param {Fields} fields @param {string} kinds @returns {[string, Buffer]} */
function takeFrame(fields, kinds) {
  const kind = fields.take(1).toString("latin1");
  fields.rule("Malformed", kinds.includes(kind));
  const length = fields.count("Malformed", ...LENGTHS[kind], 4);
  return [kind, fields.take(length)];
}

/** @param {Buffer} bytes @param {number} limit */
function readFeed(bytes, limit = 4294967295) {
  const fields = new Fields(bytes.subarray(0, limit));
  const said = { head: /** @type {object | null} */ (null), messages: /** @type {[string, string][]} */ ([]) };
  try {
    const version = fields.take(8).toString("latin1");
    fields.rule("Malformed", version === "SPCTRF01" || version === "SPCTRF02");
    const bits = fields.count("Malformed", 0, 64);
    const payload = takeFrame(fields, "B")[1];
    said.head = { profile: Number(version[7]), bits, genesis: blockIn(payload, true, "Malformed", fields.begun).id };
    for (;;) {
      const [kind, payload] = takeFrame(fields, "BVTUPRE");
      if (kind === "E") return { spells: { ...said, end: fields.at } };
      said.messages.push([kind, payload.toString("hex")]);
    }
  } catch (fault) {
    if (!(fault instanceof Fault)) throw fault;
    const short = bytes.length >= limit ? { why: "TooLong", at: limit } : { why: "Truncated", at: bytes.length };
    return { spells: said, fault: fault.why === "Short" ? short : { why: fault.why, at: fault.at } };
  }
}

/** @param {Buffer} bytes */
function readJournal(bytes) {
  const fields = new Fields(bytes);
  /** @type {{profile: number, bits: number, genesis: string, blocks: string[], end: number}} */
  let said;
  try {
    fields.count("Gate", 0xa5, 0xa5);
    const version = fields.take(8).toString("latin1");
    fields.rule("Version", version === "SPCTRJ01" || version === "SPCTRJ02");
    const bits = fields.count("Bits", 0, 64);
    const genesis = readBlock(fields.take(fields.count("Length", 0, 65536, 4)), true).id;
    said = { profile: Number(version[7]), bits, genesis, blocks: [], end: 0 };
  } catch {
    throw new Fault("NotJournal");
  }
  for (;;) {
    said.end = fields.at;
    try {
      if (fields.number(1) !== 0xa5) return said;
      fields.rule("Records", said.blocks.length < 511);
      const { id } = readBlock(fields.take(fields.count("Length", 0, 65536, 4)), false);
      fields.rule("Work", BigInt(`0x${id}`) >> BigInt(256 - said.bits) === 0n);
      fields.rule("Id", id !== said.genesis && !said.blocks.includes(id));
      said.blocks.push(id);
    } catch {
      throw new Fault("Damaged", said.end);
    }
  }
}

/** @param {Buffer} bytes */
function readCert(bytes) {
  const fields = new Fields(bytes);
  const sign = () => fields.count("Malformed", 0, 2) - 1;
  try {
    fields.rule("Malformed", fields.take(8).toString("latin1") === "SPCTRC01");
    const profile = fields.count("Malformed", 1, 2);
    const blocks = fields.rows(fields.count("Malformed", 1, 512, 2), (/** @type {string[]} */ before) => {
      const payload = fields.take(fields.count("Malformed", 0, 65536, 4));
      return blockIn(payload, before.length === 0, "Malformed", fields.begun).id;
    });
    const [x, y] = [fields.take(32).toString("hex"), fields.take(32).toString("hex")];
    const said = { profile, blocks, x, y, sign: sign() };
    const worlds = fields.rows(fields.count("Malformed", 1, 512, 2), () => [fields.number(2), blocks.map(() => "-0+"[sign() + 1]).join("")]);
    fields.here("Malformed", fields.at === bytes.length);
    return { ...said, worlds };
  } catch (fault) {
    throw fault instanceof Fault && fault.why === "Short" ? new Fault("Truncated", bytes.length) : fault;
  }
}

/** A transaction that is spelled is written again, too. @param {Buffer} bytes */
function readAndWrite(bytes) {
  const tx = readTx(bytes);
  if (!txBytes(tx).equals(bytes)) throw new Error("it is written otherwise than it was read");
  return tx;
}

/** @type {Record<string, (vector: any) => object>} */
const READERS = {
  ids: (vector) => ({ spells: readId(got(vector.id)) }),
  transactions: (vector) => ({ spells: readAndWrite(unspelled(vector.bytes)) }),
  blocks: (vector) => ({ spells: readBlock(unspelled(vector.bytes), vector.genesis) }),
  feeds: (vector) => readFeed(unspelled(vector.bytes), vector.limit),
  journals: (vector) => ({ spells: readJournal(unspelled(vector.bytes)) }),
  certificates: (vector) => ({ spells: readCert(unspelled(vector.bytes)) }),
};

/** What is read of a vector's bytes. @param {string} kind @param {any} vector */
function read(kind, vector) {
  try {
    return READERS[kind](vector);
  } catch (fault) {
    if (!(fault instanceof Fault)) return { error: String(fault) };
    return { fault: fault.at === undefined ? { why: fault.why } : { why: fault.why, at: fault.at } };
  }
}

/** Reads each vector of some files, and says which are read otherwise; the exit code. @param {string[]} files */
export function tryAll(files) {
  let [passed, failed] = [0, 0];
  for (const file of files) {
    const { kind, vectors } = JSON.parse(readFileSync(file, "utf8"));
    if (!READERS[kind]) throw new Error(`${file} has vectors of ${kind}, which are no bytes`);
    for (const vector of vectors) {
      const wanted = Object.fromEntries(["spells", "fault"].filter((key) => key in vector).map((key) => [key, vector[key]]));
      for (const message of kind === "feeds" ? wanted.spells.messages : []) message[1] = unspelled(message[1]).toString("hex");
      const found = read(kind, vector);
      if (isDeepStrictEqual(found, wanted)) passed += 1;
      else console.log(`DIFFERS ${kind}/${vector.name}: ${vector.why}\n    ${JSON.stringify(found).slice(0, 200)}`), failed += 1;
    }
  }
  console.log(`${passed} passed, ${failed} failed`);
  return passed && !failed ? 0 : 1;
}
