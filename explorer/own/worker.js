"use strict";
// One question to the proved module, in a worker of its own: it is ended with its answer. The module has its bytes by
// `page_alloc`; addresses and sizes are whole numbers of 64 bits (BigInt) at its calls.

const PIECE = 4 << 20; // bytes of a file that are read at once
const FIRST_ROOM = 256 << 20, LEAST_ROOM = 1 << 20, REFUSALS_ROOM = 1 << 20, SCHEMA_ROOM = 2 << 20, EXPLAINED_ROOM = 1 << 18;
const MOST_REFUSED = 100, MOST_SHOWN = 300; // refused lines that are told of one by one, and how many bytes of each
const MOST_HEADER = 1 << 16; // and of the header of their file
const LF = 10, CR = 13, QUOTE = 34;

/** There is no memory for what was asked. */
class NoMemory extends Error {}

/** A file couldn't be read. */
class Unreadable extends Error {}

/** An instance of the module. */
class Engine {
  static async start(module) {
    const made = new Engine();
    made.calls = (await WebAssembly.instantiate(module, {})).instance.exports;
    return made;
  }

  /** The address of so many bytes, or 0. */
  tried(size) {
    return Number(this.calls.page_alloc(BigInt(size)));
  }

  /** Room for an answer: its address and size. */
  room(size) {
    const at = this.tried(size);
    if (!at) throw new NoMemory();
    return { at, size };
  }

  /** As much room as there is, up to a size. It costs nothing that isn't written. */
  wideRoom() {
    for (let size = FIRST_ROOM; size > LEAST_ROOM; size /= 2) {
      const at = this.tried(size);
      if (at) return { at, size };
    }
    return this.room(LEAST_ROOM);
  }

  /** A copy of some bytes in the module's memory. */
  put(bytes) {
    const room = this.room(bytes.length);
    this.bytes(room).set(bytes);
    return room;
  }

  /** The bytes at a place, or the first of them. */
  bytes({ at, size }, count = size) {
    return new Uint8Array(this.calls.memory.buffer, at, Math.min(size, count));
  }

  /** Numbers of 64 bits at a place. */
  numbers({ at, size }) {
    return [...new BigUint64Array(this.calls.memory.buffer, at, size / 8)].map(Number);
  }

  text(room, count) {
    return new TextDecoder().decode(this.bytes(room, count));
  }
}

/** Rooms as the module's calls have them: an address and a size each. */
const places = (...rooms) => rooms.flatMap(({ at, size }) => [BigInt(at), BigInt(size)]);

/** The schema that is guessed from the first bytes of a file, or why there is none. */
async function schemaOf({ module, start, isWhole, by, of }) {
  const engine = await Engine.start(module), encoder = new TextEncoder();
  const asked = [engine.put(new Uint8Array(start)), engine.put(encoder.encode(by)), engine.put(encoder.encode(of))];
  const out = engine.room(SCHEMA_ROOM), size = engine.room(8);
  const [first, ...options] = asked;
  const ended = engine.calls.page_schema(...places(first), isWhole ? 1 : 0, ...places(...options, out), BigInt(size.at));
  const text = engine.text(out, engine.numbers(size)[0]);
  return ended === 0 ? { kind: "schema", text } : withExplained(module, { kind: "fault", text });
}

/** What a code means, or all codes where it is empty, or that there is no such code. */
async function explanationOf({ module, code }) {
  const engine = await Engine.start(module);
  const asked = engine.put(new TextEncoder().encode(code)), out = engine.room(EXPLAINED_ROOM), size = engine.room(8);
  const ended = engine.calls.page_explain(...places(asked, out), BigInt(size.at)), [length] = engine.numbers(size);
  if (length === 0) throw new NoMemory();
  return { kind: ended === 0 ? "explained" : "fault", text: engine.text(out, length) };
}

/** An answer with what all codes mean, by an instance of its own: one that failed may have no memory left. Where that can't be
 * told, nothing is said of codes. */
async function withExplained(module, answer) {
  const { text } = await explanationOf({ module, code: "" }).catch(() => ({ text: "" }));
  return { ...answer, explained: text };
}

/** The printed cube of some files, and the lines that are refused. */
async function cubeOf(asked) {
  let sizes = [0, REFUSALS_ROOM];
  for (;;) {
    const engine = await Engine.start(asked.module);
    const { feeds, lengths } = await readAll(engine, asked.files);
    const schema = engine.put(typeof asked.schema === "string" ? new TextEncoder().encode(asked.schema) : asked.schema);
    const refusals = engine.room(sizes[1]), cube = sizes[0] ? engine.room(sizes[0]) : engine.wideRoom();
    const said = engine.room(16);
    postMessage({ kind: "counting" });
    const ended = engine.calls.page_run(...places(schema, feeds), BigInt(lengths.at), BigInt(asked.files.length),
      ...places(cube, refusals), BigInt(said.at));
    const needed = engine.numbers(said);
    if (ended !== 0) {
      const text = engine.text(cube, needed[0]).replace(/^datacube: /, "").trimEnd();
      return withExplained(asked.module, { kind: "fault", text });
    }
    if (needed[0] <= cube.size && needed[1] <= refusals.size) {
      const text = engine.text(refusals, needed[1]), refused = refusedIn(text, engine, feeds, asked);
      const answer = { kind: "cube", cube: new Blob([engine.bytes(cube, needed[0])]), refusals: text, ...refused };
      return refused.count ? withExplained(asked.module, answer) : answer;
    }
    sizes = needed;
  }
}

/** Reads files one behind the other into the module's memory, and tells how far it is. */
async function readAll(engine, files) {
  const total = files.reduce((sum, it) => sum + it.size, 0);
  const lengths = engine.room(8 * files.length), feeds = engine.room(total);
  feeds.size = total;
  new BigUint64Array(engine.calls.memory.buffer, lengths.at, files.length).set(files.map((it) => BigInt(it.size)));
  let done = 0;
  for (const file of files) {
    for (let from = 0; from < file.size; from += PIECE) {
      const piece = await pieceOf(file, from);
      engine.bytes({ at: feeds.at + done, size: piece.length }).set(piece);
      done += piece.length;
      postMessage({ kind: "reading", done, total });
    }
  }
  return { feeds, lengths };
}

async function pieceOf(file, from) {
  const to = Math.min(from + PIECE, file.size);
  try {
    const piece = new Uint8Array(await file.slice(from, to).arrayBuffer());
    if (piece.length === to - from) return piece;
  } catch (fault) {
    if (fault instanceof RangeError) throw fault;
  }
  throw new Unreadable(file.name);
}

/** How many lines were refused, and of the first ones where they stand and what they say. */
function refusedIn(text, engine, feeds, { files, delimiter }) {
  const lines = text.split("\n").slice(1, -1);
  const refused = lines.slice(0, MOST_REFUSED).map((line) => {
    const [source, record, code] = line.split(",").map(Number);
    return { source, record, code };
  });
  const headers = [];
  let from = feeds.at;
  for (const [at, file] of files.entries()) {
    const own = refused.filter((it) => it.source === at + 1), header = { record: 0, most: MOST_HEADER };
    if (own.length) findLines(engine.bytes({ at: from, size: file.size }), delimiter, [header, ...own]);
    headers.push(header.text ?? "");
    from += file.size;
  }
  return { count: lines.length, refused, headers, delimiter };
}

/** Finds the line and the text of records, which come in the order of the file: the header is 0. */
function findLines(bytes, delimiter, records) {
  let at = bytes[0] === 0xef && bytes[1] === 0xbb && bytes[2] === 0xbf ? 3 : 0, line = 1, next = 0;
  for (let record = 0; next < records.length; record++) {
    while (at < bytes.length && (bytes[at] === LF || bytes[at] === CR)) if (bytes[at++] === LF) line++;
    if (at >= bytes.length) return;
    const end = recordEnd(bytes, at, delimiter);
    const found = records[next];
    if (found.record === record) {
      const most = found.most ?? MOST_SHOWN;
      found.line = line;
      found.isCut = end - at > most;
      found.text = new TextDecoder().decode(bytes.slice(at, Math.min(end, at + most))) + (found.isCut ? "…" : "");
      next++;
    }
    for (; at < end; at++) if (bytes[at] === LF) line++;
  }
}

/** Where the record ends that begins at a place. A quote counts at the beginning of a field alone. */
function recordEnd(bytes, at, delimiter) {
  for (;;) {
    if (bytes[at] === QUOTE) at = quotedEnd(bytes, at + 1);
    while (at < bytes.length && bytes[at] !== delimiter && bytes[at] !== LF && bytes[at] !== CR) at++;
    if (bytes[at] !== delimiter || at >= bytes.length) return at;
    at++;
  }
}

/** Where the text in quotes ends that begins at a place: behind its closing quote. */
function quotedEnd(bytes, at) {
  for (; at < bytes.length; at++) {
    if (bytes[at] !== QUOTE) continue;
    if (bytes[at + 1] !== QUOTE) return at + 1;
    at++;
  }
  return at;
}

/** What is told of a fault: want of memory, a file that can't be read, or a trap of the module. */
function told(fault) {
  if (fault instanceof NoMemory || fault instanceof RangeError) return { kind: "memory" };
  if (fault instanceof Unreadable) return { kind: "unreadable", name: fault.message };
  return { kind: "trap", text: String(fault) };
}

onmessage = async ({ data }) => {
  try {
    const answered = { schema: schemaOf, cube: cubeOf, explain: explanationOf }[data.kind];
    postMessage(await answered(data));
  } catch (fault) {
    postMessage(told(fault));
  }
};
