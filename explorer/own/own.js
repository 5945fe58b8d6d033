"use strict";
// A file of one's own becomes a cube in this page: the schema is guessed, shown as choices, and the proved module counts in a
// worker. What the explorer has is used as it stands: `by`, `make`, `number`, `quoted`, `textNode`, `tell`, `open`, `cube`, `rowsSeen`.

{
const LOOKED_AT = 16 << 20; // as many bytes of a file the module's guess may look at
const SHOWN_BYTES = 1 << 18, EXAMPLES = 3, MOST_FILES = 64, MOST_DIMENSIONS = 8, MOST_MEASURES = 4;
const DATE = /^\d{4}-\d\d-\d\d/;
const TIMES = [["day", 10], ["month", 7], ["year", 4]];
// what a file is that is no text of one's own, by its first bytes
const KINDS = [
  [[0x1f, 0x8b], "is compressed (gzip). Unpack it first, and drop what comes out of it."],
  [[0x50, 0x4b, 3, 4], "is a zip archive, as spreadsheets are (xlsx, ods). Save the sheet as CSV, or unpack the archive, and drop that."],
  [[0xd0, 0xcf, 0x11, 0xe0], "is an old spreadsheet or document (xls, doc). Save the sheet as CSV, and drop that."],
  [[0x42, 0x5a, 0x68], "is compressed (bzip2). Unpack it first, and drop what comes out of it."],
  [[0xfd, 0x37, 0x7a, 0x58], "is compressed (xz). Unpack it first, and drop what comes out of it."],
  [[0x28, 0xb5, 0x2f, 0xfd], "is compressed (zstd). Unpack it first, and drop what comes out of it."],
  [[0x25, 0x50, 0x44, 0x46], "is a PDF. Its tables have to be saved as CSV by another program."],
  [[0x50, 0x41, 0x52, 0x31], "is a Parquet file. Save it as CSV by another program, and drop that."],
  [[0x53, 0x51, 0x4c, 0x69, 0x74, 0x65], "is an SQLite database. Save a table of it as CSV, and drop that."],
  [[0xff, 0xfe], "is UTF-16. Save it as UTF-8, and drop that."],
  [[0xfe, 0xff], "is UTF-16. Save it as UTF-8, and drop that."],
];

// and by its first letters
const SPELLINGS = [
  [/^\s*(?:\{\s*"|\[\s*[{["])/, "is JSON. Its records have to be saved as CSV by another program."],
  [/^\s*<(?:!doctype|\?xml|html|table)/i, "is a page or XML. Save its table as CSV, and drop that."],
];

/** What was dropped last: its files, the schema and how it came about. */
let own = null;
let worker = null;
let asked = 0; // counts what was asked of workers, so that an answer that nobody waits for is dropped
let taken = 0; // counts what was dropped or chosen, likewise
let ticking = null;

// The module.

const has64 = () => WebAssembly.validate(new Uint8Array([0, 97, 115, 109, 1, 0, 0, 0, 5, 3, 1, 4, 1]));
let module = null;
let workerSource = null;

/** The module's bytes: that with a memory of 64 bits where the browser has such. */
async function moduleBytes(name = has64() ? "64" : "32") {
  const packed = Uint8Array.from(atob(by(`own-module-${name}`).textContent), (it) => it.charCodeAt(0));
  return new Response(new Blob([packed]).stream().pipeThrough(new DecompressionStream("gzip"))).arrayBuffer();
}

/** Ends what a worker does, and whoever waits for it. */
function endWork() {
  asked++;
  worker?.terminate();
  worker = null;
}

/** Asks a new worker, and gives its answer, or null where nobody waits for it any more; `told` hears how far it is. */
async function ask(question, told = () => {}) {
  endWork();
  const mine = asked;
  try {
    module ??= await moduleBytes();
    workerSource ??= URL.createObjectURL(new Blob([by("own-worker").textContent], { type: "text/javascript" }));
  } catch {
    return { kind: "trap", text: "this browser can't unpack the module" };
  }
  if (mine !== asked) return null;
  const running = (worker = new Worker(workerSource));
  const answer = await new Promise((done) => {
    running.onmessage = ({ data }) => (data.kind === "reading" || data.kind === "counting" ? told(data) : done(data));
    running.onerror = (event) => done({ kind: "trap", text: event.message || "the worker didn't start" });
    running.postMessage({ module, ...question }, question.start ? [question.start] : []);
  });
  running.terminate();
  return mine === asked ? answer : null;
}

// Texts of TOML and CSV.

/** A value of TOML, as `schema` writes it on one line, and the place behind it. */
function tomlValue(text, at) {
  const item = /\s*(?:("(?:[^"\\]|\\.)*")|([A-Za-z0-9_+.-]+)|(.))/sy;
  item.lastIndex = at;
  const [, quotedText, bare, sign] = item.exec(text) ?? [];
  at = item.lastIndex;
  if (quotedText) return [JSON.parse(quotedText.replace(/\\U([0-9A-Fa-f]{8})/g, (_, it) => String.fromCodePoint(`0x${it}`))), at];
  if (sign !== "[" && sign !== "{") return [bare, at];
  const values = [], table = Object.create(null); // (a name may be that of a property of every object)
  for (;;) {
    let [value, next] = tomlValue(text, at);
    if (value === undefined) return [sign === "[" ? values : table, next];
    if (sign === "{") {
      const key = value;
      [value, next] = tomlValue(text, text.indexOf("=", next) + 1);
      table[key] = value;
    } else {
      values.push(value);
    }
    at = next;
    const comma = /\s*,/y;
    comma.lastIndex = at;
    if (comma.test(text)) at = comma.lastIndex;
  }
}

/** The keys and values of a schema that the module wrote; those of a table stand behind its name and a point. */
function readSchema(text) {
  const found = Object.assign(Object.create(null), { comments: [] });
  let table = "";
  for (const line of text.split("\n")) {
    if (line.startsWith("# ")) found.comments.push(line.slice(2));
    else if (line.startsWith("[")) table = line.slice(1, -1) + ".";
    else if (line) {
      const [key, at] = tomlValue(line, 0);
      found[table + key] = tomlValue(line, line.indexOf("=", at) + 1)[0];
    }
  }
  return found;
}

/** A schema without measures, of one that the module wrote. */
function withoutMeasures(text, measures) {
  const lines = text.replace(/\n\[decimals\]\n(?:[^\n]+\n)*/, "").split("\n").map((line) => {
    if (line.startsWith("measures = ")) return "measures = []";
    if (line.startsWith("aggregates = ")) return 'aggregates = ["count(*)"]';
    if (!line.startsWith("columns = ")) return line;
    const [columns] = tomlValue(line, "columns = ".length);
    const entry = ([name, it]) => `${JSON.stringify(name)} = ` + (typeof it === "string" ? JSON.stringify(it)
      : `{ column = ${JSON.stringify(it.column)}, first = ${it.first} }`);
    const kept = Object.entries(columns).filter(([name]) => !measures.includes(name));
    return kept.length ? `columns = { ${kept.map(entry).join(", ")} }` : null;
  });
  return lines.filter((it) => it !== null).join("\n");
}

/** A schema that the module wrote, with other texts for null. */
const withNulls = (text, nulls) => text.replace(/^null = .*$/m, () => `null = [${nulls.map((it) => JSON.stringify(it)).join(", ")}]`);

/** The first records of a text, as the program reads CSV: a quote counts at the beginning of a field alone. */
function recordsIn(text, delimiter, most) {
  const records = [], bare = new RegExp(`[^${delimiter.replace(/[\\\]^|]/g, "\\$&")}\\r\\n]*`, "y");
  let at = 0;
  while (records.length < most) {
    while (text[at] === "\n" || text[at] === "\r") at++;
    if (at >= text.length) return records;
    const record = [];
    do {
      let field = "";
      if (record.length) at++;
      while (text[at] === '"') {
        const to = text.indexOf('"', at + 1), end = to < 0 ? text.length : to;
        field += text.slice(at + 1, end);
        at = end + 1;
        if (text[at] === '"') field += '"';
      }
      bare.lastIndex = at;
      const [rest] = bare.exec(text) ?? [""];
      at += rest.length;
      record.push(field + rest);
    } while (text[at] === delimiter);
    records.push(record);
  }
  return records;
}

/** The sign of `,` `;` tab `|` that stands most often in the header outside quotes. */
function delimiterOf(text) {
  const [header] = text.replace(/"[^"]*"/g, "").split(/[\r\n]/);
  const count = (sign) => header.split(sign).length;
  return [",", ";", "\t", "|"].reduce((best, it) => (count(it) > count(best) ? it : best));
}

/** Some fields as a CSV record, as the options take it. */
const recordOf = (fields) => fields.map((it) => (it === "" ? '""' : quoted(it))).join(",");

/** A word as a shell takes it. */
const shellWord = (text) => (/^[A-Za-z0-9_.,:/-]+$/.test(text) ? text : `'${text.replaceAll("'", "'\\''")}'`);
const fileWord = (name) => shellWord(name.startsWith("-") ? `./${name}` : name);
const optionWord = (name, value) => (value.startsWith("-") ? `${name}=${shellWord(value)}` : `${name} ${shellWord(value)}`);

// Files.

/** What is wrong with a file by its first bytes, or nothing. */
function wrongWith(bytes, text, size) {
  if (size === 0) return "is empty.";
  const kind = KINDS.find(([magic]) => magic.every((it, at) => bytes[at] === it));
  if (kind) return kind[1];
  const zeros = bytes.reduce((sum, it) => sum + (it === 0), 0);
  const spelling = SPELLINGS.find(([start]) => start.test(text));
  if (spelling) return spelling[1];
  if (zeros > bytes.length / 8) return "is no text that this page can read: is it UTF-16, or of another program? Save it as CSV in UTF-8.";
  return "";
}

/** A file's first bytes and texts, and what it is: a schema, a printed cube, or a file of facts. */
async function lookAt(file) {
  const bytes = new Uint8Array(await file.slice(0, SHOWN_BYTES).arrayBuffer());
  const text = new TextDecoder().decode(bytes), wrong = wrongWith(bytes, text, file.size);
  if (wrong) throw new Refused(`${file.name} ${wrong}`);
  const [header] = recordsIn(text, ",", 1);
  const isCube = header?.includes(`grouping(${header[0]})`);
  return { file, text, isUtf8: isUtf8(bytes), kind: /\.toml$/i.test(file.name) ? "schema" : isCube ? "cube" : "facts" };
}

function isUtf8(bytes) {
  try {
    new TextDecoder("utf-8", { fatal: true }).decode(bytes, { stream: true });
    return true;
  } catch {
    return false;
  }
}

/** Takes what was dropped or chosen: facts with a schema or without, or a printed cube. */
async function take(files) {
  const mine = (taken += 1);
  tell("");
  try {
    if (files.length > MOST_FILES + 1) throw new Refused(`These are ${number(files.length)} files; ${MOST_FILES} can be read at once.`);
    const looked = [];
    for (const file of files) looked.push(await lookAt(file).catch((fault) => unreadable(file, fault)));
    if (mine !== taken) return;
    const of = (kind) => looked.filter((it) => it.kind === kind);
    const [schemas, cubes, facts] = ["schema", "cube", "facts"].map(of);
    if (cubes.length && looked.length > 1) throw new Refused("One of these files is a printed cube. Drop it alone.");
    if (cubes.length) return await showPrinted(cubes[0].file);
    if (schemas.length > 1) throw new Refused("These are several schemas. Drop one of them with its feeds.");
    if (!facts.length) throw new Refused("That is a schema alone. Drop the feeds with it, all at once.");
    if (facts.length > MOST_FILES) throw new Refused(`These are ${facts.length} feeds; ${MOST_FILES} can be read at once.`);
    await begin(facts, schemas[0]);
  } catch (fault) {
    if (!(fault instanceof Refused)) throw fault;
    tell(fault.message);
  }
}

function unreadable(file, fault) {
  if (fault instanceof Refused) throw fault;
  throw new Refused(`${file.name} couldn't be read: is it a folder, or was it moved or changed?`);
}

/** Shows a printed cube as the explorer does. */
async function showPrinted(file) {
  endCounting();
  own = null;
  by("own-bar").hidden = by("own").hidden = true;
  await openCube(file);
  by("start").hidden = cube !== null;
  by("explorer").hidden = cube === null;
}

/** Has the explorer open a printed cube, and says whether it did. Rows of the cube of before aren't drawn meanwhile: they would be
 * looked up in the new one when the parts around the table change its size. */
async function openCube(file) {
  const before = cube, { makeRow } = rowsSeen;
  rowsSeen.makeRow = null;
  await open(file);
  if (cube === before) rowsSeen.makeRow = makeRow;
  return cube !== before;
}

/** Begins with new files: by the schema that was dropped with them, or by one that is guessed. */
async function begin(facts, schema) {
  const [first] = facts;
  endCounting();
  own = { files: facts.map((it) => it.file), text: first.text.replace(/^\ufeff/, ""), notes: notesOn(facts, schema), schema: "", by: [], of: [],
    given: null, nulls: null, isCountOnly: false, isEdited: Boolean(schema), isGuess: true, shown: null, fault: "" };
  const name = nameOfAll();
  by("own-title").textContent = name;
  for (const it of document.querySelectorAll(".own-notes")) {
    it.textContent = own.notes.join(" ");
    it.hidden = !own.notes.length;
  }
  showColumns();
  if (schema) {
    own.given = { name: schema.file.name, bytes: new Uint8Array(await schema.file.arrayBuffer()) };
    takeSchema(new TextDecoder().decode(own.given.bytes));
    await count();
  } else if (await guess("", "")) {
    await count();
  }
}

function notesOn(facts, schema) {
  const notes = [], [{ file, text }] = facts, [line = "", next = ""] = text.split(/[\r\n]+/, 2);
  const header = recordsIn(line, delimiterOf(line), 1)[0] ?? [], behind = recordsIn(next, delimiterOf(next), 1)[0] ?? [];
  const odd = facts.filter((it) => !it.isUtf8).map((it) => it.file.name);
  if (odd.length) {
    notes.push(`${odd.join(" and ")}: not all of it is UTF-8, and columns and lines with other letters can't be used. Save the file `
      + "as UTF-8.");
  }
  if (!schema && header[0] === "op" && header[1] === "id") {
    notes.push(`${file.name} may be a feed of changes (op, id). Drop its schema (.toml) with it, and they are taken as such.`);
  }
  if ((header.length === 1 && behind.length > 1) || /^sep=/i.test(line)) {
    notes.push(`The first line of ${file.name} doesn't look like a header: “${line.slice(0, 60)}”. If it is a comment, take it out, `
      + "and drop the file again.");
  }
  return notes;
}

function nameOfAll() {
  const [first, ...others] = own.files, size = own.files.reduce((sum, it) => sum + it.size, 0);
  const more = others.length ? ` and ${number(others.length)} more file${others.length > 1 ? "s" : ""}` : "";
  return `${first.name}${more}, ${sizeText(size)}`;
}

const sizeText = (size) => (size < 1000 ? `${size} bytes` : size < 1e6 ? `${(size / 1e3).toFixed(1)} kB` : `${(size / 1e6).toFixed(1)} MB`);

// The guess and the choices.

/** Has the module make a schema of the file's beginning; says whether it did. */
async function guess(byText, ofText) {
  const [file] = own.files, mine = own;
  const start = await file.slice(0, LOOKED_AT).arrayBuffer().catch(() => null);
  const answer = start && await ask({ kind: "schema", start, isWhole: file.size <= LOOKED_AT, by: byText, of: ofText });
  if (mine !== own || (start && !answer)) return false;
  if (!answer || answer.kind !== "schema") {
    own.fault = answer?.kind === "fault" ? faultText(answer) : sentenceOf(answer ?? { kind: "unreadable", name: file.name });
    if (own.isGuess) readColumns(null);
    tell(own.fault);
    showChoices();
    return false;
  }
  own.fault = "";
  takeSchema(own.nulls ? withNulls(answer.text, own.nulls) : answer.text);
  readColumns(readSchema(own.schema));
  tell("");
  showChoices();
  return true;
}

function takeSchema(text) {
  own.schema = text;
  by("own-schema").value = text;
  showCommand();
}

/** The columns of the file, with examples, and what a schema has of each. */
function readColumns(schema) {
  const delimiter = schema?.["feed.delimiter"] ?? delimiterOf(own.text);
  const [header = [], ...records] = recordsIn(own.text, delimiter, 200);
  const nulls = schema?.["feed.null"] ?? [], point = schema?.["feed.point"] ?? ".";
  own.columns = header.map((name, at) => {
    const values = [...new Set(records.map((it) => it[at]).filter((it) => it !== undefined && !nulls.includes(it)))];
    const fault = header.indexOf(name) !== header.lastIndexOf(name) ? "its name stands in the header more than once"
      : name.includes("\ufffd") ? "its name isn't UTF-8" : "";
    return { name, at, examples: values.slice(0, EXAMPLES), isTime: values.length > 0 && values.every((it) => DATE.test(it)),
      decimals: decimalsIn(values, point), canBeUsed: !fault, why: fault || leftOut(schema, name) };
  });
  if (!schema) return;
  by("own-nulls").value = recordOf(nulls);
  const columns = schema["feed.columns"] ?? Object.create(null), from = (name) => columns[name]?.column ?? columns[name] ?? name;
  own.by = schema.dimensions.map((name) => ({ column: from(name), first: Number(columns[name]?.first ?? 0) }));
  const given = new Map(own.of.map((it) => [it.column, it.isGiven]));
  own.of = schema.measures.map((name) => ({ column: from(name), decimals: schema[`decimals.${name}`] ?? "", isGiven: given.get(from(name)) }));
}

/** How many decimals those of some texts have that are numbers. */
function decimalsIn(values, point) {
  const found = values.map((it) => /^[+-]?\d+(?:([.,])(\d*?)0*)?$/.exec(it)).filter((it) => it?.[1] === point);
  return Math.min(18, Math.max(0, ...found.map((it) => it[2].length)));
}

/** Why a schema leaves a column out, as its comments say. */
function leftOut(schema, name) {
  const start = `${name || '""'}: `, found = schema?.comments.find((it) => it.startsWith(start)) ?? "";
  const why = found.slice(start.length).split("; --")[0];
  return why === "--by doesn't name it" ? "" : why;
}

/** The texts of the two options for what is chosen. */
const byText = () => recordOf(own.by.map((it) => it.column + (it.first ? `:${it.first}` : "")));
const ofText = () => recordOf(own.of.map((it) => it.column + (it.isGiven ? `:${it.decimals}` : "")));

/** Takes a change of the choices: a new schema is made by them. */
async function choose(change) {
  endCounting();
  change();
  const place = (name) => own.columns.findIndex((it) => it.name === name);
  own.by.sort((one, other) => place(one.column) - place(other.column) || other.first - one.first);
  own.isGuess = own.isCountOnly = false;
  own.fault = faultOfChoices();
  if (own.fault) {
    tell(own.fault);
    showChoices();
    return;
  }
  const wanted = own.of, made = await guess(byText(), ofText());
  own.isCountOnly = made && !wanted.length && own.of.length > 0;
  if (own.isCountOnly) {
    takeSchema(withoutMeasures(own.schema, readSchema(own.schema).measures));
    own.of = [];
    showChoices();
  }
}

function faultOfChoices() {
  if (!own.by.length) return "The cube needs a dimension: choose a column to group by.";
  if (own.by.length > MOST_DIMENSIONS) return `These are ${own.by.length} dimensions; a cube has ${MOST_DIMENSIONS} at most.`;
  if (own.of.length > MOST_MEASURES) return `These are ${own.of.length} measures; a cube has ${MOST_MEASURES} at most.`;
  return "";
}

/** What a column is: `none`, `dimension` or `measure`. */
const useOf = ({ name }) => (own.by.some((it) => it.column === name) ? "dimension"
  : own.of.some((it) => it.column === name) ? "measure" : "none");

function setUse(column, use) {
  own.by = own.by.filter((it) => it.column !== column.name);
  own.of = own.of.filter((it) => it.column !== column.name);
  if (use === "dimension") own.by.push({ column: column.name, first: column.isTime ? 7 : 0 });
  // (the module finds the decimals of a column of numbers alone)
  if (use === "measure") own.of.push({ column: column.name, decimals: column.decimals, isGiven: column.decimals > 0 });
}

/** Shows the choices, a line for each column; what has the focus keeps it. */
function showChoices() {
  const focus = document.activeElement?.dataset?.own;
  by("own-choices").hidden = own.isEdited;
  by("own-guess").hidden = own.isGuess;
  by("own-count").disabled = Boolean(own.fault);
  by("own-rows").replaceChildren(...(own.isEdited ? [] : own.columns.map(columnRow)));
  if (focus) by("own-rows").querySelector(`[data-own="${focus}"]`)?.focus();
  showCommand();
}

function columnRow(column) {
  const use = useOf(column);
  const name = column.name === "" ? make("span", { class: "pill" }, "no name") : textNode(column.name);
  const options = [["none", "left out"], ["dimension", "a dimension"], ["measure", "a measure"]];
  const label = `What ${column.name || "the column without a name"} is`;
  const select = make("select", { "data-own": `use ${column.at}`, "aria-label": label, disabled: !column.canBeUsed },
    ...options.map(([value, text]) => make("option", { value, selected: value === use }, text)));
  select.addEventListener("change", () => choose(() => setUse(column, select.value)));
  const examples = column.examples.flatMap((it, at) => (at ? [" · ", textNode(it.slice(0, 40))] : [textNode(it.slice(0, 40))]));
  return make("tr", {}, make("th", { scope: "row" }, name), make("td", { class: "values" }, ...examples), make("td", {}, select),
    make("td", {}, ...howOf(column, use)));
}

/** How a column is taken: of a time which parts, of a text how many characters, of a measure how many decimals. */
function howOf(column, use) {
  if (use === "none") return [column.why];
  if (use === "measure") {
    const it = own.of.find((one) => one.column === column.name);
    return [numberBox(`decimals ${column.at}`, "decimals", `Decimals of ${column.name}`, it.decimals || "0", 0, 18, (value) => {
      it.decimals = value;
      it.isGiven = value !== "";
    })];
  }
  if (!column.isTime) {
    const it = own.by.find((one) => one.column === column.name);
    const label = `First characters of ${column.name}; all where it is empty`;
    return [numberBox(`first ${column.at}`, "first characters", label, it.first || "", 1, 255, (value) => {
      it.first = Number(value);
    })];
  }
  return [make("span", { class: "choices", role: "group", "aria-label": `Parts of ${column.name}` },
    ...[...TIMES, ["whole", 0]].map(([name, first]) => timeButton(column, name, first)))];
}

function timeButton(column, name, first) {
  const is = (it) => it.column === column.name && it.first === first, pressed = own.by.some(is);
  const button = make("button", { type: "button", "data-own": `time ${column.at} ${first}`, "aria-pressed": String(pressed) }, name);
  button.addEventListener("click", () => choose(() => {
    own.by = pressed ? own.by.filter((it) => !is(it)) : [...own.by, { column: column.name, first }];
  }));
  return button;
}

function numberBox(key, label, name, value, min, max, set) {
  const input = make("input", { type: "number", "data-own": key, min, max, value, "aria-label": name });
  input.addEventListener("change", () => {
    if (input.reportValidity()) choose(() => set(input.value));
  });
  return make("label", {}, input, label);
}

// Counting.

/** Counts the cube of the files by the schema, and shows it. */
async function count() {
  const mine = own, start = performance.now(), { schema, files, given } = own, command = commandOf();
  tell("");
  showWork(true);
  tick(start);
  const answer = await ask({ kind: "cube", schema: given?.bytes ?? schema, files, delimiter: delimiterByte() }, showProgress);
  if (!answer || mine !== own) return;
  stopTicking();
  showWork(false);
  if (answer.kind !== "cube") {
    tell(answer.kind === "fault" ? faultText(answer) : sentenceOf(answer));
    by("own-count").focus();
    return;
  }
  await showCube({ ...answer, schema, command, took: performance.now() - start });
}

const delimiterByte = () => (/^\s*delimiter\s*=\s*["'](\\t|[^"'])["']/m.exec(own.schema)?.[1].replace("\\t", "\t") ?? ",").charCodeAt(0);

function showWork(isOn) {
  by("own-work").hidden = !isOn;
  by("own-count").hidden = isOn;
  if (!isOn) return;
  by("own-progress").value = 0;
  by("own-progress-text").textContent = "Reading";
  say(`Counting ${own.files[0].name}.`);
  if (!by("own").contains(document.activeElement) || document.activeElement === by("own-count")) by("own-stop").focus();
}

/** Shows how far the worker is: bytes read, and then that it counts, with the time so far. */
function showProgress(told) {
  if (told.kind === "counting") {
    by("own-progress").removeAttribute("value");
    own.isCounting = true;
    return;
  }
  own.isCounting = false;
  by("own-progress").value = told.total ? told.done / told.total : 1;
  by("own-progress-text").textContent = `Reading: ${sizeText(told.done)} of ${sizeText(told.total)}`;
}

function tick(start) {
  stopTicking();
  own.isCounting = false;
  ticking = setInterval(() => {
    if (own?.isCounting) by("own-progress-text").textContent = `Counting and sorting: ${((performance.now() - start) / 1000).toFixed(0)} s`;
  }, 200);
}

function stopTicking() {
  clearInterval(ticking);
  ticking = null;
}

/** Ends the counting, where there is one. */
function endCounting() {
  endWork();
  stopTicking();
  showWork(false);
}

function stop() {
  endCounting();
  tell("Counting was stopped.");
  by("own-count").focus();
}

/** Shows the cube that was counted, and above it what it was made of, which stays though other columns are chosen. */
async function showCube(counted) {
  const mine = own;
  if (by("own").contains(document.activeElement)) document.activeElement.blur(); // then the explorer gives it to its table
  const isOpen = await openCube(new File([counted.cube], cubeName(), { type: "text/csv" }));
  if (mine !== own) return;
  if (!isOpen) {
    by("own-count").focus();
    return;
  }
  own.shown = counted;
  by("own").hidden = true;
  by("explorer").hidden = by("own-bar").hidden = false;
  by("own-made").textContent = `Counted from ${nameOfAll()}, in ${(counted.took / 1000).toFixed(1)} s, on this computer alone.`;
  by("own-bar").querySelector(".own-command").textContent = counted.command;
  showRefused(counted);
  say(`The cube of ${own.files[0].name} is shown.${counted.count ? ` ${by("own-refused-count").textContent}` : ""}`);
}

const cubeName = () => `${stem(own.files[0].name)} cube.csv`;
const stem = (name) => name.replace(/\.[A-Za-z]{1,4}$/, "");

function showRefused(counted) {
  const { count, refused, schema } = counted;
  by("own-refused").hidden = !count;
  by("own-refused").open = false;
  if (!count) return;
  by("own-refused-count").textContent = `${number(count)} line${count > 1 ? "s were" : " was"} refused`
    + (count > refused.length ? `, the first ${refused.length} of which are` : "") + (count > refused.length ? " here." : ".");
  const isSecond = /^\s*version\s*=\s*2/m.test(schema), explained = explanations(counted.explained);
  const cause = causes(counted);
  by("own-refused-rows").replaceChildren(...refused.map((it) => make("tr", {},
    make("td", {}, own.files[it.source - 1].name), make("td", {}, it.line ? number(it.line) : "—"), make("td", {}, number(it.record)),
    make("td", {}, it.code), make("td", {}, meaning(explained, String(it.code), isSecond), ...cause(it)),
    make("td", { class: "text" }, textNode(it.text ?? "")))));
}

/** What finds, of a refused line, the columns that are at fault, or how many fields it has, as nodes; nothing where it can't be told. */
function causes({ schema, headers, delimiter }) {
  const sign = String.fromCharCode(delimiter), fields = (text) => recordsIn(text, sign, 1)[0] ?? [];
  const wholes = headers.map(fields), measures = measuresOf(schema);
  return ({ source, code, text, isCut }) => {
    const header = wholes[source - 1], record = fields(text ?? "");
    if (!text || isCut) return [];
    if (code === 2) return [` It has ${record.length}, and the header ${header.length}.`];
    if (code !== 5) return [];
    return measures.flatMap(({ column, isNumber }) => {
      const field = record[header.indexOf(column)];
      return field === undefined || isNumber(field) ? [] : [" ", textNode(column), " is “", textNode(field.slice(0, 40)), "”."];
    });
  };
}

/** The measures of a schema: each one's column, and whether a field is a number of it, or null. None where the schema is laid out
 * in another way than this page reads. */
function measuresOf(text) {
  try {
    const schema = readSchema(text), columns = schema["feed.columns"] ?? Object.create(null), point = schema["feed.point"] ?? ".";
    const nulls = schema["feed.null"] ?? ["\\N"];
    return schema.measures.map((name) => {
      const decimals = schema[`decimals.${name}`], behind = decimals === undefined ? "" : `(?:\\${point}(?=\\d)\\d{0,${decimals}}0*)?`;
      const spelled = new RegExp(`^[+-]?\\d+${behind}$`);
      return { column: columns[name] ?? name, isNumber: (field) => nulls.includes(field) || spelled.test(field) };
    });
  } catch {
    return [];
  }
}

// Sentences.

/** What the module says of each code: its meaning and how to mend it. Some codes differ by the version of the feed. */
function explanations(text) {
  const found = new Map();
  for (const block of text.split(/\n(?=\S)/)) {
    const [, word, kind] = /^([A-Z]?\d+|[a-z ]+): (.*)/.exec(block.trim()) ?? [];
    const part = (name) => new RegExp(`^  ${name}: (.*)$`, "m").exec(block)?.[1] ?? "";
    const version = /feed version (\d)/.exec(kind)?.[1] ?? "";
    if (word) found.set(word + (version && `/${version}`), { means: part("means"), mend: part("mend") });
  }
  return found;
}

/** The meaning of a code of refused lines. */
function meaning(explained, code, isSecond) {
  const { means = "" } = explained.get(code) ?? explained.get(`${code}/${isSecond ? 2 : 1}`) ?? {};
  return means.replace(/^The line fault /, "");
}

/** A fault of the module as a sentence: what the program would say, and what that means. */
function faultText({ text, explained }) {
  if (text === "no columns: no column is a dimension; --by takes one") return "No column was taken for a dimension: choose one to group by.";
  if (text.startsWith("no columns: ")) return `No schema was made: ${text.slice("no columns: ".length)}.`;
  if (!text || text === "G4" || text === "S1") return sentenceOf({ kind: "memory" });
  const [word, source, code] = text.split(" "), file = word === "G3" ? own.files[source - 1]?.name : own.given?.name ?? "The schema";
  const known = explanations(explained), { means, mend } = known.get(text) ?? known.get(code ?? word) ?? {};
  if (code === "F5") return `${file} ends within a text in quotes that is never closed (${text}).`;
  return means ? `${file}: ${means} ${mend} (${text})` : `${file} wasn't taken (${text}); \`datacube explain ${text}\` says why.`;
}

function sentenceOf({ kind, name, text }) {
  if (kind === "memory") return "There isn't enough memory in this browser for this cube. Choose fewer dimensions, or use the program.";
  if (kind === "unreadable") return `${name} couldn't be read: was it moved or changed?`;
  return `The module stopped (${text}). The cube wasn't made; the program may do it.`;
}

function say(sentence) {
  by("own-said").textContent = sentence;
}

/** The command that does the same. */
function commandOf() {
  const files = own.files.map((it) => fileWord(it.name)).join(" ");
  if (own.isEdited || own.isCountOnly || own.nulls) return `datacube print ${fileWord(own.given?.name ?? schemaName())} ${files}`;
  if (own.isGuess) return `datacube table ${files}`;
  return `datacube table ${files} ${optionWord("--by", byText())}${own.of.length ? ` ${optionWord("--of", ofText())}` : ""}`;
}

const schemaName = () => `${stem(own.files[0].name)}.toml`;

function showCommand() {
  by("own").querySelector(".own-command").textContent = commandOf();
}

// What the page listens to.

/** Shows the files' columns, or the schema alone, instead of the cube. */
function showColumns() {
  by("start").hidden = by("explorer").hidden = by("own-bar").hidden = true;
  by("own").hidden = false;
  by("own-back").hidden = !own.shown;
  by("own-text").open = own.isEdited;
  if (own.columns || own.isEdited) showChoices();
  by("own-title").focus();
}

function backToCube() {
  tell("");
  by("own").hidden = true;
  by("explorer").hidden = by("own-bar").hidden = false;
  by("own-change").focus();
}

function save(content, name, type) {
  const link = make("a", { href: URL.createObjectURL(new Blob([content], { type })), download: name });
  link.click();
  setTimeout(() => URL.revokeObjectURL(link.href), 60_000);
}

/** Copies a command; a page that is a file has no clipboard in some browsers, so the text is then chosen for the person's own copying. */
async function copy(button) {
  const code = button.parentElement.querySelector("code");
  try {
    await navigator.clipboard.writeText(code.textContent);
    say("The command was copied.");
  } catch {
    getSelection().selectAllChildren(code);
    say("The command is selected: copy it by the keys of your system.");
  }
}

function takeDropped(data) {
  const items = [...data.items].filter((it) => it.kind === "file");
  const folder = items.find((it) => it.webkitGetAsEntry?.()?.isDirectory);
  if (!items.length) tell("What was dropped is no file.");
  else if (folder) tell("That is a folder. Drop the files in it that you want to count.");
  else take(items.map((it) => it.getAsFile()));
}

function edited() {
  endCounting();
  own.isEdited = true;
  own.isGuess = false;
  own.given = null;
  own.fault = "";
  own.schema = by("own-schema").value;
  showChoices();
}

async function guessAgain() {
  endCounting();
  Object.assign(own, { isEdited: false, isGuess: true, isCountOnly: false, given: null, nulls: null, by: [], of: [] });
  await guess("", "");
}

/** A fault of the page itself is a sentence too. */
function tellFault(fault) {
  if (fault) tell(`This page met a fault of its own (${fault}). Load it anew; your files are as they were.`);
}

function listenToOwn() {
  window.addEventListener("error", (event) => tellFault(event.error));
  window.addEventListener("unhandledrejection", (event) => tellFault(event.reason));
  window.addEventListener("drop", (event) => {
    event.preventDefault();
    event.stopPropagation();
    document.body.classList.remove("over");
    takeDropped(event.dataTransfer);
  }, true);
  window.addEventListener("change", (event) => {
    if (event.target !== by("chosen")) return;
    event.stopPropagation();
    const files = [...by("chosen").files];
    by("chosen").value = "";
    if (files.length) take(files);
  }, true);
  const clicks = { "own-stop": stop, "own-count": count, "own-back": backToCube, "own-guess": guessAgain, "own-change": showColumns,
    "own-other": () => by("chosen").click(), "own-save-cube": () => save(own.shown.cube, cubeName(), "text/csv"),
    "own-save-schema": () => save(own.shown.schema, schemaName(), "text/plain"),
    "own-save-refusals": () => save(own.shown.refusals, `${stem(own.files[0].name)} refusals.csv`, "text/csv") };
  for (const [id, what] of Object.entries(clicks)) by(id).addEventListener("click", what);
  for (const it of document.querySelectorAll(".own-copy")) it.addEventListener("click", () => copy(it));
  by("own-schema").addEventListener("input", edited);
  by("own-nulls").addEventListener("change", () => choose(() => {
    own.nulls = recordsIn(by("own-nulls").value, ",", 1)[0] ?? [];
  }));
}

/** Puts the parts where they belong, and has the start page say what it takes. */
function putInPlace() {
  by("explorer").before(by("own"), by("own-bar"));
  Object.assign(by("chosen"), { multiple: true, accept: ".csv,.tsv,.txt,.toml,text/csv,text/plain,text/tab-separated-values" });
  by("chosen").setAttribute("aria-label", "Files to count, or a printed cube");
  by("pick").textContent = "Open files…";
  by("pick-too").textContent = "Choose files…";
  by("start").setAttribute("aria-label", "Open a file");
  by("start").replaceChildren(by("drop"), by("waiting"), by("own-help"));
  by("drop").querySelector(".large").textContent = "Drop a CSV file here, and see its cube";
  by("own-help").hidden = false;
}

putInPlace();
listenToOwn();
// for whoever drives the page from outside: one question, asked as the page asks
globalThis.ownData = { ask, shown: () => own?.shown, useModule: async (name) => { module = await moduleBytes(name); },
  anew: () => { module = workerSource = null; } };
}
