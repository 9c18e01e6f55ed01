"use strict";

const data = JSON.parse(document.getElementById("data").textContent);
const WORDS = ["allowed", "explicitDeny", "implicitDeny", "absent"];
const SIGNS = ["✓", "✕", "·", " "];
const MEANINGS = [
  "Everything that had to allow this does, and nothing denies it.",
  "A statement denies this. A deny wins over every allow.",
  "Nothing denies this, but something that had to allow it does not.",
  "This side has no such principal, action or resource.",
];
const CHANGES = ["", "gained", "lost"];
const AXES = ["principal", "action", "resource"];
// Rows, columns and the axis of which one is chosen.
const VIEWS = [[0, 1, 2], [0, 2, 1], [1, 2, 0]];
const LIST = VIEWS.length;
const LAYERS = {
  org: "organisation policy",
  control: "resource control policy",
  resource: "the resource's policy",
  identity: "identity policy",
  boundary: "permissions boundary",
  session: "session policy",
  bucket: "the bucket's policy",
  "bucket-control": "resource control policy on the bucket",
};
const LACKS = {
  org: "A level of the organisation above the principal's account has no statement that allows this.",
  control: "A level of the resource control policies of the resource has no statement that allows this.",
  resource: "The resource's own policy does not grant this to the principal, and it has to: the accounts differ, or the resource is sealed.",
  identity: "No identity policy of the principal allows this.",
  boundary: "The principal's permissions boundary does not allow this.",
  session: "No session policy of the session allows this.",
};
const lacksWords = (lack) => LACKS[lack] || `On the bucket, by which the request goes: ${LACKS[lack.replace("bucket-", "")]}`;

const lengths = data.axes.map((axis) => axis.length);
const strides = [lengths[1] * lengths[2], lengths[2], 1];
const answerOf = unpacked(data.cells, data.width);
const beforeOf = data.before && unpacked(data.before.cells, data.width);
const decisionOf = Uint8Array.from(data.answers, (answer) => answer[0]);
const CELL = 34, ROW = 28, LINE = 26;

const state = {
  view: 0, fixed: [0, 0, 0], rowText: "", columnText: "", shown: [true, true, true], onlyChanges: false,
  rows: [], columns: [], rowCounts: [], columnCounts: [], row: 0, column: 0,
  found: [], line: 0, order: 0, isFalling: false, lineRoom: [],
};

const at = (id) => document.getElementById(id);

function make(tag, className, text) {
  const element = document.createElement(tag);
  if (className) element.className = className;
  if (text !== undefined) element.textContent = text;
  return element;
}

function unpacked(base, width) {
  const bytes = Uint8Array.from(atob(base), (it) => it.charCodeAt(0));
  if (width === 1) return bytes;
  return width === 2 ? new Uint16Array(bytes.buffer) : new Uint32Array(bytes.buffer);
}

const number = (n) => n.toLocaleString("en-US");

// A short form of a text: what tells an ARN from its neighbours first. Who is outside stays so.
function short(axis, text) {
  const parts = text.split(":");
  const outside = /^outside: (.*)$/s.exec(text);
  if (axis === 0 && outside) return [`outside: ${short(0, outside[1])[0]}`, short(0, outside[1])[1]];
  if (axis === 1 || parts.length < 6) return [text, ""];
  const rest = parts.slice(5).join(":");
  if (axis === 0) return [rest.replace(/^assumed-role\//, ""), parts[4]];
  return [rest, parts[4] ? `${parts[2]} ${parts[4]}` : parts[2]];
}

// Account and service are shown on an axis where they differ.
const isMixed = data.axes.map((texts, axis) => new Set(texts.map((text) => short(axis, text)[1])).size > 1);

function axes() {
  return VIEWS[Math.min(state.view, LIST - 1)];
}

// 1 where a cell became allowed, 2 where it is so no longer, as it is or with a key alone.
function changeOf(n) {
  if (!beforeOf) return 0;
  const was = decisionOf[beforeOf[n]] === 0, is = decisionOf[answerOf[n]] === 0;
  if (was !== is) return is ? 1 : 2;
  return data.keyed[n] ? CHANGES.indexOf(data.keyed[n][0]) : 0;
}

// How a cell changed, in words, with the key that it wants for that.
function changeWords(n) {
  const change = changeOf(n), was = beforeOf && decisionOf[beforeOf[n]] === 0, is = decisionOf[answerOf[n]] === 0;
  return CHANGES[change] + (change && was === is ? `, if ${data.keyed[n][1].replaceAll("`", "")}` : "");
}

function isShown(n) {
  return state.shown[Math.min(decisionOf[answerOf[n]], 2)] && (!state.onlyChanges || changeOf(n) > 0);
}

// The number of the cell at a place of the grid.
function cellAt(row, column) {
  const [rows, columns, fixed] = axes();
  return row * strides[rows] + column * strides[columns] + state.fixed[fixed] * strides[fixed];
}

function matching(axis, text) {
  const wanted = text.toLowerCase(), found = [];
  data.axes[axis].forEach((it, n) => { if (it.toLowerCase().includes(wanted)) found.push(n); });
  return found;
}

// Keeps the rows and columns that have a shown cell, with their counts.
function filter() {
  const [rowAxis, columnAxis] = axes();
  const rows = matching(rowAxis, state.rowText), columns = matching(columnAxis, state.columnText);
  const rowCounts = rows.map(() => [0, 0, 0]), columnCounts = columns.map(() => [0, 0, 0]);
  const hasRow = rows.map(() => false), hasColumn = columns.map(() => false);
  rows.forEach((row, r) => columns.forEach((column, c) => {
    const n = cellAt(row, column), decision = decisionOf[answerOf[n]];
    if (decision < 3) {
      rowCounts[r][decision] += 1;
      columnCounts[c][decision] += 1;
    }
    if (isShown(n)) hasRow[r] = hasColumn[c] = true;
  }));
  const keptRows = rows.map((_, r) => r).filter((r) => hasRow[r]);
  const keptColumns = columns.map((_, c) => c).filter((c) => hasColumn[c]);
  state.rows = keptRows.map((r) => rows[r]);
  state.rowCounts = keptRows.map((r) => rowCounts[r]);
  state.columns = keptColumns.map((c) => columns[c]);
  state.columnCounts = keptColumns.map((c) => columnCounts[c]);
  state.row = Math.max(0, Math.min(state.row, state.rows.length - 1));
  state.column = Math.max(0, Math.min(state.column, state.columns.length - 1));
}

// Where the chosen one has no shown cell, the first that has one is chosen.
function seek() {
  const [rowAxis, columnAxis, fixed] = axes();
  const rows = matching(rowAxis, state.rowText), columns = matching(columnAxis, state.columnText);
  const passes = (it) => {
    const from = it * strides[fixed];
    return rows.some((row) => columns.some((column) => isShown(from + row * strides[rowAxis] + column * strides[columnAxis])));
  };
  if (passes(state.fixed[fixed])) return;
  for (let it = 0; it < lengths[fixed]; it += 1) {
    if (passes(it)) {
      state.fixed[fixed] = it;
      at("fixed").value = it;
      return;
    }
  }
}

function counts(of) {
  const element = make("span", "counts");
  of.forEach((n, decision) => {
    const one = make("b", `c${decision}`, n < 100000 ? String(n) : `${Math.floor(n / 1000)}k`);
    one.title = `${WORDS[decision]}: ${number(n)}`;
    element.append(one);
  });
  return element;
}

const ruler = document.createElement("canvas").getContext("2d");

function widthOf(text) {
  return ruler.measureText(text).width;
}

// A text that fits, its middle left out where it is too long: neighbours mostly differ at their ends.
function fitted(text, room) {
  if (widthOf(text) <= room) return text;
  let kept = text.length - 1;
  const cut = () => `${text.slice(0, Math.ceil(kept * 0.4))}…${text.slice(text.length - Math.floor(kept * 0.6))}`;
  while (kept > 4 && widthOf(cut()) > room) kept -= 1;
  return cut();
}

function labelOf(axis, n) {
  const [first, second] = short(axis, data.axes[axis][n]);
  return second && isMixed[axis] ? [first, second] : [first, ""];
}

// The room that headings have: what the longest of them needs, and at most a part of the grid.
function layOut() {
  const [rowAxis, columnAxis] = axes(), grid = at("grid");
  const style = getComputedStyle(document.body);
  ruler.font = `600 ${style.fontSize} ${style.fontFamily}`;
  const longest = (axis, some) => some.slice(0, 2000).reduce((most, n) => Math.max(most, widthOf(labelOf(axis, n).join(" "))), 60);
  const digits = (of) => of.slice(0, 2000).reduce((most, it) => Math.max(most, widthOf(it.join(" "))), 20);
  const counted = digits(state.rowCounts) + 34;
  const head = Math.min(longest(rowAxis, state.rows) + counted + 40, Math.max(170, grid.clientWidth * 0.6));
  const title = Math.min(longest(columnAxis, state.columns) + 66, Math.max(120, grid.clientHeight * 0.45));
  state.rowRoom = head - counted - 34;
  state.columnRoom = title - 62;
  document.documentElement.style.setProperty("--head", `${Math.round(head)}px`);
  document.documentElement.style.setProperty("--title", `${Math.round(title)}px`);
}

// A short text in so much room; the account stands behind it where the name keeps enough of that.
function named(className, axis, n, room) {
  const name = make("span", className), [first, second] = labelOf(axis, n);
  const rest = second ? widthOf(second) + 8 : 0, isWide = room - rest >= Math.min(widthOf(first), 130);
  name.append(fitted(first, Math.max(40, isWide ? room - rest : room)));
  if (second && isWide) name.append(" ", make("small", "", second));
  name.title = data.axes[axis][n];
  return name;
}

function heading(className, axis, n, of, room) {
  const element = make("div", className);
  element.append(named("name", axis, n, room), counts(of));
  return element;
}

function cell(r, c) {
  const n = cellAt(state.rows[r], state.columns[c]), decision = decisionOf[answerOf[n]], change = changeOf(n);
  const passes = isShown(n);
  const sign = change ? (change === 1 ? "+" : "−") : SIGNS[decision];
  const element = make("div", `cell ${passes ? `d${decision}` : "hidden-cell"}`, passes ? sign : "");
  if (change && passes) element.classList.add(CHANGES[change]);
  element.style.left = `${c * CELL + 1}px`;
  element.style.top = `${r * ROW + 1}px`;
  element.id = `cell-${n}`;
  element.dataset.cell = n;
  element.setAttribute("role", "gridcell");
  const changed = change ? `${changeWords(n)}, ` : "";
  element.setAttribute("aria-label", `${textsOf(n).join(", ")}: ${changed}${WORDS[decision]}`);
  element.onclick = () => choose(r, c);
  if (r === state.row && c === state.column) element.classList.add("chosen");
  return element;
}

// Only what is in sight is drawn.
function draw() {
  const pane = at("pane"), [rowAxis, columnAxis] = axes();
  const firstRow = Math.max(0, Math.floor(pane.scrollTop / ROW) - 2);
  const lastRow = Math.min(state.rows.length, Math.ceil((pane.scrollTop + pane.clientHeight) / ROW) + 2);
  const firstColumn = Math.max(0, Math.floor(pane.scrollLeft / CELL) - 2);
  const lastColumn = Math.min(state.columns.length, Math.ceil((pane.scrollLeft + pane.clientWidth) / CELL) + 2);
  const rows = document.createDocumentFragment(), columns = document.createDocumentFragment();
  const cells = document.createDocumentFragment();
  for (let r = firstRow; r < lastRow; r += 1) {
    const title = heading(r === state.row ? "row chosen" : "row", rowAxis, state.rows[r], state.rowCounts[r], state.rowRoom);
    title.style.top = `${r * ROW}px`;
    rows.append(title);
    for (let c = firstColumn; c < lastColumn; c += 1) cells.append(cell(r, c));
  }
  for (let c = firstColumn; c < lastColumn; c += 1) {
    const title = heading(c === state.column ? "column chosen" : "column", columnAxis, state.columns[c], state.columnCounts[c], state.columnRoom);
    title.style.left = `${c * CELL}px`;
    columns.append(title);
  }
  at("rows").replaceChildren(rows);
  at("columns").replaceChildren(columns);
  at("cells").replaceChildren(cells);
  at("rows").style.transform = `translateY(${-pane.scrollTop}px)`;
  at("columns").style.transform = `translateX(${-pane.scrollLeft}px)`;
}

function bring(r, c) {
  const pane = at("pane");
  pane.scrollTop = Math.max((r + 1) * ROW - pane.clientHeight, Math.min(pane.scrollTop, r * ROW));
  pane.scrollLeft = Math.max((c + 1) * CELL - pane.clientWidth, Math.min(pane.scrollLeft, c * CELL));
}

function choose(r, c) {
  if (state.rows.length === 0 || state.columns.length === 0) return;
  state.row = Math.max(0, Math.min(r, state.rows.length - 1));
  state.column = Math.max(0, Math.min(c, state.columns.length - 1));
  bring(state.row, state.column);
  draw();
  const n = cellAt(state.rows[state.row], state.columns[state.column]);
  at("pane").setAttribute("aria-activedescendant", `cell-${n}`);
  detail(n);
}

function update() {
  const isList = state.view === LIST;
  at("grid").hidden = isList;
  at("list").hidden = at("copy").hidden = !isList;
  ["for", "columns-with"].forEach((id) => { at(id).hidden = isList; });
  document.querySelector(".step").hidden = isList;
  if (isList) updateList();
  else updateGrid();
}

function updateGrid() {
  seek();
  filter();
  layOut();
  const pane = at("pane"), sheet = at("cells");
  sheet.style.width = `${state.columns.length * CELL}px`;
  sheet.style.height = `${state.rows.length * ROW}px`;
  pane.setAttribute("aria-rowcount", state.rows.length);
  pane.setAttribute("aria-colcount", state.columns.length);
  corner();
  at("nothing").hidden = state.rows.length > 0 && state.columns.length > 0;
  draw();
  if (state.rows.length && state.columns.length) choose(...placeOfShown());
  else at("detail").replaceChildren();
}

// The chosen place, or where its cell passes no filter the first one whose cell does.
function placeOfShown() {
  const passes = (r, c) => isShown(cellAt(state.rows[r], state.columns[c]));
  if (passes(state.row, state.column)) return [state.row, state.column];
  for (let r = 0; r < state.rows.length; r += 1) {
    const c = state.columns.findIndex((_, place) => passes(r, place));
    if (c >= 0) return [r, c];
  }
  return [state.row, state.column];
}

function corner() {
  const [rowAxis, columnAxis] = axes();
  const named = (axis, n) => `${number(n)} ${AXES[axis]}${n === 1 ? "" : "s"}`;
  const legend = make("span", "counts");
  SIGNS.slice(0, 3).forEach((sign, decision) => legend.append(make("b", `c${decision}`, sign)));
  at("corner").replaceChildren(make("span", "", `${named(rowAxis, state.rows.length)} × ${named(columnAxis, state.columns.length)}`), legend);
}

// --- the list of requests ---

// The cells that pass the filters, in the chosen order.
function findLines() {
  const wanted = state.rowText.toLowerCase();
  const holds = data.axes.map((texts) => texts.map((text) => text.toLowerCase().includes(wanted)));
  const found = [];
  for (let n = 0; n < answerOf.length; n += 1) {
    if (isShown(n) && (wanted === "" || numbersOf(n).some((it, axis) => holds[axis][it]))) found.push(n);
  }
  const ranks = data.axes.map((texts) => {
    const sorted = texts.map((_, n) => n).sort((a, b) => (texts[a] < texts[b] ? -1 : texts[a] > texts[b] ? 1 : a - b));
    const rank = [];
    sorted.forEach((n, place) => { rank[n] = place; });
    return rank;
  });
  const key = (n) => (state.order < 3 ? ranks[state.order][numbersOf(n)[state.order]] : decisionOf[answerOf[n]]);
  const sign = state.isFalling ? -1 : 1;
  state.found = found.map((n) => [key(n), n]).sort((a, b) => sign * (a[0] - b[0]) || a[1] - b[1]).map((it) => it[1]);
  state.line = Math.max(0, Math.min(state.line, state.found.length - 1));
}

function titles() {
  const made = [...AXES, "decision"].map((name, order) => {
    const button = make("button", "", `${name}${state.order === order ? (state.isFalling ? " ▼" : " ▲") : ""}`);
    button.type = "button";
    button.onclick = () => {
      state.isFalling = state.order === order && !state.isFalling;
      state.order = order;
      updateList();
    };
    return button;
  });
  at("titles").replaceChildren(...made);
}

function lineOf(place) {
  const n = state.found[place], decision = decisionOf[answerOf[n]], change = changeOf(n);
  const element = make("div", place === state.line ? "line chosen" : "line");
  element.style.top = `${place * LINE}px`;
  element.dataset.cell = n;
  element.setAttribute("role", "row");
  numbersOf(n).forEach((it, axis) => element.append(named("", axis, it, state.lineRoom[axis])));
  const last = make("span"), word = `${change ? `${changeWords(n)}, ` : ""}${WORDS[decision]}`;
  last.title = word;
  last.append(make("span", `mark d${decision}`, SIGNS[decision]), make("span", "word", word));
  element.append(last);
  element.onclick = () => chooseLine(place);
  return element;
}

function drawLines() {
  const lines = at("lines"), style = getComputedStyle(document.body);
  ruler.font = `${style.fontSize} ${style.fontFamily}`;
  state.lineRoom = [...at("titles").children].map((it) => it.clientWidth - 4);
  const first = Math.max(0, Math.floor(lines.scrollTop / LINE) - 2);
  const last = Math.min(state.found.length, Math.ceil((lines.scrollTop + lines.clientHeight) / LINE) + 2);
  const made = document.createDocumentFragment();
  for (let place = first; place < last; place += 1) made.append(lineOf(place));
  at("sheet").replaceChildren(made);
}

function chooseLine(place) {
  if (!state.found.length) return;
  const lines = at("lines");
  state.line = Math.max(0, Math.min(place, state.found.length - 1));
  lines.scrollTop = Math.max((state.line + 1) * LINE - lines.clientHeight, Math.min(lines.scrollTop, state.line * LINE));
  drawLines();
  detail(state.found[state.line]);
}

function updateList() {
  findLines();
  titles();
  at("sheet").style.height = `${state.found.length * LINE}px`;
  at("lines").setAttribute("aria-rowcount", state.found.length);
  at("copy").textContent = `Copy ${number(state.found.length)} as CSV`;
  drawLines();
  if (state.found.length) chooseLine(state.line);
  else at("detail").replaceChildren(make("p", "", "No request passes the filters."));
}

const field = (text) => (/[",\r\n]/.test(text) ? `"${text.replaceAll('"', '""')}"` : text);

function listCsv() {
  const header = [...AXES, "decision", ...(beforeOf ? ["before", "change"] : [])];
  const rows = state.found.map((n) => [
    ...textsOf(n), WORDS[decisionOf[answerOf[n]]], ...(beforeOf ? [WORDS[decisionOf[beforeOf[n]]], changeWords(n)] : []),
  ]);
  return [header, ...rows].map((row) => `${row.map(field).join(",")}\n`).join("");
}

function copyList() {
  const text = listCsv(), done = () => { at("copy").textContent = "Copied"; };
  const byHand = () => {
    const area = make("textarea");
    area.value = text;
    document.body.append(area);
    area.select();
    document.execCommand("copy");
    area.remove();
    done();
  };
  if (navigator.clipboard) navigator.clipboard.writeText(text).then(done, byHand);
  else byHand();
}

function onListKey(event) {
  if (event.ctrlKey || event.metaKey || event.altKey) return;
  const page = Math.max(1, Math.floor(at("lines").clientHeight / LINE) - 1);
  const moves = { ArrowUp: -1, ArrowDown: 1, PageUp: -page, PageDown: page, Home: -state.found.length, End: state.found.length };
  if (moves[event.key]) chooseLine(state.line + moves[event.key]);
  else if (event.key === "Enter") at("detail").focus();
  else return;
  event.preventDefault();
}

// --- the chosen cell ---

function numbersOf(n) {
  return strides.map((stride, axis) => Math.floor(n / stride) % lengths[axis]);
}

function textsOf(n) {
  return numbersOf(n).map((it, axis) => data.axes[axis][it]);
}

// What stands at a place, in words, with its policy's name, its Sid and its own text.
function statementAt(layers, place, principal, resource) {
  const words = place.split("/"), layer = words[0];
  const hasLevel = ["org", "control", "bucket-control"].includes(layer);
  const [level, policy, statement] = hasLevel ? words.slice(1).map(Number) : [0, Number(words[1]), Number(words[2])];
  const ofPrincipal = layers.principals[principal], ofResource = layers.resources[resource];
  const levels = layer === "org" ? layers.org[ofPrincipal.account] : ofPrincipal[layer] || ofResource[layer];
  const [name, statements] = levels[level][policy], [sid, text] = data.statements[statements[statement]];
  const isOne = ["resource", "bucket", "boundary"].includes(layer);
  const where = `${LAYERS[layer]}${hasLevel ? ` ${policy} of level ${level}` : isOne ? "" : ` ${policy}`}, statement ${statement}`;
  return { name: data.names[name], sid, text, where };
}

function article(layers, place, principal, resource) {
  const { name, sid, text, where } = statementAt(layers, place, principal, resource);
  const element = make("article"), title = make("h4", "", sid || place);
  title.append(make("small", "", sid ? `${where} (${place})` : where));
  title.append(make("small", "policy", name));
  element.append(title, make("pre", "", text));
  return element;
}

function statementsPart(layers, decision, places, principal, resource) {
  const titles = ["The statements that allow it", "The statements that deny it", "Statements that allow it, but did not suffice"];
  const part = [];
  if (places.length) part.push(make("h3", "", titles[decision]));
  places.forEach((place) => part.push(article(layers, place, principal, resource)));
  if (data.isBrief) part.push(make("p", "", "The report is brief: it names no statements and no lacks."));
  else if (!places.length && decision < 3) part.push(make("p", "", "No statement allows or denies it."));
  return part;
}

function turnsPart(n) {
  const turn = data.turns[n];
  if (!turn) return [];
  const [decision, keys] = turn;
  const line = make("p", "", `${decision} if `);
  keys.forEach(([key, values], at) => {
    line.append(at ? " and " : "", make("code", "", key), " is ");
    const between = keys.length > 1 ? " and " : " or ";
    values.forEach((value, n) => line.append(n ? between : "", make("code", "", value)));
  });
  return [make("h3", "", "What it hangs on"), line];
}

function lacksPart(lacks) {
  if (!lacks.length) return [];
  const list = make("ul");
  lacks.forEach((lack) => {
    const line = make("li");
    line.append(make("b", "", lack), `: ${lacksWords(lack)}`);
    list.append(line);
  });
  return [make("h3", "", "What is lacking"), list];
}

// An answer: what decides it, and what lacks.
function answerParts(layers, answer, numbers) {
  const [decision, statements, lacks] = answer;
  const split = (text) => (text ? text.split(" ") : []);
  return [...lacksPart(split(lacks)), ...statementsPart(layers, decision, split(statements), numbers[0], numbers[2])];
}

function beforeParts(n, numbers) {
  if (!beforeOf) return [];
  const answer = data.answers[beforeOf[n]], title = make("h2", "before");
  title.append(make("span", `mark d${answer[0]}`, SIGNS[answer[0]]), `before: ${WORDS[answer[0]]}`);
  return [title, make("p", "", MEANINGS[answer[0]]), ...answerParts(data.before.layers, answer, numbers)];
}

function detail(n) {
  const numbers = numbersOf(n), texts = textsOf(n), answer = data.answers[answerOf[n]], decision = answer[0];
  const title = make("h2"), list = make("dl"), change = changeOf(n);
  title.append(make("span", `mark d${decision}`, SIGNS[decision]), `${change ? `${changeWords(n)}: ` : ""}${WORDS[decision]}`);
  const stands = new Map(data.stand);
  AXES.forEach((axis, it) => {
    const value = make("dd", "", texts[it]);
    if (stands.has(texts[it])) value.append(make("br"), make("small", "", stands.get(texts[it])));
    list.append(make("dt", "", axis), value);
  });
  const command = make("p");
  if (data.hasCommands) command.append("Cell ", make("b", "", number(n)), ": ", make("code", "", `iamsim decide ${numbers.join(" ")} < world.json`));
  at("detail").dataset.cell = n;
  at("detail").replaceChildren(title, make("p", "", MEANINGS[decision]), list, ...turnsPart(n),
    ...answerParts(data.layers, answer, numbers), ...beforeParts(n, numbers), command);
  at("detail").scrollTop = 0;
}

// --- the controls ---

function summary() {
  const totals = [0, 0, 0, 0], changes = [0, 0, 0];
  for (let n = 0; n < answerOf.length; n += 1) {
    totals[decisionOf[answerOf[n]]] += 1;
    changes[changeOf(n)] += 1;
  }
  const moment = new Date(data.moment * 1000).toISOString().replace(".000", "");
  const named = AXES.map((axis, n) => `${number(lengths[n])} ${axis}${lengths[n] === 1 ? "" : "s"}`);
  at("summary").textContent = `${named.join(" × ")} = ${number(answerOf.length)} cells, at ${moment}${beforeOf ? `; ${number(changes[1])} gained, ${number(changes[2])} lost` : ""}`;
  totals.slice(0, 3).forEach((n, decision) => {
    const part = make("span", `d${decision}`, `${SIGNS[decision]} ${number(n)} ${WORDS[decision]}`);
    part.style.flexGrow = n;
    part.title = part.textContent;
    if (n) at("total").append(part);
  });
  at("total").setAttribute("aria-label", totals.slice(0, 3).map((n, decision) => `${WORDS[decision]} ${n}`).join(", "));
}

function fillFixed() {
  const axis = axes()[2], options = document.createDocumentFragment();
  data.axes[axis].forEach((text, n) => {
    const option = make("option", "", text);
    option.value = n;
    options.append(option);
  });
  at("fixed").replaceChildren(options);
  at("fixed").value = state.fixed[axis];
  at("fixed").setAttribute("aria-label", `the ${AXES[axis]}`);
}

function setFixed(n) {
  const axis = axes()[2];
  state.fixed[axis] = Math.max(0, Math.min(n, lengths[axis] - 1));
  at("fixed").value = state.fixed[axis];
  update();
}

function setView(view) {
  state.view = view;
  at("view").value = view;
  state.row = state.column = 0;
  if (view < LIST) fillFixed();
  at("pane").scrollTo(0, 0);
  update();
}

function decisionBoxes() {
  WORDS.slice(0, 3).forEach((word, decision) => {
    const label = make("label"), box = make("input");
    box.type = "checkbox";
    box.checked = true;
    box.id = `show-${word}`;
    box.onchange = () => { state.shown[decision] = box.checked; update(); };
    label.append(box, make("span", `mark d${decision}`, SIGNS[decision]), word);
    at("decisions").append(label);
  });
  if (beforeOf) at("decisions").append(changesBox());
}

function changesBox() {
  const label = make("label"), box = make("input");
  box.type = "checkbox";
  box.id = "only-changes";
  box.checked = state.onlyChanges;
  box.onchange = () => { state.onlyChanges = box.checked; update(); };
  label.append(box, "changed alone");
  return label;
}

function onText(id, name) {
  at(id).oninput = () => { state[name] = at(id).value; update(); };
}

function onKey(event) {
  if (event.ctrlKey || event.metaKey || event.altKey) return;
  const page = Math.max(1, Math.floor(at("pane").clientHeight / ROW) - 1);
  const moves = {
    ArrowUp: [-1, 0], ArrowDown: [1, 0], ArrowLeft: [0, -1], ArrowRight: [0, 1], PageUp: [-page, 0], PageDown: [page, 0],
    Home: [0, -state.columns.length], End: [0, state.columns.length],
  };
  const move = moves[event.key];
  if (move) choose(state.row + move[0], state.column + move[1]);
  else if (event.key === "Enter") at("detail").focus();
  else if (event.key === "[" || event.key === "]") setFixed(state.fixed[axes()[2]] + (event.key === "]" ? 1 : -1));
  else return;
  event.preventDefault();
}

// An axis of one value is no row and no column; else resources are chosen among.
function firstView() {
  const single = [2, 1, 0].find((axis) => lengths[axis] === 1);
  return Math.max(0, VIEWS.findIndex((view) => view[2] === single));
}

// Of what changes the changed cells are shown first.
function start() {
  summary();
  state.onlyChanges = Boolean(beforeOf) && answerOf.some((_, n) => changeOf(n) > 0);
  VIEWS.forEach(([rows, columns, fixed], n) => {
    const option = make("option", "", `${AXES[rows]}s by ${AXES[columns]}s, one ${AXES[fixed]}`);
    option.value = n;
    at("view").append(option);
  });
  const list = make("option", "", "all requests that pass, as a list");
  list.value = LIST;
  at("view").append(list);
  at("view").onchange = () => setView(Number(at("view").value));
  at("fixed").onchange = () => setFixed(Number(at("fixed").value));
  at("previous").onclick = () => setFixed(state.fixed[axes()[2]] - 1);
  at("next").onclick = () => setFixed(state.fixed[axes()[2]] + 1);
  at("controls").onsubmit = (event) => event.preventDefault();
  at("pane").onscroll = draw;
  at("pane").onkeydown = onKey;
  at("lines").onscroll = drawLines;
  at("lines").onkeydown = onListKey;
  at("copy").onclick = copyList;
  at("detail").onkeydown = (event) => { if (event.key === "Escape") at(state.view === LIST ? "lines" : "pane").focus(); };
  window.onresize = () => { if (state.view === LIST) drawLines(); else { layOut(); draw(); bring(state.row, state.column); } };
  decisionBoxes();
  if (beforeOf) at("list").className = "changes";
  onText("row-filter", "rowText");
  onText("column-filter", "columnText");
  setView(firstView());
  at("pane").focus();
}

start();
