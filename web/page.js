"use strict";
const at = id => document.getElementById(id);
const words = bytes => new TextDecoder().decode(bytes);
const WASM = "WASM_BASE64", EXAMPLE = EXAMPLE_TEXT, CALLS_SOURCE = CALLS_TEXT;
const KEPT_TABLE = "tipshare-table";
// What the page shows: the bytes of a job file that was opened, the other boards of a panel, and the last answer.
let opened_job = null, others = [], last = null;
// What the text of the list is, a list or placements, and OpenPnP's files, which may be opened one after another.
let kind = "list", openpnp = {};
// What mending makes of the damaged job file that was opened: the file, what is said of it, and how many parts are lost.
let mending = null;

// ---- the module runs in two workers: typing and scrolling never wait for it, and a slider's step never waits for a plan

// A bar shows what takes longer than 300 ms.
let under_way = 0, late;
function busy(more) {
  under_way += more;
  clearTimeout(late);
  if (under_way) late = setTimeout(() => { at("busy").hidden = false; }, at("busy").hidden ? 300 : 0);
  else at("busy").hidden = true;
}

const BYTES = Uint8Array.from(atob(WASM), letter => letter.charCodeAt(0));
function worker_of() {
  const source = CALLS_SOURCE + `
    let call;
    onmessage = ({ data: [number, fields] }) => {
      if (number < 0) { try { call = opened(fields); postMessage([number, ""]); } catch (error) { postMessage([number, String(error)]); } }
      else postMessage([number, call(...fields)]);
    };`;
  let worker, count = 0, begun;
  const waiting = new Map();
  try {
    worker = new Worker(URL.createObjectURL(new Blob([source], { type: "text/javascript" })));
    begun = new Promise((done, failed) => {
      worker.onerror = failed;
      worker.onmessage = ({ data: [number, answer] }) => {
        if (number < 0) { if (answer) failed(answer); else done(); return; }
        waiting.get(number)(answer);
        waiting.delete(number);
        busy(-1);
      };
      worker.postMessage([-1, BYTES]);
    });
  } catch (error) { begun = Promise.reject(error); }
  return async (...fields) => {
    await begun;
    return new Promise(done => { waiting.set(++count, done); busy(1); worker.postMessage([count, fields]); });
  };
}
const ask = worker_of(), ask_beside = worker_of();

// ---- what is planned

// The price of a tip: the one that is typed, or with Fewest tips one that is above all pairs.
const has_fewest = () => at("fewest").getAttribute("aria-pressed") === "true";
const set_fewest = is_on => at("fewest").setAttribute("aria-pressed", String(is_on));
const price = () => has_fewest() ? at("price").max : at("price").value;

let asked = 0, moved = 0;
const source = () => ["list", at("name").textContent, opened_job ?? at("list").value, at("tips").value, columns(), at("side").value];
async function plan(is_new) {
  const mine = ++asked;
  no_sheet();
  // An offer is for the file that is opened; what was mended stays until another file is.
  if (at("mended").hidden) forget_mending();
  if (is_new) await read_kind();
  const unread = mine === asked && is_new ? await lacking(mine) : "";
  if (mine !== asked) return;
  if (unread) return refuse(unread);
  const list = await ask(...source());
  if (mine !== asked) return;
  if (!list.ok) {
    refuse(list.why);
    return opened_job && offer_to_mend(mine);
  }
  const text = opened_job ?? list.fields[0];
  const made = await ask("plan", text, at("mounted").value, price());
  if (mine !== asked) return;
  if (!made.ok) return refuse(made.why);
  show(text, made.fields, is_new);
  await struck();
  if (mine === asked) await order(text);
  if (mine === asked && is_new) await more(mine, text);
}

// ---- what is printed: made after the plans and again after a slider's step, once nothing has been asked for a while

let later;
function no_sheet() {
  clearTimeout(later);
  document.body.classList.remove("ready");
  at("sheet").replaceChildren();
}

function sheet_later() {
  no_sheet();
  later = setTimeout(sheet, 600);
}

async function sheet() {
  const mine = asked, step = moved, { text } = last;
  const told = await ask("sheet", at("name").textContent, text, at("k").value, at("mounted").value, price());
  if (mine !== asked || step !== moved || !told.ok) return;
  const [body, wide] = told.fields.map(words);
  at("sheet").innerHTML = body;
  at("sheet").classList.toggle("wide", wide !== "");
  document.body.classList.add("ready");
}

// The placing order, by the tips of a plan where one is chosen.
let ordered = 0;
async function order(text) {
  const mine = ++ordered;
  const told = await ask("order", text, at("by-tips").value, at("mounted").value, price());
  if (mine === ordered) say("order-text", told);
}

// What the sliders strike. Only the last of many steps is shown.
async function struck() {
  const mine = ++moved, { text, has_best } = last;
  at("k-is").textContent = at("k").value;
  at("goal-is").textContent = has_best ? at("goal").value : "-";
  const kept = await ask_beside("keep", text, at("k").value);
  if (mine !== moved) return;
  say("keep-text", kept);
  last.kept = kept.ok ? kept.fields[1] : null;
  mark(last.kept);
  const goal = has_best ? await ask_beside("goal", text, at("goal").value) : { ok: false, why: "A goal needs a best plan." };
  if (mine !== moved) return;
  say("goal-text", goal);
  last.goal = goal.ok ? goal.fields[1] : null;
  sheet_later();
}

// The first field of an answer, or why there is none; a reason has its lines broken, and a text with columns has not.
function say(id, told) {
  at(id).textContent = told.ok ? words(told.fields[0]) : in_page(told.why);
  at(id).classList.toggle("why", !told.ok);
}

// A drawing, not smaller than its letters can be read.
function draw(id, drawing) {
  at(id).innerHTML = drawing;
  const svg = at(id).querySelector("svg");
  if (svg) svg.style.minWidth = `${0.6 * svg.getAttribute("width")}px`;
}

// What does not depend on a slider.
async function more(mine, text) {
  for (const [command, id] of [["windows", "windows-text"], ["junior", "junior-text"]]) {
    const told = await ask(command, text);
    if (mine !== asked) return;
    say(id, told);
  }
  await panel(mine, text);
}

// The other boards are read as the list is, by the same table of tips.
async function panel(mine, text) {
  if (!others.length) return;
  const lists = [];
  for (const [name, bytes] of others) {
    const is_job = await kind_of(name, bytes) === "job";
    const list = await ask("list", name, bytes, at("tips").value, "", at("side").value);
    if (mine !== asked) return;
    if (!list.ok) {
      last.panel = null;
      const why = is_job ? `${name}: ${list.why.replace(MEND, ", or open it by itself to mend it")}` : list.why;
      return say("panel-text", { ok: false, why });
    }
    lists.push(is_job ? bytes : list.fields[0]);
  }
  const told = await ask("panel", text, ...lists);
  if (mine !== asked) return;
  say("panel-text", told);
  last.panel = told.ok && told.fields[1].length ? told.fields.slice(1) : null;
}

// ---- which tips are kept: a mark for each tip of each part, made of two paths, so that a slider's step is drawn at once

const CELL = 22, HEAD = 26;

// The sets of a job file, a bit a tip.
function sets_of(job) {
  const view = new DataView(job.buffer, job.byteOffset), line = view.getUint16(3) === 1 ? 8 : 9;
  return Array.from({ length: view.getUint16(6) }, (_, at) => view.getBigUint64(8 + at * line));
}

function marks_of(sets, rack, shape) {
  const found = [];
  sets.forEach((set, row) => {
    for (let tip = 0; tip < rack; tip++) if (set >> BigInt(tip) & 1n) found.push(shape(tip * CELL + 3, row * CELL + HEAD));
  });
  return found.join("");
}

function drawn(name, attributes, text = "") {
  const made = document.createElementNS("http://www.w3.org/2000/svg", name);
  for (const [key, value] of Object.entries(attributes)) made.setAttribute(key, value);
  made.textContent = text;
  return made;
}

function draw_kept(names, rack) {
  const letters = Math.max(4, ...names.map(name => name.length)), left = 12 + 9 * letters;
  const size = { width: left + rack * CELL + 8, height: HEAD + names.length * CELL + 8 };
  const svg = drawn("svg", { ...size, viewBox: `0 0 ${size.width} ${size.height}` });
  for (let tip = 0; tip < rack; tip++) svg.append(drawn("text", { x: left + tip * CELL + 11, y: 17, "text-anchor": "middle" }, tip));
  names.forEach((name, row) => svg.append(drawn("text", { x: 6, y: HEAD + row * CELL + 15 }, name)));
  const grid = drawn("g", { transform: `translate(${left} 0)` });
  grid.append(drawn("path", { id: "stays", class: "stays" }), drawn("path", { id: "struck", class: "struck" }));
  svg.append(grid);
  at("kept").replaceChildren(svg);
}

function mark(kept) {
  const before = sets_of(last.job), rack = last.job[5];
  const after = kept ? sets_of(kept) : before;
  at("stays").setAttribute("d", marks_of(after, rack, (x, y) => `M${x} ${y + 3}h16v16h-16z`));
  at("struck").setAttribute("d", marks_of(before.map((set, row) => set & ~after[row]), rack, (x, y) => `M${x + 3} ${y + 6}l10 10m0-10l-10 10`));
}

function row(body, cells) {
  const made = body.insertRow();
  cells.forEach(cell => { made.insertCell().textContent = cell; });
}

function show(text, fields, is_new) {
  const told = fields.map(words);
  const [rack, parts, placements, least] = told.slice(0, 4).map(Number);
  const [quick, best, exact] = [told.slice(4, 8), told.slice(8, 12), told.slice(12, 16)];
  const [no_best, no_exact, drawing] = told.slice(16, 19);
  const has_best = best[0] !== "-";
  at("faults").replaceChildren();
  for (const id of ["list", "tips"]) if (at(id).previousElementSibling.querySelector("b")) number_lines(id);
  at("shown").hidden = false;
  if (goes_on) at("plans-head").focus();
  goes_on = false;
  at("counts").textContent = `${parts} parts, ${placements} placements, a rack of ${rack} tips`;
  const left_out = opened_job ? [] : Array.from(words(text).matchAll(/^# left out: (.*)$/gm), ([, what]) => what);
  at("left-out").textContent = left_out.length ? `Left out: ${left_out.join("; ")}` : "";
  const body = at("numbers").tBodies[0];
  body.replaceChildren();
  row(body, ["quick", ...quick]);
  row(body, ["best", ...best]);
  row(body, ["exact", ...exact]);
  at("no-best").textContent = no_best ? `There is no best plan: ${no_best}.` : "";
  at("no-exact").textContent = no_exact ? `There is no exact plan: ${no_exact}.` : "";
  draw("picture", drawing);
  at("plan").textContent = told[21];
  last = { text, job: fields[19], csv: fields[20], kept: null, drawing, has_best, panel: null };
  const which = at("which").value;
  const there = [["best", best], ["exact", exact], ["quick", quick]].filter(([, numbers]) => numbers[0] !== "-").map(([name]) => name);
  at("which").replaceChildren(...there.map(name => new Option(name, name)));
  at("which").value = there.includes(which) ? which : there[0];
  if (!is_new) return;
  Object.assign(at("k"), { min: 0, max: placements, value: least });
  Object.assign(at("goal"), { min: 0, max: has_best ? best[0] : 0, disabled: !has_best, value: has_best ? best[0] : 0 });
  const tips = Array.from({ length: rack }, (_, tip) => tip), chosen = at("mounted").value;
  at("mounted").replaceChildren(new Option("none", ""), ...tips.map(tip => new Option(tip, tip)));
  at("mounted").value = rack > Number(chosen) ? chosen : "";
  at("if-tip").replaceChildren(...tips.map(tip => new Option("tip " + tip, tip)));
  if (rack < 64) at("if-tip").append(new Option(`one more tip in the rack, ${rack}`, rack));
  const names = rows_of(last.csv).map(cells => cells[0]);
  at("if-part").replaceChildren(...names.map((name, line) => new Option(name, line)));
  at("if").tBodies[0].replaceChildren();
  at("if-same").textContent = "";
  at("if-picture").hidden = true;
  draw_kept(names, rack);
}

// The rows of the plan as CSV, without its head.
function rows_of(csv) {
  const cells = line => Array.from(line.matchAll(/"((?:[^"]|"")*)"/g), found => found[1].replaceAll('""', '"'));
  return words(csv).split("\r\n").slice(1).filter(Boolean).map(cells);
}

// ---- what is still to be written: the tips of packages that no row of the table picks, and the size of the rack

// The rows of the table that name no tips.
function rows_without_tips() {
  return at("tips").value.split("\n").flatMap((line, number) => {
    const [, pattern] = line.match(/^\s*([^\s#:]+)[^#:]*:\s*(?:#.*)?$/) ?? [];
    return pattern ? [{ number, pattern, where: (line.split("#")[1] ?? "").trim() }] : [];
  });
}

const RACK = /^\s*rack\b[^#:]*$/;
function rack_line() {
  return at("tips").value.split("\n").findIndex(line => RACK.test(line.split("#")[0]));
}
const has_rack = () => /^\s*rack\s+\d+\s*$/.test((at("tips").value.split("\n")[rack_line()] ?? "").split("#")[0]);

let unwritten = new Set(); // the lines of the table, from 1, that only lack what is asked for
let goes_on = false; // whether the focus was there, and comes to the plans once they are shown
// Shows what is to be written; gives why the file of the placements cannot be read, which comes before any table.
async function lacking(mine) {
  const rows = rows_without_tips();
  const is_placed = kind === "placements" && !opened_job;
  const [, ...given] = source();
  const told = is_placed ? await ask("packages", ...given) : { ok: true, fields: [new Uint8Array()] };
  if (mine !== asked) return "";
  const unread = !told.ok && !told.why.startsWith("tips:") ? told.why : "";
  const missing = told.ok ? words(told.fields[0]).split("\n").filter(Boolean).map(line => line.split("\t")) : [];
  const items = [...rows, ...missing.map(([pattern, where, skip]) => ({ pattern, where, skip }))];
  const lacks_rack = is_placed && !unread && !has_rack();
  unwritten = new Set(rows.map(({ number }) => number + 1));
  if (lacks_rack) unwritten.add(rack_line() + 1).add(1);
  const had_focus = at("lacking").contains(document.activeElement);
  at("lacking").hidden = !items.length && !lacks_rack;
  if (lacks_rack && at("rack-of").hidden) {
    at("rack").value = at("rack-why").textContent = "";
    at("rack").removeAttribute("aria-invalid");
  }
  at("rack-of").hidden = !lacks_rack;
  const is_empty = !at("tips").value.trim();
  at("start").hidden = !is_placed || !is_empty || !missing.length;
  at("add-all").hidden = !is_placed || is_empty || !missing.length;
  at("by-hand").hidden = at("start").hidden && at("add-all").hidden;
  at("packages").hidden = !items.length;
  at("lacking-what").textContent = [
    lacks_rack ? "Type how many tips are in your rack, where the machine changes them." : "",
    items.length ? `${items.length === 1 ? "1 package has" : `${items.length} packages have`} no tips yet. ` +
      "Type those that can pick each package and press Enter: 0-1 for tips 0 and 1, or 2 4 for tips 2 and 4. " +
      "The first tip of the rack is tip 0." : "",
  ].filter(Boolean).join(" ");
  list_packages(items);
  if (had_focus && at("lacking").hidden) goes_on = true;
  return unread;
}

// A row for each, and the same as before where there was one, so that the focus stays.
const TIPS = /^\d{1,2}(-\d{1,2})?([ ,;]+\d{1,2}(-\d{1,2})?)*$/;
// Why these are no tips of the rack; nothing where they are.
function why_no_tips(typed) {
  if (!TIPS.test(typed)) return "Write numbers and ranges, as 0-1 or 2 4.";
  const [, first, last] = Array.from(typed.matchAll(/(\d+)-(\d+)/g)).find(([, first, last]) => Number(first) > Number(last)) ?? [];
  if (first) return `Write ${last}-${first}, the lower tip first.`;
  const size = has_rack() ? Number(at("tips").value.split("\n")[rack_line()].match(/\d+/)[0]) : 64;
  if (typed.match(/\d+/g).every(tip => tip < size)) return "";
  return size === 1 ? "Your rack has one tip, tip 0." : has_rack() ? `Your rack has the tips 0 to ${size - 1}.` : "A rack has no tip above 63.";
}
const shown_rows = new Map();
function list_packages(items) {
  const body = at("packages").tBodies[0], patterns = new Set(items.map(({ pattern }) => pattern));
  for (const [pattern, made] of shown_rows) if (!patterns.has(pattern)) { made.remove(); shown_rows.delete(pattern); }
  for (const item of items) {
    const made = shown_rows.get(item.pattern) ?? package_row(item.pattern);
    shown_rows.set(item.pattern, made);
    made.cells[1].textContent = item.where + (item.skip ? ", usually left out" : "");
    made.item = item;
    made.add.hidden = item.number !== undefined;
  }
  // An element that is moved loses the focus.
  items.forEach(({ pattern }, place) => {
    const made = shown_rows.get(pattern);
    if (body.rows[place] !== made) body.insertBefore(made, body.rows[place] ?? null);
  });
}

function package_row(pattern) {
  const made = document.createElement("tr"), [name, , tips, or] = Array.from({ length: 4 }, () => made.insertCell());
  name.textContent = pattern;
  const input = document.createElement("input"), why = document.createElement("small");
  Object.assign(input, { type: "text", inputMode: "text", placeholder: "such as 0-1", spellcheck: false, autocomplete: "off" });
  input.setAttribute("aria-label", "Tips that can pick " + pattern);
  why.setAttribute("role", "status");
  tips.append(input, why);
  let done = "";
  const write = if_empty => {
    const typed = input.value.trim();
    why.textContent = typed === "" ? if_empty : why_no_tips(typed);
    input.setAttribute("aria-invalid", String(why.textContent !== ""));
    const good = typed !== "" && why.textContent === "";
    if (!good || typed === done || !made.isConnected) return good;
    done = typed;
    put_row(made.item, `${pattern} : ${typed.replaceAll(/[ ,;]+/g, " ")}`);
    return true;
  };
  input.onchange = () => write("");
  input.onkeydown = event => {
    if (event.key !== "Enter") return;
    event.preventDefault();
    const next = made.nextElementSibling ?? (made.parentNode.rows[0] === made ? null : made.parentNode.rows[0]);
    if (!write("Type its tips, or click Leave it out.")) return;
    (next?.querySelector("input") ?? (at("rack-of").hidden ? at("lacking-head") : at("rack"))).focus();
  };
  const out = button("Leave it out", () => {
    const next = made.nextElementSibling ?? made.previousElementSibling;
    put_row(made.item, `skip ${pattern}`);
    (next?.querySelector("input") ?? at("lacking-head")).focus();
  });
  out.setAttribute("aria-label", "Leave out " + pattern);
  const add = button("Add the row", () => {
    put_row(made.item, `${pattern} :`);
    input.focus();
  });
  add.setAttribute("aria-label", "Add a row for " + pattern);
  add.title = "Writes its row into the table above, where its tips are still to be typed";
  out.title = "The board is planned without it";
  made.add = add;
  or.append(out, " ", add);
  return made;
}

// Writes a row in the place of the one without tips, with its words and its comment, else below all others.
function put_row({ number, where, pattern }, text) {
  const lines = at("tips").value.split("\n"), is_out = text.startsWith("skip ");
  if (number === undefined) return add_rows(text + (where ? ` # ${where}` : ""));
  const [before, comment] = [lines[number].split("#")[0], lines[number].split("#").slice(1).join("#")];
  const of_row = before.slice(before.indexOf(pattern) + pattern.length, before.lastIndexOf(":")).trim();
  const row = is_out || !of_row ? text : text.replace(`${pattern} : `, `${pattern} ${of_row} : `);
  lines[number] = row + (comment ? " #" + comment : "");
  at("tips").value = lines.join("\n");
  table_changed();
}

function add_rows(text) {
  const before = at("tips").value.trimEnd();
  at("tips").value = (before ? before + "\n" : "rack ?\n") + text.trimEnd() + "\n";
  table_changed();
}

// Rows for all packages that have none, as `parts import --start-table` prints them.
async function add_all() {
  const told = await ask("start", ...source().slice(1));
  if (!told.ok) return refuse(told.why);
  const begun = words(told.fields[0]);
  if (at("tips").value.trim()) add_rows(begun);
  else { at("tips").value = begun; table_changed(); }
  next_field().focus();
}

// What is typed next: the size of the rack, then the tips of the first package.
const next_field = () => at("rack-of").hidden ? at("packages").querySelector("input") ?? at("lacking-head") : at("rack");

function set_rack() {
  const size = at("rack").value.trim(), is_good = /^([1-9]|[1-5]\d|6[0-4])$/.test(size);
  at("rack-why").textContent = is_good ? "" : "A rack has 1 to 64 tips.";
  at("rack").setAttribute("aria-invalid", String(!is_good));
  if (!is_good) return;
  const lines = at("tips").value.split("\n"), line = rack_line();
  if (line < 0) lines.unshift("rack " + size); else lines[line] = "rack " + size;
  at("tips").value = lines.join("\n");
  const had_focus = document.activeElement === at("rack");
  table_changed();
  if (had_focus) (at("packages").querySelector("input") ?? at("lacking-head")).focus();
}

// ---- faults, each beside its line, with what can be clicked

// The program says what to type; the page says what to choose.
const MEND = ", or mend it: parts mend";
const IN_PAGE = [
  [MEND, ", or click Mend it"],
  [/; `parts show` turns it into one/, "; open the parts list that it was made of"],
  [/^--columns needs a ref and a package.*/, "Choose the columns with the references and with the packages, at Columns"],
  [/; add --side top, --side bottom or --side both/, "; choose the top, the bottom or both at Side"],
  [/take --side out, or name the sides/, "choose `as in the file` at Side, or the column of the sides"],
  [/take --side \w+ out, or name another file/, "choose another side, or open another file"],
  [/add value=COLUMN to --columns/, "choose the column of the values"],
  [/; name OpenPnP's parts\.xml with --parts/, "; open OpenPnP's parts.xml too"],
  [/name yours by its number/, "choose another one, or rename one of them"],
  [/ with --rack$/, " in packages.xml"],
];
const in_page = why => why.split("\n").map(line => IN_PAGE.reduce((said, [typed, chosen]) => said.replace(typed, chosen), line)).join("\n");

const of_table = file => file === "tips";

function refuse(why) {
  at("shown").hidden = true;
  if (goes_on) at("tips").focus();
  goes_on = false;
  const faulty = { list: new Set(), tips: new Set() };
  const found = in_page(why).split("\n").flatMap(line => {
    const [, file, number] = line.match(/^(.+?):(\d+): /) ?? [];
    // What is asked for above is no fault.
    if (of_table(file) && unwritten.has(Number(number)) && !at("lacking").hidden && /no tip after the colon|rack/.test(line)) return [];
    if (/no row matches /.test(line) && !at("lacking").hidden) return [];
    const told = document.createElement("p");
    told.append(line + " ");
    if (number) {
      const id = of_table(file) ? "tips" : "list", text = at(id).value.split("\n")[number - 1] ?? "";
      faulty[id].add(Number(number));
      told.append(button("Go to the line", () => go_to(id, Number(number))));
      if (text.trim()) told.append(Object.assign(document.createElement("code"), { textContent: text.slice(0, 200) }));
    }
    return [told];
  });
  const is_rest = found.every(told => / more lines are wrong $/.test(told.textContent));
  at("faults").replaceChildren(...(is_rest && !at("lacking").hidden ? [] : found));
  for (const id of ["list", "tips"]) number_lines(id, faulty[id]);
}

function button(name, then) {
  const made = document.createElement("button");
  made.textContent = name;
  made.onclick = then;
  return made;
}

function go_to(id, number) {
  const lines = at(id).value.split("\n"), start = lines.slice(0, number - 1).reduce((sum, line) => sum + line.length + 1, 0);
  at(id).focus();
  at(id).setSelectionRange(start, start + (lines[number - 1] ?? "").length);
  at(id).scrollTop = (number - 3) * at(id).scrollHeight / Math.max(lines.length, 1);
}

// The numbers of the lines beside them, and a mark at those that are faulty.
const MOST_NUMBERS = 20000;
function number_lines(id, faulty = new Set()) {
  const beside = at(id).previousElementSibling, count = Math.min(at(id).value.split("\n").length, MOST_NUMBERS);
  const pieces = [];
  let text = "";
  for (let line = 1; line <= count; line++) {
    if (!faulty.has(line)) { text += line + "\n"; continue; }
    pieces.push(text, Object.assign(document.createElement("b"), { textContent: `\u25cf ${line}` }), "\n");
    text = "";
  }
  beside.replaceChildren(...pieces, text + "\n");
  beside.scrollTop = at(id).scrollTop;
}

// ---- a damaged job file is mended if the user wants it, beside the file that was opened and never in its place

async function offer_to_mend(mine) {
  const name = at("name").textContent, told = await ask("mend", name, opened_job);
  if (mine !== asked || !told.ok && !told.why.startsWith("refused")) return;
  at("mending").hidden = false;
  at("mend").hidden = !told.ok;
  at("mending-head").textContent = told.ok ? `Mend ${name}?` : `${name} cannot be mended`;
  at("mending-what").textContent = told.ok ? "Mending keeps what is whole, leaves out the rest and says what that is. " +
    `${name} itself stays as it is. Copying it again, or making it again from its list, is safer.` :
    "The beginning of the file is damaged, so that nothing behind it can be read. Copy the file again, or make it again from its list.";
  if (!told.ok) return;
  const [text, file, lost] = told.fields;
  mending = { name, stem: stem(), text: words(text), file, lost: words(lost) };
}

async function mend() {
  const { name, stem, text, file, lost } = mending, mended = stem + "-mended.job";
  at("mend").hidden = true;
  at("mended").hidden = false;
  at("mending-head").textContent = `${name} is mended`;
  at("mending-what").textContent = `Look at each change and at the mended board, which is planned below, before you use ${mended}: ` +
    "only you can say whether it is still the board that was meant.";
  at("mend-lost").textContent = lost;
  at("mend-text").textContent = text;
  at("mending-head").focus();
  await load_list(mended, file, true);
}

function forget_mending() {
  mending = null;
  at("mending").hidden = at("mended").hidden = true;
}

// ---- the table of tips is kept in the browser, where that is allowed

function table_changed() {
  number_lines("tips");
  try {
    localStorage.setItem(KEPT_TABLE, at("tips").value);
    at("remembered").textContent = "This browser keeps the table on this computer.";
  } catch { at("remembered").textContent = "This browser does not keep the table: save it."; }
  plan(true);
}

// Another table comes in the place of the one that is there, which can be brought back.
let old_table = "";
function replace_table(text) {
  old_table = at("tips").value;
  at("bring-back").hidden = !old_table.trim() || old_table === text;
  at("tips").value = text;
  table_changed();
}

function remembered() {
  try { return localStorage.getItem(KEPT_TABLE) ?? ""; } catch { return ""; }
}

// ---- files

const kind_of = async (name, bytes) => words((await ask("kind", name, bytes)).fields[0]);

async function read_kind() {
  kind = opened_job ? "job" : await kind_of("", at("list").value);
  at("reading").hidden = kind !== "placements";
  await pick_columns();
}

// Lists and placements come to the list, and to the panel from the second on; a table of tips comes to its place.
async function load(files, into) {
  const read = await Promise.all(Array.from(files, async file => [file.name, new Uint8Array(await file.arrayBuffer())]));
  const boards = [];
  for (const [name, bytes] of read) {
    const is = await kind_of(name, bytes);
    const is_table = is === "table" || is === "list" && (into === "tips" || read.length > 1 && /tips|table/i.test(name));
    if (is === "xml") openpnp_file(bytes);
    else if (is_table) replace_table(words(bytes));
    else boards.push([name, bytes]);
  }
  if (boards.length > 1) {
    show_others(boards.slice(1));
    at("panel-text").closest("details").open = true;
  }
  if (boards.length) await load_list(...boards[0]);
  else if (Object.keys(openpnp).length) await load_openpnp();
}

async function load_list(name, bytes, is_mended = false) {
  openpnp = {};
  if (!is_mended) forget_mending();
  at("name").textContent = name;
  opened_job = await kind_of(name, bytes) === "job" ? bytes : null;
  const listed = opened_job ? await ask("list", name, bytes, "", "", "") : null;
  at("list").value = !opened_job ? words(bytes) : listed.ok ? words(listed.fields[0]) : "";
  number_lines("list");
  at("side").value = "";
  await plan(true);
  if (!is_mended && !at("mending").hidden) {
    at("mending").scrollIntoView({ block: "center" });
    at("mending-head").focus({ preventScroll: true });
  }
  if (/ at Side /.test(at("faults").textContent)) at("side").focus();
  if (at("lacking").hidden) return;
  at("lacking").scrollIntoView({ block: "start" });
  next_field().focus({ preventScroll: true });
}

// OpenPnP has a board, packages and, where they are saved, parts: the first element tells which is which.
function openpnp_file(bytes) {
  const text = words(bytes);
  const name = ["packages", "board", "parts"].find(name => text.includes("<openpnp-" + name)) ?? "other";
  openpnp[name] = bytes;
}

async function load_openpnp() {
  const { packages, board, parts } = openpnp;
  if (!packages || !board) {
    const lacks = packages ? "Now open the board too, a file that ends in .board.xml." : board ? "Now open packages.xml too." :
      "This is no board of OpenPnP and no packages.xml of it.";
    return refuse(`${lacks} They are in OpenPnP's folder .openpnp2; open parts.xml too if it is there.`);
  }
  const told = await ask("openpnp", packages, board, parts ?? "", at("side").value || "both");
  if (!told.ok) return refuse(told.why);
  const files = openpnp;
  await load_list("board.txt", told.fields[0]);
  openpnp = files;
}

// A file that is none of KiCad's has columns of its own: the user picks them, and the page begins with a guess.
const COLUMNS = {
  ref: /^(ref|designator|part ?ref)/i, package: /^(pack|footprint|pattern|case)/i, value: /^(val|comment|designation)/i,
  side: /^(side|layer)/i, quantity: /^(qty|quant|count)/i,
};
let head = "";
async function pick_columns() {
  const text = at("list").value.trimStart(), before = head;
  head = kind === "placements" ? text.split("\n", 1)[0].replaceAll('"', "").trim() : "";
  if (head === before) return;
  const is_kicad = head.startsWith("#") || head === "Ref,Val,Package,PosX,PosY,Rot,Side";
  const told = kind === "placements" && !is_kicad ? await ask("columns", at("list").value) : null;
  const names = told?.ok ? words(told.fields[0]).split("\n") : [];
  at("columns").hidden = names.length < 2;
  for (const [id, guess] of Object.entries(COLUMNS)) {
    at("c-" + id).replaceChildren(new Option("-", ""), ...names.map((name, place) => new Option(name || `column ${place + 1}`, place + 1)));
    at("c-" + id).selectedIndex = names.findIndex(name => guess.test(name.trim())) + 1;
  }
}

function columns() {
  if (at("columns").hidden || opened_job) return "";
  const chosen = Object.keys(COLUMNS).map(id => [id, at("c-" + id).value]).filter(([, column]) => column);
  return chosen.map(([id, column]) => `${id}=${column}`).join(",") || " ";
}

// ---- what can be taken away

const stem = () => at("name").textContent.replace(/\.[^.]*$/, "") || "list";

function save(name, bytes, type) {
  const link = document.createElement("a");
  link.href = URL.createObjectURL(new Blob([bytes], { type }));
  link.download = name;
  link.click();
  setTimeout(() => URL.revokeObjectURL(link.href), 10000);
}

function save_png() {
  const shown = at("picture").querySelector("svg"), image = new Image();
  const [width, height] = ["width", "height"].map(name => Number(shown.getAttribute(name)));
  image.onload = () => {
    const canvas = document.createElement("canvas");
    Object.assign(canvas, { width, height });
    canvas.getContext("2d").drawImage(image, 0, 0);
    canvas.toBlob(png => save(stem() + ".png", png, "image/png"));
  };
  image.src = "data:image/svg+xml;base64," + btoa(Array.from(new TextEncoder().encode(last.drawing), byte => String.fromCharCode(byte)).join(""));
}

async function exported(format) {
  const told = await ask("export", format, last.text, at("which").value, at("mounted").value, price());
  return told.ok ? told.fields[0] : new TextEncoder().encode(told.why + "\n");
}

const SAVES = {
  job: () => save(stem() + ".job", last.job, "application/octet-stream"),
  kept: () => last.kept && save(stem() + "-kept.job", last.kept, "application/octet-stream"),
  goal: () => last.goal && save(stem() + "-goal.job", last.goal, "application/octet-stream"),
  text: () => save(stem() + ".txt", opened_job ? at("list").value : last.text, "text/plain"),
  csv: async () => save(stem() + "-plan.csv", await exported("csv"), "text/csv"),
  json: async () => save(stem() + "-plan.json", await exported("json"), "application/json"),
  svg: () => save(stem() + ".svg", last.drawing, "image/svg+xml"),
  png: save_png,
  mended: () => save(mending.stem + "-mended.job", mending.file, "application/octet-stream"),
  report: () => save(mending.stem + "-mended-report.txt", mending.text + mending.lost, "text/plain"),
  page: async () => save(stem() + ".html", (await ask("page", at("name").textContent, last.text)).fields[0], "text/html"),
  panel: () => last.panel && save(stem() + "-panel.job", last.panel[0], "application/octet-stream"),
  "panel-list": () => last.panel && save(stem() + "-panel.txt", last.panel[1], "text/plain"),
};

// ---- what if

async function what_if() {
  const body = at("if").tBodies[0], parts = Array.from(at("if-part").selectedOptions, option => option.value);
  body.replaceChildren();
  at("if-picture").hidden = true;
  if (!parts.length) return at("if-same").textContent = "Choose one part or several first.";
  const told = await ask("changed", last.text, parts.join(" "), at("if-tip").value);
  if (!told.ok) return at("if-same").textContent = told.why;
  const of = told.fields.map(words), drawing = of[24];
  for (const [plan, place] of [["quick", 0], ["best", 4], ["exact", 8]]) row(body, [plan, of[place], of[12 + place], of[place + 1], of[13 + place]]);
  at("if-same").textContent = drawing ? "" : "These parts can use this tip already, so nothing changes.";
  draw("if-picture", drawing);
  at("if-picture").hidden = !drawing;
}

// ---- the page

async function show_others(boards) {
  others = boards;
  const names = others.map(([name]) => name).join(", ");
  at("others-names").textContent = names || "none";
  const told = `Opened too, for a panel with this board: ${names}. What they need together is under A panel of several boards, below. `;
  at("beside").replaceChildren(...(names ? [told, button("Take them out", () => show_others([]))] : []));
  if (!names) at("panel-text").textContent = "";
  if (last && !at("shown").hidden) await panel(asked, last.text);
}

function begin() {
  at("list").oninput = () => { opened_job = null; number_lines("list"); plan(true); };
  at("mend").onclick = mend;
  at("tips").oninput = table_changed;
  for (const id of ["list", "tips"]) at(id).onscroll = () => { at(id).previousElementSibling.scrollTop = at(id).scrollTop; };
  at("k").oninput = at("goal").oninput = struck;
  at("mounted").onchange = () => plan(false);
  at("price").oninput = () => { set_fewest(false); plan(false); };
  at("fewest").onclick = () => {
    set_fewest(!has_fewest());
    at("price").value = "";
    plan(false);
  };
  at("by-tips").onchange = () => last && order(last.text);
  for (const id of ["side", "c-ref", "c-package", "c-value", "c-side", "c-quantity"]) at(id).onchange = () => plan(true);
  at("file").onchange = event => load(event.target.files, "list").then(() => { event.target.value = ""; });
  at("others").onchange = async event => {
    const read = Array.from(event.target.files, async file => [file.name, new Uint8Array(await file.arrayBuffer())]);
    await show_others(await Promise.all(read));
  };
  // A file that is dropped anywhere is read, for a browser would leave the page for it.
  const area = event => event.target.closest?.(".drop") ?? document.querySelector(".drop");
  const none = () => document.querySelectorAll(".over").forEach(one => one.classList.remove("over"));
  document.ondragover = event => { event.preventDefault(); none(); area(event).classList.add("over"); };
  document.ondragleave = none;
  document.ondrop = event => { event.preventDefault(); none(); load(event.dataTransfer.files, area(event).dataset.into); };
  for (const one of document.querySelectorAll("[data-save]")) one.onclick = () => last && SAVES[one.dataset.save]();
  at("save-tips").onclick = () => save("tips.txt", at("tips").value, "text/plain");
  at("forget").onclick = () => {
    replace_table("");
    try { localStorage.removeItem(KEPT_TABLE); } catch { /* nothing was kept */ }
    at("remembered").textContent = "The table is forgotten.";
  };
  at("bring-back").onclick = () => { replace_table(old_table); at("tips").focus(); };
  at("start").onclick = at("add-all").onclick = add_all;
  at("rack").onchange = set_rack;
  at("if-allow").onclick = what_if;
  at("print").onclick = async () => {
    if (last && !at("shown").hidden) { clearTimeout(later); await sheet(); }
    window.print();
  };
  at("example").onclick = () => {
    forget_mending();
    opened_job = null;
    at("name").textContent = "example.txt";
    at("list").value = EXAMPLE;
    number_lines("list");
    plan(true);
  };
  at("tips").value = remembered();
  number_lines("tips");
  at("example").click();
}

ask("columns", "").then(begin, error => refuse("This page needs WebAssembly and workers, which this browser does not have: " + error));
