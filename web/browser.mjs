// node web/browser.mjs PAGE PARTS [FOLDER]: drives the page in Chromium from a file, without a network, and holds what it shows
// to the program parts. Pictures of the screen go to FOLDER, at both widths and in both colours, and printed pages as PDF. Exit 0:
// all checks passed.
// Chromium is spoken to through a pipe, so that nothing but Debian's chromium and node is needed.
import fs from "node:fs";
import os from "node:os";
import path from "node:path";
import { spawn, spawnSync } from "node:child_process";
import { pathToFileURL } from "node:url";

const [page, program, folder] = process.argv.slice(2);
const work = fs.mkdtempSync(path.join(os.tmpdir(), "page-"));
const chromium = spawn("chromium", ["--headless=new", "--no-sandbox", "--disable-gpu", "--remote-debugging-pipe",
  "--host-resolver-rules=MAP * ~NOTFOUND", `--user-data-dir=${work}/profile`, "about:blank"],
  { stdio: ["ignore", "ignore", "ignore", "pipe", "pipe"] });
let count = 0, text = "", session;
const waiting = new Map(), events = [];
chromium.stdio[4].on("data", bytes => {
  text += bytes;
  for (let end; (end = text.indexOf("\0")) >= 0; text = text.slice(end + 1)) {
    const told = JSON.parse(text.slice(0, end));
    if (told.id) waiting.get(told.id)(told); else events.push(told);
  }
});
const send = (method, params = {}) => new Promise((done, failed) => {
  waiting.set(++count, told => told.error ? failed(new Error(`${method}: ${told.error.message}`)) : done(told.result));
  chromium.stdio[3].write(JSON.stringify({ id: count, method, params, sessionId: session }) + "\0");
});
const sleep = milliseconds => new Promise(done => setTimeout(done, milliseconds));

// What an expression in the page comes to.
async function value(expression) {
  const told = await send("Runtime.evaluate", { expression, awaitPromise: true, returnByValue: true });
  if (told.exceptionDetails) throw new Error(`${expression}: ${told.exceptionDetails.exception?.description}`);
  return told.result.value;
}
const quoted = JSON.stringify;
const set = (id, to, event) => value(`{ const e = at(${quoted(id)}); e.value = ${quoted(to)}; e.dispatchEvent(new Event(${quoted(event)})); }`);
const shown = id => value(`at(${quoted(id)}).textContent`);

// Waits until the page shows what is wanted, half a minute at most: other work may run beside it.
let checks = 0;
const MOST_TURNS = 600;
async function same(what, id, wanted) {
  checks++;
  let has;
  for (let turn = 0; turn < MOST_TURNS; turn++) {
    has = await shown(id);
    if (has === wanted) return;
    await sleep(50);
  }
  throw new Error(`${what}: the page shows\n${has.slice(0, 400)}\nand not\n${wanted.slice(0, 400)}`);
}
async function holds(what, expression) {
  checks++;
  for (let turn = 0; turn < MOST_TURNS; turn++) {
    if (await value(expression)) return;
    await sleep(50);
  }
  throw new Error(`${what}: ${expression} does not hold`);
}
function native(...given) {
  const ran = spawnSync(program, given, { maxBuffer: 1 << 26 });
  if (ran.status !== 0) throw new Error(`parts ${given.join(" ")}: ${ran.stderr}`);
  return ran.stdout.toString();
}
// Files handed to an input, as a user picks them.
async function pick(id, ...files) {
  const { root } = await send("DOM.getDocument");
  const { nodeId } = await send("DOM.querySelector", { nodeId: root.nodeId, selector: "#" + id });
  await send("DOM.setFileInputFiles", { nodeId, files: files.map(file => path.resolve(file)) });
}
async function picture(name, width, scheme, whole = false) {
  if (!folder) return;
  await send("Emulation.setDeviceMetricsOverride", { width, height: 1000, deviceScaleFactor: 1, mobile: false });
  await send("Emulation.setEmulatedMedia", { features: [{ name: "prefers-color-scheme", value: scheme }] });
  await sleep(200);
  const { data } = await send("Page.captureScreenshot", { captureBeyondViewport: whole });
  fs.writeFileSync(path.join(folder, name + ".png"), Buffer.from(data, "base64"));
}
const SCREENS = [["wide-light", 1920, "light"], ["wide-dark", 1920, "dark"], ["narrow-light", 400, "light"], ["narrow-dark", 400, "dark"]];
async function pictures(of) {
  for (const [name, width, scheme] of SCREENS) await picture(of + name, width, scheme);
  await send("Emulation.setDeviceMetricsOverride", { width: 1400, height: 1000, deviceScaleFactor: 1, mobile: false });
  await send("Emulation.setEmulatedMedia", { features: [] });
}

// What a user does: a click of the mouse where the element is, keys, and files that are dropped.
async function click(selector) {
  const found = `[...document.querySelectorAll(${quoted(selector)})].find(one => one.checkVisibility())`;
  await holds(`${selector} is there to be clicked`, `!!(${found})`);
  const middle = () => value(`(() => { const one = ${found}; one.scrollIntoView({ block: "center" }); const { left, top, width, height } =
    one.getBoundingClientRect(); return { x: left + width / 2, y: top + height / 2 }; })()`);
  // A plan that comes in moves what is below it: a user clicks when it stands still, and where nothing covers it.
  checks++;
  let { x, y } = await middle();
  for (let turn = 0; ; turn++) {
    await sleep(50);
    const before = [x, y];
    ({ x, y } = await middle());
    if (x === before[0] && y === before[1] && await value(`${found}.contains(document.elementFromPoint(${x}, ${y}))`)) break;
    if (turn === MOST_TURNS) throw new Error(`${selector} keeps moving, or something covers it`);
  }
  for (const type of ["mousePressed", "mouseReleased"]) await send("Input.dispatchMouseEvent", { type, x, y, button: "left", clickCount: 1 });
}
async function press(key, code = key) {
  const text = key === "Enter" ? "\r" : undefined, number = { Enter: 13, Tab: 9 }[key];
  for (const type of ["keyDown", "keyUp"]) {
    await send("Input.dispatchKeyEvent", { type, key, code, text: type === "keyDown" ? text : undefined, windowsVirtualKeyCode: number });
  }
}
const type = text => send("Input.insertText", { text });
async function drop(selector, ...files) {
  const { x, y } = await value(`(() => { const one = document.querySelector(${quoted(selector)});
    one.scrollIntoView({ block: "nearest" });
    const { left, top, width } = one.getBoundingClientRect();
    return { x: left + Math.min(width / 2, 40), y: top + 10 }; })()`);
  const data = { items: [], files: files.map(file => path.resolve(file)), dragOperationsMask: 1 };
  for (const type of ["dragEnter", "dragOver", "drop"]) await send("Input.dispatchDragEvent", { type, x, y, data });
}
// What a button saves: the file, once it is whole.
async function saved(selector, name) {
  const file = path.join(work, "saved", name);
  fs.rmSync(file, { force: true });
  await click(selector);
  checks++;
  for (let turn = 0; turn < MOST_TURNS; turn++) {
    if (fs.existsSync(file) && fs.statSync(file).size) return fs.readFileSync(file);
    await sleep(50);
    if (turn % 60 === 59) await click(selector);
  }
  throw new Error(`${selector} has not saved ${name}`);
}
function alike(what, has, wanted) {
  checks++;
  if (!Buffer.compare(Buffer.from(has), Buffer.from(wanted))) return;
  throw new Error(`${what}: ${has.toString().slice(0, 300)} and not ${wanted.toString().slice(0, 300)}`);
}
// The printed page as PDF, and the words of each of its pages where poppler's pdftotext is there.
async function printed(name) {
  const { data } = await send("Page.printToPDF", { preferCSSPageSize: true, printBackground: true, paperWidth: 8.27, paperHeight: 11.69 });
  const file = path.join(folder ?? work, name + ".pdf");
  fs.writeFileSync(file, Buffer.from(data, "base64"));
  const read = spawnSync("pdftotext", ["-layout", file, "-"], { maxBuffer: 1 << 26 });
  return read.error ? null : read.stdout.toString().split("\f").slice(0, -1);
}

// For everyone: each control has a name for a screen reader, the Tab key comes to all that can be used, and letters differ from what is
// behind them by 4.5 to 1, in light and in dark.
async function for_everyone(where, least = 20) {
  await send("Accessibility.enable");
  const { nodes } = await send("Accessibility.getFullAXTree");
  const used = /^(button|textbox|combobox|slider|spinbutton|listbox|image|progressbar)$/;
  const controls = nodes.filter(({ ignored, role }) => !ignored && used.test(role?.value));
  const nameless = controls.filter(({ name }) => !name?.value).map(({ role }) => role.value);
  checks++;
  if (nameless.length || controls.length < least) throw new Error(`${where}: ${controls.length} controls, and without a name ${nameless}`);

  const usable = `[...document.querySelectorAll('a[href], button, input, select, textarea, summary, [tabindex="0"]')]
    .filter(one => !one.disabled && one.checkVisibility())`;
  const count = await value(`${usable}.length`);
  await value("document.activeElement.blur(); scrollTo(0, 0)");
  const reached = new Set();
  for (let turn = 0; turn < count + 5; turn++) {
    await press("Tab");
    reached.add(await value(`${usable}.indexOf(document.activeElement)`));
  }
  reached.delete(-1);
  checks++;
  if (reached.size !== count) throw new Error(`${where}: the Tab key comes to ${reached.size} of ${count} elements`);

  for (const scheme of ["light", "dark"]) {
    await send("Emulation.setEmulatedMedia", { features: [{ name: "prefers-color-scheme", value: scheme }] });
    checks++;
    const weak = await value(`(${contrasts})()`);
    if (weak.length) throw new Error(`${where}, ${scheme}: letters too like what is behind them: ${quoted(weak.slice(0, 5))}`);
  }
  await send("Emulation.setEmulatedMedia", { features: [] });
}
// In the page: the texts with less contrast than 4.5 to 1.
function contrasts() {
  const numbers = colour => (colour.match(/[\d.]+/g) ?? []).map(Number);
  const linear = part => part <= 0.03928 ? part / 12.92 : ((part + 0.055) / 1.055) ** 2.4;
  const light = colour => numbers(colour).slice(0, 3).map(part => linear(part / 255))
    .reduce((sum, part, at) => sum + part * [0.2126, 0.7152, 0.0722][at], 0);
  const behind = element => {
    for (let one = element; one; one = one.parentElement) {
      const colour = numbers(getComputedStyle(one).backgroundColor);
      if (colour.length === 3 || colour[3] > 0.99) return getComputedStyle(one).backgroundColor;
    }
    return "rgb(255, 255, 255)";
  };
  const weak = [];
  const seen = (element, colour, words) => {
    const [more, less] = [light(colour), light(behind(element))].sort((one, other) => other - one);
    const ratio = (more + 0.05) / (less + 0.05);
    if (ratio < 4.5) weak.push([words.slice(0, 40), ratio.toFixed(2)]);
  };
  const texts = document.createTreeWalker(document.body, NodeFilter.SHOW_TEXT);
  for (let text; (text = texts.nextNode());) {
    const element = text.parentElement;
    if (!text.data.trim() || !element.checkVisibility() || ["SCRIPT", "TITLE", "title"].includes(element.tagName)) continue;
    seen(element, getComputedStyle(element)[element.ownerSVGElement ? "fill" : "color"], text.data);
  }
  for (const field of document.querySelectorAll("input, textarea, select")) {
    if (!field.checkVisibility() || ["range", "file"].includes(field.type)) continue;
    seen(field, getComputedStyle(field).color, "in " + field.id);
    if (field.placeholder) seen(field, getComputedStyle(field, "::placeholder").color, "placeholder of " + field.id);
  }
  return weak;
}

// A planner with a board of KiCad and nothing else: how long it takes, by the clock of the machine and without a person's time.
async function beginner() {
  const board = "parts/tests/kicad/interf_u-top.pos", table = path.join(work, "saved", "tips.txt");
  const begun = Date.now();
  await value("scrollTo(0, 0)");
  await drop("h1", board);
  await holds("the packages are listed at once", "!at('lacking').hidden && at('packages').tBodies[0].rows.length > 3");
  await holds("the size of the rack can be typed at once", "document.activeElement === at('rack')");
  await holds("nothing is called a fault", "at('faults').textContent === ''");
  const packages = await value("[...at('packages').tBodies[0].rows].map(row => row.cells[0].textContent)");
  await pictures("beginner-");
  await for_everyone("packages without tips");
  await click("#start");
  const table_begun = native("import", "kicad", board, "--start-table");
  await holds("the table is begun as parts begins it", `at('tips').value === ${quoted(table_begun)}`);
  await holds("the rack is asked for first", "document.activeElement === at('rack')");
  await type("65");
  await press("Enter");
  await same("what is no size is told beside the field", "rack-why", "A rack has 1 to 64 tips.");
  await value("at('rack').select()");
  await type("4");
  await press("Enter");
  await holds("the rack is in the table", "/^rack 4$/m.test(at('tips').value)");
  const first = "at('packages').querySelector('input')";
  await holds("then the tips of the first package", `document.activeElement === ${first}`);
  // What a beginner may type: nothing, a word, tips counted from 1, and a range from the last to the first.
  for (const [typed, why] of [["", "Type its tips, or click Leave it out."], ["thin", "Write numbers and ranges, as 0-1 or 2 4."],
    ["3-4", "Your rack has the tips 0 to 3."], ["3-1", "Write 1-3, the lower tip first."]]) {
    if (typed) await type(typed);
    await press("Enter");
    await holds(`${typed} is no tip, which is told beside the field`,
      `${first}.getAttribute('aria-invalid') === 'true' && ${first}.nextSibling.textContent === ${quoted(why)}`);
    await value(`${first}.select()`);
  }
  const left = await value("[...at('packages').tBodies[0].rows].map(row => row.cells[0].textContent)");
  for (const place of left.keys()) {
    await holds(`the field of ${left[place]} has the focus`,
      `document.activeElement.closest('tr')?.cells[0].textContent === ${quoted(left[place])}`);
    await type(place % 2 ? "1-2" : "0, 1");
    await press("Enter");
  }
  await holds("the plan is there, and the focus is on it", "!at('shown').hidden && document.activeElement === at('plans-head')");
  fs.writeFileSync(table, await value("at('tips').value"));
  const listed = path.join(work, "beginner.txt");
  fs.writeFileSync(listed, native("import", "kicad", board, "--tips", table));
  await same("the plan of the beginner's board", "plan", native("plan", listed));
  const job = path.join(work, "beginner.job");
  native("make", listed, "-o", job);
  alike("the job file", await saved("[data-save=job]", "interf_u-top.job"), fs.readFileSync(job));
  const seconds = ((Date.now() - begun) / 1000).toFixed(1);
  console.log(`a beginner's board of ${packages.length} packages: ${seconds} s from the drop to the job file, without a person's time`);

  // The other ways of taking it away.
  alike("the list", await saved("[data-save=text]", "interf_u-top.txt"), fs.readFileSync(listed));
  const of = await value("at('which').value");
  for (const format of ["csv", "json"]) {
    const taken = await saved(`[data-save=${format}]`, `interf_u-top-plan.${format}`);
    alike("the plan as " + format, taken, native("plan", listed, "--format", format, "--plan", of));
  }
  const svg = await saved("[data-save=svg]", "interf_u-top.svg"), png = await saved("[data-save=png]", "interf_u-top.png");
  const [, width, height] = svg.toString().match(/viewBox="0 0 (\d+) (\d+)"/).map(Number);
  alike("the size of the picture", Buffer.from(`${png.readUInt32BE(16)} ${png.readUInt32BE(20)}`), Buffer.from(`${width} ${height}`));
  const whole = (await saved("[data-save=page]", "interf_u-top.html")).toString().replaceAll("interf_u-top.pos", "");
  alike("the page to print", Buffer.from(whole), Buffer.from(native("page", listed).replaceAll(listed.replaceAll("'", "&#x27;"), "")));
  alike("the table", await saved("#save-tips", "tips.txt"), Buffer.from(await value("at('tips').value")));

  // One package after another, without a table to begin with. The forgotten one can be brought back.
  await click("#forget");
  await holds("the table is forgotten", "at('tips').value === '' && localStorage.getItem('tipshare-table') === null");
  await click("#bring-back");
  await holds("the table is back", `at('tips').value === ${quoted(fs.readFileSync(table, "utf8"))} && at('bring-back').hidden`);
  await click("#forget");
  await holds("the packages are asked for again", "at('packages').tBodies[0].rows.length > 3 && !at('rack-of').hidden");
  await holds("and the size of the rack", "at('rack').value === ''");
  await value(`${first}.focus()`);
  await type("1");
  await press("Enter");
  await holds("the first row begins the table", "at('tips').value.startsWith('rack ?\\n')");
  const row = "at('packages').tBodies[0].rows[0]", count = "at('packages').tBodies[0].rows.length";
  await holds("its package is listed no more", `${count} === ${packages.length - 1}`);
  await click("#packages td button");
  await holds("a package is left out", `/^skip /m.test(at('tips').value) && ${count} === ${packages.length - 2}`);
  const pattern = await value(`${row}.cells[0].textContent`);
  await click("#packages td button:last-child");
  await holds("a click adds the row of a package, and its tips come next", `at('tips').value.includes('\\n' + ${quoted(pattern)} + ' : # ') && ` +
    "document.activeElement.getAttribute('aria-label').endsWith(" + quoted(pattern) + ")");
  await click("#add-all");
  await holds("all others have a row", "at('add-all').hidden && at('start').hidden");
  await click("#forget");
}

// The other kinds of files, several at once, and a table of tips by what is in it.
async function others_files() {
  const find = end => "checklist/" + fs.readdirSync("checklist").find(name => name.endsWith(end)) + "/";
  const kicad = find("-import-kicad"), openpnp = find("-import-openpnp"), csv = find("-import-csv");
  const listed = path.join(work, "listed.txt");
  fs.writeFileSync(listed, native("import", "kicad", kicad + "board-top-pos.csv", "--tips", kicad + "tips.txt"));
  await drop("#list", kicad + "board-top-pos.csv", kicad + "tips.txt");
  await same("a board of KiCad", "plan", native("plan", listed));
  await same("what is left out is told", "left-out", "Left out: Fiducial_1mm_Mask2mm Fiducial: FID1");
  await holds("the table is remembered", "localStorage.getItem('tipshare-table') === at('tips').value");
  await holds("and the page says so", "at('remembered').textContent.includes('keeps the table')");
  await set("tips", "rack 1\nskip Fiducial*\n", "input");
  await click("#add-all");
  await holds("an added row has no tip, and is asked for", "/ : # \\d+ placements?: /.test(at('tips').value) && " +
    "at('packages').tBodies[0].rows.length > 3 && !at('faults').textContent");
  await set("tips", "rack 1\nR_* : 7\n* : 0\n", "input");
  await holds("a fault of the table is told with its line",
    "at('faults').textContent.startsWith('tips:2:') && at('faults').querySelector('code').textContent === 'R_* : 7'");
  await click("#faults button");
  await holds("a click goes to the line", "document.activeElement === at('tips') && at('tips').selectionStart === 7");

  // Files that a beginner may open: KiCad's own, and one of a spreadsheet. They are told before a table is asked for.
  await click("#forget");
  for (const [name, bytes, why] of [["board.kicad_pcb", "(kicad_pcb (version 20211014)\n)\n", "board.kicad_pcb:1: KiCad's own file"],
    ["bom.xlsx", "PK\x03\x04", "bom.xlsx: this is packed, as files of spreadsheets are; save it as CSV there"]]) {
    fs.writeFileSync(path.join(work, name), bytes);
    await drop("h1", path.join(work, name));
    await holds(`what to do with ${name} is told alone`, `at('faults').textContent.startsWith(${quoted(why)}) &&
      at('faults').children.length === 1 && at('lacking').hidden`);
  }
  await drop("h1", kicad + "board-all-pos.csv");
  await holds("the side is asked for first", "document.activeElement === at('side') && at('lacking').hidden");
  await set("side", "bottom", "change");
  await holds("then the packages of this side", "!at('lacking').hidden && at('packages').tBodies[0].rows.length === 1");

  // Both sides in one file.
  await drop("#list", kicad + "board-all-pos.csv", kicad + "tips.txt");
  await holds("both sides need a choice", "at('faults').textContent.includes('choose the top, the bottom or both at Side')");
  await set("side", "both", "change");
  fs.writeFileSync(listed, native("import", "kicad", kicad + "board-all-pos.csv", "--tips", kicad + "tips.txt", "--side", "both"));
  await same("both sides", "plan", native("plan", listed));

  // Any file with columns: the page begins with a guess.
  const columns = "ref=Designator,package=Footprint,value=Comment,quantity=Qty,side=Layer";
  fs.writeFileSync(listed, native("import", "csv", csv + "bom.csv", "--tips", kicad + "tips.txt", "--columns", columns));
  await drop("#tips", csv + "bom.csv");
  await same("a CSV file, by its columns", "plan", native("plan", listed));
  await set("c-package", "", "change");
  await holds("without a column of packages the page asks for it", "at('faults').textContent.startsWith('Choose the columns')");
  await pictures("columns-");

  // OpenPnP, one file after another.
  await drop("h1", openpnp + "packages.xml");
  await holds("the board is asked for", "at('faults').textContent.startsWith('Now open the board too')");
  await drop("h1", openpnp + "demo.board.xml", openpnp + "parts.xml");
  const parts = ["--parts", openpnp + "parts.xml"];
  fs.writeFileSync(listed, native("import", "openpnp", openpnp + "packages.xml", openpnp + "demo.board.xml", ...parts));
  await same("a board of OpenPnP", "plan", native("plan", listed));

  // A list, and two more at once, are a panel.
  const example = "docs/example.txt", panel = native("panel", example, example, example);
  await drop("h1", example, example, example);
  await same("several boards at once", "panel-text", panel);
  await holds("the panel is open, and named below the plans", "at('panel-text').closest('details').open && " +
    "at('beside').textContent.startsWith('Opened too, for a panel with this board: example')");
  await value("document.querySelectorAll('details').forEach(one => { one.open = true; })");
  const job = path.join(work, "panel.job"), list = path.join(work, "panel.txt");
  native("panel", example, example, example, "--job", job, "--list", list);
  alike("the job file of the panel", await saved("[data-save=panel]", "example-panel.job"), fs.readFileSync(job));
  alike("the list of the panel", await saved("[data-save=panel-list]", "example-panel.txt"), fs.readFileSync(list));
  await click("#beside button");
  await holds("the others are taken out", "at('beside').textContent === '' && at('panel-text').textContent === '' && " +
    "at('others-names').textContent === 'none'");
}

// Damaged job files: the page offers to mend them, says what `parts mend` says, and saves what it writes.
async function damaged_files() {
  const find = end => "checklist/" + fs.readdirSync("checklist").find(name => name.endsWith(end)) + "/board.job";
  const out = path.join(work, "mended.job");
  const mended = file => {
    const ran = spawnSync(program, ["mend", file, out, "--force"]);
    return { text: ran.stdout.toString(), lost: ran.stderr.toString().replace(file, path.basename(file)), file: fs.readFileSync(out) };
  };
  const is_offered = name => holds(`mending ${name} is offered`, `!at('mending').hidden && at('mended').hidden && !at('mend').hidden &&
    at('mending-head').textContent === ${quoted(`Mend ${name}?`)} && at('shown').hidden`);

  // By the keyboard: a file of 512 lines that is cut in line 249.
  const cut = mended(find("-cut-in-a-line"));
  await drop("h1", find("-cut-in-a-line"));
  await same("the refusal names what can be clicked", "faults", "refused 10: the file names 512 lines, which take 4104 bytes, and has 2003; " +
    "hand over the whole file and no more, or click Mend it ");
  await is_offered("board.job");
  await holds("nothing is in the place of its list", "at('list').value === ''");
  await holds("the words say that the file stays", "at('mending-what').textContent.includes('board.job itself stays as it is')");
  await holds("the offer has the focus", "document.activeElement === at('mending-head')");
  await pictures("damaged-");
  await for_everyone("a damaged job file", 8);
  await value("at('mending-head').focus()");
  await press("Tab");
  await holds("the Tab key comes to the button", "document.activeElement === at('mend')");
  await press("Enter");
  await holds("what was mended has the focus", "document.activeElement === at('mending-head') && " +
    "at('mending-head').textContent === 'board.job is mended'");
  await same("how many parts are lost", "mend-lost", "board.job: 263 PARTS LOST; copy the file again, or make it again from its list\n");
  await same("each change", "mend-text", "the file: 512 lines said, 249 written\nthe file: 3 bytes after line 248 left out\n" +
    "lines 249 rack 64, 2 changes, 263 PARTS LOST\n");
  alike("the words of parts", cut.text + cut.lost, await value("at('mend-text').textContent + at('mend-lost').textContent"));
  await holds("the mended file is to be looked at first", "at('mending-what').textContent.includes('before you use board-mended.job')");
  await holds("the mended board is shown under its own name", "at('name').textContent === 'board-mended.job' && !at('shown').hidden && " +
    "at('counts').textContent === '249 parts, 249 placements, a rack of 64 tips' && !at('faults').textContent");
  await same("the plan of the mended board", "plan", native("plan", out));
  await holds("there is nothing more to mend", "at('mend').hidden");
  await pictures("mended-");
  await for_everyone("a mended job file");
  alike("the mended file", await saved("[data-save=mended]", "board-mended.job"), cut.file);
  alike("the report", await saved("[data-save=report]", "board-mended-report.txt"), cut.text + cut.lost);
  alike("the same job file below", await saved("[data-save=job]", "board-mended.job"), cut.file);
  await set("list", "rack 2\nA : 0-1\n", "input");
  await holds("a list that is typed is planned", "at('counts').textContent.startsWith('1 part')");
  alike("the mended file stays", await saved("[data-save=mended]", "board-mended.job"), cut.file);

  // With the mouse: another file, of which no part is lost.
  const longer = mended(find("-one-byte-too-many"));
  await drop("h1", find("-one-byte-too-many"));
  await is_offered("board.job");
  await click("#mend");
  await same("a byte is left out", "mend-text", "the file: 1 byte after line 511 left out\nlines 512 rack 64, 1 change\n");
  await holds("no part is lost", "at('mend-lost').textContent === ''");
  alike("the other mended file", await saved("[data-save=mended]", "board-mended.job"), longer.file);
  alike("the other report", await saved("[data-save=report]", "board-mended-report.txt"), longer.text);
  await click("#example");
  await holds("nothing of it is left with the example", "at('mending').hidden && at('counts').textContent.startsWith('8 parts')");

  // What cannot be mended, and a file without a byte.
  for (const [file, bytes] of [["-cut-in-the-head", 7], ["-empty-file", 0]]) {
    await drop("h1", find(file));
    await same("it is refused", "faults", `refused 6: the file has ${bytes} bytes and needs 8 at least; hand over the whole file `);
    await holds("and cannot be mended", "!at('mending').hidden && at('mend').hidden && at('mended').hidden && " +
      "at('mending-head').textContent === 'board.job cannot be mended'");
  }
  await set("list", "rack 2\nA : 0-1\n", "input");
  await holds("nothing of it is left with a list", "at('mending').hidden && !at('shown').hidden");

  // A name that would be markup is text.
  const name = "<img src=x onerror=alert(1)>.job", marked = path.join(work, name);
  fs.copyFileSync(find("-mend-odd-sets"), marked);
  await drop("h1", marked);
  await is_offered(name);
  await click("#mend");
  await same("its name is text", "mend-lost", name + ": 2 PARTS LOST; copy the file again, or make it again from its list\n");
  await holds("no markup comes of it", "document.title.length > 0 && !document.querySelector('img, #mending :is(img, script)')");
  await holds("its sheet has the name as text",
    "document.body.classList.contains('ready') && at('sheet').textContent.includes('<img src=x onerror=alert(1)>-mended.job')");

  // A damaged board among those of a panel.
  await value("document.querySelectorAll('details').forEach(one => { one.open = true; })");
  await pick("others", find("-cut-in-a-line"));
  await same("a damaged board of a panel", "panel-text", "board.job: refused 10: the file names 512 lines, which take 4104 bytes, and has 2003; " +
    "hand over the whole file and no more, or open it by itself to mend it");
  await holds("nothing names a command of a shell", "!/parts mend/.test(document.querySelector('main').innerText + at('list').value)");
  await click("#example");
  await value("show_others([])");
  await value("document.querySelectorAll('details').forEach((one, at) => { one.open = at < 2; })");
}

// A bar says what takes longer than 300 ms, and a slider's step does not wait for it. On a fast machine no plan takes that long, so the question
// for an exact plan of 20 tips is held back for 600 ms.
async function longer_work() {
  let seed = 1;
  const tip = () => (seed = seed * 48271 % 2147483647) % 20;
  const tips = () => [...new Set([tip(), tip(), tip()])].sort((one, other) => one - other).join(" ");
  const list = "rack 20\n" + Array.from({ length: 512 }, (_, part) => `P${part} x4 : ${tips()}\n`).join("");
  await set("list", list, "input");
  await holds("the plan of 20 tips is there", "at('counts').textContent.startsWith('512 parts') && at('busy').hidden");
  await sleep(2000);
  await holds("nothing is left to do", "at('busy').hidden");
  const [is_shown, step] = await value(`new Promise(done => {
    let begun, kept, is_shown = false;
    const post = Worker.prototype.postMessage, all = performance.now();
    const end = answer => { Worker.prototype.postMessage = post; done(answer); };
    Worker.prototype.postMessage = function (message) {
      if (message[1][0] === 'plan') setTimeout(() => post.call(this, message), 600); else post.call(this, message);
    };
    at('price').value = 1; at('price').dispatchEvent(new Event('input'));
    const look = () => {
      if (!at('busy').hidden && !is_shown) {
        [is_shown, begun, kept] = [true, performance.now(), at('keep-text').textContent];
        at('k').value = 2040; at('k').dispatchEvent(new Event('input'));
      }
      if (is_shown && at('keep-text').textContent !== kept) return end([!at('busy').hidden, performance.now() - begun]);
      if (performance.now() - all > 30000) return end([false, 0]);
      setTimeout(look, 1);
    };
    look(); })`);
  checks++;
  if (!is_shown) throw new Error("there is no bar, or a slider's step waits for the plan");
  console.log(`a slider's step while an exact plan of 20 tips is made: ${step.toFixed(0)} ms`);
  await set("price", "", "input");
}

// The largest board on paper: the head of the table on each of its pages, each part whole on one page.
async function paper() {
  await holds("the sheet is made", "document.body.classList.contains('ready')");
  const line = part => `Part${part} height=${part % 7} : ${part % 6}-${part % 6 + 2} # package ${part % 40}, value ${part}: R${part}`;
  const lines = Array.from({ length: 512 }, (_, part) => line(part));
  const small = path.join(work, "paper.txt");
  fs.writeFileSync(small, "rack 8\n" + lines.join("\n") + "\n");
  for (const [name, file, least, is_drawn] of [["paper-64", "big", 8, false], ["paper-8", "paper", 30, true]]) {
    // Another board first: what is waited for is not there yet.
    await click("#example");
    await same("the board before it", "plan", native("plan", "docs/example.txt"));
    await pick("file", path.join(work, file + ".txt"));
    await same("the board to be printed", "plan", native("plan", path.join(work, file + ".txt")));
    await holds("its sheet is made",
      "document.body.classList.contains('ready') && at('sheet').querySelectorAll('#parts tbody tr').length === 512");
    await holds("a drawing is printed where its letters are large enough", `at('sheet').querySelectorAll('svg').length > 0 === ${is_drawn}`);
    await on_paper(name, least);
  }
  // The page that `parts page` makes is printed in the same way.
  const file = path.join(work, "paper.html");
  fs.writeFileSync(file, native("page", small));
  await send("Page.navigate", { url: pathToFileURL(file).href });
  await holds("the page of parts is there", "document.title.startsWith('Plan of') && document.readyState === 'complete'");
  await on_paper("paper-of-parts", 30);
}

// That each page of the table has its head, and that each part is on one page, in the order of the list.
async function on_paper(name, least) {
  const pages = await printed(name);
  if (!pages) return console.log("LEFT OUT the printed pages: there is no pdftotext (Debian's poppler-utils)");
  const is_head = page => /\bno\.\s+part\s+quantity\s+tips\s+kept, k/.test(page.replace(/\s+/g, " "));
  const from = pages.findIndex(is_head), with_table = pages.slice(from), heads = pages.filter(is_head).length;
  console.log(`${name}: ${pages.length} pages, the head of the table on ${heads} of the ${with_table.length} with parts`);
  checks++;
  if (from < 0 || pages.length < least || !with_table.every(is_head)) throw new Error(`${name}: a page of the table has no head`);
  const rows = with_table.flatMap(page => [...page.matchAll(/^ *(\d+) +(?:P|Part)(\d+) /gm)]);
  const parts = rows.map(([, number, part]) => number === part ? Number(number) : -1);
  checks++;
  if (parts.length !== 512 || parts.some((part, place) => part !== place)) throw new Error(`${name}: the parts of the table are ${parts}`);
}

async function drive() {
  const { targetInfos } = await send("Target.getTargets");
  const { targetId } = targetInfos.find(target => target.type === "page");
  ({ sessionId: session } = await send("Target.attachToTarget", { targetId, flatten: true }));
  for (const domain of ["Page", "Runtime", "DOM", "Network", "Log"]) await send(domain + ".enable");
  fs.mkdirSync(path.join(work, "saved"));
  await send("Page.setDownloadBehavior", { behavior: "allow", downloadPath: path.join(work, "saved") });
  await send("Page.navigate", { url: pathToFileURL(path.resolve(page)).href });
  await holds("the page is ready", "document.readyState === 'complete' && typeof at === 'function' && !at('shown').hidden");

  const example = "docs/example.txt";
  await same("the plan", "plan", native("plan", example));
  await same("keep at the least k", "keep-text", native("keep", "3", example));
  await same("a goal of all pairs", "goal-text", native("goal", "12", example));
  await same("the placing order", "order-text", native("order", example));
  await same("the positions", "windows-text", native("windows", example));
  await same("the Junior", "junior-text", native("junior", example));
  await pictures("");
  for (const width of [400, 760, 1920]) {
    await send("Emulation.setDeviceMetricsOverride", { width, height: 1000, deviceScaleFactor: 1, mobile: false });
    await holds(`nothing is wider than a window of ${width}`, "document.documentElement.scrollWidth <= innerWidth");
  }
  await send("Emulation.setDeviceMetricsOverride", { width: 1400, height: 1000, deviceScaleFactor: 1, mobile: false });
  await for_everyone("the example");
  await set("k", "4", "input");
  await same("keep 4", "keep-text", native("keep", "4", example));
  await set("k", "2", "input");
  await holds("keep 2 is refused in words", "at('keep-text').textContent.startsWith('refused 26')");
  await set("goal", "9", "input");
  await same("goal 9", "goal-text", native("goal", "9", example));
  await set("mounted", "4", "change");
  await same("tip 4 mounted", "plan", native("plan", example, "--mounted", "4"));
  await set("by-tips", "best", "change");
  await same("the order by tips, tip 4 mounted", "order-text", native("order", example, "--tips", "best", "--mounted", "4"));
  await set("mounted", "", "change");
  await same("the order by tips", "order-text", native("order", example, "--tips", "best"));
  await set("by-tips", "", "change");
  await set("price", "3", "input");
  await same("a price", "plan", native("plan", example, "--price", "3"));
  await click("#fewest");
  await same("the fewest tips", "plan", native("plan", example, "--fewest-tips"));
  await set("by-tips", "exact", "change");
  await same("the order by the fewest tips", "order-text", native("order", example, "--tips", "exact", "--fewest-tips"));
  await set("by-tips", "", "change");
  await holds("the button says that it is on, and no number is in the field",
    "at('fewest').ariaPressed === 'true' && at('price').value === ''");
  await click("#fewest");
  await same("a second click takes it back", "plan", native("plan", example));
  await set("price", "2", "input");
  await click("#fewest");
  await set("price", "3", "input");
  await same("a price in the place of the fewest tips", "plan", native("plan", example, "--price", "3"));
  await holds("the numbers have the three plans",
    "[...at('numbers').tBodies[0].rows].map(row => row.cells[0].textContent).join() === 'quick,best,exact'");
  await set("price", "", "input");

  // Before and after, in numbers and as a picture, and none where nothing changes.
  await value("document.querySelectorAll('details').forEach(one => { one.open = true; })");
  await value("at('if-part').value = '7'; at('if-tip').value = '3'");
  await click("#if-allow");
  await holds("what if has the three plans", "at('if').tBodies[0].rows.length === 3");
  await holds("what if has two pictures beside each other",
    "[...at('if-picture').querySelectorAll('tspan')].map(one => one.textContent).join() === 'best before:,best after:'");
  await value("at('if-picture').scrollIntoView()");
  await pictures("what-if-");
  await value("at('if-part').value = '0'; at('if-tip').value = '0'");
  await click("#if-allow");
  await holds("nothing changes, and nothing is drawn", "at('if-picture').hidden && at('if-same').textContent.includes('nothing changes')");
  await value("{ for (const one of at('if-part').options) one.selected = true; at('if-tip').value = '6'; }");
  await click("#if-allow");
  await holds("with one more tip for all parts one tip is enough", "at('if').tBodies[0].rows[2]?.cells[4].textContent === '1'");
  await value("document.querySelectorAll('details').forEach((one, at) => { one.open = at < 2; })");

  await beginner();
  await others_files();
  await damaged_files();
  // A list that is picked, and two more boards.
  const listed = path.join(work, "listed.txt");
  await pick("file", listed);
  await same("a list that was picked", "plan", native("plan", listed));
  await value("document.querySelectorAll('details').forEach(one => { one.open = true; })");
  await pick("others", example, example);
  await holds("a panel is told", "at('panel-text').textContent.includes('first ')");

  // Names that would be markup are text.
  await set("list", 'rack 2\n<b>&lt; : 0 # <img src=x onerror=alert(1)><script>alert(1)</script> & "x"\n', "input");
  await holds("the list is planned", "at('plan').textContent.includes('<b>&lt; quick 0')");
  await holds("no markup comes of a name", "!document.querySelector('#picture b, #picture img, #picture script')");
  await set("list", "rack 2\nA : 5\n", "input");
  await holds("a fault is shown at its line", "at('faults').textContent.startsWith('list:2:')");
  await holds("its line is shown beside it", "at('faults').querySelector('code').textContent === 'A : 5'");
  await holds("it is marked among the numbers of the lines", "at('list').previousElementSibling.querySelector('b').textContent.endsWith('2')");
  await pictures("fault-");

  // The largest board: a slider's step.
  let seed = 1;
  const random = below => (seed = seed * 48271 % 2147483647) % below;
  const line = (part, low) => `P${part} x4 : ${low}-${Math.min(63, low + random(20))}`;
  const lines = Array.from({ length: 512 }, (_, part) => line(part, random(64)));
  const big = path.join(work, "big.txt");
  fs.writeFileSync(big, "rack 64\n" + lines.join("\n") + "\n");
  await pick("file", big);
  await same("the largest board", "plan", native("plan", big));
  await holds("nothing is left to do", "at('busy').hidden");
  await sleep(1000);
  await pictures("large-");
  await sleep(1000);
  const steps = [];
  for (let step = 0; step < 5; step++) {
    steps.push(await value(`new Promise(done => {
      const begun = performance.now(), before = at('keep-text').textContent;
      const look = () => at('keep-text').textContent !== before || performance.now() - begun > 30000 ?
        done(performance.now() - begun) : setTimeout(look, 1);
      at('k').value = ${1990 - step}; at('k').dispatchEvent(new Event('input')); look(); })`));
  }
  await longer_work();
  await pick("file", big);
  await same("the largest board again", "plan", native("plan", big));
  const took = Math.min(...steps);
  if (took > 20000) throw new Error("a slider's step has no answer");
  console.log(`a slider's step on 512 lines and 64 tips: ${steps.map(step => step.toFixed(0)).join(", ")} ms`);
  // Not in the gate, where other work runs beside it.
  if (folder && took > 100) throw new Error(`each step of a slider takes ${took.toFixed(0)} ms or more, and 100 are the most`);
  await paper();

  const asked = events.filter(event => event.method === "Network.requestWillBeSent").map(event => event.params.request.url);
  const foreign = asked.filter(url => !/^(file|blob|data):/.test(url));
  if (foreign.length) throw new Error(`the page asked for ${foreign}`);
  const wrong = events.filter(event => event.method === "Runtime.exceptionThrown" ||
    event.method === "Log.entryAdded" && ["error", "warning"].includes(event.params.entry.level));
  if (wrong.length) throw new Error(`the browser said ${JSON.stringify(wrong[0].params)}`);
  console.log(`${checks} checks of the page in Chromium passed`);
}

drive().then(() => 0, error => { console.log(String(error.stack)); return 1; }).then(status => {
  // Chromium still writes to its folder until it has ended.
  chromium.on("exit", () => {
    fs.rmSync(work, { recursive: true, force: true, maxRetries: 5 });
    process.exit(status);
  });
  chromium.kill();
});
