// node web/test.mjs PAGE PARTS: the module taken from the page against the native program parts, byte for byte, on every list
// and job file of the checklist and on its imports, words of refusals included. Exit 0: no answer differs.
import fs from "node:fs";
import os from "node:os";
import path from "node:path";
import { spawnSync } from "node:child_process";
import { opened } from "./calls.mjs";

const [page, program] = process.argv.slice(2);
const LEAST = 2950, LEAST_REFUSED = 1570; // as many answers are compared, or the test has lost its files
const LEAST_MENDED = 540; // and as many damaged job files are mended
const html = fs.readFileSync(page, "utf8");
const policy = html.match(/Content-Security-Policy" content="([^"]+)"/)[1];
const is_strict = /^default-src 'none'; style-src 'sha256-[^']+'; script-src 'sha256-[^']+' 'wasm-unsafe-eval' blob:; /.test(policy);
if (!is_strict || /unsafe-inline/.test(policy)) {
  console.log(`the content policy is ${policy}`);
  process.exit(1);
}
const call = opened(Buffer.from(html.match(/const WASM = "([^"]+)"/)[1], "base64"));
const work = fs.mkdtempSync(path.join(os.tmpdir(), "page-"));
process.on("exit", () => fs.rmSync(work, { recursive: true, force: true }));
let compared = 0, refused = 0, mended = 0, differ = 0;

function native(...given) {
  const ran = spawnSync(program, given, { maxBuffer: 1 << 26 });
  return { ok: ran.status === 0, out: ran.stdout, why: ran.stderr.toString().trimEnd() };
}

// The program names the file before what is wrong with it; the page names the field.
const plain = why => why.replaceAll(/^parts: /gm, "").replaceAll(/^(?:list|tips|board|packages|[^ :]*\/[^ :]*)(:\d+)?: /gm, "");

function same(what, of_parts, of_page) {
  compared++;
  const is_same = of_parts.ok === of_page.ok &&
    (of_parts.ok ? of_parts.out.equals(Buffer.from(of_page.fields[0])) : plain(of_parts.why) === plain(of_page.why));
  if (!of_parts.ok) refused++;
  if (is_same) return;
  differ++;
  console.log(`DIFFERS ${what}\n  parts: ${(of_parts.ok ? of_parts.out.toString() : of_parts.why).slice(0, 300)}\n` +
    `  page:  ${(of_page.ok ? Buffer.from(of_page.fields[0]).toString() : of_page.why).slice(0, 300)}`);
}

const files = ["docs/example.txt"];
const walk = folder => {
  for (const entry of fs.readdirSync(folder, { withFileTypes: true })) {
    const name = path.join(folder, entry.name);
    if (entry.isDirectory()) walk(name);
    else if (!["command", "expected", "run"].includes(entry.name) && !name.endsWith(".md")) files.push(name);
  }
};
walk("checklist");
for (const file of files) {
  const bytes = fs.readFileSync(file);
  // Of a file without bytes the program tells by its name what it should be; these calls have no name.
  if (!bytes.length) continue;
  for (const command of ["picture", "make", "windows", "junior"]) {
    if (command === "make" && bytes.subarray(0, 3).toString() === "TIP") continue;
    same(`${command} ${file}`, native(command, file), call(command, bytes));
  }
  for (const price of ["", "0", "3", "4294967295"]) {
    same(`plan ${price} ${file}`, native("plan", file, ...(price ? ["--price", price] : [])), call("text", bytes, price));
  }
  same(`order ${file}`, native("order", file), call("order", bytes, "", "", ""));
  for (const plan of ["quick", "best", "exact"]) {
    same(`order by ${plan} ${file}`, native("order", file, "--tips", plan), call("order", bytes, plan, "", ""));
  }
  for (const [format, plan] of [["csv", "quick"], ["json", "best"], ["csv", "exact"]]) {
    same(`${format} of ${plan} ${file}`, native("plan", file, "--format", format, "--plan", plan),
      call("export", format, bytes, plan, "", ""));
  }
  same(`page ${file}`, native("page", file), call("page", file, bytes));
  for (const k of [0, 1, 5]) same(`keep ${k} ${file}`, native("keep", String(k), file), call("keep", bytes, String(k)));
}

// A job file mended: the words of parts, its file and its warning, and the same of the page.
const card = path.join(work, "card.job"), made = path.join(work, "mended.job");
function mend(what, bytes) {
  fs.writeFileSync(card, bytes);
  fs.rmSync(made, { force: true });
  const ran = spawnSync(program, ["mend", card, made]);
  const ok = ran.status === 0 || ran.status === 3;
  const out = ok ? Buffer.concat([ran.stdout, fs.readFileSync(made), ran.stderr]) : ran.stdout;
  const of_page = call("mend", card, bytes);
  if (ok && of_page.ok) {
    mended++;
    of_page.fields = [Buffer.concat(of_page.fields)];
  }
  same(`mend ${what}`, { ok, out, why: ran.stderr.toString().trimEnd() }, of_page);
}
// Each file as it is; job files also cut, with bytes behind, with another count and rack, and with odd lines.
for (const file of files) {
  const bytes = fs.readFileSync(file);
  mend(file, bytes);
  if (bytes.subarray(0, 3).toString() !== "TIP") continue;
  for (const cut of [2, 7, 8, 15, 16, 25, bytes.length - 1]) mend(`${file} cut to ${cut}`, bytes.subarray(0, cut));
  for (const more of [1, 8, 9, 20]) mend(`${file} and ${more} bytes`, Buffer.concat([bytes, Buffer.alloc(more, 1)]));
  for (const [place, byte] of [[4, 1], [4, 2], [5, 1], [6, 2], [6, 255], [7, 0], [7, 1], [8, 255], [15, 0], [16, 0]]) {
    if (place >= bytes.length || bytes[place] === byte) continue;
    const changed = Buffer.from(bytes);
    changed[place] = byte;
    mend(`${file} with ${byte} in place ${place}`, changed);
  }
}
const find = name => files.filter(file => path.basename(file) === name);
const of_kicad = fs.readdirSync("parts/tests/kicad").filter(name => /\.csv$|\.pos$/.test(name)).map(name => "parts/tests/kicad/" + name);
const all_packages = path.join(work, "all.txt");
fs.writeFileSync(all_packages, "rack 4\nR_* height=0.5 : 0-1\nskip value DNP\n*0805* : 1\n* : 1-3\n");
for (const board of [...files.filter(file => /-pos\.csv$|\.pos$/.test(file)), ...of_kicad]) {
  const beside = path.join(path.dirname(board), "tips.txt"), table = fs.existsSync(beside) ? beside : all_packages;
  for (const side of ["", "top", "bottom", "both"]) {
    const given = side ? ["--side", side] : [];
    same(`import kicad ${board} ${side}`, native("import", "kicad", board, "--tips", table, ...given),
      call("list", board, fs.readFileSync(board), fs.readFileSync(table), "", side));
    same(`a table for ${board} ${side}`, native("import", "kicad", board, "--start-table", ...given),
      call("start", board, fs.readFileSync(board), "", "", side));
  }
  const lacks = fs.readFileSync(table, "utf8").split("\n").slice(0, 4).join("\n") + "\n", short = path.join(work, "tips.txt");
  fs.writeFileSync(short, lacks);
  same(`rows for ${board}`, native("import", "kicad", board, "--start-table", "--tips", short, "--side", "both"),
    call("start", board, fs.readFileSync(board), lacks, "", "both"));
}
for (const bom of find("bom.csv")) {
  const tips = files.find(file => file.endsWith("-import-kicad/tips.txt"));
  const both = "ref=Designator,package=Footprint";
  for (const columns of [both, both + ",quantity=Qty,side=Layer", "ref=2,package=3,value=4", "ref=99,package=1", "", "ref=1"]) {
    same(`import csv ${bom} ${columns}`, native("import", "csv", bom, "--tips", tips, "--columns", columns || " "),
      call("list", bom, fs.readFileSync(bom), fs.readFileSync(tips), columns || " ", ""));
  }
}
for (const packages of find("packages.xml")) {
  const folder = path.dirname(packages);
  for (const board of files.filter(file => path.dirname(file) === folder && file.endsWith(".board.xml"))) {
    const parts = path.join(folder, "parts.xml"), has = fs.existsSync(parts);
    same(`import openpnp ${board}`,
      native("import", "openpnp", packages, board, ...(has ? ["--parts", parts] : []), "--side", "both"),
      call("openpnp", fs.readFileSync(packages), fs.readFileSync(board), has ? fs.readFileSync(parts) : "", "both"));
  }
}
console.log(`the page: ${files.length} files, ${mended} job files mended, ${compared} answers compared with parts, ` +
  `${refused} of them refusals, ${differ} differ`);
const is_whole = compared >= LEAST && refused >= LEAST_REFUSED && mended >= LEAST_MENDED;
if (!is_whole) console.log(`this test compares ${LEAST} answers or more, ${LEAST_REFUSED} refusals and ${LEAST_MENDED} mended files among them`);
process.exit(differ || !is_whole ? 1 : 0);
