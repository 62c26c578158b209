// Fields in, fields out: the calls of the module (web/src/lib.rs), for the page, its worker and node.
export function opened(bytes) {
  const module = new WebAssembly.Module(bytes);
  let instance = new WebAssembly.Instance(module);
  const text = new TextEncoder(), words = new TextDecoder();
  return (...fields) => {
    const parts = fields.map(field => typeof field === "string" ? text.encode(field) : field);
    const length = parts.reduce((sum, part) => sum + 4 + part.length, 0);
    const { request, run, answer, answer_length, memory } = instance.exports;
    let at = request(length);
    const view = new DataView(memory.buffer), all = new Uint8Array(memory.buffer);
    for (const part of parts) { view.setUint32(at, part.length, true); all.set(part, at + 4); at += 4 + part.length; }
    let size;
    try { size = run(); }
    catch (trap) {
      const why = words.decode(new Uint8Array(memory.buffer, answer(), answer_length()).slice());
      instance = new WebAssembly.Instance(module); // what trapped is thrown away
      return { ok: false, why: "The page made a mistake of its own: " + (why || trap), fields: [] };
    }
    const start = answer(), out = [], got = new DataView(memory.buffer);
    for (let place = start; place < start + size;) {
      const length = got.getUint32(place, true);
      out.push(new Uint8Array(memory.buffer.slice(place + 4, place + 4 + length)));
      place += 4 + length;
    }
    const ok = words.decode(out[0]) === "ok";
    return { ok, why: ok ? "" : words.decode(out[1]), fields: out.slice(1) };
  };
}
