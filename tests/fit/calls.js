// Calls exported functions of modules in node. Each line of standard input is a call, as JSON: [MODULE, EXPORT, "TYPE:BITS", ..]. Each is of a new
// instance without imports. The answer to each is a line as `wasmgate invoke` has it, with the bits without a sign: `i32 V`, `i64 V`, nothing, or `trap`.
const fs = require('fs');
const view = new DataView(new ArrayBuffer(8));
const value = (word) => {
  const [t, bits] = word.split(':');
  if (t === 'i32') return Number(BigInt.asIntN(32, BigInt(bits)));
  if (t === 'i64') return BigInt.asIntN(64, BigInt(bits));
  if (t === 'f32') { view.setUint32(0, Number(bits)); return view.getFloat32(0); }
  view.setBigUint64(0, BigInt(bits));
  return view.getFloat64(0);
};
const modules = {};
const call = ([file, field, ...words]) => {
  try {
    modules[file] = modules[file] || new WebAssembly.Module(fs.readFileSync(file));
    const r = new WebAssembly.Instance(modules[file], {}).exports[field](...words.map(value));
    if (r === undefined) return '';
    return typeof r === 'bigint' ? 'i64 ' + BigInt.asUintN(64, r) : 'i32 ' + (r >>> 0);
  } catch (e) {
    return e instanceof WebAssembly.RuntimeError || e instanceof RangeError ? 'trap' : 'error ' + String(e).split('\n')[0];
  }
};
for (const line of fs.readFileSync(0, 'utf8').split('\n')) if (line) console.log(call(JSON.parse(line)));
