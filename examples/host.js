// Runs a module that `build` made: node examples/host.js FILE.wasm [INT..]
const fs = require("fs");

// The module with its memory as an export, which only a host that reads texts needs: section 7 gets one entry more.
function withMemory(bytes) {
  const number = (at) => {
    let value = 0, shift = 0, byte;
    do { byte = bytes[at++]; value += (byte & 127) * 2 ** shift; shift += 7; } while (byte > 127);
    return [value, at];
  };
  const spelled = (n) => (n < 128 ? [n] : [n % 128 + 128, ...spelled(Math.floor(n / 128))]);
  for (let at = 8; at < bytes.length; ) {
    const [size, from] = number(at + 1);
    if (bytes[at] === 7) {
      const [count, rest] = number(from);
      const old = bytes.subarray(rest, from + size);
      const content = [...spelled(count + 1), 6, ...Buffer.from("memory"), 2, 0, ...old];
      const section = Buffer.from([7, ...spelled(content.length), ...content]);
      return Buffer.concat([bytes.subarray(0, at), section, bytes.subarray(from + size)]);
    }
    at = from + size;
  }
  throw new Error("the module exports nothing");
}

const [file, ...input] = process.argv.slice(2);
let instance, out = [];
const write = (piece) => { if (out.push(piece) > 4096) flush(); };
const flush = () => { fs.writeFileSync(1, Buffer.concat(out)); out = []; };
const swiftown = {
  write_int: (n) => write(Buffer.from(`${n}`)),
  write_bool: (b) => write(Buffer.from(b ? "true" : "false")),
  write_text: (at, length) => write(Buffer.from(instance.exports.memory.buffer.slice(at, at + length))),
  write_byte: (byte) => write(Buffer.from([byte])),
  read_int: () => BigInt(input.shift() ?? 0),
  trap: (code, at) => { flush(); console.error(`${file}: trap ${code} at ${at >>> 0}`); process.exit(3); },
};
instance = new WebAssembly.Instance(new WebAssembly.Module(withMemory(fs.readFileSync(file))), { swiftown });
instance.exports.main();
flush();
