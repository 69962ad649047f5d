// The proved programs, run in a browser (or in node). Each run is a fresh instance: like a command with standard input, standard output and error output.

const STDOUT = 1;
const STDERR = 2;

// Lengths are 64 bits wide, so BigInt in JavaScript. A program is given the words of its command line and no terminal: it reads its standard input to the
// end. `onRead` is told how much of the input has been read, `onWrite` what the program writes to its standard output, as it comes.
export function runBytes(module, input, { words = [], onRead = null, onWrite = null } = {}) {
  let [at, errno] = [0, 0];
  const written = { [STDOUT]: [], [STDERR]: [] };
  const memory = () => new Uint8Array(exports.memory.buffer);
  const encoded = words.map((word) => new TextEncoder().encode(word));
  const env = {
    read(_fd, address, length) {
      const count = Math.min(Number(length), input.length - at);
      memory().set(input.subarray(at, at + count), address);
      at += count;
      onRead?.(at);
      return BigInt(count);
    },
    write(fd, address, length) {
      const bytes = memory().slice(address, address + Number(length));
      written[fd].push(bytes);
      if (fd === STDOUT) onWrite?.(bytes);
      return length;
    },
    // words are asked from 1 on, until one is missing
    rattle_arg(index, address, length) {
      const word = encoded[Number(index) - 1];
      if (!word) return -1n;
      memory().set(word.subarray(0, Number(length)), address);
      return word.length > Number(length) ? -2n : BigInt(word.length);
    },
    rattle_errno: () => errno,
    rattle_set_errno: (error) => { errno = error; },
    isatty: () => 0,
    __sysv_signal: () => 0n, // a program asks first that a closed output is no end of it
  };
  const missing = (name) => () => { throw new Error(`a program asked for ${name}, which a page does not have`); };
  for (const { name } of WebAssembly.Module.imports(module)) env[name] ??= missing(name);
  const { exports } = new WebAssembly.Instance(module, { env });
  (exports.main ?? exports.__main_argc_argv ?? exports.__main_void)(0, 0);
  return { output: joined(written[STDOUT]), errors: decoded(joined(written[STDERR])) };
}

function joined(parts) {
  const all = new Uint8Array(parts.reduce((sum, part) => sum + part.length, 0));
  let at = 0;
  for (const part of parts) {
    all.set(part, at);
    at += part.length;
  }
  return all;
}

export const decoded = (bytes) => new TextDecoder().decode(bytes);

const bytesOfBase64 = (base64) => Uint8Array.from(atob(base64), (c) => c.charCodeAt(0));

// { plrun: base64, ... } -> { plrun: module, ... }
export async function compileModules(base64ByName) {
  const compiled = Object.entries(base64ByName).map(async ([name, base64]) => [name, await WebAssembly.compile(bytesOfBase64(base64))]);
  return Object.fromEntries(await Promise.all(compiled));
}

// plrun has the card of sixteen cells alone; calls on a rack and a record to convert say the size themselves.
const WITHOUT_SIZE = ['plrun', 'plrack', 'plconvert'];

// { plrun: module, ... } -> { cells, plrun: (input, words) => { output, errors }, ... }, where the input is a text, or bytes: the programs for a card of so
// many cells. `hooks` are those of runBytes.
export function programsOf(modules, cells = 16, hooks = () => ({})) {
  const encoder = new TextEncoder();
  const size = cells === 16 ? [] : ['--cells', String(cells)];
  const programs = Object.entries(modules).map(([name, module]) => [name, (input, words = []) => {
    const bytes = typeof input === 'string' ? encoder.encode(input) : input;
    return runBytes(module, bytes, { words: [...(WITHOUT_SIZE.includes(name) ? [] : size), ...words], ...hooks(name, bytes.length) });
  }]);
  return { cells, ...Object.fromEntries(programs) };
}
