// What replay.c and listing.c do, for gussetraft.wasm: in node and in a browser (run-wasm.mjs).

const SIDE = 64;
const ENOUGH = 10;
const text = new TextDecoder();
const sideAt = (i) => (i * 37 + 11) & 0xff;

// Makes the calls that record.c recorded, over the module's own functions, and compares every answer and every list after it, lists lent for reading and the
// bytes beside each list too. Gives what differs, functions that were never called included.
export function replay(exports, file) {
  const data = new DataView(file.buffer, file.byteOffset, file.byteLength);
  const line = 'gussetraft calls 1\n';
  const { memory } = exports;
  const [functions, places, differences] = [[], [], []];
  const called = new Set();
  const heap = Number(exports.__heap_base.value);
  let [at, calls, ended] = [line.length, 0, false];
  if (text.decode(file.subarray(0, at)) !== line) throw new Error('this is no record of calls');

  const byte = () => file[at++];
  const half = () => data.getUint16((at += 2) - 2, true);
  const word = () => data.getUint32((at += 4) - 4, true);
  const bytes = (length) => file.subarray(at, (at += length));
  const number = (size) => (size === 8 ? data.getBigUint64((at += 8) - 8, true) : size === 4 ? word() : size === 2 ? half() : byte());

  // Reads the list that stands here to a place of some bytes; without one goes past it.
  const readList = (to) => {
    const [element, length] = [byte(), word()];
    for (let done = 0; done < length; ) {
      const [kind, count] = [byte(), word()];
      if (count === 0 || count > length - done) throw new Error('a list of the record is wrong');
      if (kind === 0) {
        const from = bytes(count * element);
        to?.set(from, done * element);
      } else {
        const [first, step] = [number(element), number(element)];
        if (to) progression(to.subarray(done * element, (done + count) * element), element, first, step);
      }
      done += count;
    }
    return { element, length };
  };
  const sizeOf = (list) => file[places[list]] * data.getUint32(places[list] + 1, true);
  const readAt = (list, to) => {
    const back = at;
    at = places[list];
    readList(to);
    at = back;
    return to;
  };

  const reach = (end) => {
    const missing = Math.ceil((end - memory.buffer.byteLength) / 65536);
    if (missing <= 0) return;
    try {
      memory.grow(BigInt(missing));
    } catch (error) {
      if (!(error instanceof TypeError)) throw error;
      memory.grow(missing); // node 20
    }
  };

  const call = ({ name, signature, answer }) => {
    const [lists, given] = [[], []];
    let end = heap;
    for (let i = 0; i < signature.length; i++) {
      if (signature[i] === 'h' || signature[i] === 'w') {
        given.push(word());
        continue;
      }
      const element = Number(signature[++i]);
      const [before, after] = [word(), word()];
      const size = sizeOf(before);
      if (size !== sizeOf(after)) throw new Error('a call of the record is wrong');
      const start = Math.ceil((end + SIDE) / 16) * 16;
      end = start + size + SIDE;
      lists.push({ start, size, before, after });
      given.push(BigInt(start), BigInt(size / element));
    }
    const expected = bytes(answer);
    reach(end);
    const before = new Uint8Array(memory.buffer);
    for (const list of lists) {
      for (let i = 0; i < SIDE; i++) before[list.start - 1 - i] = before[list.start + list.size + i] = sideAt(i);
      readAt(list.before, before.subarray(list.start, list.start + list.size));
    }
    const got = exports[name](...given);
    called.add(name);
    const bits = BigInt.asUintN(8 * answer, BigInt(got));
    const differs = [];
    if (!expected.every((b, i) => b === Number((bits >> BigInt(8 * i)) & 0xffn))) differs.push('the answer');
    const after = new Uint8Array(memory.buffer);
    lists.forEach((list, i) => {
      const wanted = readAt(list.after, new Uint8Array(list.size));
      const found = after.subarray(list.start, list.start + list.size);
      if (firstOther(wanted, found) >= 0) differs.push(`list ${i}`);
      for (let k = 0; k < SIDE; k++) {
        if (after[list.start - 1 - k] !== sideAt(k) || after[list.start + list.size + k] !== sideAt(k)) {
          differs.push(`the bytes beside list ${i}`);
          break;
        }
      }
    });
    if (differs.length > 0) differences.push(`call ${calls}, ${name}: ${differs.join(', ')} differs`);
    calls++;
  };

  while (!ended && differences.length < ENOUGH) {
    if (at >= file.length) throw new Error('the record is cut short');
    const kind = String.fromCharCode(byte());
    if (kind === 'F') {
      const [name, signature] = [text.decode(bytes(byte())), text.decode(bytes(byte()))];
      if (typeof exports[name] !== 'function') throw new Error(`the module has no function ${name}`);
      functions.push({ name, signature, answer: byte() });
    } else if (kind === 'L') {
      places.push(at);
      readList();
    } else if (kind === 'C') {
      call(functions[half()]);
    } else if (kind === 'E') {
      if (word() !== calls) throw new Error('the record is cut short');
      ended = true;
    } else {
      throw new Error('the record is wrong');
    }
  }
  if (ended) {
    const missed = Object.keys(exports).filter((name) => name.startsWith('gussetraft_') && !called.has(name));
    differences.push(...missed.map((name) => `${name} was never called`));
  }
  if (calls === 0) differences.push('the record has no calls');
  return { calls, differences };
}

function progression(to, element, first, step) {
  if (element === 8) {
    const view = new DataView(to.buffer, to.byteOffset, to.byteLength);
    for (let i = 0, value = first; i < to.length; i += 8, value += step) view.setBigUint64(i, BigInt.asUintN(64, value), true);
    return;
  }
  const Type = { 1: Uint8Array, 2: Uint16Array, 4: Uint32Array }[element];
  const aligned = to.byteOffset % element === 0;
  const list = aligned ? new Type(to.buffer, to.byteOffset, to.length / element) : new Type(to.length / element);
  if (step === 0) list.fill(first);
  else for (let i = 0, value = first; i < list.length; i++, value = (value + step) >>> 0) list[i] = value;
  if (!aligned) to.set(new Uint8Array(list.buffer));
}

function firstOther(a, b) {
  for (let i = 0; i < a.length; i++) if (a[i] !== b[i]) return i;
  return -1;
}

// Field files one after the other, each after its length, through the package's loader in pieces and both entries: what document 01's program prints.
export function listings(g, { Refusal, rows }, file) {
  const data = new DataView(file.buffer, file.byteOffset, file.byteLength);
  const [out, workspace] = [[], g.workspace(200)];
  let files = 0;
  for (let at = 0; at < file.length; files++) {
    const end = at + 4 + data.getUint32(at, true);
    const loader = g.loader(1024, 200);
    try {
      for (let piece = at + 4; piece < end; piece += 7) loader.piece(file.subarray(piece, Math.min(piece + 7, end)));
      const { field, ...sizes } = loader.end();
      const { maxDistance, blurred } = g.buildDistanceField(field);
      const got = g.buildRegions(field, { blurred, maxDistance, ...sizes, workspace });
      out.push(`max_distance ${maxDistance} max_region ${got.maxRegion} overlaps ${got.overlaps} cut ${got.cut}\n`);
      out.push(...rows(field, got.ids).map((row) => `${row}\n`));
    } catch (error) {
      if (!(error instanceof Refusal)) throw error;
      out.push(`refused ${error.number}\n`);
    }
    loader.release();
    at = end;
  }
  workspace.release();
  return { files, listing: out.join('') };
}

// All of it, from the places that `fetched` reads, what was recorded only where it was: gives one line, or throws what differs.
export async function all(fetched, recorded, gussetraft, examples, rows) {
  const module = await WebAssembly.compile(await fetched('module'));
  const g = await gussetraft.load(module);
  for (const [name, example] of Object.entries(examples)) {
    const printed = [];
    example(g, (line) => printed.push(`${line}\n`));
    if (printed.join('') !== text.decode(await fetched(`${name}.stdout`))) throw new Error(`the example ${name} printed something else`);
  }
  const told = [`the ${Object.keys(examples).length} examples`];
  const sorts = [['stored', 'stdin', 'stdout']];
  if (recorded) sorts.push(['by seed', 'files', 'listings']);
  for (const [what, files, expected] of sorts) {
    const got = listings(g, { Refusal: gussetraft.Refusal, rows }, await fetched(files));
    if (got.files === 0 || got.listing !== text.decode(await fetched(expected))) throw new Error(`the listings of the files ${what} are others`);
    told.push(`${got.files} files ${what}`);
  }
  if (recorded) {
    const instance = await WebAssembly.instantiate(module, {});
    const { calls, differences } = replay(instance.exports, await fetched('calls'));
    if (differences.length > 0) throw new Error(differences.join('\n'));
    told.push(`${calls} calls`);
  }
  return `${told.join(', ')}, 0 differences`;
}
