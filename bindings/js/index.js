// Gussetraft for JavaScript: typed arrays in, typed arrays out, over gussetraft.wasm (tools/targets makes it).
//
// An answer of at most 8 bytes comes as one number, its members from the low end; a larger one is written to a lent list. What a list, a refusal and an
// answer are is in include/gussetraft.h.

import { List, Memory } from './memory.js';
import { Loader } from './loader.js';
import { Refusal, refusalText } from './refusals.js';

export { Refusal, refusalText };

/** The connection byte of a side that leads nowhere. */
export const NO_CONNECTION = 255;

/** The bit of a painted border's ids. */
export const BORDER = 0x8000;

/** How many numbers a workspace has at least, for so many spans. */
export const workspaceLength = (spans) => 128 * spans + 4096;

// A module of nothing but a 64-bit memory: an engine takes it exactly if it takes gussetraft.wasm's.
const SIXTY_FOUR = Uint8Array.of(0, 0x61, 0x73, 0x6d, 1, 0, 0, 0, 5, 3, 1, 4, 0);

/** Whether this engine has WebAssembly with 64-bit memories. */
export const supported = () => typeof WebAssembly === 'object' && WebAssembly.validate(SIXTY_FOUR);

/**
 * Loads the module: bytes, a WebAssembly.Module, a Response, or a place to fetch it from. Without one it is gussetraft.wasm beside this file, or, in a
 * clone of the repository under node, where tools/targets writes it.
 */
export async function load(source) {
  if (!supported()) {
    throw new Error(
      'gussetraft: this engine has no 64-bit WebAssembly memories, which gussetraft.wasm needs: node 20 to 23 have them with the flag --experimental-wasm-memory64, later ones without',
    );
  }
  const module = await compile(await (source ?? own()));
  return new Gussetraft(await WebAssembly.instantiate(module, {}));
}

async function compile(source) {
  if (source instanceof WebAssembly.Module) return source;
  if (source instanceof URL || typeof source === 'string') return compile(await fetch(source));
  if (typeof Response === 'function' && source instanceof Response) {
    if (!source.ok) throw new Error(`gussetraft: ${source.url} can not be fetched: ${source.status}`);
    return WebAssembly.compile(await source.arrayBuffer());
  }
  return WebAssembly.compile(source);
}

async function own() {
  const beside = new URL('./gussetraft.wasm', import.meta.url);
  if (typeof process !== 'object' || !process.versions?.node || beside.protocol !== 'file:') return beside;
  const { readFile } = await import('node:fs/promises');
  const made = new URL('../../target/dist/wasm64-unknown-unknown/gussetraft.wasm', import.meta.url);
  for (const place of [beside, made]) {
    try {
      return await readFile(place);
    } catch (error) {
      if (error.code !== 'ENOENT') throw error;
    }
  }
  throw new Error(`gussetraft: there is no ${beside.pathname} and no ${made.pathname}: write the second with tools/targets wasm64-unknown-unknown`);
}

// The reasons in the order of their numbers, each with what it has.
const told = [
  () => ({ reason: 'notWalkable' }),
  ({ strip }) => ({ reason: 'painted', strip }),
  () => ({ reason: 'neverReached' }),
  ({ groupCount, leastArea }) => ({ reason: 'filteredOut', groupCount, leastArea }),
  ({ grownId, number, trail }) => ({ reason: 'flooded', grownId, number, trail }),
  ({ grownId, fromSpan, number, trail }) => ({ reason: 'expanded', grownId, fromSpan, number, trail }),
];

/** The functions of the library, over one instance of the module. */
export class Gussetraft {
  #exports;
  #memory;

  /** @param {WebAssembly.Instance} instance of gussetraft.wasm */
  constructor(instance) {
    this.#exports = instance.exports;
    this.#memory = new Memory(instance.exports);
  }

  /** How many bytes the module's memory has now: it grows as calls need it, and never shrinks. */
  get memoryBytes() {
    return this.#memory.bytes;
  }

  /** A workspace for fields of at most so many spans, which stays in the module's memory from call to call. */
  workspace(mostSpans) {
    return new Workspace(this.#memory, workspaceLength(natural('mostSpans', mostSpans, 0xffffffff)));
  }

  // ---- distances

  /** Raw and blurred distances, one of each a span. */
  buildDistanceField(field) {
    const call = this.#memory.call();
    const lent = lend(call, field);
    const n = field.area.length;
    const [raw, blurred] = [call.blank(Uint16Array, n), call.blank(Uint16Array, n)];
    const [maxDistance] = two(this.#exports.gussetraft_build_distance_field(...lent, ...raw.lent, ...blurred.lent));
    return { maxDistance, raw: raw.copy(), blurred: blurred.copy() };
  }

  /** The same with the values of pass 1: the lists that refreshDistanceField takes. */
  buildDistanceStages(field) {
    const call = this.#memory.call();
    const lent = lend(call, field);
    const n = field.area.length;
    const [pass1, raw, blurred] = [call.blank(Uint16Array, n), call.blank(Uint16Array, n), call.blank(Uint16Array, n)];
    const [maxDistance] = two(
      this.#exports.gussetraft_build_distance_stages(...lent, ...pass1.lent, ...raw.lent, ...blurred.lent),
    );
    return { maxDistance, pass1: pass1.copy(), raw: raw.copy(), blurred: blurred.copy() };
  }

  /** Brings the three lists of stages, in place, up to date after a change of area codes in a rectangle, ends included. */
  refreshDistanceField(field, rect, stages) {
    const call = this.#memory.call();
    const lent = lend(call, field);
    const corners = ['x0', 'z0', 'x1', 'z1'].map((name) => natural(name, rect[name]));
    const names = ['pass1', 'raw', 'blurred'];
    const lists = names.map((name) => call.lend(typed(name, stages[name], Uint16Array)));
    const answer = call.blank(Uint16Array, 8);
    const given = this.#exports.gussetraft_refresh_distance_field_into(
      ...lent,
      ...corners,
      ...lists.flatMap((list) => list.lent),
      ...answer.lent,
    );
    refuse(given & 0xffff);
    names.forEach((name, i) => stages[name].set(lists[i].view()));
    const [, maxDistance, pass1First, pass1Last, pass2First, pass2Last, blurFirst, blurLast] = answer.copy();
    if ('maxDistance' in stages) stages.maxDistance = maxDistance;
    return { maxDistance, pass1First, pass1Last, pass2First, pass2Last, blurFirst, blurLast };
  }

  // ---- regions and rooms

  /** The region id of each span; ids in use are 1 to maxRegion. */
  buildRegions(field, options) {
    return this.#regions(this.#exports.gussetraft_build_regions, field, options);
  }

  /** The same with the numbers of the unchanged Rust. */
  buildRegionsCompared(field, options) {
    return this.#regions(this.#exports.gussetraft_build_regions_compared, field, options);
  }

  #regions(entry, field, { blurred, maxDistance, borderSize = 0, minRegionArea = 0, mergeRegionArea = 0, workspace }) {
    const call = this.#memory.call();
    const lent = lend(call, field);
    const n = field.area.length;
    const distances = call.lend(typed('blurred', blurred, Uint16Array));
    const numbers = Object.entries({ maxDistance, borderSize, minRegionArea, mergeRegionArea }).map(([name, number]) =>
      natural(name, number),
    );
    const ids = call.blank(Uint16Array, n);
    const space = this.#space(call, workspace, n);
    const bits = BigInt.asUintN(64, entry(...lent, ...distances.lent, ...numbers, ...space.lent, ...ids.lent));
    const part = (i) => Number((bits >> BigInt(16 * i)) & 0xffffn);
    refuse(part(0));
    return { maxRegion: part(1), overlaps: part(2), cut: part(3), ids: ids.copy() };
  }

  /** Why a span has its number, or none: what the build of its regions did to it. */
  explainSpan(field, span, { blurred, maxDistance, borderSize = 0, minRegionArea = 0, mergeRegionArea = 0, workspace }) {
    const call = this.#memory.call();
    const lent = lend(call, field);
    const n = field.area.length;
    const distances = call.lend(typed('blurred', blurred, Uint16Array));
    const sizes = Object.entries({ maxDistance, borderSize, minRegionArea, mergeRegionArea }).map(([name, number]) =>
      natural(name, number),
    );
    const [trail, answer] = [call.blank(Uint16Array, n), call.blank(Uint16Array, 11)];
    const space = this.#space(call, workspace, n);
    const asked = natural('span', span, 0xffffffff);
    const given = this.#exports.gussetraft_explain_span_into(
      ...lent,
      ...distances.lent,
      ...sizes,
      ...space.lent,
      asked,
      ...trail.lent,
      ...answer.lent,
    );
    refuse(given & 0xffff);
    const [, which, strip, groupCount, leastArea, grownId, fromSpan, length, number, id, objectingSpan] = answer.copy();
    const gaveBack = id === 0 ? null : { id, objectingSpan };
    const ids = trail.copy().slice(0, length);
    return { ...told[which - 1]({ strip, groupCount, leastArea, grownId, fromSpan, number, trail: ids }), gaveBack };
  }

  /** Plain rooms, with no watershed. */
  buildRooms(field, { borderSize = 0, workspace } = {}) {
    const call = this.#memory.call();
    const lent = lend(call, field);
    const n = field.area.length;
    const ids = call.blank(Uint16Array, n);
    const space = this.#space(call, workspace, n);
    const [maxRegion] = two(
      this.#exports.gussetraft_build_rooms(...lent, natural('borderSize', borderSize), ...space.lent, ...ids.lent),
    );
    return { maxRegion, ids: ids.copy() };
  }

  // The workspace that is lent: the caller's, or one for this call.
  #space(call, workspace, spans) {
    if (workspace === undefined) return call.scratch(Uint16Array, workspaceLength(spans));
    if (!(workspace instanceof Workspace)) throw new TypeError('gussetraft: a workspace is made by workspace()');
    return workspace.listIn(this.#memory);
  }

  /** Floor size and edges, in metres, of one room of a finished result, with cells of side k/64 metre. */
  measureRoom(field, { ids, maxRegion, k, id }) {
    const call = this.#memory.call();
    const lent = lend(call, field);
    const result = call.lend(typed('ids', ids, Uint16Array));
    const asked = Object.entries({ maxRegion, k, id }).map(([name, number]) => natural(name, number));
    const [sizes, numbers] = [call.blank(Float64Array, 5), call.blank(Uint16Array, 3)];
    const given = this.#exports.gussetraft_measure_room_into(
      ...lent,
      ...result.lent,
      ...asked,
      ...sizes.lent,
      ...numbers.lent,
    );
    refuse(given & 0xffff);
    const [floor, xLeast, xPast, zLeast, zPast] = sizes.copy();
    const [, area, count] = numbers.copy();
    return { floor, xLeast, xPast, zLeast, zPast, area, count };
  }

  // ---- fields edited by hand, and files

  /** The connections mended, and each change: { span, direction, layer }. The field that is given stays as it is. */
  mend(field) {
    const call = this.#memory.call();
    checked(field);
    const [index, count, area, con] = [field.index, field.count, field.area, field.con].map((list) => call.lend(list));
    const changes = call.scratch(Uint16Array, 12 * field.area.length);
    const bits = BigInt.asUintN(
      64,
      this.#exports.gussetraft_mend(
        field.w,
        field.h,
        ...[index, count, area, con, changes].flatMap((list) => list.lent),
      ),
    );
    refuse(Number(bits & 0xffffffffn));
    const numbers = changes.copy(3 * Number(bits >> 32n));
    const listed = Array.from({ length: numbers.length / 3 }, (_, i) => {
      const [span, direction, layer] = numbers.subarray(3 * i, 3 * i + 3);
      return { span, direction, layer };
    });
    return { con: con.copy(), changes: listed };
  }

  /** A loader of a field file that comes in pieces, for at most so many cells and spans. */
  loader(mostCells, mostSpans) {
    const most = [natural('mostCells', mostCells, 0xffffffff), natural('mostSpans', mostSpans, 0xffffffff)];
    const list = (Type, at, length) => new List(this.#memory, Type, at, length);
    return new Loader(this.#exports, this.#memory, list, ...most);
  }

  // ---- stored results

  /** A stored result of one record a span, as runs. */
  pack(file) {
    // 6 bytes a span and 1 are always enough; an old file has 3 bytes a span and 1.
    return this.#convert(this.#exports.gussetraft_pack_into, file, (bytes) => 2 * bytes + 1);
  }

  /** A stored result of runs, as one record a span. */
  unpack(file) {
    return this.#convert(this.#exports.gussetraft_unpack_into, file, spansBytes);
  }

  #convert(entry, file, room) {
    const call = this.#memory.call();
    const given = call.lend(typed('file', file, Uint8Array));
    const answer = call.blank(BigUint64Array, 2);
    const out = call.scratch(Uint8Array, room(file.length, file));
    refuse(entry(...given.lent, ...out.lent, ...answer.lent) >>> 0);
    return out.copy(Number(answer.view()[1]));
  }

  /** The id of one span from a stored result of runs, by way of one stretch of it. */
  idAt(file, span) {
    return this.#id(this.#exports.gussetraft_id_at_into, file, span);
  }

  /** The same by a full read. */
  idAtWhole(file, span) {
    return this.#id(this.#exports.gussetraft_id_at_whole_into, file, span);
  }

  #id(entry, file, span) {
    const call = this.#memory.call();
    const given = call.lend(typed('file', file, Uint8Array));
    const answer = call.blank(Uint32Array, 3);
    const refusal = entry(...given.lent, natural('span', span, 0xffffffff), ...answer.lent) >>> 0;
    const [, id, stretch] = answer.copy();
    refuse(refusal, { stretch });
    return { id, stretch };
  }
}

/** A workspace that is kept. After a call that is not refused it holds zeros. */
class Workspace {
  #memory;
  #place;
  #list;

  constructor(memory, length) {
    this.#memory = memory;
    this.#place = memory.keep(2 * length);
    this.#list = new List(memory, Uint16Array, this.#place.at, length);
  }

  /** How many numbers it has. */
  get length() {
    return this.#list?.length ?? 0;
  }

  /** Its numbers. */
  copy() {
    return this.listIn(this.#memory).copy();
  }

  listIn(memory) {
    if (memory !== this.#memory) throw new TypeError('gussetraft: the workspace is of another instance');
    if (this.#list === undefined) throw new TypeError('gussetraft: the workspace was released');
    return this.#list;
  }

  /** Gives its memory back to the module, for other workspaces and loaders. */
  release() {
    this.listIn(this.#memory);
    this.#memory.release(this.#place);
    this.#list = undefined;
  }
}

// An answer of two numbers of 16 bits, without the refusal.
function two(bits) {
  refuse(bits & 0xffff);
  return [bits >>> 16];
}

function refuse(number, more) {
  if (number !== 0) throw new Refusal(number, more);
}

// How many bytes the old form of a file has: 3 a span and 1, the lengths of its runs added up where they stand. If the file is no such file the number
// does not matter, since the library refuses it before it looks at the room.
function spansBytes(length, file) {
  let spans = 0;
  for (let at = 0; at + 5 < length; at += 5) {
    if (file[at] === 6) spans += file[at + 3] + 256 * file[at + 4];
  }
  return 3 * spans + 1;
}

function natural(name, number, most = 0xffff) {
  if (!Number.isInteger(number) || number < 0 || number > most) {
    throw new RangeError(`gussetraft: ${name} is a whole number from 0 to ${most}`);
  }
  return number;
}

function typed(name, list, Type) {
  if (!(list instanceof Type)) throw new TypeError(`gussetraft: ${name} is a ${Type.name}`);
  return list;
}

function checked(field) {
  natural('w', field.w);
  natural('h', field.h);
  typed('index', field.index, Uint32Array);
  for (const name of ['count', 'area', 'con']) typed(name, field[name], Uint8Array);
}

function lend(call, field) {
  checked(field);
  const lists = [field.index, field.count, field.area, field.con].map((list) => call.lend(list));
  return [field.w, field.h, ...lists.flatMap((list) => list.lent)];
}
