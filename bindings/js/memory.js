// The module's memory: lists are copied in, the call is made, and what it wrote is copied out.
//
// No view of the memory outlives the statement that made it: memory.grow detaches the buffer behind every earlier view.

const PAGE = 65536;
const ALIGN = 16;
const TYPES = [Uint8Array, Uint16Array, Uint32Array];

const aligned = (bytes) => Math.ceil(bytes / ALIGN) * ALIGN;

export class Memory {
  #memory;
  #kept; // where the lists of a call begin: behind the places that are kept
  #free = []; // kept places that were released, as { at, bytes }

  constructor(exports) {
    this.#memory = exports.memory;
    this.#kept = aligned(Number(exports.__heap_base.value));
  }

  /** How many bytes the module has now. */
  get bytes() {
    return this.#memory.buffer.byteLength;
  }

  #reach(end) {
    const missing = end - this.bytes;
    if (missing <= 0) return;
    const pages = Math.ceil(missing / PAGE);
    let grown;
    try {
      grown = this.#grow(pages);
    } catch (error) {
      throw new RangeError(`gussetraft: the module's memory can not grow to ${end} bytes`, { cause: error });
    }
    if (Number(grown) < 0) throw new RangeError(`gussetraft: the module's memory can not grow to ${end} bytes`);
  }

  // A 64-bit memory counts its pages in BigInt in today's engines; node 20, which came before the standard was settled, in numbers.
  #grow(pages) {
    try {
      return this.#memory.grow(BigInt(pages));
    } catch (error) {
      if (!(error instanceof TypeError)) throw error;
      return this.#memory.grow(pages);
    }
  }

  /** A view of so many elements at a place; for at once, not to be kept. */
  view(Type, at, length) {
    return new Type(this.#memory.buffer, at, length);
  }

  /** Reserves a place that stays from call to call. */
  keep(bytes) {
    const wanted = aligned(bytes);
    const found = this.#free.findIndex((place) => place.bytes >= wanted);
    if (found >= 0) return this.#free.splice(found, 1)[0];
    const place = { at: this.#kept, bytes: wanted };
    this.#reach(this.#kept + wanted);
    this.#kept += wanted;
    return place;
  }

  /** Gives a kept place back. */
  release(place) {
    this.#free.push(place);
  }

  /** Begins the lists of one call. */
  call() {
    return new Call(this, this.#kept, (end) => this.#reach(end));
  }
}

/** The lists of one call. A list is two arguments, where it is and how many elements it has, both 64 bits. */
class Call {
  #memory;
  #at;
  #reach;

  constructor(memory, at, reach) {
    this.#memory = memory;
    this.#at = at;
    this.#reach = reach;
  }

  #place(Type, length) {
    const at = this.#at;
    const end = aligned(at + length * Type.BYTES_PER_ELEMENT);
    this.#reach(end);
    this.#at = end;
    return new List(this.#memory, Type, at, length);
  }

  /** A list with these numbers. */
  lend(numbers) {
    const Type = TYPES.find((type) => numbers instanceof type); // node's Buffer is a Uint8Array of its own kind
    const list = this.#place(Type, numbers.length);
    list.view().set(numbers);
    return list;
  }

  /** A list to write to: zeros. */
  blank(Type, length) {
    const list = this.#place(Type, length);
    list.view().fill(Type === BigUint64Array ? 0n : 0);
    return list;
  }

  /** A list of which it does not matter what it holds. */
  scratch(Type, length) {
    return this.#place(Type, length);
  }
}

/** A list in the module's memory. */
export class List {
  #memory;
  #Type;

  constructor(memory, Type, at, length) {
    this.#memory = memory;
    this.#Type = Type;
    this.at = at;
    this.length = length;
  }

  /** The two arguments of a call. */
  get lent() {
    return [BigInt(this.at), BigInt(this.length)];
  }

  /** For at once, not to be kept. */
  view() {
    return this.#memory.view(this.#Type, this.at, this.length);
  }

  /** Its numbers, as a list of the caller's; with a length the first so many. */
  copy(length = this.length) {
    return this.view().slice(0, length);
  }
}
