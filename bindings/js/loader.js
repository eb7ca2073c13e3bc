// A field file that comes in pieces.

import { Refusal } from './refusals.js';

const NUMBERS = 17;
// Places of a loader's numbers, as include/gussetraft.h reads them.
const [W, H, BORDER_SIZE, MIN_REGION_AREA, MERGE_REGION_AREA, SPANS] = [6, 7, 8, 9, 10, 12];

/** Takes a field file in pieces. Its lists stay in the module's memory until `release`. */
export class Loader {
  #exports;
  #memory;
  #places;
  #lists;
  #numbers;

  constructor(exports, memory, list, mostCells, mostSpans) {
    this.#exports = exports;
    this.#memory = memory;
    this.#places = [];
    const keep = (Type, length) => {
      const place = memory.keep(length * Type.BYTES_PER_ELEMENT);
      this.#places.push(place);
      return list(Type, place.at, length);
    };
    try {
      this.#numbers = keep(Uint32Array, NUMBERS);
      this.#lists = {
        index: keep(Uint32Array, mostCells),
        count: keep(Uint8Array, mostCells),
        area: keep(Uint8Array, mostSpans),
        con: keep(Uint8Array, 4 * mostSpans),
      };
    } catch (error) {
      this.release(); // no memory for so many
      throw error;
    }
    told(exports.gussetraft_load_begin_into(mostCells, mostSpans, ...this.#numbers.lent));
  }

  #going() {
    if (this.#places === undefined) throw new TypeError('gussetraft: the loader was released');
  }

  /** The next piece of the file, of any length. A refusal has the position in the file. */
  piece(bytes) {
    this.#going();
    if (!(bytes instanceof Uint8Array)) throw new TypeError('gussetraft: a piece is a Uint8Array');
    const piece = this.#memory.call().lend(bytes);
    const { index, count, area, con } = this.#lists;
    told(
      this.#exports.gussetraft_load_piece_into(
        ...piece.lent,
        ...index.lent,
        ...count.lent,
        ...area.lent,
        ...con.lent,
        ...this.#numbers.lent,
      ),
    );
  }

  /** Declares the end of the file, and gives its field and its three sizes. */
  end() {
    this.#going();
    told(this.#exports.gussetraft_load_end_into(...this.#numbers.lent));
    const numbers = this.#numbers.copy();
    const [w, h, n] = [numbers[W], numbers[H], numbers[SPANS]];
    const { index, count, area, con } = this.#lists;
    return {
      field: { w, h, index: index.copy(w * h), count: count.copy(w * h), area: area.copy(n), con: con.copy(4 * n) },
      borderSize: numbers[BORDER_SIZE],
      minRegionArea: numbers[MIN_REGION_AREA],
      mergeRegionArea: numbers[MERGE_REGION_AREA],
    };
  }

  /** Gives the loader's memory back to the module, for other loaders and workspaces. */
  release() {
    this.#going();
    for (const place of this.#places) this.#memory.release(place);
    this.#places = undefined;
  }
}

// The answer of each call: the refusal in the low 32 bits, the position above it.
function told(answer) {
  const bits = BigInt.asUintN(64, answer);
  const refusal = Number(bits & 0xffffffffn);
  if (refusal === 3) throw new Refusal(3);
  if (refusal !== 0) throw new Refusal(refusal, { position: Number(bits >> 32n) });
}
