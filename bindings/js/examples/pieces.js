// pieces: a field file that arrives a few bytes at a time. It prints what ../../../examples/c/pieces.c prints.

import { Refusal, refusalText } from '../index.js';

const [CELLS, SPANS] = [64, 64]; // the most that this program takes

// Two cells in a row, a span each, joined: header, cell, span, cell, span, end.
const FILE = Uint8Array.of(
  ...[1, 2, 0, 1, 0, 0, 0, 8, 0, 20, 0],
  ...[2, 1, 3, 1, 255, 255, 0, 255],
  ...[2, 1, 3, 1, 0, 255, 255, 255],
  4,
);

// Loads the bytes in pieces of so many, and declares their end.
function load(g, bytes, piece) {
  const loader = g.loader(CELLS, SPANS);
  try {
    for (let at = 0; at < bytes.length; at += piece) loader.piece(bytes.subarray(at, at + piece));
    return loader.end();
  } finally {
    loader.release();
  }
}

export default function pieces(g, print) {
  let loaded;
  for (let piece = 1; piece <= FILE.length; piece *= 3) {
    loaded = load(g, FILE, piece);
    const { field, mergeRegionArea } = loaded;
    print(`pieces of ${piece}: ${field.w} by ${field.h} cells, ${field.area.length} spans, merge area ${mergeRegionArea}`);
  }
  print(`refused 0, max_distance ${g.buildDistanceField(loaded.field).maxDistance}`);

  const tell = (what, bytes) => {
    try {
      load(g, bytes, 7);
    } catch (error) {
      if (!(error instanceof Refusal)) throw error;
      print(`${what}: refused ${error.number} at byte ${error.position}`);
      print(`(${refusalText(error.number)})`);
    }
  };
  tell('its first 20 bytes', FILE.subarray(0, 20));
  tell('a cell for a span', FILE.with(13, 2)); // a cell where a span is due
}
