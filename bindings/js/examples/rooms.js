// rooms: a small field through the functions of Gussetraft, and its listing as document 01 has it. It prints what ../../../examples/c/rooms.c prints.
//
// Two rooms with a door between them; over a part of the left one lies a gallery, a second layer that leads nowhere else.

import { NO_CONNECTION, Refusal, refusalText } from '../index.js';

/** The listing's rows: the layers of a cell joined by '/', an empty cell as '-'. */
export function rows({ w, h, index, count }, ids) {
  const cell = (c) => (count[c] === 0 ? '-' : Array.from(ids.subarray(index[c], index[c] + count[c])).join('/'));
  return Array.from({ length: h }, (_, z) => Array.from({ length: w }, (_, x) => cell(x + z * w)).join(' '));
}

// How many layers each cell has.
const PLAN = [
  '1111111110111111111',
  '1111111110111111111',
  '1222111110111111111',
  '1222111110111111111',
  '1222111111111111111',
  '1222111110111111111',
  '1111111110111111111',
  '1111111110111111111',
  '1111111110111111111',
];

// The lists, each layer connected to the same layer of the cells beside it.
function field() {
  const [w, h] = [PLAN[0].length, PLAN.length];
  const layers = (x, z) => Number(PLAN[z]?.[x] ?? 0);
  const [index, count, con] = [[], [], []];
  for (let z = 0; z < h; z++) {
    for (let x = 0; x < w; x++) {
      index.push(con.length / 4);
      count.push(layers(x, z));
      for (let k = 0; k < layers(x, z); k++) {
        for (const [dx, dz] of [[-1, 0], [0, 1], [1, 0], [0, -1]]) con.push(k < layers(x + dx, z + dz) ? k : NO_CONNECTION);
      }
    }
  }
  return {
    w,
    h,
    index: Uint32Array.from(index),
    count: Uint8Array.from(count),
    area: new Uint8Array(con.length / 4).fill(1),
    con: Uint8Array.from(con),
  };
}

function run(g, level, workspace, print) {
  const { maxDistance, blurred } = g.buildDistanceField(level);
  const got = g.buildRegions(level, { blurred, maxDistance, minRegionArea: 4, mergeRegionArea: 8, workspace });
  print(`max_distance ${maxDistance} max_region ${got.maxRegion} overlaps ${got.overlaps} cut ${got.cut}`);
  rows(level, got.ids).forEach((row) => print(row));
}

export default function rooms(g, print) {
  const level = field();
  const workspace = g.workspace(level.area.length); // kept from call to call
  run(g, level, workspace, print);

  level.con[4] = NO_CONNECTION; // the second span no longer answers the first: bad input, told by its number
  try {
    run(g, level, workspace, print);
  } catch (error) {
    if (!(error instanceof Refusal)) throw error;
    print(`refused ${error.number}`);
    print(`(${refusalText(error.number)})`);
  }
  for (const { span, direction, layer } of g.mend(level).changes) {
    print(`mended: span ${span}, direction ${direction} led to layer ${layer}`);
  }
  workspace.release();
}
