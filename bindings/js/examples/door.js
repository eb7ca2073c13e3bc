// door: a door that opens and closes in an editor. Each time the stored lists are brought up to date, and only the rows reported are sent on. It prints what
// ../../../examples/c/door.c prints.

import { NO_CONNECTION, Refusal, refusalText } from '../index.js';

const [W, H, WALL, DOOR, DOOR_END] = [19, 40, 9, 20, 21];
const N = W * H;

// One span a cell, connected to the cells beside it; the wall is spans of area 0.
function field() {
  const con = [];
  for (let z = 0; z < H; z++) {
    for (let x = 0; x < W; x++) con.push(...[x > 0, z < H - 1, x < W - 1, z > 0].map((inside) => (inside ? 0 : NO_CONNECTION)));
  }
  return {
    w: W,
    h: H,
    index: Uint32Array.from({ length: N }, (_, c) => c),
    count: new Uint8Array(N).fill(1),
    area: Uint8Array.from({ length: N }, (_, c) => (c % W === WALL ? 0 : 1)),
    con: Uint8Array.from(con),
  };
}

const same = (a, b) => a.length === b.length && a.every((number, i) => number === b[i]);

export default function door(g, print) {
  const level = field();
  const kept = g.buildDistanceStages(level); // the lists that are kept
  const sent = kept.blurred.slice(); // what the other side has of the blurred distances
  print(`closed: max_distance ${kept.maxDistance}, all ${H} rows sent`);

  // Whether lists kept and sent, and maxDistance, are those of a build from nothing.
  const asBuilt = (maxDistance) => {
    const built = g.buildDistanceStages(level);
    const lists = ['pass1', 'raw', 'blurred'].every((name) => same(built[name], kept[name]));
    return lists && same(built.blurred, sent) && built.maxDistance === maxDistance;
  };

  const rect = { x0: WALL, z0: DOOR, x1: WALL, z1: DOOR_END };
  for (let turn = 1; turn <= 4; turn++) {
    const open = turn % 2 === 1;
    for (let z = DOOR; z <= DOOR_END; z++) level.area[WALL + z * W] = open ? 1 : 0;
    const got = g.refreshDistanceField(level, rect, kept);
    const [first, past] = [got.blurFirst * W, (got.blurLast + 1) * W];
    sent.set(kept.blurred.subarray(first, past), first);
    const how = asBuilt(got.maxDistance) ? 'as built from nothing' : 'NOT as built from nothing';
    print(`${open ? 'open' : 'closed'}: max_distance ${got.maxDistance}, rows ${got.blurFirst} to ${got.blurLast} sent, ${how}`);
  }

  // A rectangle past the last row: told by its number, and the lists stay.
  try {
    g.refreshDistanceField(level, { ...rect, z1: H }, kept);
  } catch (error) {
    if (!(error instanceof Refusal)) throw error;
    print(`refused ${error.number}`);
    print(`(${refusalText(error.number)})`);
  }
  if (!asBuilt(kept.maxDistance)) print('the lists changed');
}
