// The package over gussetraft.wasm. What the library answers on other fields is held against the unchanged Rust by ../../../platforms/try.

import assert from 'node:assert/strict';
import { spawnSync } from 'node:child_process';
import { cpSync, mkdtempSync, readFileSync, readdirSync, rmSync, writeFileSync } from 'node:fs';
import { tmpdir } from 'node:os';
import { join } from 'node:path';
import { test } from 'node:test';
import { pathToFileURL } from 'node:url';

import { BORDER, NO_CONNECTION, Gussetraft, Refusal, load, refusalText, supported, workspaceLength } from '../index.js';
import door from '../examples/door.js';
import pieces from '../examples/pieces.js';
import rooms, { rows } from '../examples/rooms.js';

const root = new URL('../../../', import.meta.url);
const read = (name) => readFileSync(new URL(name, root));
const header = read('include/gussetraft.h').toString();
const wasm = read('target/dist/wasm64-unknown-unknown/gussetraft.wasm');
const g = await load(wasm);

// One span a cell, area 1, all connected.
function open(w, h) {
  const n = w * h;
  const con = new Uint8Array(4 * n);
  for (let c = 0; c < n; c++) {
    const [x, z] = [c % w, Math.floor(c / w)];
    con.set([x > 0, z < h - 1, x < w - 1, z > 0].map((inside) => (inside ? 0 : NO_CONNECTION)), 4 * c);
  }
  return { w, h, index: Uint32Array.from({ length: n }, (_, c) => c), count: new Uint8Array(n).fill(1), area: new Uint8Array(n).fill(1), con };
}

const copyOf = (field) => ({ ...field, index: field.index.slice(), count: field.count.slice(), area: field.area.slice(), con: field.con.slice() });
const refused = (number) => (error) => {
  assert.ok(error instanceof Refusal, String(error));
  assert.equal(error.number, number);
  assert.ok(error.message.endsWith(refusalText(number)));
  return true;
};
const stored = (ids) => Uint8Array.from([...Array.from(ids).flatMap((id) => [5, id & 255, id >> 8]), 4]);

test('the texts of the refusals are those of the header, and there are no others', () => {
  const numbers = new Map([...header.matchAll(/^ {4}(GUSSETRAFT_[A-Z_]+) = (\d+)/gm)].map(([, name, number]) => [name, Number(number)]));
  const texts = new Map([...header.matchAll(/case (\w+): return "(.*)";/g)].map(([, name, text]) => [name === '0' ? 0 : numbers.get(name), text]));
  assert.ok(texts.size > 20);
  for (let number = 0; number < 70_000; number++) assert.equal(refusalText(number), texts.get(number) ?? 'no such refusal');
});

test('the module has every function of the header, and needs nothing', async () => {
  const module = await WebAssembly.compile(wasm);
  assert.deepEqual(WebAssembly.Module.imports(module), []);
  const has = new Set(WebAssembly.Module.exports(module).map(({ name }) => name));
  const names = [...header.matchAll(/^(?!static)[a-z]\w* (gussetraft_\w+)\(/gm)].map(([, name]) => name);
  assert.ok(names.length >= 15);
  for (const name of names) assert.ok(has.has(name), name);
});

test('the package uses every function of the module', async () => {
  const source = ['index.js', 'loader.js'].map((name) => readFileSync(new URL(`../${name}`, import.meta.url)).toString()).join('');
  for (const { name } of WebAssembly.Module.exports(await WebAssembly.compile(wasm))) {
    if (name.startsWith('gussetraft_')) assert.ok(source.includes(`.${name}`), name);
  }
});

test('the types name every method', () => {
  const types = readFileSync(new URL('../index.d.ts', import.meta.url)).toString();
  const body = /export class Gussetraft \{([^}]*(?:\{[^}]*\}[^}]*)*)\n\}/.exec(types)[1];
  const typed = [...body.matchAll(/^ {2}(?:readonly )?(\w+)[(:]/gm)].map(([, name]) => name).sort();
  assert.deepEqual(typed, Object.getOwnPropertyNames(Gussetraft.prototype).sort());
});

test("document 01's figures of open fields", () => {
  const three = open(3, 3);
  const { maxDistance, raw, blurred } = g.buildDistanceField(three);
  assert.equal(maxDistance, 2);
  assert.deepEqual(raw, Uint16Array.of(0, 0, 0, 0, 2, 0, 0, 0, 0));
  assert.deepEqual(blurred, raw);
  const least = (minRegionArea) => g.buildRegions(three, { blurred, maxDistance, minRegionArea });
  assert.deepEqual(least(9), { maxRegion: 1, overlaps: 0, cut: 0, ids: new Uint16Array(9).fill(1) });
  assert.deepEqual(least(10), { maxRegion: 0, overlaps: 0, cut: 0, ids: new Uint16Array(9) });
  assert.equal(g.buildRegionsCompared(three, { blurred, maxDistance }).maxRegion, 2);

  const five = open(5, 5);
  const far = g.buildDistanceField(five);
  const { ids, maxRegion } = g.buildRegionsCompared(five, { ...far, borderSize: 1 });
  assert.equal(maxRegion, 6);
  assert.deepEqual([ids[0], ids[10], ids[14], ids[24], ids[12]], [BORDER + 3, BORDER + 1, BORDER + 2, BORDER + 4, 5]);
});

for (const name of readdirSync(new URL('samples', root)).filter((name) => name.endsWith('.field'))) {
  test(`the listing of samples/${name}`, () => {
    const lines = [];
    try {
      const loader = g.loader(1024, 200);
      const file = read(`samples/${name}`); // a Buffer, which is a Uint8Array
      for (let at = 0; at < file.length; at += 5) loader.piece(file.subarray(at, at + 5));
      const { field, ...sizes } = loader.end();
      loader.release();
      const { maxDistance, blurred } = g.buildDistanceField(field);
      const got = g.buildRegions(field, { blurred, maxDistance, ...sizes });
      lines.push(`max_distance ${maxDistance} max_region ${got.maxRegion} overlaps ${got.overlaps} cut ${got.cut}`, ...rows(field, got.ids));
    } catch (error) {
      if (!(error instanceof Refusal)) throw error;
      lines.push(`refused ${error.number}`);
    }
    assert.equal(`${lines.join('\n')}\n`, read(`samples/${name.replace('.field', '.listing')}`).toString());
  });
}

for (const [name, example] of Object.entries({ rooms, door, pieces })) {
  test(`the example ${name} prints what its C twin prints`, () => {
    const printed = [];
    example(g, (line) => printed.push(`${line}\n`));
    assert.equal(printed.join(''), read(`examples/c/${name}.stdout`).toString());
  });
}

test('a span is explained: the reason goes with the id that the build gives it', () => {
  const field = open(12, 9);
  for (const at of [3, 15, 27, 50]) field.area[at] = 0;
  const { blurred, maxDistance } = g.buildDistanceField(field);
  const seen = new Set();
  for (const sizes of [{}, { minRegionArea: 200 }, { borderSize: 2 }, { mergeRegionArea: 50 }]) {
    const options = { blurred, maxDistance, ...sizes };
    const { ids } = g.buildRegions(field, options);
    for (let span = 0; span < ids.length; span++) {
      const got = g.explainSpan(field, span, options);
      seen.add(got.reason);
      if (got.reason === 'painted') assert.equal(ids[span], BORDER + got.strip);
      else if ('number' in got) {
        assert.equal(got.number, ids[span]);
        assert.equal(got.trail[0], got.grownId);
      } else assert.equal(ids[span], 0);
      if (got.reason === 'notWalkable') assert.equal(field.area[span], 0);
      if (got.reason === 'filteredOut') assert.ok(got.groupCount < got.leastArea && got.leastArea === 200);
    }
  }
  for (const reason of ['notWalkable', 'painted', 'filteredOut', 'flooded', 'expanded']) assert.ok(seen.has(reason), reason);
  assert.throws(() => g.explainSpan(field, 108, { blurred, maxDistance }), refused(14));
  assert.throws(() => g.explainSpan(field, -1, { blurred, maxDistance }), RangeError);
});

test('refusals 1 to 8 come with number and text, and nothing changes', () => {
  const damaged = (edit) => {
    const field = open(3, 3);
    edit(field);
    return field;
  };
  const cases = [
    [1, damaged((f) => (f.w = 257))],
    [2, damaged((f) => (f.area = new Uint8Array(65_001)))],
    [3, damaged((f) => (f.con = f.con.subarray(1)))],
    [4, damaged((f) => (f.index[4] = 5))],
    [5, damaged((f) => (f.con[0] = 0))],
    [6, damaged((f) => (f.con[2] = 255))],
  ];
  for (const [number, field] of cases) {
    const before = copyOf(field);
    assert.throws(() => g.buildDistanceField(field), refused(number));
    assert.throws(() => g.buildRooms(field), refused(number));
    assert.deepEqual(field, before);
  }
  const far = g.buildDistanceField(open(3, 3));
  assert.throws(() => g.buildRegions(open(3, 3), { ...far, workspace: g.workspace(8) }), refused(7));
  assert.throws(() => g.buildRegions(open(3, 3), { ...far, maxDistance: 1 }), refused(8));
  assert.throws(() => g.buildRegions(open(3, 3), { ...far, blurred: far.blurred.subarray(1) }), refused(3));
});

test('plain rooms, and their sizes in metres', () => {
  const field = open(6, 3);
  for (let c = 0; c < 18; c++) if (c % 6 >= 4) field.area[c] = 2;
  const { ids, maxRegion } = g.buildRooms(field);
  assert.equal(maxRegion, 2);
  assert.deepEqual(ids, Uint16Array.from({ length: 18 }, (_, c) => (c % 6 >= 4 ? 2 : 1)));
  // 20/64 metre a cell: 6 cells of 0.09765625 square metres
  assert.deepEqual(g.measureRoom(field, { ids, maxRegion, k: 20, id: 2 }), {
    floor: 0.5859375,
    xLeast: 1.25,
    xPast: 1.875,
    zLeast: 0,
    zPast: 0.9375,
    area: 2,
    count: 6,
  });
  assert.throws(() => g.measureRoom(field, { ids, maxRegion, k: 0, id: 1 }), refused(9));
  assert.throws(() => g.measureRoom(field, { ids, maxRegion: 1, k: 1, id: 1 }), refused(10));
});

test('mending lists each change, leaves the field given, and comes to a sound field', () => {
  const field = open(3, 3);
  field.con[4] = NO_CONNECTION;
  const before = copyOf(field);
  const { con, changes } = g.mend(field);
  assert.deepEqual(changes, [{ span: 0, direction: 2, layer: 0 }]);
  assert.deepEqual(field, before);
  assert.deepEqual(g.mend({ ...field, con }), { con, changes: [] });
  assert.equal(g.buildDistanceField({ ...field, con }).maxDistance, 2);
  assert.throws(() => g.buildDistanceField(field), refused(6));
});

test('a refresh brings the lists given up to date, or leaves them', () => {
  const field = open(9, 9);
  const kept = g.buildDistanceStages(field);
  field.area[40] = 0;
  const got = g.refreshDistanceField(field, { x0: 4, z0: 4, x1: 4, z1: 4 }, kept);
  const { maxDistance, ...lists } = g.buildDistanceStages(field);
  assert.equal(got.maxDistance, maxDistance);
  assert.deepEqual(kept, { maxDistance, ...lists });
  kept.raw[0] = 511;
  const before = structuredClone(kept);
  assert.throws(() => g.refreshDistanceField(field, { x0: 4, z0: 4, x1: 4, z1: 4 }, kept), refused(31));
  assert.throws(() => g.refreshDistanceField(field, { x0: 4, z0: 4, x1: 9, z1: 4 }, kept), refused(11));
  assert.deepEqual(kept, before);
});

test('stored results go to runs and back, and single ids are read from them', () => {
  const ids = Uint16Array.from({ length: 5_000 }, (_, s) => (s % 7 < 3 ? 1 : s >> 4));
  const old = stored(ids);
  const packed = g.pack(old);
  assert.ok(packed.length < old.length);
  assert.deepEqual(g.unpack(packed), old);
  for (const span of [0, 1, 63, 64, 2_500, 4_999]) {
    assert.equal(g.idAt(packed, span).id, ids[span]);
    assert.deepEqual(g.idAt(packed, span), g.idAtWhole(packed, span));
  }
  assert.ok(g.idAt(packed, 4_999).stretch > 0);
  assert.throws(() => g.idAt(packed, 5_000), refused(26));
  assert.throws(() => g.pack(packed), refused(22));
  assert.throws(() => g.unpack(Uint8Array.of(6, 1, 0, 1, 0, 6, 1, 0, 1, 0, 4)), refused(23));
  assert.deepEqual(g.unpack(g.pack(stored(new Uint16Array(70_000)))), stored(new Uint16Array(70_000)));
  // runs that are all of other ids: the most that a packed file can have
  const other = stored(Uint16Array.from({ length: 640 }, (_, s) => s));
  assert.deepEqual(g.unpack(g.pack(other)), other);
});

test('a loader refuses at the position in the file, and says the same again', () => {
  const loader = g.loader(64, 64);
  const bad = Uint8Array.of(1, 2, 0, 1, 0, 0, 0, 8, 0, 20, 0, 2, 1, 2);
  assert.throws(() => loader.piece(bad), (error) => refused(20)(error) && error.position === 13);
  assert.throws(() => loader.end(), (error) => refused(20)(error) && error.position === 13);
  loader.release();
  assert.throws(() => loader.end(), TypeError);
  assert.throws(() => g.loader(1, 64).piece(bad), (error) => refused(21)(error) && error.position === 0);
  assert.throws(() => g.loader(0xffffffff, 0xffffffff), RangeError); // more than the module's memory can have
});

test('what was handed out stays when the memory grows', async () => {
  const own = await load(wasm);
  const small = open(9, 9);
  const workspace = own.workspace(81);
  const far = own.buildDistanceField(small);
  const got = own.buildRegions(small, { ...far, workspace });
  const before = structuredClone({ far, got });
  const bytes = own.memoryBytes;
  const large = open(256, 250);
  const largeFar = own.buildDistanceField(large);
  const largeGot = own.buildRegions(large, largeFar);
  assert.ok(own.memoryBytes > bytes + 2 * workspaceLength(64_000));
  assert.equal(largeGot.ids.length, 64_000);
  assert.deepEqual({ far, got }, before);
  assert.deepEqual(own.buildRegions(small, { ...far, workspace }), got);
  // and no call needs more than the one before it did
  const after = own.memoryBytes;
  own.buildRegions(large, largeFar);
  assert.equal(own.memoryBytes, after);
});

test('a kept workspace holds zeros after a call, and is its own instance alone', async () => {
  const field = open(9, 9);
  const far = g.buildDistanceField(field);
  const workspace = g.workspace(100);
  assert.equal(workspace.length, workspaceLength(100));
  const first = g.buildRegions(field, { ...far, workspace });
  assert.deepEqual(workspace.copy(), new Uint16Array(workspace.length));
  assert.deepEqual(g.buildRegions(field, { ...far, workspace }), first);
  assert.deepEqual(g.buildRegions(field, far), first);
  assert.throws(() => g.buildRegions(field, { ...far, workspace: new Uint16Array(20_000) }), TypeError);
  const other = await load(wasm);
  assert.throws(() => other.buildRegions(field, { ...far, workspace }), TypeError);
  // its memory is used again
  const bytes = g.memoryBytes;
  for (let i = 0; i < 1_000; i++) g.workspace(100).release();
  assert.ok(g.memoryBytes <= bytes + 65_536);
  workspace.release();
  assert.throws(() => workspace.copy(), TypeError);
});

test('lists of other types and numbers that do not fit are errors of the caller', () => {
  const field = open(3, 3);
  assert.throws(() => g.buildDistanceField({ ...field, area: Array.from(field.area) }), TypeError);
  assert.throws(() => g.buildDistanceField({ ...field, index: new Uint16Array(9) }), TypeError);
  for (const w of [-1, 65_536, 2.5, NaN, '3', undefined]) assert.throws(() => g.buildDistanceField({ ...field, w }), RangeError);
  assert.throws(() => g.buildRegions(field, { ...g.buildDistanceField(field), borderSize: 65_536 }), RangeError);
  assert.throws(() => g.idAt(Uint8Array.of(4), 2 ** 32), RangeError);
});

// What a process of node says that loads the package from a folder, with these words.
function loadedFrom(folder, words) {
  const script = `import(${JSON.stringify(new URL('index.js', folder).href)}).then((p) => p.load()).then(() => 'loaded', (e) => e.message).then(console.log)`;
  return spawnSync(process.execPath, [...words, '-e', script], { encoding: 'utf8', env: { ...process.env, NODE_OPTIONS: '' } }).stdout.trim();
}
const FLAG = '--experimental-wasm-memory64';
const needsFlag = process.execArgv.includes(FLAG); // run-tests gives it where it is needed
const here = new URL('../', import.meta.url);

test('an engine without 64-bit memories is told so in a sentence', { skip: !needsFlag && 'this engine has them without a flag' }, () => {
  assert.ok(supported());
  assert.match(loadedFrom(here, []), /^gussetraft: this engine has no 64-bit WebAssembly memories.*--experimental-wasm-memory64/);
});

test('the module is found beside the package or where tools/targets writes it; where there is none, the command that makes it is told', () => {
  const words = needsFlag ? [FLAG] : [];
  assert.equal(loadedFrom(here, words), 'loaded');
  const folder = mkdtempSync(join(tmpdir(), 'gussetraft-'));
  try {
    const copied = pathToFileURL(join(folder, 'a/b/'));
    for (const name of ['package.json', 'index.js', 'memory.js', 'loader.js', 'refusals.js']) cpSync(new URL(name, here), new URL(name, copied));
    assert.match(loadedFrom(copied, words), /^gussetraft: there is no .*gussetraft\.wasm.*tools\/targets wasm64-unknown-unknown$/);
    writeFileSync(new URL('gussetraft.wasm', copied), wasm);
    assert.equal(loadedFrom(copied, words), 'loaded');
  } finally {
    rmSync(folder, { recursive: true });
  }
});
