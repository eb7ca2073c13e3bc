// Compiled by run-tests, where tsc is at hand, and never run: what a caller in TypeScript may write, and what must be refused.

import { Field, Refusal, Regions, Stages, Workspace, load } from '../index.js';

export async function use(): Promise<number | undefined> {
  const g = await load(new Uint8Array(3));
  const field: Field = { w: 1, h: 1, index: new Uint32Array(1), count: new Uint8Array(1), area: new Uint8Array(1), con: new Uint8Array(4) };
  const distances = g.buildDistanceField(field);
  const workspace: Workspace = g.workspace(3);
  const regions: Regions = g.buildRegions(field, { ...distances, workspace, borderSize: 1 });
  const stages: Stages = g.buildDistanceStages(field);
  const { blurFirst } = g.refreshDistanceField(field, { x0: 0, z0: 0, x1: 0, z1: 0 }, stages);
  const { floor } = g.measureRoom(field, { ids: regions.ids, maxRegion: regions.maxRegion, k: 20, id: 1 });
  const loader = g.loader(1, 1);
  loader.piece(new Uint8Array(1));
  const { field: loaded, ...sizes } = loader.end();
  g.buildRegionsCompared(loaded, { ...distances, ...sizes });
  // @ts-expect-error a plain list is no typed array
  g.pack([1, 2]);
  // @ts-expect-error there is no such option
  g.buildRooms(field, { border: 1 });
  // @ts-expect-error distances are asked for
  g.buildRegions(field, { workspace });
  try {
    return g.idAt(g.pack(new Uint8Array(1)), blurFirst + floor).id;
  } catch (error) {
    return error instanceof Refusal ? error.position : undefined;
  }
}
