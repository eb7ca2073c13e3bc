/** The connection byte of a side that leads nowhere. */
export const NO_CONNECTION: 255;

/** The bit of a painted border's ids: 1 to 4 beside it for the left columns, the right columns, the low rows and the high rows. */
export const BORDER: 0x8000;

/** How many numbers a workspace has at least, for so many spans. */
export function workspaceLength(spans: number): number;

/** Whether this engine has WebAssembly with 64-bit memories. */
export function supported(): boolean;

/** What the number of a refusal means. */
export function refusalText(number: number): string;

/** A call that was refused. Nothing that was given has changed then. */
export class Refusal extends Error {
  readonly name: 'Refusal';
  /** The number of the refusal: see the table in the README of the repository. */
  readonly number: number;
  /** Of a field file: where, counted from 0. */
  readonly position?: number;
  /** Of idAt and idAtWhole: the stretch that was read, 0 where none was chosen. */
  readonly stretch?: number;
}

/** The lists of a compact heightfield. Nothing is asked of what they hold: what does not fit is refused. */
export interface Field {
  /** How many cells a row has, 256 at most. */
  w: number;
  /** How many rows there are, 256 at most. */
  h: number;
  /** For each cell, row by row and x fastest, the number of its first span. */
  index: Uint32Array;
  /** For each cell, how many spans it has, 63 at most. */
  count: Uint8Array;
  /** For each span its area; 0 is not walkable. There are 65,000 spans at most. */
  area: Uint8Array;
  /** For each span four bytes, in the directions (-1, 0), (0, 1), (1, 0), (0, -1): a layer of the cell there, or NO_CONNECTION. */
  con: Uint8Array;
}

export interface Distances {
  /** The greatest raw distance. */
  maxDistance: number;
  raw: Uint16Array;
  blurred: Uint16Array;
}

export interface Stages extends Distances {
  pass1: Uint16Array;
}

/** Columns x0 to x1 of rows z0 to z1, ends included. */
export interface Rect {
  x0: number;
  z0: number;
  x1: number;
  z1: number;
}

/** The first and the last row redone in each stage: the only rows of its list that can have changed. */
export interface Refreshed {
  maxDistance: number;
  pass1First: number;
  pass1Last: number;
  pass2First: number;
  pass2Last: number;
  blurFirst: number;
  blurLast: number;
}

/** Why a span has its number, or none. `trail` is the grown id and each id that it became by a merge. */
export type Reason =
  | { reason: 'notWalkable' }
  | { reason: 'painted'; strip: number }
  | { reason: 'neverReached' }
  | { reason: 'filteredOut'; groupCount: number; leastArea: number }
  | { reason: 'flooded'; grownId: number; number: number; trail: Uint16Array }
  | { reason: 'expanded'; grownId: number; fromSpan: number; number: number; trail: Uint16Array };

/** The reason, and the last flood that gave the span back, if one did, with the span that objected. */
export type Explanation = Reason & { gaveBack: { id: number; objectingSpan: number } | null };

export interface RegionOptions {
  /** The blurred distances, or any others up to 510. */
  blurred: Uint16Array;
  maxDistance: number;
  /** 0 if it is left out. */
  borderSize?: number;
  /** In spans; 0 if it is left out. */
  minRegionArea?: number;
  /** In spans; 0 if it is left out. */
  mergeRegionArea?: number;
  /** A workspace that is kept; without it the call has its own. */
  workspace?: Workspace;
}

export interface Regions {
  /** The greatest id in use, 0 where none is. */
  maxRegion: number;
  /** How many regions, before the merge, lie over themselves. */
  overlaps: number;
  /** How many regions have a contour that was cut short after 40,000 steps. */
  cut: number;
  /** The id of each span; 0 is none. */
  ids: Uint16Array;
}

export interface RoomOptions {
  /** 0 if it is left out. */
  borderSize?: number;
  workspace?: Workspace;
}

export interface Rooms {
  /** The number of rooms, and so the greatest id of one. */
  maxRegion: number;
  ids: Uint16Array;
}

/** The sizes of one room, in metres and square metres, each exact. */
export interface Room {
  floor: number;
  xLeast: number;
  xPast: number;
  zLeast: number;
  zPast: number;
  /** The area code of its first span. */
  area: number;
  /** How many spans have the id. */
  count: number;
}

/** A connection that was set to none. */
export interface Change {
  span: number;
  direction: 0 | 1 | 2 | 3;
  /** The layer that was named. */
  layer: number;
}

/** What a field file has. */
export interface Loaded {
  field: Field;
  borderSize: number;
  minRegionArea: number;
  mergeRegionArea: number;
}

/** A workspace that stays in the module's memory. */
export interface Workspace {
  /** How many numbers it has. */
  readonly length: number;
  /** Its numbers: zeros after a call that was not refused. */
  copy(): Uint16Array;
  /** Gives its memory back to the module. */
  release(): void;
}

/** Takes a field file in pieces. */
export interface Loader {
  /** The next piece, of any length. */
  piece(bytes: Uint8Array): void;
  /** Declares the end: a file is complete only then. */
  end(): Loaded;
  /** Gives its memory back to the module. */
  release(): void;
}

/** The id of one span, and the stretch of 64 runs that was read. */
export interface SpanId {
  id: number;
  stretch: number;
}

/** The functions of the library, over one instance of the module. Each throws Refusal where the library refuses. */
export class Gussetraft {
  constructor(instance: WebAssembly.Instance);
  readonly memoryBytes: number;
  workspace(mostSpans: number): Workspace;
  buildDistanceField(field: Field): Distances;
  buildDistanceStages(field: Field): Stages;
  refreshDistanceField(field: Field, rect: Rect, stages: Pick<Stages, 'pass1' | 'raw' | 'blurred'> & { maxDistance?: number }): Refreshed;
  buildRegions(field: Field, options: RegionOptions): Regions;
  buildRegionsCompared(field: Field, options: RegionOptions): Regions;
  explainSpan(field: Field, span: number, options: RegionOptions): Explanation;
  buildRooms(field: Field, options?: RoomOptions): Rooms;
  measureRoom(field: Field, asked: { ids: Uint16Array; maxRegion: number; k: number; id: number }): Room;
  mend(field: Field): { con: Uint8Array; changes: Change[] };
  loader(mostCells: number, mostSpans: number): Loader;
  pack(file: Uint8Array): Uint8Array;
  unpack(file: Uint8Array): Uint8Array;
  idAt(file: Uint8Array, span: number): SpanId;
  idAtWhole(file: Uint8Array, span: number): SpanId;
}

/**
 * Loads the module: bytes, a WebAssembly.Module, a Response, or a place to fetch it from. Without one it is gussetraft.wasm beside the package, or, in a
 * clone of the repository under node, where tools/targets writes it. Fails with a sentence where the engine has no 64-bit memories.
 */
export function load(source?: BufferSource | WebAssembly.Module | Response | URL | string | PromiseLike<Response>): Promise<Gussetraft>;
