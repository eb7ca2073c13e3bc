// What the number of a refusal means; the texts are those of include/gussetraft.h.

const TEXTS = new Map([
  [1, 'the width or the height is above 256'],
  [2, 'there are more than 65,000 spans'],
  [3, 'a list other than the workspace has the wrong length'],
  [4, "a cell's count is above 63, its index is wrong, or the counts do not sum to the number of spans"],
  [5, 'a connection leaves the grid or names a layer that the cell lacks'],
  [6, 'a connection is not answered from the other side'],
  [7, 'the workspace is shorter than 128 numbers a span and 4,096'],
  [8, 'the greatest distance is above 510, or a distance is above the greatest'],
  [9, 'the scale is 0 or above 256'],
  [10, 'the ids are not one a span, or one is above the greatest and not flagged'],
  [11, 'the rectangle is empty or not in the field'],
  [12, 'ids run out: the next would be 0x8000'],
  [13, 'a source distance in expansion would exceed 65,535'],
  [14, 'there is no span of this number'],
  [20, 'the file is malformed: unknown kind, a record out of place, cut short, or bytes after the end'],
  [21, "the file's field has more cells or spans than the loader takes"],
  [22, 'the stored result is malformed'],
  [23, 'the runs of the stored result are not the longest'],
  [24, 'the output would exceed its list'],
  [25, 'a number of spans in the stored result is wrong'],
  [26, 'the span is beyond the end'],
  [27, 'there are more changes than places in their list'],
  [31, 'a stored pass 1 or raw value is above 510'],
]);

/** What the number of a refusal means. */
export function refusalText(number) {
  return number === 0 ? 'not refused' : TEXTS.get(number) ?? 'no such refusal';
}

/** A call that was refused. */
export class Refusal extends Error {
  /** @param {number} number the refusal; @param {object} [more] `position` in a file, `stretch` of a stored result */
  constructor(number, more = {}) {
    const place = more.position === undefined ? '' : ` at byte ${more.position}`;
    super(`refused ${number}${place}: ${refusalText(number)}`);
    this.name = 'Refusal';
    this.number = number;
    Object.assign(this, more);
  }
}
