// A program as a user of the package writes it, compiled in TypeScript's strict mode. Each line below a mark is to be refused.
import { callsOf, columns, counts, InvalidInput, order, orderHolding, RimopakuError } from "rimopaku";
import type { Counts, Factor, Info, Integers, Options, Ordering } from "rimopaku";

const pointers = Int32Array.of(0, 2, 6, 10, 12, 14);
const indices: Integers = [0, 1, 0, 1, 2, 4, 1, 2, 3, 4, 2, 3, 1, 4];
const options: Options = { dense: 10, aggressive: true };

const { p, pInv, info }: Ordering = order(5, pointers, indices, options);
const figures: Info = info;
const isJumbled: boolean = info.jumbled;
const marks: Array<Uint8Array | boolean[] | number[]> = [Uint8Array.of(0, 1, 0, 0, 0), [false, true, false, false, false], [1]];
const held: Int32Array[] = marks.map((hold) => orderHolding(5, pointers, indices, hold).p);
const told: Counts = counts(5, pointers, indices, p);
const factor: Factor = columns(5, pointers, indices, p, { room: told.lnz });
const again: typeof order | undefined = isJumbled ? callsOf({}).order : undefined;

function nameOf(call: () => unknown): string {
  try {
    call();
  } catch (fault) {
    if (fault instanceof InvalidInput) return fault.name;
    if (fault instanceof RimopakuError) return fault.message;
  }
  return "no fault";
}

export const lines: string[] = [
  `${p} ${pInv} ${figures.lnz} ${again}`,
  `${held.map((order) => order[4])}`,
  `${told.sizes} ${told.parent} ${told.dMax}`,
  `${factor.pointers} ${factor.rows} ${factor.parent}`,
  nameOf(() => order(-1, pointers, indices)),
];

export const wrong = (): unknown[] => [
  // @ts-expect-error: the number of rows is missing
  order(pointers, indices),
  // @ts-expect-error: indices are no text
  order(5, pointers, "0 1"),
  // @ts-expect-error: aggressive is no number
  order(5, pointers, indices, { aggressive: 1 }),
  // @ts-expect-error: there is no such option
  order(5, pointers, indices, { sparse: 1 }),
  // @ts-expect-error: the rows that are held are missing
  orderHolding(5, pointers, indices),
  // @ts-expect-error: counts is of an order
  counts(5, pointers, indices),
  // @ts-expect-error: the room is a number
  columns(5, pointers, indices, p, { room: "all" }),
  // @ts-expect-error: there is no such figure
  info.fill,
  // @ts-expect-error: a permutation is no array of texts
  p.map((row): string => `${row}`),
];
