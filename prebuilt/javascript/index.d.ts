/** Integers of 32 bits: an Int32Array is used as it is, and another array is copied. */
export type Integers = Int32Array | ArrayLike<number>;

export interface Options {
  /** A row with more than max(16, dense * sqrt(n)) entries of A + A' comes last; 10 by default. Below 0 only full rows do. */
  dense?: number;
  /** The same in thousandths, as the C library takes it; in the place of `dense`. */
  thousandths?: number;
  /** Whether absorption is aggressive; true by default. */
  aggressive?: boolean;
}

/** What an ordering tells. Numbers above 2**53 are rounded. L is the factor of the matrix in the new order. */
export interface Info {
  /** Rows. */
  n: number;
  /** Entries of the pattern, without duplicates. */
  nz: number;
  /** Whether the pattern equals its transpose. */
  symmetry: boolean;
  /** Entries on the diagonal. */
  nzDiag: number;
  /** Entries of A + A' off the diagonal. */
  nzAPlusAt: number;
  /** Rows placed last: dense ones, and held ones. */
  nDense: number;
  /** Compactions of the workspace. */
  nCmpA: number;
  /** Entries of L below its diagonal, at most. */
  lnz: number;
  /** Divisions, at most. */
  nDiv: number;
  /** Multiply-subtract steps of LDL', at most. */
  nMultSubsLdl: number;
  /** Multiply-subtract steps of LU, at most. */
  nMultSubsLu: number;
  /** Entries of the longest column of L with its diagonal, at most. */
  dMax: number;
  /** Whether some column of the input was unsorted or had a duplicate. */
  jumbled: boolean;
}

export interface Ordering {
  /** Row p[k] comes at place k. */
  p: Int32Array;
  /** Row i comes at place pInv[i]. */
  pInv: Int32Array;
  info: Info;
}

/** Exact figures of the factor in an order. */
export interface Counts {
  /** Entries of each column below the diagonal. */
  sizes: Int32Array;
  /** The elimination tree: the parent of each column, or -1. */
  parent: Int32Array;
  lnz: number;
  nMultSubsLdl: number;
  nMultSubsLu: number;
  dMax: number;
}

/** The pattern of the factor below its diagonal, column by column. */
export interface Factor {
  pointers: Int32Array;
  rows: Int32Array;
  /** The elimination tree: the parent of each column, or -1. */
  parent: Int32Array;
}

export class RimopakuError extends Error {}
export class InvalidInput extends RimopakuError {}
export class NotPermutation extends RimopakuError {}
export class RoomTooSmall extends RimopakuError {}
export class OutOfMemory extends RimopakuError {}

/**
 * Orders the rows and columns of an n by n matrix in compressed columns. Column j has the rows indices[pointers[j]] to
 * indices[pointers[j + 1] - 1], from 0 on; columns may be unsorted and have duplicates. The pattern of A + A' is ordered.
 */
export function order(n: number, pointers: Integers, indices: Integers, options?: Options): Ordering;

/** The same with rows that come last: a mask with one byte or boolean for each row, or the numbers of the rows. */
export function orderHolding(
  n: number,
  pointers: Integers,
  indices: Integers,
  hold: Uint8Array | boolean[] | Integers,
  options?: Options,
): Ordering;

/** Counts the entries of the factor in the order p, which may be any permutation, without writing them. */
export function counts(n: number, pointers: Integers, indices: Integers, p: Integers): Counts;

/** The entries of the factor in the order p. With `room`, at most so many; without it as many as there are. */
export function columns(n: number, pointers: Integers, indices: Integers, p: Integers, options?: { room?: number }): Factor;

/** The four calls. */
export interface Calls {
  order: typeof order;
  orderHolding: typeof orderHolding;
  counts: typeof counts;
  columns: typeof columns;
}

/** The calls of a compiled WebAssembly.Module: of rimopaku64.wasm, where the host has memories of 64 bits. */
export function callsOf(module: object): Calls;
