/** A line of a board: its tips, or its tips and how often it is placed. */
export type Line = number[] | { tips: number[]; quantity: number };
export interface Board {
  rack: number;
  lines: Line[];
}
/** A job file as bytes, or the board that it is made of. */
export type JobFile = Uint8Array | number[] | Board;
/** The tip of each line, and the pairs of placements that share a tip. */
export interface Plan {
  tips: number[];
  pairs: number;
}
/** A part to be placed: its first and last position, counted from 0, and whether it is fine, and tall. */
export type Part = [first: number, last: number, fine?: boolean, tall?: boolean];

/** A call was refused. docs/what-to-do.md says for each number what to do. */
export declare class Refused extends Error {
  readonly number: number;
  readonly words: string;
  /** The line, part or rule that the refusal is about, else 0. */
  readonly place: number;
  /** For 26 the margin, below zero. */
  readonly margin: number;
}

export interface Calls {
  readonly version: string;
  words(number: number): string;
  read(file: JobFile): { rack: number; count: number };
  common(file: JobFile): { top: number; off: number; tips: number[] };
  keep(file: JobFile, k: number): { file: Uint8Array; margin: number };
  goal(file: JobFile, pairs: number): Uint8Array;
  quick(file: JobFile, mounted?: number | null): Plan;
  best(file: JobFile, mounted?: number | null): Plan & { table: number[] };
  along(file: JobFile, mounted?: number | null): Plan & { changes: number };
  exact(file: JobFile, price?: number, mounted?: number | null): Plan & { used: number };
  check(file: JobFile, tips: number[], claim: number, table: number[]): void;
  junior(file: JobFile): Plan & { carried: [number, number] };
  merge(first: JobFile, second: JobFile): Uint8Array;
  alone(first: JobFile, second: JobFile): [Plan, Plan];
  mend(file: JobFile): { file: Uint8Array; changes: { line: number; what: number }[] };
  order(parts: Part[], rules?: [earlier: number, later: number][]): number[];
  windows(parts: Part[], rules?: [earlier: number, later: number][]): [first: number, last: number][];
  orderByTips(
    parts: Part[],
    tips: number[],
    rules?: [earlier: number, later: number][],
    mounted?: number | null,
  ): { order: number[]; changes: number };
  report(file: JobFile): string;
}

/** The calls, once the module is there: that beside this file, or the bytes or the module that is handed over. */
export declare function load(source?: BufferSource | WebAssembly.Module): Promise<Calls>;
/** A job file. */
export declare function job(rack: number, lines: Line[]): Uint8Array;
/** The rack size and the lines of a job file that the library has accepted or written. */
export declare function board(file: Uint8Array | number[]): { rack: number; lines: { tips: number[]; quantity: number }[] };
