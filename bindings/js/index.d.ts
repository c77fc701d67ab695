// SPDX-License-Identifier: MIT OR Apache-2.0

declare global {
  interface SymbolConstructor {
    readonly dispose: unique symbol;
  }
}

/** The last tick, 2^53 - 1. A tick, a deadline or an interval beyond it throws a RangeError. */
export const LAST: number;

/** The statuses of the C library. */
export const Status: {
  // made by tools/facts: types of statuses
  /** done */
  readonly OK: 0;
  /** not open */
  readonly NOT_OPEN: 1;
  /** already open */
  readonly OPEN: 2;
  /** no such table */
  readonly NO_TABLE: 3;
  /** out of memory */
  readonly NO_MEMORY: 4;
  /** an expired timer was not yet taken */
  readonly DUE: 5;
  /** no timer has this handle */
  readonly NOT_PENDING: 6;
  /** the interval is 0 */
  readonly ZERO_INTERVAL: 7;
  /** after the last tick */
  readonly TOO_LATE: 8;
  /** every serial was used */
  readonly SERIALS_SPENT: 9;
  /** the clock is at its last tick */
  readonly CLOCK_END: 10;
};

/** What C refuses. Nothing has changed then. */
export class TimersError extends Error {
  private constructor();
  readonly name: "TimersError";
  /** one of `Status` */
  readonly status: number;
}

/** The name of a timer. Two are of one timer exactly if they are the same object. */
export class Handle {
  private constructor();
  readonly place: number;
  readonly serial: number;
}

export interface Timer<T> {
  /** the tick at which it expired; of `look`, at which it expires */
  readonly deadline: number;
  /** that of its handle, which no other timer of these has */
  readonly serial: number;
  readonly value: T;
}

/** Timers that own their values, and a clock of ticks, which stands still until it is advanced. */
export class Timers<T = unknown> {
  /** @param first the tick at which the clock begins, by default 0 */
  constructor(first?: number);
  [Symbol.dispose](): void;
  // made by tools/facts: calls in JavaScript
  /** Starts a timer that expires so many ticks after `now`, 1 or more, and returns its handle. */
  start(interval: number, value: T): Handle;
  /** Starts a timer that expires at this tick, and returns its handle. One not after `now` has expired, and waits to be taken. */
  startAt(deadline: number, value: T): Handle;
  /** Stops the timer, starts another in its place, by default with its value, and returns the new handle. The old one is dead. */
  restart(handle: Handle, interval: number, value?: T): Handle;
  /** Does the same as `restart`, for a timer that expires at this tick, as by `startAt`. */
  restartAt(handle: Handle, deadline: number, value?: T): Handle;
  /** Restarts the timer for this tick, or starts one if the handle is dead, `null` or `undefined`. Returns the new handle. */
  setAt(handle: Handle | null | undefined, deadline: number, value: T): Handle;
  /** Stops the timer, and returns its value. */
  stop(handle: Handle): T;
  /** Whether a timer, pending or expired and not yet taken, has this handle. */
  has(handle: Handle): boolean;
  /** The timer with this handle, pending or expired. Refused with NOT_PENDING if there is none. */
  look(handle: Handle): Timer<T>;
  /** Takes the next timer due by this tick, by default `now`, and passes the ticks up to its deadline. `undefined` if none is. */
  take(tick?: number): Timer<T> | undefined;
  /** An iterator that takes all timers due by this tick, by default `now`, one by one. One stopped meanwhile does not come out. */
  expired(tick?: number): Generator<Timer<T>, void, undefined>;
  /** Passes ticks up to this one, or to the first at which a timer expires. Returns the present tick. */
  advanceTo(tick: number): number;
  /** The present tick, to which the clock was advanced last. */
  readonly now: number;
  /** How many timers are pending. Expired ones that wait to be taken don't count. */
  readonly length: number;
  /** A tick before which nothing expires, in constant time. Infinity if no timer is held. */
  wakeup(): number;
  /** Makes room for so many timers: starts then don't run out of memory. */
  reserve(most: number): void;
  /** Drops all timers and their values. */
  clear(): void;
  /** Frees the memory, values too. Later calls are refused with NOT_OPEN, or find nothing. */
  free(): void;
}
