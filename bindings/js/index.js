// SPDX-License-Identifier: MIT OR Apache-2.0
// Timers over the C library, compiled to WebAssembly. The action of a timer in C is the number of a slot of an array, in
// which its value is.

// The module is loaded by a top-level await: whoever has imported `Timers` can make some at once, and no call is refused
// because something has not arrived yet.
const place = new URL("timers.wasm", import.meta.url);
async function read() {
  if (place.protocol === "file:") return (await import("node:fs/promises")).readFile(place);
  const response = await fetch(place);
  if (!response.ok) throw new Error(`${place} can't be fetched: status ${response.status}`);
  return response.arrayBuffer();
}
const c = (await WebAssembly.instantiate(await read())).instance.exports;
c._initialize();

export const LAST = Number.MAX_SAFE_INTEGER;
export const Status = Object.freeze({
  // made by tools/facts: statuses in JavaScript
  OK: 0, NOT_OPEN: 1, OPEN: 2, NO_TABLE: 3, NO_MEMORY: 4, DUE: 5, NOT_PENDING: 6, ZERO_INTERVAL: 7, TOO_LATE: 8,
  SERIALS_SPENT: 9, CLOCK_END: 10,
});
const TEXTS = [
  // made by tools/facts: texts in JavaScript
  "done", "not open", "already open", "no such table", "out of memory", "an expired timer was not yet taken",
  "no timer has this handle", "the interval is 0", "after the last tick", "every serial was used",
  "the clock is at its last tick",
];

export class TimersError extends Error {
  constructor(status) {
    super(TEXTS[status]);
    this.name = "TimersError";
    this.status = status;
  }
}
function check(status) {
  if (status !== Status.OK) throw new TimersError(status);
}

// Only starts and restarts make handles. So two are of one timer exactly if they are the same object.
export class Handle {
  constructor(place, serial) {
    this.place = place;
    this.serial = serial;
    Object.freeze(this);
  }
}

// The structs of C: struct timers has 24 bytes, a handle 16, an expired timer 24.
const TIMERS_SIZE = 24;
function allocate(size) {
  const at = c.malloc(size) >>> 0;
  if (at === 0) throw new TimersError(Status.NO_MEMORY);
  bytes().fill(0, at, at + size);
  return at;
}
const bytes = () => new Uint8Array(c.memory.buffer);
const given = allocate(16); // a handle for C
const made = allocate(16); // a handle, or an action, from C
const expired = allocate(24);
const closed = allocate(TIMERS_SIZE); // what was freed: each call finds that it is not open

// A buffer is detached when the memory grows.
let view = new DataView(c.memory.buffer);
function memory() {
  if (view.buffer !== c.memory.buffer) view = new DataView(c.memory.buffer);
  return view;
}
const HIGH = 2 ** 32;
function load(at) {
  return memory().getUint32(at, true) + memory().getUint32(at + 4, true) * HIGH;
}
function store(at, number) {
  memory().setUint32(at, number % HIGH, true);
  memory().setUint32(at + 4, Math.floor(number / HIGH), true);
}
function store_handle(handle) {
  if (!(handle instanceof Handle)) throw new TypeError("this is no handle");
  store(given, handle.place);
  store(given + 8, handle.serial);
}
const made_handle = () => new Handle(load(made), load(made + 8));

// For C, a whole number from 0 to `last`.
function whole(number, name, last = LAST) {
  if (typeof number !== "number") throw new TypeError(`${name} is not a number`);
  if (!Number.isInteger(number) || number < 0 || number > last) {
    throw new RangeError(`${name} is not a whole number from 0 to ${last}`);
  }
  return BigInt(number);
}
// A tick from C. TIMERS_NEVER, which is above all ticks, is -1 here.
const tick_of = (answer) => (answer < 0n ? Infinity : Number(answer));

const forgotten = new FinalizationRegistry(release);
function release(at) {
  c.timers_free(at);
  c.free(at);
}

export class Timers {
  #at;
  #values = []; // by slot
  #spare = []; // the slots without a timer

  constructor(first = 0) {
    const tick = whole(first, "the first tick");
    const at = allocate(TIMERS_SIZE);
    const status = c.timers_new(at, 0, tick);
    if (status !== Status.OK) c.free(at);
    check(status);
    this.#at = at;
    forgotten.register(this, at, this);
  }

  /** Starts a timer that expires so many ticks after `now`, 1 or more, and returns its handle.
   * @type {(interval: number, value: T) => Handle} */
  start(interval, value) {
    const ticks = this.#interval(interval);
    return this.#own(value, (slot) => c.timers_start(this.#at, ticks, slot, made));
  }
  /** Starts a timer that expires at this tick, and returns its handle. One not after `now` has expired, and waits to be taken.
   * @type {(deadline: number, value: T) => Handle} */
  startAt(deadline, value) {
    const tick = whole(deadline, "the deadline");
    return this.#own(value, (slot) => c.timers_start_at(this.#at, tick, slot, made));
  }
  /** Stops the timer, starts another in its place, by default with its value, and returns the new handle. The old one is dead.
   * @type {(handle: Handle, interval: number, value?: T) => Handle} */
  restart(handle, interval, ...value) {
    const ticks = this.#interval(interval);
    return this.#keep(handle, value, (slot) => c.timers_restart(this.#at, given, ticks, slot, made));
  }
  /** Does the same as `restart`, for a timer that expires at this tick, as by `startAt`.
   * @type {(handle: Handle, deadline: number, value?: T) => Handle} */
  restartAt(handle, deadline, ...value) {
    const tick = whole(deadline, "the deadline");
    return this.#keep(handle, value, (slot) => c.timers_restart_at(this.#at, given, tick, slot, made));
  }
  /** Restarts the timer for this tick, or starts one if the handle is dead, `null` or `undefined`. Returns the new handle.
   * @type {(handle: Handle | null | undefined, deadline: number, value: T) => Handle} */
  setAt(handle, deadline, value) {
    if (handle != null && this.has(handle)) return this.restartAt(handle, deadline, value);
    return this.startAt(deadline, value);
  }
  /** Stops the timer, and returns its value.
   * @type {(handle: Handle) => T} */
  stop(handle) {
    store_handle(handle);
    check(c.timers_stop(this.#at, given, made));
    return this.#release(load(made));
  }

  /** Whether a timer, pending or expired and not yet taken, has this handle.
   * @type {(handle: Handle) => boolean} */
  has(handle) {
    store_handle(handle);
    return c.timers_look(this.#at, given, expired) === Status.OK;
  }
  /** The timer with this handle, pending or expired. Refused with NOT_PENDING if there is none.
   * @type {(handle: Handle) => Timer<T>} */
  look(handle) {
    store_handle(handle);
    check(c.timers_look(this.#at, given, expired));
    return { deadline: load(expired), serial: load(expired + 8), value: this.#values[load(expired + 16)] };
  }

  /** Takes the next timer due by this tick, by default `now`, and passes the ticks up to its deadline. `undefined` if none is.
   * @type {(tick?: number) => Timer<T> | undefined} */
  take(tick = this.now) {
    if (!c.timers_take(this.#at, whole(tick, "the tick"), expired)) return undefined;
    return { deadline: load(expired), serial: load(expired + 8), value: this.#release(load(expired + 16)) };
  }
  /** An iterator that takes all timers due by this tick, by default `now`, one by one. One stopped meanwhile does not come out.
   * @type {(tick?: number) => Generator<Timer<T>, void, undefined>} */
  *expired(tick = this.now) {
    for (let timer = this.take(tick); timer; timer = this.take(tick)) yield timer;
  }
  /** Passes ticks up to this one, or to the first at which a timer expires. Returns the present tick.
   * @type {(tick: number) => number} */
  advanceTo(tick) {
    check(c.timers_advance_to(this.#at, whole(tick, "the tick")));
    return this.now;
  }

  /** The present tick, to which the clock was advanced last.
   * @type {number} */
  get now() {
    return tick_of(c.timers_now(this.#at));
  }
  /** How many timers are pending. Expired ones that wait to be taken don't count.
   * @type {number} */
  get length() {
    return c.timers_len(this.#at) >>> 0;
  }
  /** A tick before which nothing expires, in constant time. Infinity if no timer is held.
   * @type {() => number} */
  wakeup() {
    return tick_of(c.timers_wakeup(this.#at));
  }

  /** Makes room for so many timers: starts then don't run out of memory.
   * @type {(most: number) => void} */
  reserve(most) {
    whole(most, "the number of timers");
    check(most < HIGH ? c.timers_reserve(this.#at, most) : this.#at === closed ? Status.NOT_OPEN : Status.NO_MEMORY);
  }
  /** Drops all timers and their values.
   * @type {() => void} */
  clear() {
    c.timers_clear(this.#at);
    this.#values = [];
    this.#spare = [];
  }
  /** Frees the memory, values too. Later calls are refused with NOT_OPEN, or find nothing.
   * @type {() => void} */
  free() {
    if (this.#at === closed) return;
    forgotten.unregister(this);
    release(this.#at);
    this.#at = closed;
    this.#values = [];
    this.#spare = [];
  }

  #interval(interval) {
    return whole(interval, "the interval", LAST - this.now);
  }
  // A slot gets its value, and is no longer spare, only after C has started a timer for it.
  #own(value, start) {
    const slot = this.#spare.length > 0 ? this.#spare[this.#spare.length - 1] : this.#values.length;
    check(start(BigInt(slot)));
    this.#spare.pop();
    this.#values[slot] = value;
    return made_handle();
  }
  #keep(handle, value, restart) {
    store_handle(handle);
    check(c.timers_look(this.#at, given, expired));
    const slot = load(expired + 16);
    check(restart(BigInt(slot)));
    if (value.length > 0) this.#values[slot] = value[0];
    return made_handle();
  }
  #release(slot) {
    const value = this.#values[slot];
    this.#values[slot] = undefined;
    this.#spare.push(slot);
    return value;
  }
}
// `using timers = new Timers()`, where the language has it.
if (Symbol.dispose) Timers.prototype[Symbol.dispose] = Timers.prototype.free;
