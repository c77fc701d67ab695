// SPDX-License-Identifier: MIT OR Apache-2.0
// What is refused at both ends of each range, and that nothing has changed then.
import assert from "node:assert/strict";
import { Handle, LAST, Status, Timers, TimersError } from "libtimers";

function refuses(timers, wanted, call) {
  const state = () => [timers.now, timers.length, timers.wakeup()];
  const before = state();
  assert.throws(call, typeof wanted === "number" ? (error) => error instanceof TimersError && error.status === wanted : wanted);
  assert.deepEqual(state(), before);
}

const timers = new Timers(5);
const tea = timers.start(LAST - 5, "tea");
const no_handles = [undefined, null, 7, { place: tea.place, serial: tea.serial }];
for (const number of [-1, 1.5, NaN, Infinity, -Infinity, LAST + 1, 2 ** 60, 2 ** 64]) {
  for (const call of [
    () => timers.start(number, "x"),
    () => timers.startAt(number, "x"),
    () => timers.restart(tea, number),
    () => timers.restartAt(tea, number),
    () => timers.setAt(tea, number, "x"),
    () => timers.setAt(null, number, "x"),
    () => timers.take(number),
    () => [...timers.expired(number)],
    () => timers.advanceTo(number),
    () => timers.reserve(number),
    () => new Timers(number),
  ]) {
    refuses(timers, RangeError, call);
  }
}
for (const number of ["1", 1n, null, {}, true]) {
  for (const call of [() => timers.start(number, "x"), () => timers.startAt(number, "x"), () => timers.take(number)]) {
    refuses(timers, TypeError, call);
  }
}
refuses(timers, TypeError, () => timers.start());
refuses(timers, RangeError, () => timers.start(LAST - 4, "x"));
refuses(timers, RangeError, () => timers.restart(tea, LAST - 4));
refuses(timers, Status.ZERO_INTERVAL, () => timers.start(0, "x"));
refuses(timers, Status.ZERO_INTERVAL, () => timers.restart(tea, 0, "x"));
refuses(timers, Status.ZERO_INTERVAL, () => timers.start(-0, "x"));
for (const most of [2 ** 32 - 1, 2 ** 32, LAST]) refuses(timers, Status.NO_MEMORY, () => timers.reserve(most));
for (const handle of no_handles) {
  for (const call of ["stop", "look", "has", "restart", "restartAt"]) refuses(timers, TypeError, () => timers[call](handle, 9));
}
refuses(timers, Status.NOT_PENDING, () => timers.stop(new Handle(0, 0)));
refuses(timers, Status.NOT_PENDING, () => timers.stop(new Handle(tea.place, tea.serial + 2 ** 32)));
refuses(timers, Status.NOT_PENDING, () => timers.stop(new Handle(tea.place + 2 ** 32, tea.serial)));
assert.deepEqual(timers.look(tea), { deadline: LAST, serial: 1, value: "tea" });

// Handles: frozen, one object for each timer, keys of a map.
assert.throws(() => (tea.serial = 2), TypeError);
const egg = timers.restart(tea, 1, undefined);
assert.notEqual(egg, tea);
assert.equal(new Map([[egg, 1], [tea, 2]]).get(egg), 1);
assert.equal(timers.look(egg).value, undefined);
refuses(timers, Status.NOT_PENDING, () => timers.restart(tea, 1));
assert.equal(timers.advanceTo(LAST), 6);
refuses(timers, Status.DUE, () => timers.advanceTo(7));
assert.equal(timers.advanceTo(6), 6);
assert.equal(timers.advanceTo(0), 6);
assert.equal(timers.length, 0);
assert.equal(timers.wakeup(), 6);
assert.deepEqual(timers.take(), { deadline: 6, serial: 2, value: undefined });
assert.equal(timers.take(), undefined);
assert.equal(timers.wakeup(), Infinity);

// At the last tick.
assert.equal(timers.advanceTo(LAST), LAST);
refuses(timers, RangeError, () => timers.start(1, "x"));
timers.startAt(LAST, "a");
timers.startAt(0, "b");
assert.deepEqual([...timers.expired()].map((timer) => [timer.deadline, timer.value]), [[LAST, "a"], [LAST, "b"]]);
assert.equal(new Timers(LAST).now, LAST);

// What one of a tick stops does not come out.
const two = new Timers();
two.start(3, "first");
const second = two.start(3, "second");
const came = [];
for (const { value } of two.expired(10)) {
  came.push(value);
  assert.equal(two.stop(second), "second");
}
assert.deepEqual(came, ["first"]);

const third = two.start(1, "third");
two.clear();
refuses(two, Status.NOT_PENDING, () => two.look(third));
assert.equal(two.has(third), false);
assert.deepEqual([...two.expired(LAST)], []);

two.free();
two.free();
const another = new Timers(3); // what was freed twice is not its memory
for (const call of [
  () => two.start(1, 1),
  () => two.startAt(1, 1),
  () => two.stop(third),
  () => two.look(third),
  () => two.restart(third, 1),
  () => two.advanceTo(1),
  () => two.reserve(1),
  () => two.reserve(2 ** 32),
]) {
  refuses(two, Status.NOT_OPEN, call);
}
two.clear();
assert.equal(two.take(1), undefined);
assert.throws(() => two.start(1, 1), { name: "TimersError", message: "not open", status: 1 });
assert.equal(another.now, 3);
if (Symbol.dispose) {
  const timers = new Timers();
  timers[Symbol.dispose]();
  refuses(timers, Status.NOT_OPEN, () => timers.start(1, 1));
}

// Nothing refers to a value any more, once it was handed out, replaced or dropped.
const kept = new Timers();
const values = [];
const value = () => {
  const made = {};
  values.push(new WeakRef(made));
  return made;
};
kept.start(1, value());
kept.restart(kept.start(2, value()), 2, "another");
kept.stop(kept.start(3, value()));
for (const _ of kept.expired(5));
const cleared = new Timers();
cleared.start(1, value());
cleared.clear();
await new Promise((resolve) => setTimeout(resolve, 0));
gc();
assert.deepEqual(values.map((reference) => reference.deref()), [undefined, undefined, undefined, undefined]);
assert.equal(kept.length + cleared.length, 0);

// Nor does a place of a value stay behind a start that was refused or stopped: 200,000 would take 1.6 MB.
const used = () => (gc(), process.memoryUsage().heapUsed);
const before = used();
for (let time = 0; time < 200000; time++) {
  if (time % 2 === 0) assert.ok(kept.stop(kept.start(1, kept)));
  else assert.throws(() => kept.start(0, kept), TimersError);
}
assert.ok(used() - before < 400000);
assert.equal(kept.length, 0);
console.log("edges agree");
