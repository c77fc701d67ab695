// SPDX-License-Identifier: MIT OR Apache-2.0
// With a module of 1 MB in all: a start that finds no memory has changed nothing, and what is freed or forgotten is used again.
import assert from "node:assert/strict";
import { Status, Timers, TimersError } from "libtimers";

const is_refused = (error) => error instanceof TimersError && error.status === Status.NO_MEMORY;
function fill() {
  const timers = new Timers();
  let started = 0;
  assert.throws(() => {
    for (; started < 100000; started++) timers.start(1000000 - started, started);
  }, is_refused);
  assert.throws(() => timers.start(5, "refused"), is_refused);
  assert.equal(timers.length, started);
  const values = [...timers.expired(1000000)].map((timer) => timer.value);
  assert.deepEqual(values, Array.from({ length: started }, (_, at) => started - 1 - at));
  timers.free();
  return started;
}
const most = fill();
assert.ok(most > 1000);
for (let time = 0; time < 5; time++) assert.equal(fill(), most);

// As many each time.
function make_many() {
  const many = [];
  assert.throws(() => {
    for (;;) many.push(new Timers());
  }, is_refused);
  for (const timers of many) timers.free();
  return many.length;
}
const room = make_many();
assert.ok(room > 10);
for (let time = 0; time < 5; time++) assert.equal(make_many(), room);

// Twenty times as many as there is memory for.
for (let made = 0; made < 20 * room; made++) {
  new Timers().start(1, made);
  if (made % 10 === 0) {
    await new Promise((resolve) => setTimeout(resolve, 0));
    gc();
    await new Promise((resolve) => setTimeout(resolve, 0));
  }
}

// What was freed is not freed again once it is garbage: others have the memory by then.
for (let made = 0; made < 10; made++) new Timers().free();
const held = Array.from({ length: 10 }, () => new Timers());
for (const timers of held) timers.start(7, timers);
for (let time = 0; time < 3; time++) {
  await new Promise((resolve) => setTimeout(resolve, 0));
  gc();
}
await new Promise((resolve) => setTimeout(resolve, 0));
for (const timers of held) assert.equal(timers.take(7).value, timers);
console.log("memory agrees");
