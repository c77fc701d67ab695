// SPDX-License-Identifier: MIT OR Apache-2.0
// Makes the calls of timers.trace, which tests/driver wrote beside this file: each has the answers that stand there. The driver
// has compared them with a model. It runs in node and in a browser. What C has and JavaScript has not is made by other calls, or
// left out if it changes nothing that can be seen.
import { Handle, Timers, TimersError } from "libtimers";

const place = new URL("timers.trace", import.meta.url);
const is_file = place.protocol === "file:";
const trace = is_file ? await (await import("node:fs/promises")).readFile(place, "utf8") : await (await fetch(place)).text();

let timers;
let handles; // by serial
function started(handle) {
  handles.set(String(handle.serial), handle);
  return [0, handle.serial];
}
function restarted(call, serial, when, action) {
  const handle = handles.get(serial);
  const keeps = timers.has(handle) && timers.look(handle).value === action;
  return started(timers[call](handle, Number(when), ...(keeps ? [] : [action])));
}
const shown = (timer) => [timer.deadline, timer.serial, timer.value];
const listed = (found) => [3 * found.length, ...found.flatMap(shown)];
const taken = (timer) => (timer ? [1, ...shown(timer)] : [0]);
const known = (tick) => [tick === Infinity ? 2n ** 64n - 1n : tick];

// A function for each call, of the words of the trace. An action is the word itself.
const calls = {
  new(table, first) {
    timers?.free();
    handles = new Map([["0", new Handle(0, 0)]]);
    timers = new Timers(Number(first));
    return [0];
  },
  clear() {
    timers.clear();
    return [timers.length];
  },
  reserve(most) {
    timers.reserve(Number(most));
    return [0];
  },
  start: (interval, action) => started(timers.start(Number(interval), action)),
  start_at: (tick, action) => started(timers.startAt(Number(tick), action)),
  restart: (...words) => restarted("restart", ...words),
  restart_at: (...words) => restarted("restartAt", ...words),
  set_at: (serial, tick, action) => started(timers.setAt(handles.get(serial), Number(tick), action)),
  set_at_held: (...words) => calls.set_at(...words),
  stop: (serial) => [0, timers.stop(handles.get(serial))],
  look: (serial) => [0, ...shown(timers.look(handles.get(serial)))],
  tick: () => [timers.advanceTo(timers.now + 1) * 0],
  advance(most) {
    const before = timers.now;
    return [0, timers.advanceTo(before + Number(most)) - before];
  },
  advance_to: (tick) => [timers.advanceTo(Number(tick)) * 0],
  take: (tick) => taken(timers.take(Number(tick))),
  expire: () => taken(timers.take()),
  expire_batch: (room) => listed(Array.from({ length: room }, () => timers.take()).filter(Boolean)),
  catch_up: (tick) => listed([...timers.expired(Number(tick))]),
  has_due: () => [Number(timers.wakeup() === timers.now)],
  now: () => [timers.now],
  len: () => [timers.length],
  wakeup: () => known(timers.wakeup()),
};

let made = 0;
for (const line of trace.trimEnd().split("\n")) {
  const [name, ...words] = line.slice("timers_".length).split(" ");
  const end = words.indexOf("=");
  let got = [];
  try {
    got = calls[name]?.(...words.slice(0, end)) ?? [];
  } catch (error) {
    if (!(error instanceof TimersError)) throw error;
    got = [error.status];
  }
  const wanted = words.slice(end + 1, end + 1 + got.length);
  if (got.join(" ") !== wanted.join(" ")) throw new Error(`call ${made}, ${line}: ${got}`);
  made += got.length > 0;
}
if (made < 1000) throw new Error(`only ${made} calls`);
console.log("the calls of the trace have their answers");
