// The schemes, their wheels, and the digits of a tick. lessons.js has RADICES, HANDS and LASTS.
"use strict";

function keyOf(wheel, slot) { return wheel * 65536 + slot; }

function placeOf(key) { return {wheel: Math.floor(key / 65536), slot: key % 65536}; }

// The digits of a tick, the lowest wheel's first.
function digitsOf(wheels, tick) { return wheels.map((wheel) => Number((tick / wheel.ticks) % BigInt(wheel.slots))); }

// The highest wheel at which two ticks have different digits, or -1.
function levelOf(wheels, one, other) {
  const a = digitsOf(wheels, one);
  const b = digitsOf(wheels, other);
  let level = wheels.length - 1;
  while (level >= 0 && a[level] === b[level]) level -= 1;
  return level;
}

class Scheme {
  // The options are those of `timers show`.
  constructor(options) {
    this.options = options;
    this.name = this.option("--scheme", "hier");
    this.slots = Number(this.option("--slots", "256"));
    this.firstTick = BigInt(this.option("--first-tick", "0"));
    this.wheels = this.made();
    this.isHierarchy = this.name in RADICES;
  }

  // The value of an option, written `--name value` or `--name=value`.
  option(name, otherwise) {
    const at = this.options.findIndex((word) => word === name || word.startsWith(`${name}=`));
    if (at < 0) return otherwise;
    return this.options[at] === name ? this.options[at + 1] : this.options[at].slice(name.length + 1);
  }

  made() {
    if (this.name === "plain") return [{name: "pending", place: "pending", slots: 1, ticks: 1n}];
    if (this.name === "hashed") return [{name: "the wheel", place: "slot S", slots: this.slots, ticks: 1n}];
    const isClock = this.name === "clock";
    let ticks = 1n;
    return RADICES[this.name].map((slots, k) => {
      const wheel = {name: isClock ? HANDS[k] : `wheel ${k}`, slots, ticks};
      ticks *= BigInt(slots);
      return {...wheel, place: isClock ? `${HANDS[k]} S` : `wheel ${k} slot S`};
    });
  }

  get last() { return BigInt(LASTS[this.name]); }

  // The key of a place that `timers show` names: 'wheel 1 slot 2', 'slot 2', 'minute 15' or 'pending'.
  key(name) {
    const numbers = name.match(/\d+/g) ?? [];
    const hand = HANDS.indexOf(name.split(" ")[0]);
    if (hand >= 0) return keyOf(hand, Number(numbers[0]));
    return keyOf(Number(numbers.length > 1 ? numbers[0] : 0), Number(numbers[numbers.length - 1] ?? 0));
  }

  // The next tick after now at which something is done with this timer: it moves, or a hashed wheel passes it, or it is due.
  // By it lines of ticks are cut, so it decides what is asked of the program, and nothing of what the program answers.
  nextStop(now, deadline) {
    if (this.name === "plain") return deadline;
    if (this.name === "hashed") return now + 1n + (deadline - now - 1n) % BigInt(this.slots);
    const {ticks} = this.wheels[levelOf(this.wheels, now, deadline)];
    return deadline - deadline % ticks;
  }

  // How many timers this scheme has looked at for one that was started for a deadline, up to a tick: if it is asked at
  // one tick after another, as in the paper.
  looks(start, deadline, upTo) {
    const end = upTo < deadline ? upTo : deadline;
    if (this.name === "plain") return end - start;
    if (this.name === "hashed") {
      const before = (tick) => (tick - deadline % BigInt(this.slots) + BigInt(this.slots)) / BigInt(this.slots);
      return before(end) - before(start);
    }
    let looks = 0n;
    for (let now = this.nextStop(start, deadline); now <= end; now = this.nextStop(now, deadline)) {
      looks += 1n;
      if (now === deadline) break;
    }
    return looks;
  }
}
