// What happened at a step, and why, in sentences.
"use strict";

// What the page is about, in two sentences.
const OPENING = {
  plain: "All pending timers wait in one list, in order of starting. The page shows it by deadline.",
  hashed: "A timer waits in slot (deadline mod slots). The hand passes it once for each of its rounds. The time after" +
      " that, it is due.",
  hier: "Write now and the deadline in base 64. A timer waits in the wheel of the highest digit in which they differ, and" +
      " moves down when the clock reaches that digit.",
  clock: "A timer waits in the wheel of the largest unit in which its deadline and now differ. Once that is equal, it moves" +
      " down.",
};

const PURPOSE = "A program keeps thousands of timers. Timing wheels find the due ones without searching.";

// How to read the wheels.
const GUIDE = {
  plain: [
    "A tick looks at all timers of the list, so with more timers it takes longer.",
  ],
  hashed: [
    "At each tick the hand goes on by one slot, and only the timers of that slot are looked at.",
    "A timer is in slot (deadline mod slots), so the hand is there at its deadline.",
    "A timer whose deadline is more than one turn away has rounds.",
  ],
  hier: [
    "Each wheel has a hand: wheel 0's goes on at each tick, wheel 1's every 64 ticks, and so on.",
    "So the hands show the digits of the present tick in base 64. At tick 128 wheel 1 is at 2, and wheel 0 at 0.",
    "A timer is in the highest wheel in which now and its deadline have different digits, in the slot of the deadline's" +
        " digit. So at tick 63 one for tick 65 is in wheel 1, though it is two ticks away: the carry changes digit 1.",
    "A tick empties one slot, in the wheel of its lowest digit that isn't 0. Its timers move to lower wheels, or are due.",
    "So slot 0 of a wheel is never used. At tick 128, slot 2 of wheel 1 is emptied, and no slot of wheel 0.",
  ],
  clock: [
    "A tick is a second here. The wheels are those of a clock: 60 seconds, 60 minutes, 24 hours, 100 days.",
    "A timer is in the highest wheel in which its deadline differs from now: one for the next hour is at that hour.",
    "When the hand reaches that hour, the timer moves to its minute, and then to its second. At that second it is due.",
    "A tick empties one slot. At 11:00:00 that is hour 11, and not minute 0 or second 0, which are never used.",
  ],
};
// For a script whose timers are all in wheel 0.
const GUIDE_OF_ONE = [
  "At each tick the hand goes on by one slot, and that slot is emptied: its timers are due.",
  "A timer is in slot (deadline mod 64). Timers with later deadlines would be in wheels of coarser slots.",
];

// The colours and signs of the wheels.
const LEGEND = [
  ["hand", "hand: now"],
  ["held", "blue: has timers"],
  ["held-followed", "orange, framed: has the followed timer"],
  ["left", "dashed: timers just left it"],
  ["aimed", "dotted: where Start would put it"],
  ["arrow", "arrow: a timer moved"],
];

// What a digit of each wheel of 64 slots counts.
const WEIGHTS = ["", " × 64", ..."²³⁴⁵⁶⁷⁸⁹"].map((power, k) => (k < 2 ? power : ` × 64${power}`));

const NUMBERS_TO_NINE = ["no", "one", "two", "three", "four", "five", "six", "seven", "eight", "nine"];

function reasonOf(answer) { return REASONS[answer.slice(answer.lastIndexOf(" ") + 1)] || ""; }

function listed(words) {
  return words.length < 2 ? words.join("") : `${words.slice(0, -1).join(", ")} and ${words[words.length - 1]}`;
}

function timersNamed(serials) {
  if (serials.length === 1) return `timer ${serials[0]}`;
  return serials.length <= 5 ? `timers ${listed(serials)}` : `${serials.length} timers`;
}

function upper(sentence) { return sentence.charAt(0).toUpperCase() + sentence.slice(1); }

// The ticks of a slot of a high wheel are written as a power of 64.
function isPower(wheel, scheme) { return scheme === "hier" && wheel > 3; }

function powerOf(wheel) { return WEIGHTS[wheel].slice(3); }

function ticksOf(count) { return `${count} tick${count === 1n ? "" : "s"}`; }

function ticksOfWheel({ticks}, wheel, scheme) {
  return isPower(wheel, scheme) ? `${powerOf(wheel)} ticks` : ticksOf(ticks);
}

function times(count) { return count === 1n ? "once" : count === 2n ? "twice" : `${count} times`; }

// A formula, which a line doesn't break inside. Only one that is long may be broken, before a sum's sign.
function unbroken(formula) {
  const whole = formula.replaceAll(" ", "\u00a0");
  return formula.length <= 28 ? whole : whole.replaceAll("\u00a0+\u00a0", " +\u00a0");
}

class Words {
  constructor(play) {
    this.play = play;
    this.scheme = play.scheme.name;
    this.isHierarchy = play.scheme.isHierarchy;
    const highest = Math.max(0, ...play.used);
    // The wheels whose digits are spoken of, from the highest down.
    this.levels = play.wheels.map((_, k) => k).filter((k) => k <= highest || this.scheme === "clock").reverse();
    this.hasDigits = this.isHierarchy && this.levels.length > 1;
    this.isLong = this.levels.length > 5; // then the digits are in the table alone
  }

  // A slot as `timers show` names it.
  place(key) {
    const {wheel, slot} = placeOf(key);
    return this.play.wheels[wheel].place.replace("S", slot);
  }

  digits(tick) {
    const all = digitsOf(this.play.wheels, tick);
    return this.levels.map((k) => all[k]);
  }

  // A tick by its digits: '2 × 64 + 0', or days and hours. Of many digits the zeros are left out, but for the last.
  written(tick) {
    const d = digitsOf(this.play.wheels, tick);
    const two = (n) => String(n).padStart(2, "0");
    if (this.scheme === "clock") return unbroken(`${d[3]} days ${two(d[2])}:${two(d[1])}:${two(d[0])}`);
    while (d.length > this.levels.length && d[d.length - 1] === 0) d.pop();
    const isLong = d.length > 4;
    const parts = d.map((digit, k) => (digit || !isLong || !k ? `${digit}${WEIGHTS[k]}` : "")).filter((part) => part);
    return unbroken(parts.reverse().join(" + "));
  }

  // The clock's face: digits, days and hours, or the slot.
  face(tick) {
    if (this.isHierarchy) return this.hasDigits && !this.isLong ? `=\u00a0${this.written(tick)}` : "";
    if (this.scheme === "plain") return "";
    return `at slot ${this.digits(tick)[0]} (slots 0 to ${this.play.wheels[0].slots - 1})`;
  }

  wheelName(k) { return this.scheme === "clock" ? `the wheel of ${this.play.wheels[k].name}s` : `wheel ${k}`; }

  // Why a timer stands where it stands while the clock is at `now`.
  why(timer, now) {
    const {wheels} = this.play;
    if (this.scheme === "plain") return "The list is shown by deadline, and by serial where deadlines are equal.";
    if (this.scheme === "hashed") {
      const slots = BigInt(wheels[0].slots);
      const rounds = (timer.deadline - now - 1n) / slots;
      return `${timer.deadline} mod ${slots} is ${timer.deadline % slots}, so it is in that slot. ${
          rounds ? `The hand passes it ${times(rounds)} before it is due.` : "It is due when the hand comes to it next."}`;
    }
    const level = levelOf(wheels, now, timer.deadline);
    if (level < 0) return "";
    const clock = digitsOf(wheels, now)[level];
    const digit = digitsOf(wheels, timer.deadline)[level];
    const slot = this.placed(keyOf(level, digit));
    return `${upper(this.wheelName(level))} is the highest wheel in which the clock's digit (${
        clock}) and the deadline's (${digit}) differ, so it is in ${slot}.`;
  }

  // The ticks of a slot, of which one is this deadline: from the tick at which the slot is emptied, to the last.
  ticksOfSlot(deadline, wheel) {
    const {ticks} = this.play.wheels[wheel];
    const first = deadline - (deadline % ticks);
    return [first, first + ticks - 1n];
  }

  // When a timer leaves a place of the hierarchy.
  until(timer, key) {
    const {wheel} = placeOf(key);
    const [first, last] = this.ticksOfSlot(timer.deadline, wheel);
    if (first === last) return ` The hand is there at tick ${first}, and then the timer is due.`;
    const which = isPower(wheel, this.scheme) ? this.span(first, wheel) : `the deadlines ${first} to ${last}`;
    return ` That slot is for ${which}, and is emptied at tick ${this.short(first, wheel)}.`;
  }

  // The ticks of a slot whose number has many figures: '64⁹ ticks, from tick 64⁹ on'.
  span(first, wheel) { return `${powerOf(wheel)} ticks, from tick ${this.short(first, wheel)} on`; }

  short(tick, wheel) {
    if (!isPower(wheel, this.scheme)) return String(tick);
    return tick === this.play.wheels[wheel].ticks ? powerOf(wheel) : this.written(tick);
  }

  // A place in a sentence.
  placed(key) {
    const {wheel, slot} = placeOf(key);
    return this.scheme === "hier" ? `slot ${slot} of wheel ${wheel}` : this.place(key);
  }

  started(event) {
    const timer = this.play.timers.get(event.serial);
    const what = timer.old ? `Timer ${timer.old} is restarted, as timer ${timer.serial},` : `Timer ${timer.serial} is started`;
    return `${what} for ${ticksOf(timer.deadline - timer.start)}: tick ${
        unbroken(`${timer.start} + ${timer.deadline - timer.start} = ${timer.deadline}`)}${
        this.hasDigits ? `, which is ${this.written(timer.deadline)}` : ""}. ${this.carry(timer)}${this.why(timer, timer.start)}${
        this.isHierarchy && event.to !== undefined ? this.until(timer, event.to) : ""}`;
  }

  // Why a timer is in a high wheel although its deadline is near: the next tick carries up to the digit of that wheel.
  carry({start, deadline}) {
    const {wheels} = this.play;
    const level = this.scheme === "hier" ? levelOf(wheels, start, start + 1n) : 0;
    if (level < 1 || levelOf(wheels, start, deadline) !== level) return "";
    const digit = digitsOf(wheels, start + 1n)[level];
    const lower = level === 1 ? "digit 0 goes" : `${NUMBERS_TO_NINE[level]} digits go`;
    const behind = deadline > start + 1n ? " The deadline lies behind it." : "";
    return `The next tick is a carry: ${lower} from 63 to 0, and digit ${level} becomes ${digit}.${behind} `;
  }

  // What the slots of a wheel are for: 'each tick', or 'each 64 ticks'.
  eachOf(wheel) {
    const {ticks} = this.play.wheels[wheel];
    return ticks === 1n ? "each tick" : `each ${ticksOfWheel({ticks}, wheel, this.scheme)}`;
  }

  // Why a slot that is for many ticks is emptied.
  coarse(deadline, key) {
    const {wheel} = placeOf(key);
    const [first, last] = this.ticksOfSlot(deadline, wheel);
    const ticks = isPower(wheel, this.scheme) ? this.span(first, wheel) : `${last - first + 1n} ticks, ${first} to ${last}`;
    return `${upper(this.placed(key))} is one slot for ${ticks}, and can't tell them apart.`;
  }

  // Why a timer moves, and where to. By which digits, the followed timer's table shows.
  moved(event, now) {
    const timer = this.play.timers.get(event.serial);
    const {wheel} = placeOf(event.to);
    return `Timer ${timer.serial} has ${ticksOf(timer.deadline - now)} left. ${this.coarse(timer.deadline, event.from)} ${
        upper(this.wheelName(wheel))} has a slot for ${this.eachOf(wheel)}, so the timer moves to ${
        this.placed(event.to)}: its deadline is ${timer.deadline} =\u00a0${this.written(timer.deadline)}.`;
  }

  moves(events, now) {
    const moved = events.filter((event) => event.kind === "moved");
    if (moved.length <= 2) return moved.map((event) => this.moved(event, now));
    const places = new Set(moved.map((event) => event.from));
    const from = places.size === 1 ? this.placed(moved[0].from) : `${places.size} slots`;
    const {deadline} = this.play.timers.get(moved[0].serial);
    const why = places.size === 1 ? ` ${this.coarse(deadline, moved[0].from)}` : "";
    const who = upper(timersNamed(moved.map((event) => event.serial)));
    return [`The clock has reached ${from}, and empties ${places.size === 1 ? "it" : "them"}.${why} ${
        who} move to lower wheels, each to the slot of its deadline.`];
  }

  // How far the hand of the lowest wheel went, where more than one tick passed.
  turned(ticks) {
    if (this.scheme === "plain" || ticks <= 1n) return [];
    const slots = BigInt(this.play.wheels[0].slots);
    const whose = this.isHierarchy ? `The hand of ${this.wheelName(0)}` : "The hand";
    const turns = ticks / slots;
    const rest = ticks % slots;
    const on = `on by ${rest} slot${rest === 1n ? "" : "s"}`;
    if (!turns) return [`${whose} goes ${on}.`];
    return [`${whose} goes round ${times(turns)}${rest ? `, and ${on}` : ""}: a turn is ${slots} ticks.`];
  }

  expired(events) {
    const out = events.filter((event) => event.kind === "expired");
    if (!out.length) return [];
    const first = out[0].tick;
    const last = out[out.length - 1].tick;
    const when = first === last ? `deadline, tick ${first},` : "deadlines";
    const order =
        out.length > 1 ? (first === last ? ", in order of starting" : `, from tick ${first} to tick ${last}`) : "";
    return [`${upper(timersNamed(out.map((event) => event.serial)))} ${out.length === 1 ? "has" : "have"} reached ${
        out.length === 1 ? "its" : "their"} ${when} and expire${out.length === 1 ? "s" : ""}${order}.`];
  }

  // How many rounds the timers have left that the clock passed.
  passed(events) {
    const passed = events.filter((event) => event.kind === "round");
    if (passed.length > 5) return [`The hand passes ${passed.length} timers: each has fewer rounds left.`];
    return passed.map(({serial, rounds}) => `The hand passes timer ${serial}: it has ${rounds} round${
        rounds === "1" ? "" : "s"} left.`);
  }

  // A step at which no tick passes, as a refused tick, says nothing of the clock.
  ticked(step, at) {
    const before = this.play.now(at - 1);
    if (step.now === before) return [];
    const said =
        [[`The clock goes from tick ${before} to tick ${step.now}.`, ...this.turned(step.now - before)].join(" ")];
    const events = this.play.events(at);
    const more = [...this.moves(events, step.now), ...this.expired(events), ...this.passed(events)];
    if (!more.length)
      said.push(this.isHierarchy ? "Only empty slots were reached, so nothing moves, and nothing expires." :
                                   "Nothing expires.");
    if (this.play.whole.has(step.line))
      more.push(`This line is shown as one step${this.isHierarchy ? ", in which timers may have moved more than once" : ""}.`);
    return [...said, ...more];
  }

  // The sentences of a step.
  of(at) {
    if (at === 0) return ["Before the first line. No timer is pending. Press Play, or start a timer."];
    const step = this.play.steps[at - 1];
    if (step.isBad) return [`Line ${step.line + 1} is bad: ${this.play.reason}. Neither it nor a later line is played.`];
    const said = this.ticked(step, at);
    for (const event of this.play.events(at)) {
      if (event.kind === "started") said.push(this.started(event));
      else if (event.kind === "stopped")
        said.push(`Timer ${event.serial} is stopped, and will never come out.`);
    }
    for (const answer of step.answers) said.push(...this.answered(answer));
    return said;
  }

  answered(answer) {
    const words = answer.split(" ");
    if (words[0] === "refused")
      return [`Client ${words[1]}'s request ${words[2]} is refused as ${words[3]}: ${reasonOf(answer)}.`];
    if (words[1] === "refused") return [`The ${words[0]} is refused as ${words[2]}: ${reasonOf(answer)}.`];
    if (words[0] === "closed")
      return [`The facility is closed, and returns ${words[1]} timer${
          words[1] === "1" ? "" : "s"}, by deadline and then by serial.`];
    return [];
  }

  // What happened to a timer, in a few words.
  event(event) {
    const timer = this.play.timers.get(event.serial);
    const stands = (key) => (this.scheme === "plain" ? "" : `, in ${this.place(key)}`);
    if (event.kind === "started")
      return `${timer.old ? `Started in place of timer ${timer.old}` : "Started"}${stands(event.to)}`;
    if (event.kind === "moved") return `Moved from ${this.place(event.from)} to ${this.place(event.to)}`;
    if (event.kind === "round") return `Passed by the hand, rounds left: ${event.rounds}`;
    if (event.kind === "expired") return `Expired, with the action ${timer.action}`;
    if (event.kind === "restarted") return `Restarted: it is timer ${event.by} from here on`;
    return event.kind === "stopped" ? "Stopped" : "Returned by the close";
  }

  schemeName() {
    return {
      plain: "Scheme 1, one list",
      hashed: "Scheme 6, a hashed wheel with rounds",
      hier: "Scheme 7, a hierarchy of ten wheels",
      clock: "Scheme 7, the wheels of a clock",
    }[this.scheme];
  }

  guide() {
    const follow = "Choose a timer's serial to follow that timer: it turns orange and" +
        " gets a frame, and its history is below 'Follow timer'.";
    const isOne = this.scheme === "hier" && !this.hasDigits;
    return [PURPOSE, ...(isOne ? GUIDE_OF_ONE : GUIDE[this.scheme]), follow];
  }

  // What a timer did that came to a slot at this step, or left it.
  came(events) {
    const from = new Set(events.map((event) => event.from));
    const who = timersNamed(events.map((event) => event.serial));
    return `${who} came from ${from.size === 1 ? this.place(events[0].from) : `${from.size} slots`}`;
  }

  gone(events) {
    const went = {
      moved: (some) => {
        const to = new Set(some.map((event) => event.to));
        return `left → ${to.size === 1 ? this.place(some[0].to) : `${to.size} slots of lower wheels`}`;
      },
      expired: () => "left: expired",
      stopped: () => "left: stopped",
      returned: () => "left: returned",
      restarted: (some) => `left: restarted as ${timersNamed(some.map((event) => event.by))}`,
    };
    return Object.entries(went).map(([kind, how]) => [events.filter((event) => event.kind === kind), how])
        .filter(([some]) => some.length)
        .map(([some, how]) => `${timersNamed(some.map(({serial}) => serial))} ${how(some)}`).join("; ");
  }

  // The words of the fields that lines of this script have.
  glossary() {
    const said = this.fields().map(([word, names]) => `${word} ${names}`).join(" ");
    return Object.entries(GLOSSARY).filter(([word]) => said.includes(word));
  }

  // The words that begin lines of this script or their answers, with their fields.
  fields() {
    const answers = this.play.steps.flatMap((step) => step.answers);
    const used = new Set();
    for (const line of [this.play.lines, answers].flat()) used.add(line.split(" ", 1)[0]);
    return Object.entries(FIELDS).filter(([word]) => used.has(word)).map(([word, names]) => [word, names.join(" · ")]);
  }
}
