// A script as the program plays it: a step for each line, or for each piece of a line of ticks. Step 0 is before the first.
//
// The program is run three times: `serve --wakeups` gives the answers to each line; then the lines of ticks are cut where
// something happens, and it gives the answers again, and `show` where the timers stand after each piece. The text of `show`
// grows with lines times timers. Where that would be too much, the program is asked for one step at a time (Play.placed).
"use strict";

const MAX_PIECES = 500;    // of one line; a line with as many stops before its end is one step
const MAX_STEPS = 5000;    // from then on a line is one step
const MAX_LOOKS = 20000;   // at timers, to find where one line is cut
const MAX_SHOWN = 400000;  // timers in the text of `show`: some 3 MB
const MAX_KEPT = 100;      // steps of which the places are kept: of more, the oldest are asked for again
const BACK = 32;           // steps by which the program is asked earlier, when the reader goes back
const MAX_TICKS = 1000000n; // of one line

function serialOf(written) { return written.split(":")[0]; }

// The word with which a line begins, and its fields by their names (FIELDS of lessons.js).
function partsOf(line) {
  const [word, ...values] = line.split(" ");
  return {word, ...Object.fromEntries(FIELDS[word].map((name, at) => [name, values[at]]))};
}

// What an answer says of timers, by its fields: whether one begins, and the serial of one that ends, or null.
function isBegin({number, deadline}) { return number !== undefined && deadline !== undefined; }

function endOf(said) { return said.old ?? (isBegin(said) ? null : said.serial ?? null); }

function rowsOf(text) { return text.split("\n").slice(0, -1); }

function linesOf(texts) { return ENGINE.bytesOf(texts.map((text) => `${text}\n`).join("")); }

// The lines that pass so many ticks.
function ticksFor(count) {
  const made = [];
  for (let rest = count; rest > 0n; rest -= MAX_TICKS) made.push(`tick ${rest < MAX_TICKS ? rest : MAX_TICKS}`);
  return made;
}

// Timers by the next tick at which something is done with them: a binary heap.
class Stops {
  constructor() { this.heap = []; }

  get first() { return this.heap[0]; }

  swap(a, b) { [this.heap[a], this.heap[b]] = [this.heap[b], this.heap[a]]; }

  add(tick, serial) {
    let at = this.heap.push({tick, serial}) - 1;
    while (at && this.heap[at].tick < this.heap[(at - 1) >> 1].tick) {
      this.swap(at, (at - 1) >> 1);
      at = (at - 1) >> 1;
    }
  }

  take() {
    const [first] = this.heap;
    const last = this.heap.pop();
    if (!this.heap.length) return first;
    this.heap[0] = last;
    for (let at = 0, least = 0;; at = least) {
      for (const child of [2 * at + 1, 2 * at + 2])
        if (child < this.heap.length && this.heap[child].tick < this.heap[least].tick) least = child;
      if (least === at) return first;
      this.swap(at, least);
    }
  }
}

// Where the lines of ticks are cut.
class Cutter {
  constructor(scheme) { Object.assign(this, {scheme, stops: new Stops(), deadlines: new Map(), pieces: [], whole: []}); }

  // The ticks after now and before `then` at which something happens, or null if there are too many.
  between(now, then) {
    const found = [];
    for (let looks = 0; this.stops.first && this.stops.first.tick < then; looks += 1) {
      if (looks > MAX_LOOKS || found.length >= MAX_PIECES) return null;
      const {tick, serial} = this.stops.take();
      const deadline = this.deadlines.get(serial);
      if (deadline === undefined) continue;
      const next = tick <= now ? now : tick;
      if (tick > now && found[found.length - 1] !== tick) found.push(tick);
      if (deadline > next) this.stops.add(this.scheme.nextStop(next, deadline), serial);
    }
    return found;
  }

  note(answers, now) {
    for (const answer of answers) {
      const said = partsOf(answer);
      this.deadlines.delete(endOf(said));
      if (!isBegin(said)) continue;
      this.deadlines.set(said.serial, BigInt(said.deadline));
      this.stops.add(this.scheme.nextStop(now, BigInt(said.deadline)), said.serial);
    }
  }

  // Adds the pieces of a line that was played from now to `then`.
  add(line, text, now, then, answers, isWhole) {
    const isRefused = answers.some((answer) => answer.startsWith("tick refused"));
    const isTick = then !== now && !isRefused;
    let ticks = isTick && !isWhole && this.pieces.length <= MAX_STEPS ? this.between(now, then) : null;
    if (then !== now && !ticks) this.whole.push(line);
    if (!isTick) this.pieces.push({line, passed: 0n, text});
    let passed = 0n;
    for (const tick of isTick ? [...ticks ?? [], then] : []) {
      this.pieces.push({line, passed: tick - now, text: `tick ${tick - now - passed}`});
      passed = tick - now;
    }
    this.note(answers, then);
  }
}

// What the program reports of the bad line at which it ends.
const BAD_LINE = /^timers: standard input:(\d+): bad line$/;

class Play {
  // A script is a text of which each character is a byte. `pieces` are those of another play of the same script.
  constructor({name = "", title, options, script, isWhole = false}, pieces = null) {
    Object.assign(this, {name, title, options, script, isWhole, timers: new Map(), kept: new Map(), lives: new Map()});
    this.scheme = new Scheme(options);
    this.wheels = this.scheme.wheels;
    this.lines = script.split("\n").map((line) => new TextDecoder().decode(ENGINE.bytesOf(line)));
    if (this.lines[this.lines.length - 1] === "") this.lines.pop();
    this.pieces = pieces ?? this.cut();
    this.steps = this.played(this.pieces);
    this.steps.forEach((step, at) => {
      for (const answer of step.answers) this.hear(answer, at + 1);
    });
    this.place();
    // A bad line is a last step, at which nothing changes.
    if (this.bad !== null)
      this.steps.push({line: this.bad, passed: 0n, now: this.now(this.last), answers: [], wakeup: null, isBad: true});
  }

  get last() { return this.steps.length; }

  now(step) { return step ? this.steps[step - 1].now : this.scheme.firstTick; }

  // Runs the program with the options of this play.
  run(verb, input, more = [], options = this.options) {
    const made = ENGINE.run([verb, ...options, ...more], input);
    if (made.status && !BAD_LINE.test(made.errors)) throw new Error(made.errors.split("\n")[0]);
    return made;
  }

  // The answers to each line, and what the program says of the next wake-up.
  answered(input) {
    const {output, errors} = this.run("serve", input, ["--wakeups"]);
    const steps = [];
    let answers = [];
    for (const row of rowsOf(output)) {
      if (row.startsWith("end ")) this.end = row;
      else if (row.startsWith("wakeup ")) {
        steps.push({answers, wakeup: row === "wakeup never" ? null : BigInt(row.slice(7))});
        answers = [];
      } else answers.push(row);
    }
    return {steps, errors};
  }

  nowAfter(now, text, answers) {
    if (!text.startsWith("tick ") || answers.includes("tick refused closed")) return now;
    return answers.includes("tick refused clock-end") ? this.scheme.last : now + BigInt(text.slice(5));
  }

  cut() {
    const input = ENGINE.bytesOf(this.script);
    const {steps, errors} = this.answered(input);
    this.bad = errors ? Number(BAD_LINE.exec(errors)[1]) - 1 : null;
    this.reason = errors ? this.whyBad(input) : "";
    const cutter = new Cutter(this.scheme);
    let now = this.scheme.firstTick;
    steps.forEach(({answers}, line) => {
      const then = this.nowAfter(now, this.lines[line], answers);
      cutter.add(line, this.lines[line], now, then, answers, this.isWhole);
      now = then;
    });
    this.whole = new Set(cutter.whole);
    this.uncut = steps.flatMap(({answers}) => answers);
    return cutter.pieces;
  }

  // What `timers check` says of the bad line: the reason and the column. It reads no script that is too long for `play`.
  whyBad(input) {
    const said = ENGINE.run(["check"], input).output;
    const found = new RegExp(`^line ${this.bad + 1}, column (\\d+): (.*)$`, "m").exec(said);
    return found ? `${found[2]}, at column ${found[1]}` : "it has none of the forms of a line";
  }

  played(pieces) {
    const {steps} = this.answered(linesOf(pieces.map(({text}) => text)));
    if (this.uncut && steps.flatMap(({answers}) => answers).join("\n") !== this.uncut.join("\n"))
      throw new Error("the script has other answers when its ticks are played in pieces");
    this.bad ??= null;
    this.whole ??= new Set();
    let {firstTick: now} = this.scheme;
    const made = steps.map(({answers, wakeup}, at) => {
      now = this.nowAfter(now, pieces[at].text, answers);
      return {line: pieces[at].line, passed: pieces[at].passed, now, answers, wakeup};
    });
    if (!this.end.startsWith(`end ${now} `)) throw new Error(`the clock is at ${now}, and the program says ${this.end}`);
    return made;
  }

  // An answer: a timer that begins or ends.
  hear(answer, step) {
    const said = partsOf(answer);
    const {word, client, serial, deadline, tick, old = null} = said;
    if (old !== null) this.finish(old, step, word, this.now(step), serial);
    if (isBegin(said)) {
      const {action} = partsOf(this.lines[this.steps[step - 1].line]);
      this.timers.set(serial, {serial, client, action, old, deadline: BigInt(deadline), start: this.now(step), from: step,
        to: null, end: null, kind: null, by: null});
    } else this.finish(serial, step, word, tick ? BigInt(tick) : this.now(step));
  }

  finish(serial, step, kind, end, by = null) {
    if (this.timers.has(serial)) Object.assign(this.timers.get(serial), {to: step, kind, end, by});
  }

  // The serials of the timers that are pending after a step.
  pending(step) {
    return [...this.timers.values()].filter(({from, to}) => from <= step && (to === null || to > step)).map(({serial}) => serial);
  }

  // Asks `show` where the timers stand after all steps, if that is not too much text. `used` are the wheels that hold one.
  place() {
    const changes = this.steps.map(() => 0);
    for (const {from, to} of this.timers.values()) {
      changes[from - 1] += 1;
      if (to !== null) changes[to - 1] -= 1;
    }
    let pending = 0;
    let shown = 0;
    for (const change of changes) {
      pending += change;
      shown += pending;
    }
    this.used = new Set([0]);
    this.isShort = shown <= MAX_SHOWN;
    if (this.isShort) this.placeAll();
    else if (this.scheme.isHierarchy)
      for (const {start, deadline} of this.timers.values()) this.used.add(levelOf(this.wheels, start, deadline));
  }

  placeAll() {
    const rows = rowsOf(this.run("show", linesOf(this.pieces.map(({text}) => text))).output);
    let step = 0;
    this.rows = [];
    for (const row of rows) {
      if (row.startsWith("  now ")) {
        this.rows.push([]);
        step += 1;
        if (BigInt(row.slice(6)) !== this.now(step)) throw new Error(`step ${step} is at ${this.now(step)}, and show says${row}`);
      } else if (row.startsWith("  ")) {
        this.rows[step - 1].push(row);
        this.used.add(placeOf(this.scheme.key(row.slice(2, row.indexOf(": ")))).wheel);
      }
    }
  }

  // Where each timer stands after a step: the buckets by their keys, each from its front, and the key and the rounds by
  // serial. That of a state which follows from another has only the timers of which the program was asked, and null for
  // those that ended; of the others the `base` knows.
  state(step) {
    if (!this.kept.has(step)) {
      const state = this.stateOf(step);
      if (this.kept.size >= MAX_KEPT) this.kept.delete(this.kept.keys().next().value);
      this.kept.set(step, state);
    }
    return this.kept.get(step);
  }

  stateOf(step) {
    const at = this.steps[step - 1]?.isBad ? step - 1 : step;
    if (!at) return {buckets: new Map(), where: new Map()};
    if (this.isShort) return Play.whole(this.read(this.rows[at - 1]));
    if (!this.kept.has(at - 1)) this.begin(this.kept.has(at + 1) ? Math.max(at - BACK, 0) : at - 1, at);
    return this.after(this.state(at - 1), at);
  }

  // The states from a step on, and before another: the program is asked of all timers at the first. A reader who goes back
  // goes on from there when he does so again.
  begin(from, to) {
    this.kept.set(from, from ? Play.whole(this.placed(this.pending(from), from, new Map()).buckets) : this.stateOf(0));
    for (let step = from + 1; step < to; step += 1) this.state(step);
  }

  // A state that needs no other.
  static whole(buckets) {
    const where = new Map();
    for (const [key, list] of buckets)
      for (const written of list) where.set(serialOf(written), {key, note: written.split(":")[1] ?? ""});
    return {buckets, where, depth: 0};
  }

  // The places after a step from those before it. All timers of a bucket are looked at at the same tick: until then they
  // stay, and the program is asked of the others.
  after(base, step) {
    const [before, now] = [this.now(step - 1), this.now(step)];
    const said = this.steps[step - 1].answers.map(partsOf);
    const ended = new Set(said.map(endOf));
    const asked = said.filter(isBegin).map(({serial}) => serial);
    const kept = new Map();
    for (const [key, list] of base.buckets) {
      const first = this.timers.get(serialOf(list[0])).deadline;
      const left = ended.size ? list.filter((written) => !ended.has(serialOf(written))) : list;
      const stays = this.scheme.name === "plain" || this.scheme.nextStop(before, first) > now;
      if (!stays) asked.push(...left.map(serialOf));
      else if (left.length) kept.set(key, left.length === list.length ? list : left);
    }
    const {buckets, where} = this.placed(asked, step, kept);
    for (const serial of ended) where.set(serial, null);
    return base.depth < MAX_KEPT ? {buckets, where, base, depth: base.depth + 1, changed: asked} :
                                   {...Play.whole(buckets), changed: asked};
  }

  // The place of a timer after a step, with its rounds, if it is pending.
  standing(serial, step) {
    for (let state = this.state(step); state; state = state.base)
      if (state.where.has(serial)) return state.where.get(serial);
    return null;
  }

  read(rows) {
    return new Map(rows.map((row) => {
      const colon = row.indexOf(": ");
      return [this.scheme.key(row.slice(2, colon)), row.slice(colon + 2).split(" ")];
    }));
  }

  // Adds to buckets where these timers stand after a step of a script whose whole text would be too long. A timer's place
  // depends on now and on its deadline alone (docs/proof/definitions.md, Placement), and a bucket is in order of serials. So each
  // is started on a clock that is at this tick, by itself, and `show` says where it stands.
  placed(serials, step, buckets) {
    const where = new Map();
    const now = this.now(step);
    const input = serials.flatMap((serial, k) => [
      `start 0 ${2 * k + 1} ${this.timers.get(serial).deadline - now} 0`, `stop 0 ${2 * k + 2} ${k + 1}`,
    ]);
    const added = new Map();
    let k = 0;
    for (const [, name, note] of serials.length ? this.askedAt(now, input).matchAll(/^ {2}(?!now )([^:]+): \d+(:\d+)?$/gm) : []) {
      const key = this.scheme.key(name);
      if (!added.has(key)) added.set(key, [...buckets.get(key) ?? []]);
      added.get(key).push(`${serials[k]}${note ?? ""}`);
      where.set(serials[k], {key, note: (note ?? "").slice(1)});
      k += 1;
    }
    const numbers = this.scheme.name === "plain" ? (written) => written.split(":").reverse() : (written) => [serialOf(written), 0];
    const inOrder = (one, other) => {
      const [[a, b], [c, d]] = [numbers(one), numbers(other)];
      return Number(a) - Number(c) || Number(b) - Number(d);
    };
    for (const [key, list] of added) buckets.set(key, list.sort(inOrder));
    return {buckets, where};
  }

  // What `show` writes for these lines on a clock that starts at this tick.
  askedAt(tick, texts, more = []) {
    const options = ["--scheme", this.scheme.name, "--slots", String(this.scheme.slots), "--first-tick", String(tick)];
    return this.run("show", linesOf(texts), more, options).output;
  }

  // Where a timer would stand that is started now for this deadline, as the program names it, or why it would be refused.
  // The latest answer is kept, since it is asked for at each step.
  placeFor(now, deadline) {
    if (this.aimed?.now === now && this.aimed.deadline === deadline) return this.aimed;
    const rows = rowsOf(this.askedAt(now, [`start 0 1 ${deadline - now} 0`]));
    if (rows[0].startsWith("refused")) return {reason: rows[0]};
    const name = rows[2].slice(2, rows[2].indexOf(": "));
    this.aimed = {now, deadline, name, key: this.scheme.key(name)};
    return this.aimed;
  }

  whereIs(serial, step) { return this.standing(serial, step)?.key ?? null; }

  // What happened to timers at a step: those that begin and end, by the answers, and those that stand elsewhere than before.
  events(step) {
    const state = this.state(step);
    state.events ??= !step || this.steps[step - 1].isBad ? [] : this.eventsOf(step);
    return state.events;
  }

  eventsOf(step) {
    const made = [];
    for (const said of this.steps[step - 1].answers.map(partsOf)) {
      const {word, serial, old = null, tick} = said;
      const from = this.standing(old ?? serial, step - 1)?.key;
      if (old !== null) made.push({kind: word, serial: old, by: serial, from});
      if (isBegin(said)) made.push({kind: "started", serial, to: this.standing(serial, step)?.key});
      else if (serial) made.push({kind: word, serial, from, ...(tick ? {tick: BigInt(tick)} : {})});
    }
    const state = this.state(step);
    for (const serial of state.changed ?? state.where.keys()) {
      const {key, note} = this.standing(serial, step);
      const was = this.standing(serial, step - 1);
      if (was && was.key !== key) made.push({kind: "moved", serial, from: was.key, to: key});
      else if (was && was.note !== note) made.push({kind: "round", serial, rounds: note});
    }
    return made.map((event) => ({...event, step}));
  }

  // The timer that is pending until the latest step; of several the first.
  longest() {
    let found = null;
    const end = ({to}) => to ?? this.last + 1;
    for (const timer of this.timers.values())
      if (!found || end(timer) > end(found)) found = timer;
    return found && found.serial;
  }

  // The first step after `from` at which the clock is at this tick or later.
  stepAt(tick, from) {
    let [low, high] = [from, this.last];
    while (low < high) {
      const middle = (low + high) >> 1;
      if (this.now(middle) < tick) low = middle + 1;
      else high = middle;
    }
    return low;
  }

  // The moves of a timer: it is played alone, and `show --moves` says when it moves. No timer changes where another stands.
  movesOf({start, deadline, from, to, end}) {
    if (!this.scheme.isHierarchy) return [];
    const until = end ?? this.now(this.last);
    const rows = this.askedAt(start, [`start 0 1 ${deadline - start} 0`, ...ticksFor(until - start)], ["--moves"]);
    const made = [];
    for (const [, tick, old, place] of rows.matchAll(/^  moved at (\d+) from (.*) to (.*): 1$/gm)) {
      const step = this.stepAt(BigInt(tick), from + 1);
      const last = made[made.length - 1];
      if (step === to) break;
      if (last?.step === step) last.to = this.scheme.key(place);
      else made.push({kind: "moved", step, from: this.scheme.key(old), to: this.scheme.key(place)});
    }
    return made;
  }

  // All that happens to a timer, but for rounds.
  history(serial) {
    if (this.lives.has(serial)) return this.lives.get(serial);
    const timer = this.timers.get(serial);
    const made = [{kind: "started", step: timer.from, to: this.whereIs(serial, timer.from)}, ...this.movesOf(timer)];
    if (timer.to !== null) {
      const tick = timer.kind === "expired" ? {tick: timer.end} : {};
      made.push({kind: timer.kind, step: timer.to, by: timer.by, ...tick});
    }
    this.lives.set(serial, made.map((event) => ({...event, serial})));
    return this.lives.get(serial);
  }

  // How many timers this scheme has looked at up to a step.
  looks(step) {
    let looks = 0n;
    const now = this.now(step);
    for (const timer of this.timers.values()) {
      const {start, deadline, from, to, end} = timer;
      if (from > step) break;
      if (to === null || to > step) looks += this.scheme.looks(start, deadline, now);
      else looks += timer.looks ??= this.scheme.looks(start, deadline, end);
    }
    return looks;
  }

  // The number of a client's next request.
  nextNumber(client, step) {
    let number = 0n;
    for (const {line, answers} of this.steps.slice(0, step)) {
      const asked = partsOf(this.lines[line]);
      const isTaken = answers.some((answer) => (answer.startsWith("refused ") ?
          / (zero-interval|too-late|serials-spent|full|no-such)$/.test(answer) : partsOf(answer).number === asked.number));
      if (asked.client === client && isTaken) number = BigInt(asked.number);
    }
    return number + 1n;
  }
}
