// The wheels: a ring for each, and below it the buckets that have timers.
"use strict";

const SVG = "http://www.w3.org/2000/svg";
const INNER = 78;
const OUTER = 98;
const EDGE = 132;      // of the drawing
const MAX_NUMBERS = 8; // slots of one wheel that have their number on the ring
const NEAR = 0.06;     // of a turn: two numbers on the ring don't touch
const SIDE = 45;       // a number that is so far from the middle is beside the ring, or else above or below it
const FOLDED = 10;     // timers of a bucket that are shown before it is unfolded
const MAX_ROWS = 12;   // slots of a wheel, and so are these

// Whether two lists of written timers are the same.
function isSame(one, other) {
  return one === other || (one.length === other.length && one.every((written, k) => written === other[k]));
}

function make(tag, attributes, ...children) {
  const svg = ["svg", "circle", "path", "text", "g", "line"].includes(tag);
  const made = svg ? document.createElementNS(SVG, tag) : document.createElement(tag);
  for (const [name, value] of Object.entries(attributes || {})) {
    if (name.startsWith("on")) made.addEventListener(name.slice(2), value);
    else if (value !== null && value !== false)
      made.setAttribute(name, value === true ? "" : value);
  }
  made.append(...children.filter((child) => child !== null && child !== undefined));
  return made;
}

// Gives an element these children. Those that are there stay, since one that is put in again is laid out again.
function fillWith(element, children) {
  const wanted = new Set(children);
  for (const child of [...element.children])
    if (!wanted.has(child)) child.remove();
  let next = element.firstChild;
  for (const child of children)
    if (child === next) next = next.nextSibling;
    else element.insertBefore(child, next);
}

// Sets an attribute or a text that is another one.
function change(element, name, value) {
  if (element.getAttribute(name) !== String(value)) element.setAttribute(name, value);
}

function say(element, text) {
  if (element.textContent !== text) element.textContent = text;
}

function point(turn, radius) {
  const angle = 2 * Math.PI * turn - Math.PI / 2;
  return [radius * Math.cos(angle), radius * Math.sin(angle)];
}

// A segment of the ring, from one part of a turn to another.
function segment(from, to, inner, outer) {
  const large = to - from > 0.5 ? 1 : 0;
  const at = (turn, radius) => point(turn, radius).map((n) => n.toFixed(2)).join(" ");
  return `M${at(from, outer)}A${outer} ${outer} 0 ${large} 1 ${at(to, outer)}L${at(to, inner)}A${inner} ${inner} 0 ${
      large} 0 ${at(from, inner)}Z`;
}

// The followed timer has a colour of its own, also among timers that moved.
function colour(moved, followed) { return moved.some(({serial}) => serial === followed) ? "is-followed" : ""; }

// The segment of a slot. Where there are many slots it is wider than its share, so that it can be seen.
function slotSegment(slot, slots) {
  const gap = slots <= 128 ? 0.08 / slots : 0;
  const middle = (slot + 0.5) / slots;
  const half = Math.min(Math.max(0.5 / slots - gap, 0.0022), 0.4999);
  return segment(middle - half, middle + half, INNER, OUTER);
}

class WheelCard {
  // `acts` has what the reader does: follow(serial), aim(wheel, slot) and turn(wheel, slot).
  constructor(play, words, wheel, acts) {
    Object.assign(this, {wheel, acts, rows: new Map(), segments: new Map(), unfolded: new Set(), turn: null});
    this.take(play, words);
    const {name, slots, ticks} = play.wheels[wheel];
    const isPlain = this.scheme === "plain";
    const each = isPlain ? "" : `${slots} slots of ${ticksOfWheel({ticks}, wheel, this.scheme)}`;
    this.list = make("ul", {class: "buckets", onkeydown: (event) => this.walk(event)});
    this.body = make("div", {class: "wheel-body"}, isPlain ? null : this.ring(slots), this.list);
    this.element = make("article", {class: "wheel", "aria-label": name},
        make("header", {}, make("h3", {}, isPlain ? "Pending, by deadline" : upper(name)), make("p", {}, each)), this.body);
  }

  // Another play on the same wheels.
  take(play, words) { Object.assign(this, {play, words, scheme: play.scheme.name}); }

  ring(slots) {
    this.held = make("path", {class: "held"});
    this.chosen = make("path", {class: "held-followed"});
    this.left = make("path", {class: "left"});
    this.aimed = make("path", {class: "aimed"});
    this.grip = make("g", {class: "turns grip", tabindex: 0, role: "slider", "data-focus": `hand-${this.scheme}-${this.wheel}`,
      "aria-valuemin": 0, "aria-valuemax": slots - 1, onkeydown: (event) => this.pushHand(event)},
        make("path", {class: "grip-area", d: segment(-0.04, 0.04, 26, INNER - 2)}),
        make("line", {class: "hand", x1: 0, y1: -32, x2: 0, y2: -INNER + 12}),
        make("path", {class: "hand-tip", d: `M-6 ${-INNER + 14}L6 ${-INNER + 14}L0 ${-INNER + 3}Z`}));
    this.digit = make("text", {class: "digit", y: 0});
    const dashes = slots > 1 && slots <= 128 ? "0.8 0.2" : "none";
    const track = make("circle", {class: "track", r: (INNER + OUTER) / 2, pathLength: slots, "stroke-dasharray": dashes,
      "stroke-dashoffset": "-0.1", transform: "rotate(-90)"});
    this.scale = make("g", {});
    const target = make("circle", {class: "target", r: (INNER + OUTER) / 2, "stroke-width": OUTER - INNER + 16});
    this.svg = make("svg", {viewBox: `${-EDGE} ${-EDGE} ${2 * EDGE} ${2 * EDGE}`, role: "group"},
        target, track, this.held, this.chosen, this.left, this.aimed, this.digit, this.scale, this.grip);
    target.addEventListener("click", (event) => this.acts.aim(this.wheel, this.slotAt(event)));
    for (const path of [this.held, this.chosen])
      path.addEventListener("click", (event) => this.acts.aim(this.wheel, this.slotAt(event)));
    this.grip.addEventListener("pointerdown", (event) => this.drag(event));
    return this.svg;
  }

  // The slot at which the pointer is.
  slotAt({clientX, clientY}) {
    const {slots} = this.play.wheels[this.wheel];
    const {e, f} = this.svg.getScreenCTM();
    const turn = Math.atan2(clientY - f, clientX - e) / (2 * Math.PI) + 0.25;
    return Math.floor((turn - Math.floor(turn)) * slots);
  }

  // The hand follows the pointer, always forwards; where it is let go, the clock goes on to that slot.
  drag(event) {
    event.preventDefault();
    this.grip.focus();
    this.grip.setPointerCapture(event.pointerId);
    let slot = null;
    const move = (moved) => {
      slot = this.slotAt(moved);
      const {slots} = this.play.wheels[this.wheel];
      this.grip.style.transition = "none";
      this.grip.style.transform = `rotate(${((slot + 0.5) / slots) * 360}deg)`;
      this.digit.textContent = String(slot);
    };
    const end = () => {
      this.grip.removeEventListener("pointermove", move);
      this.grip.style.transition = "";
      if (slot === null || slot === this.digitNow) this.point();
      else this.acts.turn(this.wheel, slot);
    };
    this.grip.addEventListener("pointermove", move);
    this.grip.addEventListener("lostpointercapture", end, {once: true});
  }

  pushHand(event) {
    if (!["ArrowRight", "ArrowUp"].includes(event.key)) return;
    event.preventDefault();
    event.stopPropagation();
    this.acts.turn(this.wheel, (this.digitNow + 1) % this.play.wheels[this.wheel].slots);
  }

  // The slot to which a timer would go.
  aim(slot) {
    if (this.aimed) change(this.aimed, "d", slot === null ? "" : this.segment(slot));
  }

  // Where a slot is on the screen: the middle of its ring, the scale, and the turn at which the slot is. Arrows end at the
  // radius `end`, outside of the slot's number, and go round the ring at the radius `corridor`, outside of all numbers.
  spot(slot) {
    const {a, e, f} = this.svg.getScreenCTM();
    const turn = (slot + 0.5) / this.play.wheels[this.wheel].slots;
    const number = parseFloat(getComputedStyle(this.scale.firstChild).fontSize);
    const isAside = Math.abs(point(turn, OUTER)[0]) >= SIDE;
    const end = OUTER + 8 + number * (isAside ? 1.3 : 0.95);
    return {x: e, y: f, size: a, turn, end, corridor: OUTER + 17 + 1.35 * number, card: this.element.getBoundingClientRect()};
  }

  // `held` are the slots that have timers and their lists; `chosen` is the slot of the followed timer, or
  // null; `left` and `came` are the slots that timers have just left and moved to, and these events.
  render({held, chosen, left, came}, now, followed) {
    if (this.svg) {
      this.renderRing(held, chosen, left, now);
      this.renderScale(held, chosen, left, came, followed);
    }
    this.renderBuckets(held, chosen, left, came, followed);
    this.element.classList.toggle("is-empty", !held.length && !left.size);
  }

  // The numbers around the ring: where timers moved, where timers are if those are few, and the quarters.
  renderScale(held, chosen, left, came, followed) {
    const {slots} = this.play.wheels[this.wheel];
    const quarters = slots < 8 ? [...Array(slots).keys()] : [0, 1, 2, 3].map((k) => Math.floor((k * slots) / 4));
    const occupied = held.length <= MAX_NUMBERS ? held.map(([slot]) => slot) : [];
    if (chosen !== null) occupied.unshift(chosen);
    const wanted = [
      ...[...came, ...left].map(([slot, events]) => [slot, `is-moved ${colour(events, followed)}`]),
      ...occupied.map((slot) => [slot, slot === chosen ? "is-followed" : "is-held"]),
      ...quarters.map((slot) => [slot, ""]),
    ];
    const put = [];
    for (const label of wanted) {
      const isFree = put.every(([other]) => {
        const apart = Math.abs(label[0] - other) / slots;
        return Math.min(apart, 1 - apart) >= NEAR;
      });
      if (isFree) put.push(label);
    }
    if (this.scaled === String(put)) return;
    this.scaled = String(put);
    this.scale.replaceChildren(...put.map(([slot, kind]) => this.scaleLabel(slot, kind, slots)));
  }

  // A number outside of the ring.
  scaleLabel(slot, kind, slots) {
    const [x, y] = point((slot + 0.5) / slots, OUTER + 5);
    const side = Math.abs(x) < SIDE ? (y < 0 ? "is-top" : "is-bottom") : x < 0 ? "is-left" : "is-right";
    return make("text", {class: `slot-label ${side} ${kind}`, x, y}, String(slot));
  }

  segment(slot) {
    if (!this.segments.has(slot)) this.segments.set(slot, slotSegment(slot, this.play.wheels[this.wheel].slots));
    return this.segments.get(slot);
  }

  renderRing(held, chosen, left, now) {
    const {slots, name, ticks} = this.play.wheels[this.wheel];
    this.digitNow = digitsOf(this.play.wheels, now)[this.wheel];
    change(this.held, "d", held.map(([slot]) => (slot === chosen ? "" : this.segment(slot))).join(""));
    change(this.chosen, "d", chosen === null ? "" : this.segment(chosen));
    change(this.left, "d", [...left.keys()].map((slot) => this.segment(slot)).join(""));
    this.digit.classList.toggle("is-long", this.digitNow > 99);
    this.turnTo(now);
    this.point();
    const does = ticks === 1n ? "each tick" : `each ${ticks} ticks`;
    change(this.grip, "aria-label", `Hand of ${name}, a slot ${does}: right arrow passes ticks up to the next slot`);
    change(this.grip, "aria-valuenow", this.digitNow);
    change(this.grip, "aria-valuetext", `slot ${this.digitNow}`);
    change(this.svg, "aria-label", `${upper(name)}: the hand is at slot ${this.digitNow}, ${held.length} slot${
        held.length === 1 ? " has" : "s have"} timers`);
  }

  point() {
    const {slots} = this.play.wheels[this.wheel];
    say(this.digit, String(this.digitNow));
    this.grip.style.transform = `rotate(${(((this.turn + 0.5) / slots) * 360).toFixed(3)}deg)`;
  }

  // The hand turns the way the clock went, also over slot 0. Many turns are drawn as one.
  turnTo(now) {
    const {slots, ticks} = this.play.wheels[this.wheel];
    const at = now / ticks;
    const gone = this.at === undefined ? 0n : at - this.at;
    const part = Number(gone % BigInt(slots));
    const isWhole = gone >= BigInt(slots) || -gone >= BigInt(slots);
    if (this.at === undefined) this.turn = Number(at % BigInt(slots));
    this.turn += part + (isWhole ? (gone > 0n ? slots : -slots) : 0);
    this.at = at;
  }

  // A slot has one row, also if some timers stand there and others have just left.
  renderBuckets(held, chosen, left, came, followed) {
    const rows = this.listed(held, chosen, left, came).map(
        ([slot, list]) => this.row(slot, list, slot === chosen ? followed : null, came.get(slot), left.get(slot), followed));
    const isGone = ([slot]) => !held.some(([other]) => other === slot);
    for (const [slot, events] of [...left].filter(isGone).slice(0, MAX_NUMBERS))
      rows.push(make("li", {class: "gone"}, make("span", {class: "name"}, this.slotName(slot)), this.gone(events, followed)));
    if (rows.length < held.length) rows.push(make("li", {}, this.unfold(-1, held.length - MAX_ROWS, "slots")));
    if (!held.length && !left.size) rows.push(make("li", {}, make("span", {class: "none"}, "empty")));
    fillWith(this.list, rows);
    this.list.querySelectorAll("button").forEach((chip, at) => change(chip, "tabindex", at ? -1 : 0));
    const live = new Set(held.map(([slot]) => slot));
    for (const slot of this.rows.keys())
      if (!live.has(slot)) this.rows.delete(slot);
  }

  // In a list that scrolls by itself the first row that has changed is in sight.
  reveal() {
    const changed = this.list.querySelector(".went")?.closest("li");
    if (changed) this.list.scrollTop = changed.offsetTop - this.list.offsetTop;
  }

  // The slots that are listed: all, or so many, those at which something happened among them.
  listed(held, chosen, left, came) {
    if (held.length <= MAX_ROWS + 1 || this.unfolded.has(-1)) return held;
    const isNews = ([slot]) => slot === chosen || left.has(slot) || came.has(slot);
    const found = new Set([...held.filter(isNews), ...held].slice(0, MAX_ROWS));
    return held.filter((pair) => found.has(pair));
  }

  // The timers of a wheel are one stop of the Tab key: the arrows up and down go from one to the next.
  walk(event) {
    const by = {ArrowDown: 1, ArrowUp: -1}[event.key];
    const chips = [...this.list.querySelectorAll("button")];
    const next = by && chips[chips.indexOf(document.activeElement) + by];
    if (!next) return;
    event.preventDefault();
    chips.forEach((chip) => { chip.tabIndex = chip === next ? 0 : -1; });
    next.focus();
  }

  slotName(slot) { return this.words.place(keyOf(this.wheel, slot)).replace(/^wheel \d+ /, ""); }

  gone(events, followed) { return make("span", {class: `went left-it ${colour(events, followed)}`}, this.words.gone(events)); }

  // The row of a bucket, where `has` is the followed timer if it stands there, and `came` and `left` are what happened
  // there at this step. It is made anew only if it changed.
  row(slot, list, has, came, left, followed) {
    const old = this.rows.get(slot);
    const isOpen = this.unfolded.has(slot) || list.length <= FOLDED + 1;
    if (old && isSame(old.list, list) && old.has === has && !came && !left && !old.came && !old.left && old.isOpen === isOpen)
      return old.element;
    const shown = isOpen ? list : list.slice(0, FOLDED);
    if (!isOpen && has !== null && !shown.some((written) => serialOf(written) === has))
      shown[FOLDED - 1] = list.find((written) => serialOf(written) === has);
    const chips = shown.map((written) => this.chip(written, has));
    if (!isOpen) chips.push(this.unfold(slot, list.length - FOLDED));
    if (came) chips.push(make("span", {class: `went ${colour(came, followed)}`}, this.words.came(came)));
    if (left) chips.push(this.gone(left, followed));
    const element = make("li", {class: `bucket${left ? " gone" : ""}`}, make("span", {class: "name"}, this.slotName(slot)),
        make("div", {class: "chips"}, ...chips));
    this.rows.set(slot, {list, has, came, left, isOpen, element});
    return element;
  }

  unfold(slot, more, what = "timers") {
    const act = () => {
      this.unfolded.add(slot);
      this.acts.follow(null);
    };
    const name = {"aria-label": `${more} more ${what}`, "data-focus": `more-${this.wheel}-${slot}`};
    return make("button", {type: "button", class: "more", onclick: act, ...name}, `+ ${more}${what === "slots" ? " slots" : ""}`);
  }

  chip(written, has) {
    const serial = serialOf(written);
    const timer = this.play.timers.get(serial);
    const [, note] = written.split(":");
    const {deadline, client, action} = timer ?? {};
    const title = `timer ${serial}${timer ? `, deadline ${deadline}, client ${client}, action ${action}` : ""}`;
    const kind = `chip${serial === has ? " is-followed" : ""}`;
    const pressed = {"data-focus": `chip-${serial}`, "aria-pressed": String(serial === has)};
    const chip = make("button", {type: "button", class: kind, title, onclick: () => this.acts.follow(serial), ...pressed}, serial);
    if (note === undefined) return chip;
    const said = this.scheme === "plain" ? `tick ${note}` : `${note} round${note === "1" ? "" : "s"}`;
    return make("span", {class: "noted"}, chip, make("span", {class: "remark"}, said));
  }
}
