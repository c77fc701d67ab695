// Arrows from where timers were to where they moved at a step. An arrow goes round a ring outside of its numbers, and from
// ring to ring where no text is: straight between two that are side by side, or else above the rings or at a card's edge.
"use strict";

const MAX_ARROWS = 3;  // of one step; if there are more, one thick arrow goes to each wheel
const TRAVEL = 900;    // milliseconds for which a timer travels along its arrow
const ROUND = 8;       // pixels by which a corner is rounded
const INSIDE = 6;      // pixels from the edge of a card, where it has no text, and half of those to the next card

function onRing({x, y, size}, turn, radius) {
  const [awayX, awayY] = point(turn, radius * size);
  return [x + awayX, y + awayY];
}

// The points on the way round a ring, by the shorter side.
function arcOf(spot, from, to) {
  let by = to - from;
  by -= Math.round(by);
  const steps = Math.max(2, Math.ceil(Math.abs(by) * 48));
  return [...Array(steps + 1).keys()].map((k) => onRing(spot, from + (by * k) / steps, spot.corridor));
}

// The turns at which the way leaves one ring and comes to the other, and the corners in between.
function wayOf(from, to, between) {
  if (Math.abs(from.y - to.y) < from.corridor * from.size) {
    const [right, left] = between ? [0.04, 0.96] : [0.25, 0.75];
    return from.x < to.x ? [right, left, []] : [left, right, []];
  }
  if (from.y < to.y) {
    const [come, leave, corners] = wayOf(to, from);
    return [leave, come, corners.reverse()];
  }
  // From a small wheel up to a large one: between the two rows, and then at the edge of the large one's card.
  const isLeft = from.x < to.x;
  const [gap, edge] = [from.card.top - INSIDE, isLeft ? to.card.left + INSIDE : to.card.right - INSIDE];
  return [0, isLeft ? 0.75 : 0.25, [[from.x, gap], [edge, gap], [edge, to.y]]];
}

// A path through points, with round corners.
function pathThrough(points) {
  const at = ([x, y]) => `${x.toFixed(1)} ${y.toFixed(1)}`;
  let path = `M${at(points[0])}`;
  for (let k = 1; k < points.length - 1; k += 1) {
    const [[ax, ay], [bx, by], [cx, cy]] = [points[k - 1], points[k], points[k + 1]];
    const near = (x, y) => {
      const far = Math.hypot(x - bx, y - by) || 1;
      const part = Math.min(ROUND, far / 2) / far;
      return [bx + (x - bx) * part, by + (y - by) * part];
    };
    path += `L${at(near(ax, ay))}Q${at([bx, by])} ${at(near(cx, cy))}`;
  }
  return `${path}L${at(points[points.length - 1])}`;
}

function pointsOf(from, to, between) {
  const [leave, come, corners] = wayOf(from, to, between);
  return [onRing(from, from.turn, from.end), ...arcOf(from, from.turn, leave), ...corners, ...arcOf(to, come, to.turn)];
}

// The arrow's line and its tip, which points inwards at the slot.
function arrowOf(from, to, between, kind) {
  const points = pointsOf(from, to, between);
  const at = (turn, radius) => onRing(to, turn, radius).map((n) => n.toFixed(1)).join(" ");
  const long = 9 / to.size;
  const wide = 5 / (2 * Math.PI * OUTER * to.size);
  return [
    make("path", {class: `arrow ${kind}`, d: pathThrough([...points, onRing(to, to.turn, to.end + long)])}),
    make("path", {class: `arrow-tip ${kind}`,
      d: `M${at(to.turn, to.end)}L${at(to.turn - wide, to.end + long + 1)}L${at(to.turn + wide, to.end + long + 1)}Z`}),
  ];
}

class Arrows {
  constructor() { this.element = make("svg", {class: "arrows", "aria-hidden": "true"}); }

  // The moves of a step, as arrows between the cards; those that travel do so if the step was just made.
  render(moved, cards, followed, travels) {
    cancelAnimationFrame(this.frame);
    this.element.replaceChildren();
    if (!moved.length) return;
    const origin = this.element.getBoundingClientRect();
    const spot = (key) => {
      const {wheel, slot} = placeOf(key);
      const found = cards.get(wheel).spot(slot);
      const {left, right, top} = found.card;
      const card = {left: left - origin.left, right: right - origin.left, top: top - origin.top};
      return {...found, x: found.x - origin.left, y: found.y - origin.top, card};
    };
    const order = [...cards.keys()];
    for (const {from, to, events} of Arrows.bundled(moved, followed)) {
      const apart = Math.abs(order.indexOf(placeOf(from).wheel) - order.indexOf(placeOf(to).wheel));
      const own = events.find(({serial}) => serial === followed);
      const kind = `${own ? "is-followed" : ""} ${events.length > 1 ? "is-thick" : ""}`.trim();
      const [line, tip] = arrowOf(spot(from), spot(to), apart > 1, kind);
      this.element.append(line, tip);
      if (travels) this.travel(line, own?.serial ?? (events.length > 1 ? `${events.length}` : events[0].serial), kind);
    }
  }

  // One arrow for each pair of slots, or if these are many one for each pair of a slot and a wheel.
  static bundled(moved, followed) {
    const by = (keyOfEvent) => {
      const found = new Map();
      for (const event of moved) {
        const key = keyOfEvent(event);
        if (!found.has(key)) found.set(key, {from: event.from, to: event.to, events: []});
        const bundle = found.get(key);
        if (event.serial === followed) Object.assign(bundle, {from: event.from, to: event.to});
        bundle.events.push(event);
      }
      return [...found.values()];
    };
    const pairs = by(({from, to}) => `${from} ${to}`);
    return pairs.length <= MAX_ARROWS ? pairs : by(({from, to}) => `${from} ${placeOf(to).wheel}`).slice(0, MAX_ARROWS);
  }

  // The timer itself goes along the arrow.
  travel(line, said, kind) {
    const length = line.getTotalLength();
    const rider = make("g", {class: `rider ${kind}`}, make("circle", {r: 11}), make("text", {}, said));
    this.element.append(rider);
    let begun = null;
    const step = (time) => {
      begun ??= time;
      const part = Math.min((time - begun) / TRAVEL, 1);
      const {x, y} = line.getPointAtLength(length * (part < 0.5 ? 2 * part * part : 1 - 2 * (1 - part) ** 2));
      rider.setAttribute("transform", `translate(${x.toFixed(1)} ${y.toFixed(1)})`);
      if (part < 1) this.frame = requestAnimationFrame(step);
      else rider.remove();
    };
    step(performance.now());
  }
}
