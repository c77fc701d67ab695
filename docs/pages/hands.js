// What the reader does: starts, stops and restarts timers, advances the clock, changes the scheme. Each is a line at the end
// of the script up to the present step, and then the program plays that script.
"use strict";

const MOST_LINES = 64n;    // of ticks that one act adds
const STEP_TIME = 900;     // milliseconds for each piece of a line of ticks that was just added
const THROUGH_TIME = 5000; // and for all of them
const MOST_THROUGH = 40;   // pieces that are shown one after the other
const FIRST_INTERVAL = 130n;
const ACTION = "1";

// An act leaves the buttons where the reader has them on the screen: on a phone they are below the wheels and the story.
function inPlace(act) {
  const box = () => $("hands").getBoundingClientRect();
  const before = box();
  act();
  if (before.top < sight().bottom && before.bottom > 0) window.scrollBy({top: box().top - before.top, behavior: "instant"});
}

function stopThrough() {
  clearTimeout(shown.through?.timer);
  shown.through = null;
}

// Shows the steps up to the last one after the other, if there are not too many.
function goThrough(from) {
  const count = play.last - from + 1;
  if (calm.matches || count < 2 || count > MOST_THROUGH) {
    render(play.last);
    return;
  }
  const time = Math.min(STEP_TIME, THROUGH_TIME / count);
  const on = () => {
    inPlace(() => render(shown.step + 1));
    shown.through = shown.step < play.last ? {timer: setTimeout(on, time)} : null;
  };
  on();
}

// The script up to the present step. A line of ticks may have been played in part.
function soFar() {
  const step = play.steps[shown.step - 1];
  if (!step) return [];
  const before = play.lines.slice(0, step.line);
  if (step.isBad) return before;
  const text = play.lines[step.line];
  return [...before, step.passed ? `tick ${step.passed}` : text];
}

function scriptOf(texts) { return texts.map((text) => `${text}\n`).join(""); }

function remember() { shown.undo.push({lesson: play, step: shown.step, followed: shown.followed, isLesson: shown.isLesson}); }

// Adds lines, and follows the timer that they start or else the one that was followed.
function add(texts) {
  if (shown.through) go(play.last);
  pause();
  remember();
  const before = soFar();
  const from = shown.step;
  const lesson = {title: "Your script", options: play.options, script: scriptOf([...before, ...texts])};
  const {followed} = shown;
  load(lesson, {step: from, followed});
  const latest = [...play.timers.keys()].pop();
  const isStart = /^(re)?start /.test(texts[0]);
  if (isStart && play.timers.get(latest)?.from === play.last) shown.followed = latest;
  goThrough(from + 1);
}

function startFor(deadline) {
  const now = play.now(shown.step);
  add([`start 0 ${play.nextNumber("0", shown.step)} ${deadline - now} ${ACTION}`]);
}

// The followed timer, if it is pending now.
function present() {
  const timer = play.timers.get(shown.followed);
  return timer && play.whereIs(timer.serial, shown.step) !== null ? timer : null;
}

function stopIt() {
  const {client, serial} = present();
  add([`stop ${client} ${play.nextNumber(client, shown.step)} ${serial}`]);
}

function restartFor(deadline) {
  const {client, serial, action} = present();
  add([`restart ${client} ${play.nextNumber(client, shown.step)} ${serial} ${deadline - play.now(shown.step)} ${action}`]);
}

function advance(count) {
  if (count > MOST_LINES * MAX_TICKS) trouble(`That is ${count} ticks away. A line passes at most ${MAX_TICKS}.`);
  else add(ticksFor(count));
}

// A step on. After the last, the clock goes to the tick at which the program is to be asked next.
function goOn() {
  if (shown.step < play.last) go(shown.step + 1);
  else {
    const left = wakeup() - play.now(shown.step);
    inPlace(() => advance(left < MAX_TICKS ? left : MAX_TICKS));
  }
}

// The next tick at which the hand of a wheel comes to a slot.
function tickAt({slots, ticks}, slot, now) {
  const turn = ticks * BigInt(slots);
  const tick = now - now % turn + BigInt(slot) * ticks;
  return tick > now ? tick : tick + turn;
}

// What is done at the wheels of a play.
function actsOf(of) {
  return {
    follow,
    aim: (wheel, slot) => setDeadline(tickAt(of().wheels[wheel], slot, play.now(shown.step))),
    turn: (wheel, slot) => {
      if (shown.through) go(play.last);
      const now = play.now(shown.step);
      advance(tickAt(of().wheels[wheel], slot, now) - now);
    },
  };
}

function deadlineTyped() {
  const typed = $("deadline").value.trim();
  return /^\d+$/.test(typed) ? BigInt(typed) : null;
}

function setDeadline(tick) {
  $("deadline").value = String(tick);
  renderAim();
}

// Where the timer would go: the program is asked.
function renderAim() {
  $("deadline").style.width = `${Math.min(Math.max(6, 0.64 * $("deadline").value.length + 1.5), 13.5)}em`;
  const now = play.now(shown.step);
  const deadline = deadlineTyped();
  const isRefused = deadline === null || deadline <= now || deadline > play.scheme.last;
  setOff("start", isRefused);
  setOff("restart", isRefused || !present());
  name("restart", "Restart", present() && `Restart timer ${shown.followed} for tick ${$("deadline").value}`);
  if (isRefused) {
    say($("preview"), deadline === null ? "a number, please" : deadline <= now ? "has passed" : "after the last tick");
    for (const card of cards.values()) card.aim(null);
    return;
  }
  const found = play.placeFor(now, deadline);
  say($("preview"), words.scheme === "plain" ? "" : `goes to ${found.name}`);
  const {wheel, slot} = placeOf(found.key);
  for (const [k, card] of cards) card.aim(k === wheel ? slot : null);
}

// What is seen of a button is its name, so that a reader who speaks can say it. Its title describes the whole of what it does.
function name(id, said, whole) {
  say($(id), whole ? `${said} ${shown.followed}` : said);
  $(id).title = whole || said;
}

function renderHands() {
  const now = play.now(shown.step);
  const typed = deadlineTyped();
  if (document.activeElement !== $("deadline") && (typed === null || typed <= now)) $("deadline").value = String(now + FIRST_INTERVAL);
  setOff("stop", !present());
  name("stop", "Stop", present() && `Stop timer ${shown.followed}`);
  setOff("undo", !shown.undo.length);
  renderAim();
}

function fillHands() {
  $("scheme").value = schemeNumber(words.scheme);
  $("slots-label").hidden = words.scheme !== "hashed";
  if (words.scheme === "hashed") $("slots").value = String(play.scheme.slots);
  if ($("edit").open) $("text").value = play.script;
}

// The same script on another scheme, at the step that is the same line.
function changeScheme() {
  const options = ["--scheme", SCHEMES[$("scheme").value]];
  if ($("scheme").value === "6") options.push("--slots", $("slots").value.trim());
  for (const name of ["--first-tick", "--clients", "--capacity"]) {
    const value = play.scheme.option(name, null);
    if (value !== null) options.push(name, value);
  }
  const {line = -1, passed = 0n} = play.steps[shown.step - 1] ?? {};
  remember();
  const {followed} = shown;
  if (!load({title: play.title, options, script: play.script}, {step: 0, followed})) {
    shown.undo.pop();
    fillHands();
    return;
  }
  const at = play.steps.findLastIndex((step) => step.line < line || (step.line === line && step.passed <= passed));
  render(at + 1);
}

function undo() {
  const {lesson, ...more} = shown.undo.pop();
  load(lesson, more);
}

function clear() {
  remember();
  load({title: "Your script", options: play.options, script: ""});
}

function setCompared(isCompared) {
  shown.isCompared = isCompared;
  $("compare").setAttribute("aria-pressed", String(isCompared));
  $("comparison").hidden = !isCompared;
  $("wheels").hidden = isCompared;
  $("legend").hidden = isCompared;
}

function apply() {
  const script = $("text").value.replace(/[^\0-\xff]/g, "?");
  remember();
  load({title: "Your script", options: play.options, script: script && !script.endsWith("\n") ? `${script}\n` : script}, {step: 1});
}

function listenToHands() {
  shown.undo = [];
  const act = (id, does) => { $(id).onclick = () => { if (!isOff(id)) inPlace(does); }; };
  $("starter").onsubmit = (event) => {
    event.preventDefault();
    if (!isOff("start")) inPlace(() => startFor(deadlineTyped()));
  };
  $("deadline").oninput = renderAim;
  act("restart", () => restartFor(deadlineTyped()));
  act("stop", stopIt);
  act("tick1", () => advance(1n));
  act("undo", undo);
  act("clear", clear);
  act("compare", () => {
    setCompared(!shown.isCompared);
    render(shown.step);
  });
  act("apply", apply);
  $("scheme").append(...Object.entries(CHOICES).map(([value, text]) => make("option", {value}, text)));
  $("scheme").onchange = () => inPlace(changeScheme);
  $("slots").onchange = () => inPlace(changeScheme);
  $("edit").ontoggle = fillHands;
}

begin();
