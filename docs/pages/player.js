// The page: steps, the followed timer, and the controls.
"use strict";

const READ_FIRST = 1500; // milliseconds that Play rests at a step, at speed 1
const READ_LETTER = 6;   // and for each letter that is said there
const GAP = 8;           // pixels between what is brought into sight and the edge of the screen
const MAX_LARGE = 3;     // wheels of one script that are large; of more, all but two are small

const $ = (id) => document.getElementById(id);
const shown = {step: 0, followed: null, timer: null, isCompared: false};
const calm = window.matchMedia("(prefers-reduced-motion: reduce)");
const arrows = new Arrows();
const lines = new LineList($("lines"), go);
const comparison = new Comparison($("comparison"));
let play = null;
let words = null;
let cards = new Map();
const strip = make("div", {class: "strip"});

function follow(serial) {
  if (serial !== null) shown.followed = serial;
  render(shown.step);
}

// The wheels that ever hold a timer, and the lowest, whose hand moves at each tick; of a hierarchy two at least.
function drawnOf(of) {
  const least = of.scheme.isHierarchy && of.used.size < 2 ? 1 : 0;
  return of.wheels.map((_, k) => k).filter((k) => k <= least || of.used.has(k)).reverse();
}

// What kind of news a sentence is, for its colour.
function kindOf(said, isBad) {
  if (isBad || said.includes(" is refused as ")) return "fault";
  return /^Timers? .* expires?[,.]|timers have .* expire[,.]/.test(said) ? "out" : "";
}

function newsOf(step) {
  const isBad = step > 0 && play.steps[step - 1].isBad === true;
  const said = words.of(step).map((sentence) => make("p", {class: kindOf(sentence, isBad)}, sentence));
  return [...(step ? [lineNow(step)] : []), ...said];
}

// The line of a step, above what happened: on a phone the script is further below.
function lineNow(step) {
  const {line} = play.steps[step - 1];
  return make("p", {class: "line"}, `Line ${line + 1}: `, make("code", {}, play.lines[line]));
}

function digitRow(name, tick, level) {
  const cells = words.digits(tick).map(
      (digit, at) => make("td", {class: words.levels[at] === level ? "level" : ""}, String(digit)));
  return make("tr", {}, make("th", {scope: "row"}, name), ...cells);
}

// The digits of now and of the deadline, one over the other: the highest that differs is where the timer
// stands.
function digitTable(timer, now) {
  const level = levelOf(play.wheels, now, timer.deadline);
  const isHier = play.scheme.name === "hier";
  const names = words.levels.map((k) => make("th", {scope: "col"}, isHier ? String(k) : play.wheels[k].name));
  const head = make("tr", {}, make(isHier ? "th" : "td", isHier ? {scope: "row"} : {}, isHier ? "wheel" : ""), ...names);
  const {isLong} = words; // then there is no room for the ticks, which are said beside it
  const deadline = digitRow(isLong ? "deadline" : `deadline ${timer.deadline}`, timer.deadline, level);
  const body = make("tbody", {}, digitRow(isLong ? "now" : `now ${now}`, now, level), deadline);
  return make("div", {class: "scroll", role: "group", "aria-label": "Digits of now and of the deadline", "data-focus": "digits"},
      make("table", {class: `digits${isLong ? " is-long" : ""}`}, make("thead", {}, head), body));
}

function historyRow(event, step) {
  const past = event.step <= step;
  const line = play.steps[event.step - 1].line + 1;
  const by = event.tick === undefined && play.whole.has(line - 1) ? "by " : "";
  const tick = event.tick === undefined ? play.now(event.step) : event.tick;
  const state = `${past ? "is-past" : ""} ${event.step === step ? "is-now" : ""}`;
  return make("li", {class: state.trim()},
      make("button", {type: "button", onclick: () => go(event.step), "data-focus": `event-${event.step}-${event.kind}`},
          words.event(event), make("small", {}, `${by}tick ${tick}, line ${line}`)));
}

// A timer's history. Of the rounds only the present one is listed.
function eventsOf(timer, step) {
  const rounds = play.events(step).filter(({kind, serial}) => kind === "round" && serial === timer.serial);
  const events = [...play.history(timer.serial), ...rounds].sort((a, b) => a.step - b.step);
  return make("div", {class: "rows"}, make("ol", {class: "history"}, ...events.map((event) => historyRow(event, step))));
}

function whyHere(timer, step) {
  if (play.whereIs(timer.serial, step) !== null) return words.why(timer, play.now(step));
  return timer.from > step ? `It is started later, in line ${play.steps[timer.from - 1].line + 1}.` : "It is no longer pending.";
}

function renderFollowed(step) {
  const timer = play.timers.get(shown.followed);
  if (document.activeElement !== $("serial") || !shown.isTyped) $("serial").value = shown.followed || "";
  setOff("before", !timer || !play.timers.has(String(BigInt(timer.serial) - 1n)));
  setOff("after", !timer || !play.timers.has(String(BigInt(timer.serial) + 1n)));
  if (!timer) {
    $("digits").replaceChildren();
    $("followed")
        .replaceChildren(make("p", {},
            play.timers.size ? `The script starts no timer ${shown.followed}.` : "The script starts no timer."));
    return;
  }
  const now = play.now(step);
  const key = play.whereIs(timer.serial, step);
  const whole = `Timer ${timer.serial} of client ${timer.client}, deadline ${timer.deadline}.`;
  $("digits").replaceChildren(...(key !== null && words.isHierarchy ? [digitTable(timer, now)] : []));
  $("followed").replaceChildren(make("p", {}, whole), make("p", {class: "because"}, whyHere(timer, step)), eventsOf(timer, step));
}

// What scrolls and has nothing in it that takes the focus is a stop of the Tab key itself, so that a keyboard scrolls it.
function setStops() {
  for (const node of document.querySelectorAll(".scroll, .buckets")) {
    const isCut = node.scrollHeight > node.clientHeight || node.scrollWidth > node.clientWidth;
    const tabIndex = isCut && !node.querySelector("button") ? 0 : -1;
    if (node.tabIndex !== tabIndex || !node.hasAttribute("tabindex")) node.tabIndex = tabIndex;
  }
}

// The events of timers that left a slot at a step: they moved, or came out, or were stopped or restarted.
function leavesOf(of, step) {
  const isAway = ({kind, by, from}) => kind !== "restarted" || of.whereIs(by, step) !== from;
  return of.events(step).filter((event) => event.from !== undefined && isAway(event));
}

function addTo(map, slot, event) {
  if (!map.has(slot)) map.set(slot, []);
  map.get(slot).push(event);
}

// Draws where the timers of a play stand. How many are pending.
function renderCards(of, on, step, followed) {
  const parts = new Map([...on.keys()].map((k) => [k, {held: [], chosen: null, left: new Map(), came: new Map()}]));
  const {buckets} = of.state(step);
  let count = 0;
  for (const key of [...buckets.keys()].sort((a, b) => a - b)) {
    const {wheel, slot} = placeOf(key);
    parts.get(wheel).held.push([slot, buckets.get(key)]);
    count += buckets.get(key).length;
  }
  const chosen = of.whereIs(followed, step);
  if (chosen !== null) parts.get(placeOf(chosen).wheel).chosen = placeOf(chosen).slot;
  for (const event of of.scheme.name === "plain" ? [] : leavesOf(of, step))
    addTo(parts.get(placeOf(event.from).wheel).left, placeOf(event.from).slot, event);
  for (const event of of.events(step).filter(({kind}) => kind === "moved"))
    addTo(parts.get(placeOf(event.to).wheel).came, placeOf(event.to).slot, event);
  for (const [k, card] of on) card.render(parts.get(k), of.now(step), followed);
  return count;
}

function renderArrows(travels) {
  if (shown.isCompared || !play) return;
  arrows.render(play.events(shown.step).filter(({kind}) => kind === "moved"), cards, shown.followed, travels);
}

// What can't be done now stays where the Tab key finds it, so that the focus isn't lost.
function setOff(id, isOff) { change($(id), "aria-disabled", isOff); }

function isOff(id) { return $(id).getAttribute("aria-disabled") === "true"; }

// Renders, and then gives the focus to what stands for what had it: most of it was made anew.
function keepFocus(renders) {
  const name = document.activeElement?.dataset?.focus;
  renders();
  if (name === undefined || document.activeElement?.dataset?.focus === name) return;
  const same = document.querySelector(`[data-focus="${CSS.escape(name)}"]`);
  (same ?? $("serial")).focus({preventScroll: true});
}

function render(step) { keepFocus(() => renderStep(step)); }

// The tick at which the program is to be asked next, or null.
function wakeup() { return play.steps[shown.step - 1]?.wakeup ?? null; }

function renderWakeup() {
  const said = wakeup() === null ? "" : `tick ${wakeup()}`;
  say($("wakeup"), said && `next: ${said}`);
  $("next").title = shown.step === play.last && said ? `To the next event, at ${said}` : "One step on (right arrow)";
  change($("next"), "aria-label", $("next").title.replace(" (right arrow)", ""));
  setOff("next", shown.step === play.last && !said);
}

function renderStep(step) {
  const from = shown.step;
  shown.step = step;
  document.body.classList.toggle("is-jump", Math.abs(step - from) > 1);
  say($("now"), String(play.now(step)));
  say($("face"), words.face(play.now(step)));
  $("news").replaceChildren(...newsOf(step));
  say($("count"), `${renderCards(play, cards, step, shown.followed)} pending`);
  if (shown.isCompared) comparison.render(play, step, shown.followed, actsOf);
  lines.render(step);
  renderFollowed(step);
  renderHands();
  $("slider").value = String(step);
  $("slider").setAttribute("aria-valuetext", `step ${step} of ${play.last}, tick ${play.now(step)}`);
  $("at").textContent = `${step} of ${play.last}`;
  setOff("back", step === 0);
  renderWakeup();
  keepLink();
  // All is drawn: now it is measured, so that the page is laid out once.
  for (const card of shown.isCompared ? [] : cards.values()) card.reveal();
  lines.reveal();
  setStops();
  if (step !== from) showStep(step);
  renderArrows(step === from + 1 && !calm.matches);
}

// The address follows, some time after the last of many steps: browsers refuse to write it too often.
function keepLink() {
  clearTimeout(shown.linking);
  shown.linking = setTimeout(() => {
    const link = linkOf(play, shown.step, shown.followed, shown.isLesson, shown.isCompared);
    if (location.hash !== link) window.history.replaceState(null, "", link);
  }, 300);
}

// What can be seen of the stage: on a wide screen it scrolls by itself, on a phone with the page.
function sight() {
  const bottom = $("controls").getBoundingClientRect().top;
  const stage = $("stage").getBoundingClientRect();
  return isColumn() ? {top: stage.top, bottom: Math.min(stage.bottom, bottom)} : {top: 0, bottom};
}

// Whether each column scrolls by itself.
function isColumn() { return getComputedStyle($("stage")).overflowY === "auto"; }

// The wheels that timers left at a step, those to which they moved, and the lowest, in which they come out.
function boundsOf(step) {
  const used = new Set([0, ...leavesOf(play, step).flatMap(({from, to}) => (to === undefined ? [from] : [from, to]))
      .map((key) => placeOf(key).wheel)]);
  const rects = [...cards].filter(([k]) => used.has(k)).map(([, card]) => (card.svg ?? card.element).getBoundingClientRect());
  return {top: Math.min(...rects.map(({top}) => top)), bottom: Math.max(...rects.map(({bottom}) => bottom))};
}

// Brings the wheels of a step's news into sight, with the clock above them if there is room. A reader who looks at
// what is below the stage is fetched back only if a timer left its slot, or while it plays.
function showStep(step) {
  if (shown.isCompared) return;
  const {top, bottom} = sight();
  const isNews = leavesOf(play, step).length > 0 || shown.timer !== null;
  if (!isNews && $("wheels").getBoundingClientRect().bottom < top) return;
  const wheels = boundsOf(step);
  const clock = $("clock").getBoundingClientRect();
  const news = $("news").getBoundingClientRect();
  if (wheels.top >= top && Math.max(wheels.bottom, isColumn() ? 0 : news.bottom) <= bottom) return;
  const last = isColumn() ? wheels.bottom : Math.max(wheels.bottom, news.bottom);
  const fits = last - clock.top <= bottom - top - 2 * GAP;
  const by = fits ? clock.top - top - GAP : Math.min(wheels.top - top - GAP, Math.max(last - bottom, 0) + GAP);
  (isColumn() ? $("stage") : window).scrollBy({top: by, behavior: "instant"});
}

function go(step) {
  stopThrough();
  render(Math.min(Math.max(step, 0), play.last));
  if (shown.step === play.last) pause();
}

function pause() {
  clearTimeout(shown.timer);
  shown.timer = null;
  shown.waiting?.cancel();
  $("play").textContent = "Play";
  $("news").setAttribute("aria-live", "polite");
}

// How long Play rests at a step, by what is said.
function rest() { return (READ_FIRST + READ_LETTER * $("news").textContent.length) / Number($("speed").value); }

// A line above the controls grows as long as Play rests.
function playOn() {
  go(shown.step + 1);
  if (shown.timer === null) return;
  const time = rest();
  shown.timer = setTimeout(playOn, time);
  if (calm.matches) return;
  shown.waiting = $("waiting").animate([{transform: "scaleX(0)"}, {transform: "scaleX(1)"}], time);
}

function toggle() {
  if (shown.timer !== null) {
    pause();
    return;
  }
  if (shown.step === play.last) go(0);
  $("play").textContent = "Pause";
  // While it plays, a screen reader isn't flooded.
  $("news").setAttribute("aria-live", "off");
  shown.timer = 0;
  playOn();
}

function key(event) {
  const {target} = event;
  if (event.ctrlKey || event.metaKey || event.altKey || target.matches("select, textarea, input[type=range]")) return;
  if (target.matches("input[type=text]")) {
    if (event.key === "Escape" || (event.key === "Enter" && target.id === "serial")) target.blur();
    return;
  }
  const acts = {
    ArrowLeft: () => go(shown.step - 1),
    ArrowRight: () => { if (!isOff("next") && !(event.repeat && shown.step === play.last)) goOn(); },
    Home: () => go(0),
    End: () => go(play.last),
  };
  if (event.key === " " && !target.matches("button, summary")) acts[" "] = toggle;
  if (!acts[event.key] || !play) return;
  event.preventDefault();
  acts[event.key]();
}

function setTheme(theme) {
  document.documentElement.dataset.theme = theme;
  $("theme").textContent = theme === "dark" ? "Light theme" : "Dark theme";
}

// The theme that was chosen here before, or else the system's.
function listenToTheme() {
  const dark = window.matchMedia("(prefers-color-scheme: dark)");
  const system = () => dark.matches ? "dark" : "light";
  $("theme").onclick = () => {
    localStorage.theme = document.documentElement.dataset.theme === "dark" ? "light" : "dark";
    setTheme(localStorage.theme);
  };
  dark.addEventListener("change", () => setTheme(localStorage.theme ?? system()));
  setTheme(localStorage.theme ?? system());
}

function followTyped() {
  const typed = $("serial").value.trim();
  if (!typed) return;
  shown.isTyped = true;
  follow(typed);
  shown.isTyped = false;
}

function followNext(by) { follow(String(BigInt(shown.followed) + by)); }

// The sign of a row of the legend, as it is drawn at the wheels.
function signOf(kind) {
  if (kind === "hand")
    return [
      make("line", {class: "hand", x1: 8, y1: 20, x2: 8, y2: 8}), make("path", {class: "hand-tip", d: "M3 9L13 9L8 0Z"})
    ];
  if (kind === "arrow")
    return [
      make("path", {class: "arrow is-followed", d: "M1 14Q6 6 11 9"}),
      make("path", {class: "arrow-tip is-followed", d: "M16 12L8.6 12.4L12.2 5Z"})
    ];
  return [make("path", {class: kind, d: "M4 4L12 4L11 16L5 16Z"})];
}

function legendRow([kind, said]) {
  return make("span", {}, make("svg", {viewBox: "0 0 16 20", "aria-hidden": "true"}, ...signOf(kind)), said);
}

// Only a hierarchy has slots from which timers move, and wheels that aren't drawn.
function legendRows() {
  const rows = LEGEND.filter(([kind]) => kind !== "arrow" || words.isHierarchy).map(legendRow);
  return cards.size < play.wheels.length ? [...rows, make("span", {}, "not drawn: wheels that stay empty")] : rows;
}

// A page with several scripts has a link to each.
function lessonLink({name, title}) {
  const isHere = shown.isLesson && name === play.name;
  return make("a", {href: `#lesson=${name}`, ...(isHere ? {"aria-current": "page"} : {})}, title);
}

function fillGuide() {
  const keys = make("p", {class: "keys"}, "Keys: ", make("kbd", {}, "←"), " ", make("kbd", {}, "→"), " a step, ",
      make("kbd", {}, "space"), " play and pause, ", make("kbd", {}, "Home"), " ", make("kbd", {}, "End"),
      " first and last. Within the lines, and within the timers of a wheel: ", make("kbd", {}, "↑"), " ", make("kbd", {}, "↓"),
      ". At a hand: ", make("kbd", {}, "→"), " goes on to its next slot.");
  const hands = words.scheme === "plain" ? [] : ["Drag a hand to advance the clock. Click a slot to aim a timer at it."];
  $("guide").replaceChildren(...[...words.guide(), ...hands].map((said) => make("p", {}, said)), keys);
}

function fill() {
  $("title").textContent = play.title;
  document.body.classList.toggle("is-lesson", shown.isLesson && LESSONS.length > 1);
  document.title = `${play.title} · timing wheels`;
  $("explained").hidden = LESSONS.length < 2; // beside the page of docs/
  if (shown.isLesson) $("lesson").href = `#lesson=${play.name}`;
  $("changed").hidden = shown.isLesson || !shown.undo.length || !$("lesson").hash;
  $("plays").replaceChildren(...(LESSONS.length > 1 ? LESSONS.map(lessonLink) : []));
  $("command").textContent = ["./timers show", ...play.options, ...(play.path ? ["<", play.path] : [])].join(" ");
  $("scheme-name").textContent = words.schemeName();
  $("opening").textContent = OPENING[words.scheme];
  fillGuide();
  $("legend").replaceChildren(...(words.scheme === "plain" ? [] : legendRows()));
  const row = ([word, said], between) => make("p", {}, make("b", {}, word), `${between}${said}`);
  $("fields").replaceChildren(make("summary", {}, "What the numbers in a line are"),
      ...words.fields().map((pair) => row(pair, " ")), ...words.glossary().map((pair) => row(pair, ": ")));
  $("slider").max = String(play.last);
}

// The wheels that a reader has before them stay where they are, and their hands turn on. More wheels come small, below them.
function drawWheels() {
  const sign = `${words.scheme} ${play.wheels[0].slots}`;
  const old = sign === shown.sign ? cards : new Map();
  const all = [...new Set([...old.keys(), ...drawnOf(play)])].sort((a, b) => b - a);
  if (!old.size) shown.large = all.length > MAX_LARGE ? all.slice(-2) : all;
  const small = all.filter((k) => !shown.large.includes(k));
  shown.sign = sign;
  cards = new Map([...shown.large, ...small].map((k) => [k, old.get(k) ?? new WheelCard(play, words, k, actsOf(() => play))]));
  for (const card of cards.values()) card.take(play, words);
  const elements = (of) => of.map((k) => cards.get(k).element);
  fillWith(strip, elements(small));
  fillWith($("wheels"), [...elements(shown.large), ...(small.length ? [strip] : []), arrows.element]);
  $("wheels").dataset.count = shown.large.length;
}

// Shows a script at a step. It may be refused by the program, which says why: then all stays as it is.
function load(lesson, {step, followed, isLesson = false} = {}) {
  let made = null;
  try {
    made = new Play(lesson);
  } catch (error) {
    trouble(`The program refuses this: ${error.message}`);
    return false;
  }
  trouble("");
  pause();
  stopThrough();
  play = Object.assign(made, {path: lesson.path});
  words = new Words(play);
  shown.isLesson = isLesson;
  drawWheels();
  lines.take(play);
  const isThere = followed !== undefined && play.timers.has(followed);
  shown.followed = isThere ? followed : play.longest();
  fill();
  fillHands();
  const at = Math.min(step ?? 1, play.last);
  shown.step = at;
  render(at);
  return true;
}

function trouble(said) {
  $("trouble").textContent = said;
  $("trouble").hidden = !said;
}

function loadLink() {
  const {lesson, isCompared, ...more} = readLink(location.hash);
  $("deadline").value = "";
  shown.sign = null;
  setCompared(isCompared);
  const isLoaded = load(lesson, {...more, isLesson: LESSONS.includes(lesson)});
  const said = $("trouble").textContent;
  if (!isLoaded) load(LESSONS[0], {isLesson: true});
  trouble(said);
  showStep(shown.step);
}

function listen() {
  const act = (id, does) => { $(id).onclick = () => { if (!isOff(id)) does(); }; };
  act("back", () => go(shown.step - 1));
  act("next", goOn);
  act("before", () => followNext(-1n));
  act("after", () => followNext(1n));
  $("play").onclick = toggle;
  $("slider").oninput = () => go(Number($("slider").value));
  $("serial").oninput = followTyped;
  $("choose").onsubmit = (event) => event.preventDefault();
  document.addEventListener("keydown", key);
  window.addEventListener("hashchange", () => {
    for (const scrolled of [window, $("stage"), $("side")]) scrolled.scrollTo({top: 0, behavior: "instant"});
    loadLink();
  });
  window.addEventListener("resize", () => {
    setStops();
    renderArrows(false);
  });
  listenToHands();
}

async function begin() {
  listenToTheme();
  try {
    await ENGINE.load();
  } catch (error) {
    $("news").replaceChildren();
    trouble(`This browser can't run the program: ${error.message}. The page needs WebAssembly and DecompressionStream.`);
    return;
  }
  $("main").inert = false;
  $("controls").inert = false;
  listen();
  loadLink();
  shown.openedAt = performance.now();
  document.body.dataset.ready = "";
}
