// The script's lines with their answers: those around the present line.
"use strict";

const MAX_ANSWERS = 8; // of one line
const AROUND = 60;     // lines that are there before the present one and after it

class LineList {
  constructor(list, go) {
    Object.assign(this, {list, go});
    list.addEventListener("keydown", (event) => this.walk(event));
  }

  take(play) {
    Object.assign(this, {play, step: 0, here: null, rows: new Map(), from: 0, to: 0});
    this.stepsOf = play.lines.map(() => []);
    play.steps.forEach((step, at) => this.stepsOf[step.line].push(at + 1));
    this.list.replaceChildren();
  }

  makeRow(line) {
    const steps = this.stepsOf[line];
    const passed = make("span", {class: "passed"});
    const text = make("span", {class: "text"}, this.play.lines[line] || " ");
    const act = () => this.go(steps[steps.length - 1]);
    const button = make("button", {type: "button", disabled: !steps.length, onclick: act, tabindex: -1, "data-focus": `line-${line}`},
        make("span", {class: "number"}, String(line + 1)), text, passed);
    return {element: make("li", {}, button), button, passed, count: 0};
  }

  // The lines from one to another, and a button for what is before and after them.
  window(from, to) {
    this.from = Math.max(from, 0);
    this.to = Math.min(to, this.play.lines.length);
    const old = this.rows;
    this.rows = new Map();
    for (let line = this.from; line < this.to; line += 1) this.rows.set(line, old.get(line) ?? this.makeRow(line));
    const elsewhere = (count, name, act) => (count ? make("li", {class: "elsewhere"},
        make("button", {type: "button", tabindex: -1, onclick: act}, `${count} ${name} line${count === 1 ? "" : "s"}`)) : null);
    const rows = [
      elsewhere(this.from, "earlier", () => this.shift(this.from - 2 * AROUND)),
      ...[...this.rows.values()].map(({element}) => element),
      elsewhere(this.play.lines.length - this.to, "later", () => this.shift(this.to - 1)),
    ];
    fillWith(this.list, rows.filter((row) => row));
    for (const [line, row] of this.rows) this.renderRow(line, row);
  }

  shift(from) {
    this.window(from, from + 2 * AROUND + 1);
    this.mark();
    this.rows.get(this.from)?.button.focus();
  }

  // A line's answers so far. Nothing is done if they are those that it shows.
  renderRow(line, row) {
    const done = this.stepsOf[line].filter((at) => at <= this.step);
    if (row.count === done.length) return;
    row.count = done.length;
    row.element.classList.toggle("is-played", done.length > 0);
    const answers = done.flatMap((at) => this.play.steps[at - 1].answers);
    const made = answers.slice(0, MAX_ANSWERS).map((answer) => this.answer(answer));
    if (answers.length > MAX_ANSWERS)
      made.push(make("div", {class: "answer"}, `… and ${answers.length - MAX_ANSWERS} more`));
    const isBad = line === this.play.bad && done.length > 0;
    if (isBad) made.push(this.refused(`bad line ${line + 1}`, this.play.reason));
    row.element.classList.toggle("is-bad", isBad);
    row.element.replaceChildren(row.button, ...made);
    const isPart = done.length > 0 && done.length < this.stepsOf[line].length;
    row.passed.textContent = isPart ? `${this.play.steps[done[done.length - 1] - 1].passed} passed` : "";
  }

  answer(answer) {
    const words = answer.split(" ");
    if (words[0] === "refused" || words[1] === "refused") return this.refused(answer, reasonOf(answer));
    return make("div", {class: `answer ${words[0]}`}, answer);
  }

  refused(what, why) { return make("div", {class: "answer refused"}, what, make("span", {class: "why"}, why)); }

  render(step) {
    const lineOf = (at) => (at ? this.play.steps[at - 1].line : 0);
    const line = lineOf(step);
    const [from, to] = [lineOf(this.step), line].sort((a, b) => a - b);
    this.step = step;
    const isNear = line >= this.from + 5 && line < this.to - 5;
    const isAll = this.rows.size === this.play.lines.length;
    if (!this.rows.size || (!isNear && !isAll)) this.window(line - AROUND, line + AROUND + 1);
    for (let at = Math.max(from, this.from); at <= Math.min(to, this.to - 1); at += 1) this.renderRow(at, this.rows.get(at));
    this.mark();
  }

  reveal() { this.scrollTo(this.here ? this.here.element : this.list.firstChild); }

  // The present line is marked, and the one at which the Tab key stops.
  mark() {
    this.here?.element.classList.remove("is-here");
    this.here?.button.removeAttribute("aria-current");
    this.here = this.step ? this.rows.get(this.play.steps[this.step - 1].line) : undefined;
    this.here?.element.classList.add("is-here");
    this.here?.button.setAttribute("aria-current", "step");
    this.stopAt(this.here?.button ?? this.list.querySelector("button"));
  }

  stopAt(button) {
    if (!button) return;
    this.stop?.setAttribute("tabindex", -1);
    this.stop = button;
    button.setAttribute("tabindex", 0);
  }

  // The lines are one stop of the Tab key: the arrows up and down go from one to the next.
  walk(event) {
    const by = {ArrowDown: 1, ArrowUp: -1}[event.key];
    const buttons = [...this.list.querySelectorAll("button")];
    const next = by && buttons[buttons.indexOf(document.activeElement) + by];
    if (!next) return;
    event.preventDefault();
    this.stopAt(next);
    next.focus();
  }

  // Scrolls the list, and not the page.
  scrollTo(element) {
    const {list} = this;
    if (!element) return;
    const box = list.getBoundingClientRect();
    const row = element.getBoundingClientRect();
    if (row.top >= box.top && row.bottom <= box.bottom) return;
    const middle = Math.max((list.clientHeight - row.height) / 3, 0);
    list.scrollTop += row.top - box.top - middle;
  }
}
