// Schemes 1, 6 and 7 side by side: the same lines, played on each.
"use strict";

const COMPARED = [
  ["plain", "Scheme 1: one list", "Each tick looks at each pending timer."],
  ["hashed", "Scheme 6: a hashed wheel", "Each tick looks at the timers of one slot."],
  ["hier", "Scheme 7: a hierarchy", "Each tick looks at the timers of one slot. Of 64 ticks, 63 look only at timers that are due."],
];
const COMPARED_SLOTS = "8"; // of the hashed wheel, if the script has none

class Column {
  constructor([name, title, does], play, acts) {
    const {option} = play.scheme;
    const keep = (word) => (option.call(play.scheme, word, null) === null ? [] : [word, option.call(play.scheme, word, null)]);
    const slots = play.scheme.name === "hashed" ? String(play.scheme.slots) : COMPARED_SLOTS;
    const scheme = name === "hier" && play.scheme.name === "clock" ? "clock" : name;
    const options = ["--scheme", scheme, "--slots", slots, ...["--first-tick", "--clients", "--capacity"].flatMap(keep)];
    this.play = new Play({...play, options}, play.pieces);
    this.words = new Words(this.play);
    this.cards = new Map(drawnOf(this.play).map((k) => [k, new WheelCard(this.play, this.words, k, acts(() => this.play))]));
    this.looks = make("strong", {});
    this.element = make("section", {class: "column", "aria-label": title},
        make("h3", {}, title), make("p", {class: "looked"}, this.looks, " looked at so far"), make("p", {class: "does"}, does),
        make("div", {class: "wheels"}, ...[...this.cards.values()].map((card) => card.element)));
  }

  render(step, followed) {
    const at = Math.min(step, this.play.last);
    renderCards(this.play, this.cards, at, followed);
    this.looks.textContent = timersCounted(this.play.looks(at));
  }
}

function timersCounted(count) { return `${count} timer${count === 1n ? "" : "s"}`; }

class Comparison {
  constructor(element) { Object.assign(this, {element, columns: [], play: null}); }

  render(play, step, followed, acts) {
    if (this.play !== play) {
      this.play = play;
      this.columns = COMPARED.map((column) => new Column(column, play, acts));
      this.element.replaceChildren(...this.columns.map((column) => column.element));
    }
    for (const column of this.columns) column.render(step, followed);
  }
}
