// Ints in their order, as columns. A drag chooses those that it goes over.
import {labelText, make, numbers, title} from "./elements.js";
import {Scale} from "./scale.js";

const SPREAD = 2;  // places for each bar, up to which gaps between ints have their room
const LETTERS = 46;  // that there is room for below
const GAP = 0.035;  // between two of them, as a share of all
const LONG = 9;  // letters from which only the beginning of a bin is written there
const FAR = 4;  // pixels from which a press is a drag

export class Histogram {
  constructor(chart) {
    this.chart = chart;
    this.plot = make("div", {class: "plot", role: "group", "aria-label": title(chart.about.view)});
    this.axis = make("div", {class: "axis", "aria-hidden": "true"});
    this.readout = make("p", {class: "readout"});
    this.text = make("span", {});
    this.records = make("button", {type: "button", class: "records", title: "Records", hidden: true});
    this.readout.append(this.text, this.records);
    this.element = make("div", {class: "histogram"}, this.plot, this.axis, this.readout);
    this.bars = [];
    this.at = 0;
    this.pointed = null;
    this.records.addEventListener("click", () => chart.records(this.bars[this.pointed].mark));
    this.plot.addEventListener("pointerdown", event => this.press_(event));
    this.plot.addEventListener("pointermove", event => this.move(event));
    this.plot.addEventListener("pointerup", event => this.release(event));
    this.plot.addEventListener("pointercancel", () => this.drop());
    this.plot.addEventListener("keydown", event => this.key(event));
    this.plot.addEventListener("focusin", event => this.point(this.bars.findIndex(bar => bar.element === event.target)));
  }

  draw() {
    const {said} = this.chart;
    const focused = this.plot.contains(document.activeElement) ? this.bars.findIndex(bar => bar.element === document.activeElement) : -1;
    const scale = new Scale(said.domain, said.bars, this.chart.isLog);
    if (!this.isSame(said.bars)) this.make(said.bars);
    said.bars.forEach((bar, place) => this.fill(this.bars[place], bar, scale));
    this.zero.style.insetBlockEnd = `${100 * scale.zero}%`;
    if (focused >= 0 && this.bars[focused]) this.bars[focused].element.focus({preventScroll: true});
    this.press();
    this.point(this.pointed !== null && this.pointed < this.bars.length ? this.pointed : null);
  }

  isSame(bars) {
    return bars.length === this.bars.length && bars.every(([mark], place) => mark === this.bars[place].mark);
  }

  make(bars) {
    this.at = Math.min(this.at, Math.max(0, bars.length - 1));
    const places = this.places(bars);
    const room = places.length > 0 ? places.at(-1) + 1 : 1;
    this.bars = bars.map(([mark, values], place) => {
      const whole = make("span", {class: "whole"});
      const now = make("span", {class: "now"});
      const element = make("div", {class: "column", role: "button", tabindex: place === this.at ? "0" : "-1", title: labelText(values)}, whole, now);
      if (mark !== null) element.dataset.mark = mark;
      element.style.insetInlineStart = `${100 * places[place] / room}%`;
      element.style.inlineSize = `${100 / room}%`;
      return {mark, element, whole, now, values, begin: places[place] / room, end: (places[place] + 1) / room};
    });
    this.band = make("div", {class: "band", hidden: true});
    this.zero = make("div", {class: "zero"});
    this.plot.classList.toggle("thin", bars.length > 60);
    this.plot.replaceChildren(...this.bars.map(bar => bar.element), this.band, this.zero);
    this.ticks(places);
  }

  // Where each bar stands: by its int, so that gaps are seen, and where these are wide by its number.
  places(bars) {
    const ints = bars.map(bar => Number(bar[5]));
    const step = Math.min(...ints.slice(1).map((int, place) => int - ints[place]));
    const places = ints.map(int => Math.round((int - ints[0]) / step));
    const isRoomy = step > 0 && places.every(Number.isFinite) && places.at(-1) + 1 <= SPREAD * bars.length
      && places.every((at, place) => place === 0 || at > places[place - 1]);
    this.isEven = isRoomy || bars.length < 3;
    return isRoomy ? places : bars.map((_, place) => place);
  }

  // What is written below: bars at even distances, as many as there is room for.
  ticks(places) {
    const texts = this.bars.map(bar => labelText(bar.values));
    const isLong = texts.some(text => text.length > LONG);
    const shown = isLong ? texts.map(text => text.split("\u2013")[0]) : texts;
    const longest = Math.max(...shown.map(text => text.length), 1) / LETTERS;
    const step = Math.ceil((longest + GAP) * (places.at(-1) + 1));
    let free = 0;
    this.axis.replaceChildren(...this.bars.flatMap((bar, place) => {
      if (places[place] % step !== 0) return [];
      const half = shown[place].length / LETTERS / 2;
      const middle = Math.min(Math.max((bar.begin + bar.end) / 2, half), 1 - half);
      if (middle - half < free) return [];
      free = middle + half + GAP / 2;
      const tick = make("span", {}, shown[place]);
      tick.style.insetInlineStart = `${100 * middle}%`;
      return [tick];
    }));
  }

  fill(bar, told, scale) {
    const {said, unit} = this.chart;
    const [, values, whole, now, isThere] = told;
    bar.written = numbers(told, said.filtered, unit);
    bar.element.classList.toggle("gone", !isThere);
    stand(bar.whole, scale.bar(whole));
    stand(bar.now, scale.bar(said.filtered ? now : whole));
    bar.element.setAttribute("aria-label", this.chart.aloud(values, bar.written));
  }

  press() {
    for (const bar of this.bars) {
      const isChosen = this.chart.marks.has(bar.mark);
      bar.element.classList.toggle("chosen", isChosen);
      bar.element.classList.toggle("pinned", bar.mark !== null && bar.mark === this.chart.pinned);
      bar.element.setAttribute("aria-pressed", String(isChosen));
    }
  }

  // The bar that is pointed at, or has the focus, is written out below.
  point(place) {
    this.bars[this.pointed]?.element.classList.remove("pointed");
    this.pointed = place !== null && this.bars[place] ? place : null;
    const bar = this.bars[this.pointed];
    bar?.element.classList.add("pointed");
    const {measured, said} = this.chart;
    this.text.replaceChildren(...bar ? [make("b", {}, labelText(bar.values)), `: ${bar.written.exact} ${title(measured)}`]
      : [this.isEven ? "" : "Gaps are left out. ", said.count > 1 ? "Drag to choose a range." : ""]);
    this.records.hidden = !bar || bar.mark === null || this.chart.about.tables.length === 0;
    if (bar) this.records.setAttribute("aria-label", `Records of ${labelText(bar.values)}`);
  }

  // The pointer

  placeAt(event) {
    const {left, width} = this.plot.getBoundingClientRect();
    const at = (event.clientX - left) / width;
    const distance = bar => at < bar.begin ? bar.begin - at : at > bar.end ? at - bar.end : 0;
    return this.bars.reduce((best, bar, place) => distance(bar) < distance(this.bars[best]) ? place : best, 0);
  }

  press_(event) {
    if (event.button !== 0 || this.bars.length === 0) return;
    this.drag = {from: this.placeAt(event), x: event.clientX, isFar: false};
    if (event.pointerType === "mouse") this.plot.setPointerCapture(event.pointerId);
  }

  move(event) {
    if (this.bars.length === 0) return;
    const place = this.placeAt(event);
    if (event.pointerType === "mouse" || this.drag) this.point(place);
    if (!this.drag || !this.chart.about.brushes) return;
    this.drag.isFar ||= Math.abs(event.clientX - this.drag.x) >= FAR;
    if (!this.drag.isFar) return;
    const [first, last] = [this.drag.from, place].sort((one, other) => one - other);
    this.band.hidden = false;
    this.band.style.insetInlineStart = `${100 * this.bars[first].begin}%`;
    this.band.style.inlineSize = `${100 * (this.bars[last].end - this.bars[first].begin)}%`;
  }

  release(event) {
    const {drag, chart} = this;
    this.drop();
    if (!drag) return;
    const place = this.placeAt(event);
    this.point(place);
    if (!drag.isFar) {
      this.bars[place].element.focus({preventScroll: true});
      chart.click(this.bars[place].mark, event.shiftKey);
    } else if (chart.about.brushes) {
      const [first, last] = [drag.from, place].sort((one, other) => one - other);
      const marks = this.bars.slice(first, last + 1).map(bar => bar.mark).filter(mark => mark !== null);
      chart.does.choose(chart, event.shiftKey ? [...new Set([...chart.marks, ...marks])] : marks);
    }
  }

  drop() {
    this.drag = null;
    this.band.hidden = true;
  }

  // Keys

  key(event) {
    const place = this.bars.findIndex(bar => bar.element === event.target);
    const to = {ArrowRight: place + 1, ArrowUp: place + 1, ArrowLeft: place - 1, ArrowDown: place - 1, Home: 0, End: this.bars.length - 1}[event.key];
    if (to !== undefined) this.reach(to);
    else if (event.key === "Enter" && !event.repeat) this.chart.click(this.bars[place].mark, event.shiftKey);
    else if (event.key === " ") this.chart.click(this.bars[place].mark, true);
    else if (event.key === "r" || event.key === "R") this.chart.records(this.bars[place].mark);
    else return;
    event.preventDefault();
  }

  reach(place) {
    if (!this.bars[place]) return;
    this.bars[this.at]?.element.setAttribute("tabindex", "-1");
    this.at = place;
    this.bars[place].element.setAttribute("tabindex", "0");
    this.bars[place].element.focus();
  }

  focus(mark) {
    const place = this.bars.findIndex(bar => bar.mark === mark);
    this.reach(place);
    return place >= 0;
  }
}

function stand(bar, [begin, length]) {
  bar.style.insetBlockEnd = `${begin}%`;
  bar.style.blockSize = `${length}%`;
}
