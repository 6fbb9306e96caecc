// Bars one below the other, each with its label and its numbers.
import {label, labelText, make, numbers, title} from "./elements.js";
import {Scale} from "./scale.js";

export class List {
  constructor(chart) {
    this.chart = chart;
    this.element = make("ol", {class: "bars", "aria-label": title(chart.about.view)});
    this.rows = new Map();
    this.at = 0;  // the row that Tab reaches
    this.element.addEventListener("keydown", event => this.key(event));
    this.element.addEventListener("focusin", event => {
      this.at = [...this.element.children].indexOf(event.target.closest("li"));
      this.reach();
    });
  }

  draw() {
    const {said} = this.chart;
    const focused = this.element.contains(document.activeElement) ? document.activeElement : null;
    const scale = new Scale(null, said.bars);
    const rows = new Map();
    said.bars.forEach((bar, place) => {
      const key = bar[0] === null ? `new ${place}` : bar[0];
      const row = this.rows.get(key) ?? this.row(bar);
      rows.set(key, row);
      this.fill(row, bar, scale);
    });
    this.rows = rows;
    this.element.classList.toggle("unmeasured", said.domain === null);
    const items = [...rows.values()].map(row => row.item);
    if (items.length !== this.element.children.length || items.some((item, place) => item !== this.element.children[place])) {
      this.element.replaceChildren(...items);
      if (focused?.isConnected) focused.focus({preventScroll: true});
    }
    this.at = Math.min(this.at, rows.size - 1);
    this.press();
    this.reach();
  }

  row([mark, values]) {
    const {chart} = this;
    const name = labelText(values);
    const canBrush = chart.about.brushes && mark !== null;
    const row = {
      mark,
      whole: make("span", {class: "whole"}),
      now: make("span", {class: "now"}),
      number: make("span", {class: "number"}),
      exact: make("span", {class: "exact"}),
    };
    row.button = make("button", {type: "button", class: "bar", disabled: !canBrush && chart.about.tables.length === 0, title: name},
      make("span", {class: "label"}, ...label(values)), make("span", {class: "track"}, row.whole, row.now), row.number, row.exact);
    row.button.addEventListener("click", event => canBrush ? chart.click(mark, event.shiftKey) : chart.records(mark));
    row.item = make("li", {});
    if (canBrush) {
      row.box = make("input", {type: "checkbox", "aria-label": `Also choose ${name}`});
      row.box.addEventListener("change", () => chart.click(mark, true));
      row.item.append(row.box);
    }
    row.item.append(row.button);
    if (chart.about.tables.length > 0 && mark !== null) {
      row.records = make("button", {type: "button", class: "records", "aria-label": `Records of ${name}`, title: "Records"});
      row.records.addEventListener("click", () => chart.records(mark));
      row.item.append(row.records);
    }
    if (mark !== null) row.item.dataset.mark = mark;
    return row;
  }

  fill(row, bar, scale) {
    const {chart} = this;
    const told = JSON.stringify([bar, chart.said.filtered, chart.unit, chart.measured, scale]);
    if (row.told === told) return;  // nothing is laid out anew that stays as it is
    row.told = told;
    const [, values, whole, now, isThere] = bar;
    const written = numbers(bar, chart.said.filtered, chart.unit);
    row.item.classList.toggle("gone", !isThere);
    place(row.whole, scale.bar(whole));
    place(row.now, scale.bar(chart.said.filtered ? now : whole));
    row.number.replaceChildren(...split(written.short));
    row.number.title = written.exact;
    row.exact.textContent = written.exact === written.short ? "" : written.exact;
    row.button.setAttribute("aria-label", chart.aloud(values, written));
  }

  press() {
    for (const row of this.rows.values()) {
      const isChosen = this.chart.marks.has(row.mark);
      row.item.classList.toggle("chosen", isChosen);
      row.item.classList.toggle("pinned", row.mark !== null && row.mark === this.chart.pinned);
      if (row.box) {
        row.box.checked = isChosen;
        row.button.setAttribute("aria-pressed", String(isChosen));
      }
    }
  }

  // Tab reaches one row, and the arrows the others.
  reach() {
    [...this.element.children].forEach((item, place) => {
      for (const control of item.children) control.tabIndex = place === Math.max(0, this.at) ? 0 : -1;
    });
  }

  key(event) {
    const item = event.target.closest("li");
    const row = [...this.rows.values()].find(one => one.item === item);
    const place = [...this.element.children].indexOf(item);
    const to = {ArrowDown: place + 1, ArrowUp: place - 1, Home: 0, End: this.element.children.length - 1}[event.key];
    if (to !== undefined) this.element.children[to]?.querySelector(".bar").focus();
    else if (event.key === " " && event.target === row.button && row.box) this.chart.click(row.mark, true);
    else if (event.key === "r" || event.key === "R") this.chart.records(row.mark);
    else return;
    event.preventDefault();
  }

  focus(mark) {
    const row = this.rows.get(mark);
    row?.button.focus();
    return row !== undefined;
  }
}

export function place(bar, [begin, length]) {
  bar.style.insetInlineStart = `${begin}%`;
  bar.style.inlineSize = `${length}%`;
}

// "3 of 7" with the 3 in bold.
function split(text) {
  const [now, of] = text.split(" of ");
  return of === undefined ? [make("b", {}, now)] : [make("b", {}, now), make("span", {}, ` of ${of}`)];
}
