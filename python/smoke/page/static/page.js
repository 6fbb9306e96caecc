// The page: what is chosen, its charts, records and rules. It computes no number; all are answers of the server.
import {byName, read, sorted, write} from "./address.js";
import {Channel, Fault, ask} from "./asking.js";
import {Chart} from "./chart.js";
import {$, labelText, make, many, say, title} from "./elements.js";
import {exact} from "./numbers.js";
import {Records} from "./records.js";
import {Rule} from "./rules.js";

const ORDERS = ["size", "name", "file"];
const CARD = 320;  // pixels that a card needs
const AGAIN = 500;  // milliseconds between two looks whether the program has started

class Page {
  constructor(told) {
    this.told = told;
    this.starts = told.starts;
    this.charts = new Map(told.charts.map(about => [about.view, new Chart(about, this)]));
    this.rules = told.rules.map(about => new Rule(about, this));
    this.channel = new Channel("/charts", text => this.waits(text), answer => this.show(answer), fault => this.fail(fault));
    this.clicked = null;
    document.title = told.title;
    $("#title").textContent = told.title;
    const left = told.leftOut.map(({view, rows}) => make("section", {class: "chart"}, make("header", {}, make("h2", {}, title(view))),
      make("p", {class: "empty"}, `${exact(rows)} rows are too many for a chart.`)));
    this.cards = [...[...this.charts.values()].map(chart => [chart.section, chart.height]), ...left.map(card => [card, 1]),
      ...this.rules.map(rule => [rule.section, 6])];
    this.layOut();
    new ResizeObserver(() => this.layOut()).observe($("#charts"));
    new ResizeObserver(() => document.documentElement.style.setProperty("--top", `${$("#top").offsetHeight}px`)).observe($("#top"));
    $("#clear").addEventListener("click", () => this.clear());
    document.addEventListener("keydown", event => {
      if (event.key === "Escape" && event.target.tagName !== "INPUT") this.clear();
    });
    addEventListener("popstate", () => this.readAddress());
    this.state = read("");
    this.records = new Records(this);
    this.readAddress();
    for (const rule of this.rules) rule.refresh();
  }

  // Puts the cards into as many columns as there is room for, each into the shortest so far.
  layOut() {
    const many = Math.max(1, Math.floor($("#charts").clientWidth / CARD));
    if ($("#charts").children.length === many && this.isLaidOut) return;
    this.isLaidOut = true;
    const columns = Array.from({length: many}, () => ({element: make("div"), height: 0}));
    for (const [card, height] of this.cards) {
      const column = columns.reduce((best, one) => one.height < best.height ? one : best);
      column.element.append(card);
      column.height += height;
    }
    $("#charts").replaceChildren(...this.cards.length > 0 ? columns.map(column => column.element)
      : [make("p", {class: "empty"}, "The book has no view to show.")]);
  }

  // What is chosen

  readAddress() {
    const state = read(location.hash);
    const isOther = state.data !== "" && state.data !== this.told.data;
    const fits = (of, isRight) => Object.entries(of).every(([view, value]) => this.charts.has(view) && isRight(this.charts.get(view).about, value));
    const isWrong = state.misread || !fits(state.brushes, (about, marks) => about.brushes && marks.at(-1) < about.rows)
      || !fits(state.measures, (about, measure) => measure < about.measures.length) || !fits(state.orders, (_, order) => ORDERS.includes(order));
    if (isOther || isWrong) {
      this.state = read("");
      this.tell(`${isOther ? "The data has changed since this address was kept" : "This address can't be read"}: its choice is left out.`);
    } else {
      this.state = state;
      this.tell(null);
    }
    this.state.data = this.told.data;
    this.refresh(true);
  }

  // Takes a change of what is chosen, and puts it into the address.
  change(change) {
    Object.assign(this.state, change);
    history.pushState(null, "", write(this.state));
    this.tell(null);
  }

  choose(chart, marks) {
    const brushes = byName(this.state.brushes);
    if (marks.length > 0) brushes[chart.about.view] = sorted(marks);
    else delete brushes[chart.about.view];
    this.clicked = chart;
    this.change({brushes});
    this.refresh(true);
  }

  clear() {
    if (Object.keys(this.state.brushes).length === 0) return;
    this.clicked = null;
    this.change({brushes: byName()});
    this.refresh(true);
  }

  measure(chart, measure) {
    this.change({measures: byName(this.state.measures, {[chart.about.view]: measure})});
    this.refresh();
  }

  order(chart, order) {
    this.change({orders: byName(this.state.orders, {[chart.about.view]: order})});
    this.refresh();
  }

  // Shows the records of one bar, {view, mark, table}, or with null those of all that is chosen.
  pin(pin) {
    this.change({pin});
    $("#records").classList.remove("folded");
    $("#fold").setAttribute("aria-expanded", "true");
    this.press();
    this.records.refresh();
  }

  ofTable(table) {
    this.change(this.state.pin ? {pin: {...this.state.pin, table}} : {table});
    this.records.refresh();
  }

  press() {
    const {pin} = this.state;
    for (const chart of this.charts.values()) {
      chart.pinned = pin?.view === chart.about.view ? pin.mark : null;
      chart.form?.press();
    }
    for (const rule of this.rules) rule.press();
  }

  // Questions

  // Asks for the charts, and where what is chosen is another also for the records.
  refresh(isOther = false) {
    const {state} = this;
    for (const chart of this.charts.values()) {
      chart.say(null);
      if (chart.said) chart.choose(state.brushes[chart.about.view] ?? []);
    }
    const charts = Object.fromEntries([...this.charts].map(([view, chart]) => [view, chart.wish(state)]));
    this.channel.ask({data: state.data, brushes: state.brushes, charts});
    if (isOther) this.records.refresh();
  }

  show(answer) {
    this.heard(answer);
    for (const said of answer.charts) {
      this.charts.get(said.view).show(said, this.state.brushes[said.view] ?? [], this.state.pin);
    }
    const chosen = answer.charts.filter(said => said.chosen.count > 0);
    const tables = this.told.tables.filter(table => table.brushed);
    $("#selected").replaceChildren(...tables.flatMap((table, place) => [place > 0 ? " · " : "", make("b", {}, exact(answer.selected[table.name])),
      answer.selected[table.name] === table.rows ? ` ${title(table.name)}` : ` of ${exact(table.rows)} ${title(table.name)}`]));
    $("#chips").replaceChildren(...chosen.map(said => this.chip(said)));
    $("#clear").hidden = chosen.length === 0;
  }

  chip({view, chosen: {count, labels, run}}) {
    const names = run ? `${labels.map(labelText).join(" to ")} (${exact(String(count))})`
      : labels.map(labelText).join(", ") + (count > labels.length ? ` and ${exact(String(count - labels.length))} more` : "");
    const button = make("button", {type: "button", title: names, "aria-label": `Clear ${title(view)}: ${names}`},
      make("span", {class: "view"}, title(view)), make("span", {class: "names"}, names), make("span", {class: "cross"}, "\u00d7"));
    button.addEventListener("click", () => this.choose(this.charts.get(view), []));
    return make("li", {}, button);
  }

  fail(fault) {
    if (this.lost(fault)) return;
    const text = `This can't be answered: ${fault.message}.${fault.hint ? ` ${fault.hint}` : ""}`;
    if (this.clicked) this.clicked.say(text);
    else this.tell(text);
    for (const chart of this.charts.values()) chart.section.classList.add("stale");
  }

  waits(text) {
    for (const chart of this.charts.values()) chart.waits(chart === this.clicked || !this.clicked ? text : text && "");
  }

  // What is behind an answer

  // Says where the program had ended, and was started again.
  heard(answer) {
    for (const chart of this.charts.values()) chart.section.classList.remove("stale");
    if (answer.starts === this.starts) return;
    this.starts = answer.starts;
    this.tell("The program had ended. It was started again, and answers as before.");
  }

  // Whether a fault is one of all of the page.
  lost(fault) {
    if (fault.kind === "changed") location.reload();
    else if (fault.kind === "silent") this.tell(fault.message);
    else if (fault.kind === "ended" || fault.kind === "loading") this.tell(`The program has ended: ${fault.message}`);
    else return false;
    return true;
  }

  tell(text) {
    say($("#said"), text);
  }
}

async function start() {
  for (;;) {
    try {
      return new Page(await ask("/start", {}));
    } catch (fault) {
      if (!(fault instanceof Fault)) throw fault;
      const isLoading = fault.kind === "loading";
      $("#charts").replaceChildren(make("p", {class: "empty", role: "status"}, isLoading ? `Loading: ${fault.message}` : fault.message));
      if (!isLoading) document.body.setAttribute("aria-busy", "false");
      await new Promise(done => setTimeout(done, AGAIN));
    }
  }
}

start();
