// The records of all that is chosen, or of the bar that is pinned, or what steps make of them. One page of them is here at a time.
import {Channel, ask, busy} from "./asking.js";
import {$, labelText, make, named, say, title} from "./elements.js";
import {compared, exact, isNumber} from "./numbers.js";

const PAGE = 100;

export class Records {
  // `page` has the state, what the server told at the start, and what records ask of it.
  constructor(page) {
    this.page = page;
    this.steps = "";
    this.begin = 0;
    this.sort = null;
    this.channel = new Channel("/records", text => this.waits(text), (answer, question) => this.show(answer, question),
      fault => this.fail(fault));
    $("#records").hidden = page.told.tables.length === 0;
    $("#unpin").addEventListener("click", () => page.pin(null));
    $("#of").addEventListener("change", () => page.ofTable($("#of").value));
    $("#steps").addEventListener("submit", event => {
      event.preventDefault();
      this.steps = $("#ask").value;
      this.turn(0);
    });
    $("#ask").addEventListener("input", () => $("#ask").value === "" && this.steps !== "" && $("#steps").requestSubmit());
    $("#earlier").addEventListener("click", () => this.turn(this.begin - PAGE));
    $("#later").addEventListener("click", () => this.turn(this.begin + PAGE));
    this.isScrolled = false;
    $("#records .scroll").addEventListener("scroll", () => { this.isScrolled = true; });
    $("#records tbody").addEventListener("keydown", event => this.key(event));
    $("#csv").addEventListener("submit", () => {
      $("#csv").elements.question.value = JSON.stringify(this.question());
    });
    const body = $("#records");
    $("#fold").addEventListener("click", () => {
      const isFolded = body.classList.toggle("folded");
      $("#fold").setAttribute("aria-expanded", String(!isFolded));
    });
    if (matchMedia("(max-width: 60rem)").matches) $("#fold").click();
  }

  get of() {
    const {state, told} = this.page;
    const first = told.tables.find(table => table.brushed) ?? told.tables[0];
    return state.pin ?? {table: told.tables.some(table => table.name === state.table) ? state.table : first.name};
  }

  question() {
    const {state} = this.page;
    return {data: state.data, brushes: state.brushes, of: this.of, steps: this.steps, begin: this.begin};
  }

  // Asks for the records of what is chosen now, from the first on.
  refresh() {
    if (this.page.told.tables.length === 0) return;
    const {pin} = this.page.state;
    $("#unpin").hidden = !pin;
    const tables = pin ? this.page.charts.get(pin.view)?.about.tables ?? [pin.table] : this.page.told.tables.map(table => table.name);
    $("#of").replaceChildren(...tables.map(name => make("option", {value: name}, name)));
    $("#of").value = this.of.table;
    const {example} = this.page.told.tables.find(table => table.name === this.of.table);
    $("#ask").placeholder = example;
    $("#example").textContent = example;
    $("#of").hidden = tables.length < 2;
    this.turn(0);
  }

  turn(begin) {
    this.begin = begin;
    this.channel.ask(this.question());
  }

  show(answer, question) {
    this.page.heard(answer);
    say($("#records-said"), null);
    this.fault(null);
    this.answer = answer;
    this.sort = null;
    const {of, steps} = question;
    const whose = of.view ? `${title(of.view)}: ${labelText(answer.name)}` : "";
    const count = exact(answer.count);
    const total = answer.count === answer.whole || steps ? "" : ` of ${exact(answer.whole)}`;
    $("#records-title").replaceChildren(make("b", {}, `${count}${total}`), steps ? " rows asked of " : " ",
      make("span", {}, title(of.table)), whose ? make("span", {class: "whose", title: whose}, ` · ${whose}`) : "");
    $("#range").textContent = answer.rows.length === 0 ? (answer.count === "0" ? "No records" : "")
      : `${exact(String(answer.begin + 1))}\u2013${exact(String(answer.begin + answer.rows.length))} of ${count}`;
    $("#earlier").disabled = answer.begin === 0;
    $("#later").disabled = BigInt(answer.begin + answer.rows.length) >= BigInt(answer.count);
    this.draw();
    if (this.isScrolled) $("#records .scroll").scrollTop = 0;
    this.isScrolled = false;
  }

  draw() {
    const {columns, ints, rows, places, count} = this.answer;
    const canSort = rows.length > 1 && String(rows.length) === count;  // a page that isn't all can't be sorted by itself
    const head = columns.map((name, column) => this.header(name, column, ints[column], canSort));
    if (places) head.unshift(make("th", {class: "place", title: "The record's number, from 0"}, "#"));
    $("#records thead").replaceChildren(make("tr", {}, ...head));
    const order = rows.map((_, row) => row);
    if (this.sort) {
      const {column, down} = this.sort;
      const isInt = ints[column] && rows.every(row => isNumber(row[column]));
      const compare = isInt ? compared : (one, other) => one < other ? -1 : one > other ? 1 : 0;
      order.sort((one, other) => (down ? -1 : 1) * compare(rows[one][column], rows[other][column]));
    }
    $("#records tbody").replaceChildren(...order.map((row, at) => this.row(rows[row], places?.[row], ints, at === 0)));
  }

  // Tab reaches one number of a record, and the arrows the others.
  key(event) {
    const step = {ArrowDown: 1, ArrowUp: -1}[event.key];
    if (!step || !event.target.matches(".place button")) return;
    const buttons = [...$("#records tbody").querySelectorAll(".place button")];
    const to = buttons[buttons.indexOf(event.target) + step];
    event.preventDefault();
    if (!to) return;
    event.target.tabIndex = -1;
    to.tabIndex = 0;
    to.focus();
  }

  header(name, column, isInt, canSort) {
    const cell = make("th", {scope: "col", ...isInt ? {class: "int"} : {}});
    if (!canSort) {
      cell.append(name);
      return cell;
    }
    const isSorted = this.sort?.column === column;
    const button = make("button", {type: "button", title: "Sort"}, `${name}${isSorted ? (this.sort.down ? " \u2193" : " \u2191") : ""}`);
    button.addEventListener("click", () => {
      this.sort = {column, down: isSorted && !this.sort.down};
      this.draw();
      $("#records thead").querySelectorAll("button")[column].focus();
    });
    if (isSorted) cell.setAttribute("aria-sort", this.sort.down ? "descending" : "ascending");
    cell.append(button);
    return cell;
  }

  row(values, place, ints, isFirst) {
    const made = make("tr", {});
    if (place !== undefined) {
      const cell = make("td", {class: "place"}, place);
      if (this.page.told.tables.find(table => table.name === this.of.table)?.forwards) {
        const button = make("button", {type: "button", title: "The bars that it is in", "aria-expanded": "false", tabIndex: isFirst ? 0 : -1}, place);
        button.addEventListener("click", () => this.bars(made, button, Number(place)));
        cell.replaceChildren(button);
      }
      made.append(cell);
    }
    values.forEach((value, column) => made.append(make("td", ints[column] ? {class: "int"} : {title: value},
      named(value) === value ? value : make("i", {class: "none"}, named(value)))));
    return made;
  }

  // Below a record, the bars that it is in.
  bars(row, button, rid) {
    if (button.getAttribute("aria-expanded") === "true") {
      button.setAttribute("aria-expanded", "false");
      row.nextSibling.remove();
      return;
    }
    button.setAttribute("aria-expanded", "true");
    const cell = make("td", {colspan: String(row.cells.length), class: "bars-of"}, "Waiting for the answer");
    row.after(make("tr", {}, cell));
    busy(async () => {
      try {
        const answer = await ask("/bars", {data: this.page.state.data, table: this.of.table, rid});
        this.page.heard(answer);
        cell.replaceChildren(...answer.views.map(view => this.barsOf(view)));
      } catch (fault) {
        cell.textContent = fault.message;
        this.page.lost(fault);
      }
    });
  }

  barsOf({view, count, bars, chart}) {
    const buttons = bars.map(([mark, values]) => {
      if (!chart) return make("span", {}, labelText(values));
      const button = make("button", {type: "button", title: labelText(values)}, labelText(values));
      button.addEventListener("click", () => this.page.charts.get(view).goTo(values, mark));
      return button;
    });
    const others = count > bars.length ? [`and ${exact(String(count - bars.length))} others`] : [];
    return make("p", {}, make("span", {class: "view"}, title(view)), ...buttons.length > 0 ? buttons : ["none"], ...others);
  }

  fail(fault) {
    if (this.page.lost(fault)) return;
    if (fault.kind === "steps") this.fault(fault);
    else say($("#records-said"), `This can't be answered: ${fault.message}${fault.hint ? `. ${fault.hint}` : ""}`);
    $("#records").classList.add("stale");
  }

  // A fault of the steps, at its place.
  fault(fault) {
    $("#records").classList.remove("stale");
    $("#fault").hidden = !fault;
    $("#ask").setAttribute("aria-invalid", String(Boolean(fault)));
    if (!fault) return;
    const text = this.steps;
    const word = /^[\p{L}\p{N}_]+|^`[^`]*`|^"[^"]*"|^\S/u.exec(text.slice(fault.at))?.[0] ?? "";
    $("#fault .text").textContent = fault.message.replace(/ at byte \d+$/, "").replace(/^refused steps: /, "").replace(/^line \d+ not read$/, "not read here");
    $("#fault code").replaceChildren(text.slice(0, fault.at), make("mark", {}, word || "\u2423"), text.slice(fault.at + word.length));
    $("#fault .hint").textContent = fault.hint ?? "";
    $("#ask").focus();
    $("#ask").setSelectionRange(fault.at, fault.at + word.length);
  }

  waits(text) {
    $("#records").classList.toggle("waiting", text !== null);
    if (text !== null) $("#range").textContent = text;
  }
}
