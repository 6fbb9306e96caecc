// A chart in its card: what stands above and below its bars, which are those of a List or of a Histogram.
import {exact} from "./numbers.js";
import {labelText, make, many, say, title} from "./elements.js";
import {Histogram} from "./histogram.js";
import {List} from "./list.js";

const FIRST = 20;  // bars at first
const COLUMNS = 60;  // of a histogram that needs no search
const MORE = 100;  // bars that are added at a time
const MOST = 1000;
const WINDOW = 400;  // bars of a histogram at a time
const QUIET = 150;  // milliseconds without a key before it is searched

export class Chart {
  // `does` has what a chart asks of the page: choose(chart, marks), pin(view, mark), set(chart), measure and order in the state.
  constructor(about, does) {
    Object.assign(this, {about, does, shown: FIRST, begin: 0, find: "", said: null, isLog: false});
    const id = `chart-${about.view}`;
    this.fault = make("p", {class: "fault", role: "alert", hidden: true});
    this.wait = make("p", {class: "wait", role: "status", hidden: true});
    this.clear = make("button", {type: "button", class: "clear", hidden: true, "aria-label": `Clear: ${title(about.view)}`}, "Clear");
    this.body = make("div", {class: "body"});
    this.foot = make("footer");
    this.header = make("header", {}, make("h2", {id, title: about.view}, title(about.view)), this.clear, make("span", {class: "spacer"}));
    this.section = make("section", {class: "chart", "data-view": about.view, "aria-labelledby": id},
      this.header, this.fault, this.body, this.foot, this.wait);
    this.clear.addEventListener("click", () => does.choose(this, []));
    this.addControls();
    this.list = new List(this);
    this.histogram = about.histogram ? new Histogram(this) : null;
  }

  // About how high it is, in rows.
  get height() {
    return 3 + (this.about.histogram ? 7 : Math.min(this.about.rows, FIRST));
  }

  addControls() {
    const {about} = this;
    if (about.measures.length > 1) {
      this.measure = make("select", {"aria-label": `Measure of ${title(about.view)}`},
        ...about.measures.map(({name}, place) => make("option", {value: String(place)}, title(name))));
      this.measure.addEventListener("change", () => this.does.measure(this, Number(this.measure.value)));
      this.header.append(this.measure);
    } else if (about.measures.length === 1) this.header.append(make("span", {class: "measure"}, title(about.measures[0].name)));
    if (!about.ordered && about.rows > 2) {
      this.order = make("select", {"aria-label": `Order of ${title(about.view)}`},
        ...[["size", "by size"], ["name", "by name"], ["file", "as in the data"]].slice(about.measures.length > 0 ? 0 : 1)
          .map(([value, text]) => make("option", {value}, text)));
      this.order.addEventListener("change", () => this.does.order(this, this.order.value));
      this.header.append(this.order);
    }
    if (about.histogram) {
      this.log = make("button", {type: "button", class: "log", "aria-pressed": "false",
        title: "Heights by logarithms, so that small bars are seen"}, "log");
      this.log.addEventListener("click", () => {
        this.isLog = !this.isLog;
        this.log.setAttribute("aria-pressed", String(this.isLog));
        this.histogram.draw();
      });
      this.header.append(this.log);
    }
    if (about.rows > (about.histogram ? COLUMNS : FIRST)) {
      this.search = make("input", {type: "search", placeholder: `Find in ${exact(String(about.rows))}`, maxlength: "200",
        "aria-label": `Find in ${title(about.view)}`});
      let timer;
      this.search.addEventListener("input", () => {
        clearTimeout(timer);
        timer = setTimeout(() => {
          this.find = this.search.value;
          this.shown = FIRST;
          this.does.refresh();
        }, QUIET);
      });
      this.header.after(this.search);
    }
  }

  // What it asks of the server.
  wish(state) {
    const measure = state.measures[this.about.view] ?? this.about.measure;
    const order = state.orders[this.about.view] ?? (this.about.measures.length > 0 ? "size" : "file");
    if (this.measure) this.measure.value = String(measure);
    if (this.order) this.order.value = order;
    this.unit = this.about.measures[measure]?.unit ?? "";
    this.measured = this.about.measures[measure]?.name ?? "";
    return {measure, order, shown: this.shown, begin: this.begin, find: this.find};
  }

  show(said, marks, pin) {
    this.said = said;
    this.pinned = pin?.view === this.about.view ? pin.mark : null;
    this.choose(marks);
    const form = this.histogram && !this.find ? this.histogram : this.list;
    if (this.body.firstChild !== form.element) this.body.replaceChildren(form.element);
    this.form = form;
    form.draw();
    this.footer();
  }

  // Marks are shown as chosen at once, before the answer is there.
  choose(marks) {
    this.marks = new Set(marks);
    this.section.classList.toggle("brushed", marks.length > 0);
    this.clear.hidden = marks.length === 0;
    this.form?.press();
  }

  footer() {
    const {said, about} = this;
    const texts = [];
    if (said.count === 0) texts.push(this.find ? "Nothing is found." : "There are no rows.");
    if (said.filtered && !about.matched) texts.push(`${many(said.now, "row")} of ${exact(String(about.rows))} now.`);
    if (this.form === this.histogram && said.count > WINDOW) {
      texts.push(this.turn("Earlier", said.begin - WINDOW, said.begin > 0),
        `bars ${exact(String(said.begin + 1))}\u2013${exact(String(said.begin + said.bars.length))} of ${exact(String(said.count))}`,
        this.turn("Later", said.begin + WINDOW, said.begin + said.bars.length < said.count));
    } else if (said.others > 0) {
      const text = `and ${exact(String(said.others))} ${said.others === 1 ? "other" : "others"}`;
      const more = make("button", {type: "button", class: "more", title: "Show more"}, text);
      more.addEventListener("click", () => {
        this.shown = Math.min(MOST, this.shown < MORE ? MORE : this.shown + MORE);
        this.does.refresh();
      });
      texts.push(this.shown < MOST ? more : text);
    }
    this.foot.replaceChildren(...texts);
    this.foot.hidden = texts.length === 0;
  }

  turn(text, begin, isThere) {
    const button = make("button", {type: "button", disabled: !isThere}, text);
    button.addEventListener("click", () => {
      this.begin = begin;
      this.does.refresh();
    });
    return button;
  }

  // A click on a bar chooses it alone, or takes the choice back; with others it adds it or takes it out.
  click(mark, withOthers) {
    if (!this.about.brushes || mark === null) return;
    const isChosen = this.marks.has(mark);
    if (!withOthers) return this.does.choose(this, isChosen && this.marks.size === 1 ? [] : [mark]);
    const marks = new Set(this.marks);
    if (isChosen) marks.delete(mark);
    else marks.add(mark);
    return this.does.choose(this, [...marks]);
  }

  records(mark) {
    if (mark !== null && this.about.tables.length > 0) this.does.pin({view: this.about.view, mark, table: this.about.tables[0]});
  }

  // What is read aloud of a bar.
  aloud(values, written) {
    return `${labelText(values)}: ${written.exact || "a row"}${this.measured ? ` ${title(this.measured)}` : ""}`;
  }

  say(text) {
    say(this.fault, text);
  }

  waits(text) {
    this.section.classList.toggle("waiting", text !== null);
    say(this.wait, text);
  }

  // Shows a bar, and gives it the focus.
  goTo(values, mark) {
    this.section.scrollIntoView({block: "nearest"});
    if (this.form?.focus(mark) || !this.search) return;
    this.search.value = labelText(values);
    this.find = values.join(" · ");
    this.does.refresh();
  }
}
