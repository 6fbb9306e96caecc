// Rules, each with the keys that break it. A click on a key shows its records.
import {Channel} from "./asking.js";
import {labelText, label, make, many, named, say, title} from "./elements.js";
import {exact} from "./numbers.js";

const KEYS = 20;

export class Rule {
  constructor(about, page) {
    Object.assign(this, {about, page, begin: 0});
    const id = `rule-${about.view}`;
    this.count = make("p", {class: "count", role: "status"}, "Loading\u00a0\u2026");
    this.fault = make("p", {class: "fault", role: "alert", hidden: true});
    this.list = make("ol", {class: "keys"});
    this.foot = make("footer", {hidden: true});
    this.section = make("section", {class: "chart rule", "data-rule": about.view, "aria-labelledby": id},
      make("header", {}, make("h2", {id, title: about.view}, title(about.view))),
      make("p", {class: "says"}, `Records with equal ${about.keys.join(" and ")} have equal ${about.column}.`),
      this.count, this.fault, this.list, this.foot);
    this.channel = new Channel("/rules", text => text !== null && say(this.count, text), answer => this.show(answer), fault => {
      if (!page.lost(fault)) say(this.fault, `This can't be answered: ${fault.message}`);
    });
  }

  refresh() {
    this.channel.ask({data: this.page.state.data, view: this.about.view, begin: this.begin});
  }

  show(answer) {
    this.page.heard(answer);
    say(this.fault, null);
    this.section.classList.toggle("holds", answer.count === 0);
    this.count.textContent = answer.count === 0 ? "Holds for all records."
      : `${many(answer.count, "key")} ${answer.count === 1 ? "breaks" : "break"} this rule.`;
    this.list.replaceChildren(...answer.keys.map(key => this.key(key)));
    const turn = (text, begin, isThere) => {
      const button = make("button", {type: "button", disabled: !isThere}, text);
      button.addEventListener("click", () => {
        this.begin = begin;
        this.refresh();
      });
      return button;
    };
    this.foot.hidden = answer.count <= KEYS;
    this.foot.replaceChildren(turn("Earlier", this.begin - KEYS, this.begin > 0),
      `${exact(String(this.begin + 1))}\u2013${exact(String(this.begin + answer.keys.length))} of ${exact(String(answer.count))}`,
      turn("Later", this.begin + KEYS, this.begin + KEYS < answer.count));
    this.press();
  }

  key([mark, values, rows]) {
    const [least, most] = values.slice(-2);
    const key = values.slice(0, -2);
    const text = `${labelText(key)}: ${named(least)} \u2026 ${named(most)}`;
    const button = make("button", {type: "button", title: text, "aria-label": `Records of ${text}, ${many(rows, "record")}`},
      make("span", {class: "label"}, ...label(key)), make("span", {class: "values"}, ...label([least]), " \u2026 ", ...label([most])),
      make("span", {class: "number"}, make("b", {}, exact(rows))));
    button.addEventListener("click", () => this.page.pin({view: this.about.view, mark, table: this.about.table}));
    const item = make("li", {"data-mark": String(mark)}, button);
    return item;
  }

  press() {
    const {pin} = this.page.state;
    for (const item of this.list.children) {
      item.classList.toggle("pinned", pin?.view === this.about.view && item.dataset.mark === String(pin.mark));
    }
  }
}
