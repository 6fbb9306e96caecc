// What is chosen stands in the address: b.VIEW has the marks that are chosen in a chart, m.VIEW its measure, o.VIEW its order; `pin` the bar
// whose records are shown, or `table` their table; and `data` a word for the data over which these marks are places.
const none = () => ({data: "", brushes: byName(), measures: byName(), orders: byName(), pin: null, table: null, misread: false});

// What is found by the name of a view alone, which may be one that objects have by themselves.
export const byName = (...given) => Object.assign(Object.create(null), ...given);

export function read(fragment) {
  const state = none();
  for (const [name, value] of new URLSearchParams(fragment.replace(/^#/, ""))) {
    const [kind, view] = name.split(".");
    if (name === "data") state.data = value;
    else if (name === "table") state.table = value;
    else if (name === "pin" && /^\w+\.\d{1,10}\.\w+$/.test(value)) {
      const [of, mark, table] = value.split(".");
      state.pin = {view: of, mark: Number(mark), table};
    } else if (kind === "b" && /^\d{1,10}(-\d{1,10})?(,\d{1,10}(-\d{1,10})?)*$/.test(value)) state.brushes[view] = marksOf(value);
    else if (kind === "m" && /^\d{1,2}$/.test(value)) state.measures[view] = Number(value);
    else if (kind === "o" && /^\w+$/.test(value)) state.orders[view] = value;
    else state.misread = true;
  }
  return state;
}

export function write(state) {
  const said = [];
  for (const [view, marks] of Object.entries(state.brushes)) said.push(`b.${view}=${textOf(marks)}`);
  for (const [view, measure] of Object.entries(state.measures)) said.push(`m.${view}=${measure}`);
  for (const [view, order] of Object.entries(state.orders)) said.push(`o.${view}=${order}`);
  if (state.pin) said.push(`pin=${state.pin.view}.${state.pin.mark}.${state.pin.table}`);
  if (state.table) said.push(`table=${state.table}`);
  return said.length > 0 ? `#data=${state.data}&${said.join("&")}` : "#";
}

// 0-3,7 for 0, 1, 2, 3, 7
function textOf(marks) {
  const runs = [];
  for (const mark of marks) {
    const run = runs.at(-1);
    if (run && run[1] === mark - 1) run[1] = mark;
    else runs.push([mark, mark]);
  }
  return runs.map(([first, last]) => first === last ? first : `${first}-${last}`).join(",");
}

const MOST = 1e6;  // marks that are read; no chart has as many

function marksOf(text) {
  const marks = new Set();
  for (const run of text.split(",")) {
    const [first, last = first] = run.split("-").map(Number);
    for (let mark = first; mark <= last && marks.size < MOST; mark++) marks.add(mark);
  }
  return sorted(marks);
}

export const sorted = marks => [...marks].sort((one, other) => one - other);
