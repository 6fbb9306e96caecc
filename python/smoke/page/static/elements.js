// Elements of the page. Texts of tables are set as text, never read as HTML.
import {exact, short} from "./numbers.js";

export function make(kind, attributes = {}, ...inside) {
  const made = document.createElement(kind);
  for (const [name, value] of Object.entries(attributes)) {
    if (name in made && typeof value !== "string") made[name] = value;
    else made.setAttribute(name, value);
  }
  made.append(...inside);
  return made;
}

export const $ = selector => document.querySelector(selector);

export const named = value => /\S/.test(value) ? value : value === "" ? "(empty)" : "(blank)";

// What a bar is called: its values with dots between them.
export const labelText = values => values.length > 0 ? values.map(named).join(" · ") : "all";

export function label(values) {
  const inside = values.map(value => make("bdi", named(value) === value ? {} : {class: "none"}, named(value)));
  return inside.length > 0 ? inside.flatMap((part, place) => place > 0 ? [" · ", part] : [part]) : ["all"];
}

// A view's or a column's name for people.
export const title = name => name.replaceAll("_", " ");

export const many = (count, one) => `${exact(String(count))} ${one}${String(count) === "1" ? "" : "s"}`;

export function say(element, text) {
  element.textContent = text ?? "";
  element.hidden = !text;
}

// The numbers of a bar: now of the whole where something filters it, and the whole by itself where nothing does.
export function numbers([, , whole, now, isThere], filtered, unit) {
  const written = form => {
    const [one, all] = [now, whole].map(value => value === null ? "\u2013" : form(value));
    return !filtered ? all : whole === null ? one : `${one} of ${all}`;
  };
  if (whole === null && now === null) return {short: "", exact: filtered && !isThere ? "not chosen elsewhere" : ""};
  return {short: written(short), exact: `${written(exact)}${unit ? ` ${unit}` : ""}`};
}
