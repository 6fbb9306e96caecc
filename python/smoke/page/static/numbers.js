// Numbers come as decimal texts, since some are larger than a JavaScript number holds exactly. They are only written here, never computed.
const UNITS = ["", "k", "M", "G", "T", "P", "E", "Z", "Y", "R", "Q"];
const WHOLE = 6;  // digits up to which a number is written whole

const parts = text => /^(-?)(\d+)(?:\.(\d+))?$/.exec(text);

// All digits, in groups: 1,234,567.89
export function exact(text) {
  const [, sign, digits, fraction] = parts(text);
  return `${sign && "\u2212"}${digits.replace(/\B(?=(\d{3})+$)/g, ",")}${fraction ? `.${fraction}` : ""}`;
}

// Three digits where there are many: 15.0 G
export function short(text) {
  const [, sign, digits] = parts(text);
  if (digits.length <= WHOLE) return exact(text);
  const rounded = String((BigInt(digits.slice(0, 4)) + 5n) / 10n);
  const size = digits.length + rounded.length - 3;
  const unit = Math.min(Math.floor((size - 1) / 3), UNITS.length - 1);
  const before = size - 3 * unit;
  const shown = before >= 3 ? rounded.slice(0, 3).padEnd(before, "0") : `${rounded.slice(0, before)}.${rounded.slice(before, 3)}`;
  return `${sign && "\u2212"}${shown}\u00a0${UNITS[unit]}`;
}

// Compares two decimal texts.
export function compared(one, other) {
  const scale = Math.max(...[one, other].map(text => (parts(text)[3] ?? "").length));
  const [a, b] = [one, other].map(text => {
    const [, sign, digits, fraction = ""] = parts(text);
    return BigInt(sign + digits + fraction.padEnd(scale, "0"));
  });
  return a < b ? -1 : a > b ? 1 : 0;
}

export const isNumber = text => parts(text) !== null;
