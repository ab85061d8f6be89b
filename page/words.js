// Words for numbers, texts, durations and times: each is written in one way.

const counted = (number) => number.toLocaleString("en");
const several = (number, thing) => `${counted(number)} ${thing}${number === 1 ? "" : "s"}`;
const sizeOf = (bytes) => bytes < 1e6
  ? `${counted(Math.ceil(bytes / 1e3))} kB` : `${(bytes / 1e6).toFixed(1)} MB`;
const linesOf = (text) => text.split("\n").slice(0, -1);
// The values in a line of a program that have these names.
const valuesIn = (line, ...names) => Object.fromEntries(names.map((name) =>
  [name, new RegExp(` ${name}=(\\S+)`).exec(line)?.[1] ?? ""]));
const sentence = (text) => text.charAt(0).toUpperCase() + text.slice(1);

// The names of files, of which the first few are told.
function named(files, most = 3) {
  const names = files.slice(0, most).map(({ name }) => name), more = files.length - most;
  const last = more > 0 ? several(more, "other file") : names.pop();
  return names.length > 0 ? `${names.join(", ")} and ${last}` : last;
}

// Seconds, as a person says them.
function lasting(seconds) {
  const [whole, rest] = seconds.split("."), number = Number(whole);
  const parts = [[Math.floor(number / 3600), "h"], [Math.floor(number / 60) % 60, "min"],
    [`${number % 60}${rest ? `.${rest}` : ""}`, "s"]];
  return parts.filter(([it]) => String(it) !== "0").map((it) => it.join(" ")).join(" ");
}

// The instant so many seconds after another, both decimals of up to nine places.
function after(instant, seconds) {
  const [[day, rest = ""], [whole, more = ""]] = [instant, seconds].map((it) => it.split("."));
  const part = Number(rest.padEnd(9, "0")) + Number(more.padEnd(9, "0"));
  const at = Date.parse(`${day}Z`) + 1000 * (Number(whole) + Math.floor(part / 1e9));
  const places = String(part % 1e9).padStart(9, "0").replace(/0+$/, "");
  return new Date(at).toISOString().slice(0, 19) + (places && `.${places}`);
}

// Times: of a day, without seconds where there are none; and with their day.
const MONTHS = ["Jan", "Feb", "Mar", "Apr", "May", "Jun", "Jul", "Aug", "Sep", "Oct", "Nov", "Dec"];
const timeOf = (instant) => instant.slice(11).replace(/:00$/, "");
const dayOf = (instant) =>
  `${Number(instant.slice(8, 10))} ${MONTHS[instant.slice(5, 7) - 1]} ${instant.slice(0, 4)}`;
const when = (instant) => `${timeOf(instant)} on ${dayOf(instant)}`;
const span = (from, to) =>
  `from ${dayOf(from) === dayOf(to) ? timeOf(from) : when(from)} to ${when(to)}`;

// The stretches of a recording by their lines, with the seconds of each and of the gap behind it.
const stretchesOf = (text) => linesOf(text).map((line) => {
  const { first, seconds, gap } = valuesIn(line, "first", "seconds", "gap");
  return { from: first, to: after(first, seconds), seconds, gap };
});
const gapsIn = (stretches) => stretches.filter(({ gap }) => gap).map(({ to, gap }, at) =>
  ({ from: to, to: stretches[at + 1].from, gap }));
