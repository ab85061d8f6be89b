// The first 256 bytes of a file: its format, and texts. What these mean the module says.

// The fields there: their first byte, and that behind the last.
const FIELDS = { patient: [8, 88], recording: [88, 168], startdate: [168, 176],
  starttime: [176, 184], form: [192, 197], count: [236, 244], duration: [244, 252] };
// Those that a refusal is of, and what they are called.
const OF_REFUSALS = { E4: ["patient"], E5: ["recording"], E6: ["startdate", "recording"],
  E7: ["starttime"], E8: ["startdate", "recording"] };
const calledBy = (name) => wordsAt(`at-${name}`);

// What texts stand for by a list of page.html; formats by their first bytes.
const pairsIn = (id) => [...byId(id).content.querySelectorAll("dt")].map((it) =>
  [new RegExp(it.textContent, "s"), it.nextElementSibling.textContent.replace(/\s+/g, " ")]);
const KINDS = pairsIn("kinds"), UNKNOWN = "no EDF: it is of another format, or it is damaged";
// What a file is that is none of EDF.
const kindOf = (head) => head.startsWith("0       ") ? null
  : KINDS.find(([start]) => start.test(head))?.[1] ?? UNKNOWN;

// These bytes as Latin-1 has them. (What browsers call so is another encoding.)
const headOf = async ({ blob }) => String.fromCharCode(...new Uint8Array(
  await blob.slice(0, 256).arrayBuffer().catch(() => new ArrayBuffer(0))));

// The same read as UTF-8, where it is that.
const UTF8 = new TextDecoder("utf-8", { fatal: true });
function readable(text) {
  const bytes = Uint8Array.from(text, (it) => it.charCodeAt(0));
  try { return UTF8.decode(bytes); } catch { return text; }
}

const field = (head, name) => readable(head.slice(...FIELDS[name])).trimEnd();
// The same without the date of a recording field, which differs in the pieces of a recording.
const naming = (head, name) => field(head, name).replace(/^Startdate \d\S* /, "");
const NAMING = ["patient", "recording", "duration"];
const isAlike = (one, { head }) => NAMING.every((it) => naming(one.head, it) === naming(head, it));
// Whether a file is of a recording's patient: by the code, or without one by all that names it.
const isOfPatient = (file, it) => file.night === it.night && (it.patient === "X"
  ? isAlike(file, it) : field(file.head, "patient").split(" ")[0] === it.patient);

// How many data records a file counts, if it does; and how many seconds so many of them last.
const countOf = ({ head }) => Number(/^\d+$/.exec(field(head, "count"))?.[0] ?? 0);
const secondsOf = ({ head }, count) => String(Number((field(head, "duration") * count).toFixed(6)));
// How long files should be by the data records that were due as they came, if fewer are there.
const shortage = (files) => files.filter((it) => it.due > countOf(it)).map((it) =>
  `${it.name} should last ${lasting(secondsOf(it, it.due))}; ` +
  `${lasting(secondsOf(it, countOf(it)))} are in it.`).join(" ");
// When a file ends that is used, in milliseconds. Of EDF+D nobody knows.
const endOf = (it) => field(it.head, "form") === "EDF+D" ? NaN
  : Date.parse(`${startOf(it)}Z`) + 1000 * secondsOf(it, it.fresh + it.known);

// A file that `edfruns fill` made is no recording, but a copy for viewers.
const isFilled = ({ head }) => field(head, "recording").endsWith(" filled");

// The instant at which a file begins by its header.
function startOf({ head }) {
  const [day, month, year] = field(head, "startdate").split(/\D/);
  const time = field(head, "starttime").replace(/\D/g, ":");
  return `${year >= "85" ? 19 : 20}${year}-${month}-${day}T${time}`;
}

// Whom a patient field names: the code, and the name and the birthdate where they are there.
function personIn({ head }) {
  const [code, , born = "X", ...names] = field(head, "patient").trim().split(/ +/);
  const name = names.join(" ").replace(/_/g, " ") || "X";
  return (code === "X" ? "without a code" : code) + (name === "X" ? "" : `, ${name}`) +
    (born === "X" ? "" : `, born ${born.replace(/^0/, "").replace(/-(.)(.*)-/,
      (_, first, rest) => ` ${first}${rest.toLowerCase()} `)}`);
}
