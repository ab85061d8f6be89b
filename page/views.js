// A recording: its picture, what is missing in it, and the files that may be saved of it.

const titleOf = ({ head, investigation }) =>
  `Patient ${personIn({ head })}${investigation === "X" ? "" : `, investigation ${investigation}`}`;

// What names a recording's files: its investigation, its first instant or that of a stretch, the
// patient's code where that is asked for, and a number where others are alike.
function nameOf(recording, first = recording.first, hasCode = byId("codes").checked) {
  const plain = (it) => [...hasCode ? [it.patient] : [],
    it.investigation === "X" ? "night" : it.investigation, it.first]
    .map((text) => text.replace(/[^A-Za-z0-9-]/g, "_")).join("_");
  const before = now.recordings.slice(0, now.recordings.indexOf(recording));
  const alike = before.filter((other) => plain(other) === plain(recording)).length;
  return plain({ ...recording, first }) + (alike === 0 ? "" : `_${alike + 1}`);
}

// Why a recording is another one than an earlier one of the same codes.
function differenceOf(recording) {
  const other = now.recordings.find((it) =>
    ["night", "patient", "investigation"].every((name) => it[name] === recording[name]));
  const name = NAMING.find((it) => naming(other.head, it) !== naming(recording.head, it));
  return other === recording ? "" : "There is another recording of these codes above: its " +
    `${calledBy(name ?? "signals")} differs.`;
}

// What there is of it, in a sentence.
function sentenceOf(stretches, gaps) {
  const times = span(stretches[0].from, stretches.at(-1).to), number = gaps.length;
  const longest = gaps.reduce((one, it) => it.gap - one.gap > 0 ? it : one, { gap: "0" });
  const how = number === 0 ? `No gap ${times}` : `Recorded ${times} with ` +
    `${several(number, "gap")}${number === 1 ? "" : ", the longest"} of ${lasting(longest.gap)}`;
  return `${how}. These files can't show whether the recorder also ran before or after.`;
}

// Files that may be of two nights or two people: a gap of more than six hours, or the longest one
// where nobody has a code, has some of the files on each side.
function showDoubt(card, recording, own, gaps) {
  const isBare = recording.patient === "X";
  const [longest] = gaps.filter(({ gap }) => isBare || gap > 6 * 3600)
    .sort((one, other) => other.gap - one.gap);
  const [before, later] = [false, true].map((is) =>
    own.filter((it) => startOf(it) >= longest?.from.slice(0, 19) === is));
  if (before.length * later.length === 0 || own.every(({ isOne }) => isOne)) return;
  const more = isBare ? ", and no file has the patient's code" : "";
  const box = made("div", null, card, { className: "doubt" });
  made("p", `Is this one night of one person? Between ${named(before)} and ${named(later)} is a ` +
    `gap of ${lasting(longest.gap)}${more}.`, box);
  const buttons = buttonsIn(box);
  button("Separate into two recordings", buttons, () => takeApart(later, Date.now()));
  button("Keep together", buttons, () => {
    own.forEach((it) => { it.isOne = true; });
    show().focus();
  });
}

// Saves what edfruns makes of a recording, or tells why it makes nothing.
async function saveMade(recording, call, end) {
  const name = nameOf(recording), done = await run(call, name, recording.file);
  if (done?.status !== 0) return done && say(sentence(inWords(done.err.replace(`${IN} `, ""))));
  save(done.made[0]?.blob ?? done.out, `${name}${end}.edf`);
  recording.isSaved ||= call === "split";
}

// All of it: one EDF+C file where there is no gap, else a copy for viewers and the exact recording.
function offerExact(buttons, card, recording, isWhole) {
  const { file } = recording, size = sizeOf(file.size), saveExact = () => {
    save(file, `${nameOf(recording)}_exact.edf`);
    recording.isSaved = true;
  };
  (isWhole ? [[`Save the night (${size})`, () => saveMade(recording, "split", "")]]
    : [["Save for viewing (gaps are flat)", () => saveMade(recording, "fill", "_view")],
      [`Save the exact recording (${size})`, saveExact]])
    .forEach(([text, press]) => { button(text, buttons, press).className = "first"; });
  if (!isWhole) hint(wordsAt("exact"), card);
}

// A file for each stretch without a gap, with the annotations of its time.
async function saveStretches(recording, stretches) {
  const done = await run("split", nameOf(recording), recording.file, true);
  if (done?.status !== 0) return done && say(done.err);
  return saveAll(done.made.map(({ blob }, at) =>
    ({ blob, name: `${nameOf(recording, stretches[at].from)}_stretch.edf` })));
}

// What else may be saved.
function offerMore(card, recording, stretches, gaps, picture) {
  const box = fold("Other files to save", card), buttons = buttonsIn(box);
  if (gaps.length > 0) {
    button(`Save ${several(stretches.length, "file")}, one for each stretch`, buttons,
      () => saveStretches(recording, stretches));
    hint(wordsAt("viewers"), box);
  }
  button("Save the picture", buttons, () => save(picture, `${nameOf(recording)}.svg`));
  button("Save the picture without the patient's code", buttons, async () => {
    const name = `${nameOf(recording, recording.first, false)}-without-code.svg`;
    const done = await run("picture --without-code", name, recording.file);
    if (done?.status === 0) saveText(done.out, name);
  });
  hint(wordsAt("picture"), box);
}

// What a picture says of itself.
const describedBy = (picture) => new DOMParser().parseFromString(
  /<desc[^]*?<\/desc>/.exec(picture)?.[0] ?? "<desc/>", "text/xml").documentElement.textContent;

function showRecording(box, recording, refused) {
  const [card] = part("article", box, "h3", titleOf(recording)), other = differenceOf(recording);
  const stretches = stretchesOf(recording.runs.text), gaps = gapsIn(stretches);
  const picture = new Blob([recording.picture], { type: "image/svg+xml" });
  const own = now.files.filter((it) =>
    !it.number && it.night === recording.night && isAlike(it, recording));
  const isWhole = ({ fresh, known }) => fresh + known === Number(recording.records);
  const apart = now.recordings.find((it) => it.night < recording.night && isAlike(it, recording));
  if (other) made("p", other, card);
  if (apart) button("Put them together again", buttonsIn(card), () => takeApart(own, apart.night));
  if (!own.some(isWhole)) showDoubt(card, recording, own, gaps);
  made("p", sentenceOf(stretches, gaps), card, { className: "sentence" });
  if (shortage(own)) made("p", shortage(own), card, { className: "bad" });
  made("img", null, made("div", null, card, { className: "picture" }), { src: urlOf(picture),
    alt: `Picture of the recording. ${describedBy(recording.picture)}` });
  const buttons = buttonsIn(card);
  offerExact(buttons, card, recording, gaps.length === 0);
  if (refused.length > 0) made("p", `Without ${named(refused)}: see below.`, card);
  if (gaps.length > 0) {
    table(fold(`${several(gaps.length, "gap")}: from, to and how long`, card), "What is missing",
      ["From", "To", "How long"], gaps, (it) => [when(it.from), when(it.to), lasting(it.gap)]);
  }
  offerMore(card, recording, stretches, gaps, picture);
}
