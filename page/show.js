// What came of files: each recording with its picture first; then what was refused, by its cause.

const REFUSALS = JSON.parse(byId("refusals").textContent);
const whatIs = (it) => isFilled(it) ? "a copy for viewing; drop the exact one" : kindOf(it.head);
const isAside = (file) => whatIs(file) !== null && !(whatIs(file) === UNKNOWN &&
  /\.edf$/i.test(file.name));

// A file's line in its parts, and a recording's.
function readLine({ name }, line) {
  const rest = line.slice(name.length + 1);
  const [, fresh, known] = /^accepted new=(\d+) known=(\d+)\n$/.exec(rest) ?? [];
  const [, number, place] = /^refused (E\d+) ?(.*)\n$/s.exec(rest) ?? [];
  return { rest, fresh: Number(fresh ?? 0), known: Number(known ?? 0), number, place };
}

const readListed = (line) =>
  ({ line, ...valuesIn(line, "records", "first", "patient", "investigation") });

// What is wrong with a file, in a sentence that is chosen by what is there.
function causeOf({ number, place, head }) {
  const at = Number(/^Unprintable offset=(\d+)/.exec(place)?.[1] ?? -1);
  if (kindOf(head) !== null) return `This is ${kindOf(head)}.`;
  if (number === "E2" && at >= 8 && at < 168) {
    const [letter] = [2, 3, 4, 1].map((it) => [...readable(head.slice(at, at + it))])
      .find((letters) => letters[0] !== head[at]) ?? head[at];
    return `${at < 88 ? "The patient's name" : "The recording field"} has ` +
      `${letter > "\x9f" ? `an “${letter}”` : "a sign"}, which EDF does not know.`;
  }
  if (!field(head, "form").startsWith("EDF+") && ["E4", "E5", "E9"].includes(number)) {
    return wordsAt("cause-plain");
  }
  const text = [number, field(head, "startdate"), field(head, "duration"),
    dayOf(startOf({ head })).toUpperCase(), field(head, "recording").toUpperCase()].join("|");
  const said = inWords(text, "spellings");
  return said !== text ? said : wordsAt(`cause-${number}`) ?? sentence(REFUSALS[number].what);
}

const outOf = (file) => button("Remove", new DocumentFragment(), () => takeOut([file]), file.name);

// What is folded of refused files: each with its number and place, and the fields that it is of.
function showDetails(box, files) {
  table(box, "Each file, and its fault by number", ["File", "Fault", ""], files, (file) => {
    const texts = (OF_REFUSALS[file.number] ?? []).map((it) =>
      `Its ${calledBy(it)}: ${field(file.head, it) || "empty"}`);
    return [file.name, [`${file.number} ${file.place}`, ...texts].join(". "), outOf(file)];
  });
  REFUSALS[files[0].number].more.forEach((text) => hint(text, box));
}

// What a recording has of a file that contradicts it, and what it lacks, which may be taken.
function showCompared(box, file) {
  const each = file.stretches.filter(({ word }) => word !== "lacking");
  const of = (...words) => each.filter(({ word }) => words.includes(word)), fresh = of("new");
  const lasts = (all) => lasting(secondsOf(file, all.reduce((sum, it) => sum + +it.records, 0)));
  if (each.length === 0) return;
  const bad = of("differs", "overlaps"), more = fresh.length > 0
    ? `Another ${lasts(fresh)} is in it alone.` : "All else in it is used.";
  made("p", bad.length === each.length ? `All of ${file.name} differs: another person, or ` +
    `another recorder?` : `${lasts(bad)} of ${file.name} differs from what is used. ${more}`, box);
  if (fresh.length > 0) button(`Add the missing ${lasts(fresh)}`, buttonsIn(box),
    () => takeCuts(file, fresh), file.name);
  table(fold("From when to when", box), "What is here of this file", ["From", "To", "What"], each,
    (it) => [when(it.from), when(it.to), wordsAt(`has-${it.word}`)]);
}

// Which files may go out where one is used first that contradicts them, by what their heads say.
const rivalsOf = (file) => now.files.filter((it) => !it.number && it.night === file.night &&
  isAlike(it, file) && file.stretches.some(({ word, from, to }) => /differs|overlaps/.test(word) &&
    startOf(it) < to.slice(0, 19) && !(endOf(it) <= Date.parse(`${from}Z`))));

// Refused files of one cause, with what can be done for all of them at once.
function showGroup(place, files) {
  const [first] = files, isOne = files.length === 1, cause = causeOf(first);
  const [box, title] = part("section", place, "h4",
    `✕ ${isOne ? first.name : several(files.length, "file")}`);
  made("p", isOne ? cause : cause.replace(/( written|, not) (?=\d)/g, "$1 like "), box);
  const buttons = buttonsIn(box), of = isOne ? first.name : title;
  if (REFUSALS[first.number].mends && kindOf(first.head) === null) {
    offerMending(buttons, box, files, of);
  }
  const contradicts = /^E3[01]/.test(first.number);
  if (contradicts) hint(wordsAt("first-stays"), box);
  const rivals = contradicts && isOne ? rivalsOf(first) : [];
  if (rivals.length > 0) made("p", `${named(rivals)} ${wordsAt("goes-out")}`, box);
  if (contradicts && isOne) button("Use this file first", buttons, () => takeFirst(first), of);
  if (first.number === "E31" && !now.isSorted) {
    button("Sort all annotations by their times", buttons, () => sortAll(true));
  }
  button(isOne ? "Remove" : `Remove all ${counted(files.length)}`, buttons,
    () => takeOut(files), of);
  if (contradicts) files.forEach((it) => showCompared(box, it));
  showDetails(fold("Details", box), files);
}

function showRefused(box, refused) {
  const groups = new Map();
  const likeOf = (it) => causeOf(it).replace(/\d/g, "0");
  refused.forEach((it) => groups.set(likeOf(it), [...groups.get(likeOf(it)) ?? [], it]));
  const [place] = part("section", box, "h3", "Files that are not used");
  groups.forEach((files) => showGroup(place, files));
}

// Files that are no trouble: torn copies, and such as are no recordings.
function showAside(box, files, title, why, isOpen) {
  if (files.length === 0) return;
  const all = fold(title, box, { open: isOpen });
  table(all, "These files change nothing", ["File", "What it is", ""], files,
    (it) => [it.name, why(it), outOf(it)]);
  if (files.length > 1) {
    button(`Remove all ${counted(files.length)}`, buttonsIn(all), () => takeOut(files));
  }
}

function showFiles(box, taken) {
  const all = fold(`${several(taken.length, "file")} used`, box);
  table(all, wordsAt("accepted"), ["File", "Starts", "New", "Known", ""], taken, (it) =>
    [it.name, when(startOf(it)), counted(it.fresh), counted(it.known), outOf(it)]);
  now.outside.forEach((line) => hint(
    `${line.trim()}: so many of its annotations happened in none of its data records.`, all));
  const buttons = buttonsIn(all);
  button("Save the list of files", buttons,
    () => saveText(window.answer.taken + window.answer.listed, "edfstore-answers.txt"));
  if (now.isSorted) button("Use annotations as they came", buttons, () => sortAll(false));
}

// Shows what the page has, and gives the heading above it.
function show() {
  const { files, recordings } = now, box = byId("results"), taken = [], refused = [], torn = [];
  const aside = [], head = document.createElement("h2");
  urls.splice(0).forEach((url) => URL.revokeObjectURL(url));
  [box, byId("fault")].forEach((it) => it.replaceChildren());
  document.body.classList.add("more");
  files.forEach((it) => (!it.number ? taken : it.isTorn ? torn : isAside(it) ? aside : refused)
    .push(it));
  window.answer = {
    taken: files.map(({ name, rest }) => rest === undefined ? "" : `${name} ${rest}`).join(""),
    listed: recordings.map(({ line }) => `${line}\n`).join(""), recordings };
  const mark = (some, text, className) => some.length > 0 &&
    made("span", text.replace("#", several(some.length, "file")), head, { className });
  mark(taken, `✓ # in ${several(recordings.length, "recording")}. `, "good");
  mark(refused, "✕ # not used.", "bad");
  if (taken.length + refused.length === 0) head.append("There is no recording in these files.");
  box.append(Object.assign(head, { tabIndex: -1 }));
  recordings.forEach((it) => showRecording(box, it, refused.filter((one) => isOfPatient(one, it))));
  if (refused.length > 0) showRefused(box, refused);
  showAside(box, torn, `${several(torn.length, "torn file")}: nothing is missing because of that`,
    () => "a torn copy", false);
  showAside(box, aside, `${several(aside.length, "other file")} left aside`,
    whatIs, taken.length === 0);
  if (taken.length > 0) showFiles(box, taken);
  return head;
}
