// The files that the page holds, by their handles, what came of them, and what it does with them.

// A file is { own, path, blob, head, name, night, .. }: its own name, that with its folders where
// they are known, its first bytes, that of both names by which it is called here, and the number of
// the night that it is taken with; then what its line says. A recording has that number too.
let now = { files: [], recordings: [], outside: [], isSorted: false };

const STEP = 8 << 20;       // bytes that are compared at once
const unsaved = () => now.recordings.filter(({ isSaved }) => !isSaved);
// What the worker needs of a file: of one that is none of EDF only the bytes by which that is told.
const forWorker = ({ name, blob, head }, key) =>
  ({ name, key, blob: kindOf(head) === null ? blob : blob.slice(0, 256) });

function callAll(files) {
  const isOther = (it) => (other) => other !== it && other.own === it.own;
  files.forEach((it) => { it.name = files.some(isOther(it)) ? it.path : it.own; });
}

// Takes files of one night, after its recordings that are here.
async function takeNight(night, files, here, sorts) {
  const base = here.map(({ file }) => ({ name: "a recording", key: null, blob: file }));
  const done = await work({ kind: "take", base, files: files.map(forWorker), sorts },
    `Reading ${several(files.length, "file")}`).catch((fault) => {
    throw fault === CANCELLED ? fault : { ...fault, file: files[fault.key] };
  });
  const list = linesOf(done.listed);
  await Promise.all(done.recordings.map(async (it, nth) => Object.assign(it, readListed(list[nth]),
    { night, isSaved: false, head: await headOf({ blob: it.file }) })));
  return { ...done, lines: files.map((file, nth) => readLine(file, done.lines[nth])) };
}

// A recording that was saved stays saved while its bytes are the same.
async function keepSaved(recordings) {
  for (const { file } of now.recordings.filter(({ isSaved }) => isSaved)) {
    for (const it of recordings) it.isSaved ||= await areSame(file, it.file, 0);
  }
}

async function areSame(one, other, at) {
  if (one.size !== other.size || at >= one.size) return one.size === other.size;
  const [left, right] = await Promise.all([one, other].map(async (it) =>
    new Uint8Array(await it.slice(at, at + STEP).arrayBuffer())));
  return left.every((byte, nth) => byte === right[nth]) && areSame(one, other, at + STEP);
}

// Which data records the recordings have of files that were cut, by what is whole of each, and of
// the first few that contradict. Of EDF+C a cut one is torn where they have all that it counts.
const COUNTED = ["out.edf", "", "", "", "", "", ""], MOST_COMPARED = 4;
async function compareFiles(files, recordings, sorts) {
  const cut = files.filter(({ number, isTorn }) => number === "E21" && !isTorn);
  const some = files.filter(({ number }) => /^E3[01]/.test(number)).slice(0, MOST_COMPARED);
  const done = async (call, all) => all.length === 0 ? []
    : work({ kind: "run", call, files: all, sorts: sorts && call !== COUNTED }, "Comparing");
  files.forEach((it) => { it.stretches = []; });
  const whole = await done(COUNTED, cut.map(forWorker)), blobOf = (nth) =>
    isRenamed(whole[nth].out) ? null : whole[nth].made[0]?.blob;
  const pairs = [...cut, ...some].flatMap((of, nth) => recordings.filter((it) =>
    it.night === of.night && isAlike(of, it)).map((it) => ({ of, name: of.name, first: it.file,
    runs: it.runs, blob: nth < cut.length ? blobOf(nth) : of.blob }))).filter((it) => it.blob);
  const told = await done("compare", pairs);
  pairs.forEach(({ of }, nth) => linesOf(told[nth].out).forEach((line) => of.stretches.push(
    { word: line.split(" ")[0], ...valuesIn(line, "records", "from", "to") })));
  cut.forEach((it) => {
    const from = it.stretches.find(({ word }) => word === "known")?.from, count = countOf(it);
    it.isTorn = count > 0 && field(it.head, "form") === "EDF+C" &&
      it.stretches.every(({ word }) => ["known", "lacking"].includes(word)) &&
      pairs.some(({ of, runs }) => of === it && stretchesOf(runs.text).some((run) =>
        run.from <= from && after(from, secondsOf(it, count)) <= run.to));
  });
}

// Takes files to those that are here but for some that go, or all anew, in place of these.
async function takeAll(files, { isAnew = false, gone = [], isSorted = now.isSorted }) {
  const all = [...isAnew ? [] : now.files.filter((it) => !gone.includes(it)), ...files];
  const begun = performance.now(), recordings = [], outside = isAnew ? [] : [...now.outside];
  const before = isAnew ? [] : now.recordings, read = new Map(), memories = [0];
  callAll(all);
  await Promise.all(files.map(async (it) => { it.head ??= await headOf(it); }));
  files.forEach((it) => { it.night ??= nearestNight(it); });
  const limit = tooMuch([...before.map(({ file }) => ({ name: "What is here", blob: file })),
    ...files.map(forWorker)]);
  if (limit) throw { ...limit, file: files[limit.key] };
  for (const night of new Set(all.map((it) => it.night))) {
    const some = files.filter((it) => it.night === night && !isFilled(it));
    const here = before.filter((it) => it.night === night);
    const done = some.length > 0 ? await takeNight(night, some, here, isSorted)
      : { recordings: here, outside: [], memory: 0 };
    memories.push(done.memory);
    some.forEach((it, nth) => read.set(it, done.lines[nth]));
    done.recordings.forEach((it) => recordings.push(it));
    done.outside.forEach((line) => outside.push(line));
  }
  files.forEach((it) => Object.assign(it, { isTorn: false, number: "filled" }, read.get(it)));
  await compareFiles(all, recordings, isSorted).catch(() => {});
  await keepSaved(recordings);
  now = { files: all, recordings, outside, isSorted };
  window.cost = { memory: Math.max(...memories), milliseconds: performance.now() - begun };
}

// The same, and shows it. What is here stays where that is cancelled or fails.
async function take(files, how = {}) {
  let head = null;
  await alone(async () => {
    try {
      await takeAll(files, how);
      head = show();
      return "done";
    } catch (fault) {
      callAll(now.files);
      if (fault === CANCELLED) {
        const left = waiting.splice(0).length;
        return say(`Cancelled.${left > 0 ? ` ${several(left, "waiting file")} not added.` : ""}`);
      }
      head = showFault(files, how, fault);
      return "failed";
    }
  });
  head?.focus();
}

// Says why nothing came of files; those that are not the cause may be taken.
function showFault(files, how, { message, file = null }) {
  const [box, head] = part("section", byId("fault"), "h2", now.files.length === 0
    ? "✕ Nothing was added." : "✕ Nothing was added: what is below stays as it was.");
  byId("fault").replaceChildren(box);
  made("p", message, box, { className: "bad" });
  const others = files.filter((it) => it !== file);
  if (file && others.length > 0) button(`Go on with ${several(others.length, "other file")}`,
    buttonsIn(box), () => take(others, how));
  return head;
}

// New files come, but for hidden ones of a folder, such as .DS_Store.
function add(blobs) {
  if (isBusy) {
    blobs.forEach((it) => waiting.push(it));
    return say(`${several(waiting.length, "file")} will be added when this is done.`);
  }
  const files = blobs.map((blob) => ({ blob, own: blob.name,
    path: blob.path ?? (blob.webkitRelativePath || blob.name) }));
  const seen = files.filter(({ path }) => !path.includes("/."));
  return seen.length > 0 ? take(seen) : say("No file came.");
}

// Of several nights a new file comes to that of the file that begins nearest.
const nearestNight = (file) => now.files.filter(({ number }) => !number)
  .map((it) => [Math.abs(Date.parse(startOf(it)) - Date.parse(startOf(file))), it.night])
  .sort(([one], [other]) => one - other)[0]?.[1] ?? 0;

// Files go without a pass where the recordings have nothing of them alone.
function takeOut(gone) {
  const files = now.files.filter((it) => !gone.includes(it));
  if (files.length === 0) return mayStartOver();
  if (gone.some(({ number, fresh }) => !number && fresh > 0)) return take(files, { isAnew: true });
  now = { ...now, files };
  callAll(files);
  return show().focus();
}

// Stretches of a file are cut out, and taken.
async function takeCuts({ name, blob, own, night }, stretches) {
  const files = stretches.map(({ from, to }) => ({ name, blob, from, to }));
  const done = await runEach("cut", files, now.isSorted);
  return done && take(done.map(({ out }, nth) => ({ own: `${own} from ${timeOf(files[nth].from)}`,
    path: `${own} from ${files[nth].from}`, night, blob: out })));
}

const takeFirst = (it) => take([it, ...now.files.filter((one) => one !== it)], { isAnew: true });
const sortAll = (isSorted) => take(now.files, { isAnew: true, isSorted });

// Files are taken as another night, or with those of that one.
const takeApart = (files, night) => take(now.files.map((it) =>
  files.includes(it) ? { ...it, night } : it), { isAnew: true });

function startOver() {
  byId("question").close();
  now = { files: [], recordings: [], outside: [], isSorted: false };
  delete window.answer;
  urls.splice(0).forEach((url) => URL.revokeObjectURL(url));
  [byId("results"), byId("fault")].forEach((it) => it.replaceChildren());
  document.body.classList.remove("more");
  say("");
  setState("idle");
  byId("choose-files").focus();
}

// Asks first where an exact recording was not saved.
function mayStartOver() {
  byId("unsaved").textContent = unsaved().map(titleOf).join("; ");
  if (unsaved().length > 0) byId("question").showModal();
  else startOver();
}

function begin() {
  if (lacking()) {
    byId("lacking").textContent = lacking();
    [byId("unable").hidden, byId("give").hidden] = [false, true];
    return setState("failed");
  }
  unpacked().catch(() => {});
  listenForChoices(add);
  listenForDrops(add);
  Object.entries({ anew: mayStartOver, lose: startOver, cancel: () => cancel?.() })
    .forEach(([id, act]) => byId(id).addEventListener("click", act));
  addEventListener("keydown", (event) => { if (event.key === "Escape") cancel?.(); });
  addEventListener("beforeunload", (event) => unsaved().length > 0 && event.preventDefault());
}

begin();
