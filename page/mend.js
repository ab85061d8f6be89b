// Mending refused files of one cause at once, by what edfmend would change, and what it asks.

const inWords = (line, id = "faults") =>
  pairsIn(id).reduce((text, [is, said]) => text.replace(is, said), line);
// Whether a mended file is of another recording, by its lines.
const isRenamed = (ledger) => /^recording .* mended"$/m.test(ledger);
// What edfmend is told: the name of the new file, then the values of --patient, --set-patient,
// --deidentify, --startdate and --starttime, and any text for --all.
function valuesOf({ elements: { patient, startdate, starttime, all } }) {
  const [code, day, time] = [patient, startdate, starttime].map(({ value }) => value.trim());
  return ["out.edf", code, "", "", day, time, all.checked ? "all" : ""];
}

// Which texts of page.html are said of mended files, by their gaps and by what comes of them.
async function tryAll(good) {
  const [{ night }] = good, here = now.recordings.filter((it) => it.night === night);
  for (const it of good) it.head = await headOf(it);
  const some = good.filter((it) => it.night === night && here.some((one) => isAlike(it, one)));
  good.forEach((it) => { it.says = [it.saved === null && "gapped",
    now.recordings.length > 0 && isRenamed(it.out) && !some.includes(it) && "own"]; });
  const done = some.length > 0 && await takeNight(night, some, here, now.isSorted);
  some.forEach(({ says }, nth) => says.push(/^E3[01]/.test(done.lines[nth].number) ? "contradicts"
    : !done.lines[nth].number && done.recordings.length === here.length && "joins"));
}

// The files that would be mended, each with whom it then names and when it starts; and all changes.
async function showMended(box, title, good) {
  const all = several(good.length, "mended file"), base = (own) => own.replace(/\.edf$/i, "");
  await alone(() => tryAll(good).catch(() => {}));
  const ledger = good.map(({ name, out, saved }) => `${name}\n${out.replace(IN, "it")
    .replace(saved ? /^reserved .*"EDF\+C" new="EDF\+D"\n/m : "", "")
    .replace(/^(reserved .*EDF\+)D"$/m, saved ? '$1C"' : "$&")}`).join("");
  table(box, `${all}; samples stay as they are`, ["File", "Patient", "Starts"], good,
    (it) => [it.name, personIn(it), when(startOf(it))]);
  made("pre", ledger.slice(0, 20_000), fold("Every change", box));
  ["own", "contradicts", "joins", "gapped"].forEach((id) => {
    const some = good.filter(({ says }) => says.includes(id));
    const text = (some.length < good.length ? `${named(some)}: ` : "") + wordsAt(id);
    if (some.length > 0) made("p", text, box, { className: id === "joins" ? "" : "bad" });
  });
  if (shortage(good)) made("p", shortage(good), box, { className: "bad" });
  if (/^signals at=/m.test(ledger)) hint(wordsAt("no-annotations"), box);
  const buttons = buttonsIn(box), gone = good.map(({ file }) => file);
  button(good.length === 1 ? "Use it" : `Use these ${counted(good.length)}`, buttons, () =>
    take(good.map(({ own, path, night, blob, head, due }) => ({ own: `${own} (mended)`,
      path: `${path} (mended)`, night, blob, head, due })), { gone }), title)
    .className = good.some(({ says }) => says.includes("contradicts")) ? "" : "first";
  button(good.length === 1 ? "Save the mended file" : `Save the ${all}`, buttons, () =>
    saveAll(good.map(({ own, blob, saved }) =>
      ({ blob: saved ?? blob, name: `${base(own)}-mended.edf` }))), title);
  button("Save the list of changes", buttons, () =>
    saveText(ledger, `${base(good[0].own)}-changes.txt`), title);
}

// Shows what edfmend would do by the answers so far, and the fields of what it asks and asked.
async function look(session) {
  const { box, title, form, files } = session, whys = new Map(), good = [];
  const done = await runEach(valuesOf(form), files.map(forWorker));
  done?.forEach(({ status, out, err, made: [it] }, nth) => {
    const line = err.trim().replaceAll(`${IN} `, ""), file = files[nth];
    if (status !== 0) whys.set(line, [...whys.get(line) ?? [], file]);
    else good.push({ ...file, file, out, blob: it.blob, due: countOf(file) });
  });
  const parts = done && await runEach("split", good);
  if (!parts) return;
  parts.forEach(({ made: [one, more] }, nth) => { good[nth].saved = more ? null : one?.blob; });
  box.hidden = false;
  box.replaceChildren(title);
  form.querySelectorAll("input").forEach((it) => {
    if (![...whys.keys()].some((line) => new RegExp(it.dataset.asks).test(line))) return;
    it.parentNode.hidden = form.hidden = false;
  });
  whys.forEach((some, line) => {
    const number = /^refused (E\d+)/.exec(line)?.[1];
    made("p", `${named(some)}: ${sentence(number ? REFUSALS[number].what : inWords(line))}`, box,
      { className: "bad" });
  });
  if (whys.size > 0 && form.hidden) made("p", wordsAt("no-way"), box);
  box.append(form);
  if (good.length > 0) await showMended(box, title, good);
  button("Close", buttonsIn(box), () => {
    box.hidden = true;
    session.opener.focus();
  }, title);
  (whys.size === 0 || form.hidden ? title : form.querySelector("p:not([hidden]) input")).focus();
  box.scrollIntoView({ block: "nearest" });
}

function offerMending(buttons, place, files, of) {
  const words = files.length === 1 ? "Mend it…" : `Mend these ${counted(files.length)}…`;
  const [box, title] = part("section", place, "h5", "Mending");
  const form = byId("questions").content.firstElementChild.cloneNode(true);
  const session = { files, box, title, form };
  Object.assign(box, { className: "mending", hidden: true });
  form.querySelectorAll("input").forEach((it) => {
    it.parentNode.querySelector("label").htmlFor = it.id = `field-${parts += 1}`;
  });
  form.addEventListener("submit", (event) => {
    event.preventDefault();
    look(session);
  });
  session.opener = button(words, buttons, () => look(session), of);
}
