// How files come in: chosen, or dropped with all that is in folders, whose names are in `path`.

const byName = (one, other) => one.name < other.name ? -1 : Number(one.name > other.name);

// All files of a folder that was dropped, or the file itself.
async function within(entry) {
  if (entry.isFile) {
    const file = await new Promise((done, failed) => entry.file(done, failed));
    return [Object.assign(file, { path: entry.fullPath.slice(1) })];
  }
  const reader = entry.createReader(), found = [];
  for (;;) {
    const some = await new Promise((done, failed) => reader.readEntries(done, failed));
    if (some.length === 0) return (await Promise.all(found.sort(byName).map(within))).flat();
    some.forEach((it) => found.push(it));
  }
}

// The same by a handle, which Chromium has where the page was opened as a file.
async function withinHandle(handle, folder = "") {
  const found = [], path = folder + handle.name;
  if (handle.kind === "file") return [Object.assign(await handle.getFile(), { path })];
  for await (const one of handle.values()) found.push(one);
  found.sort(byName);
  return (await Promise.all(found.map((it) => withinHandle(it, `${path}/`)))).flat();
}

// What was dropped: all of it must be asked for before the first wait.
async function dropped({ items, files }) {
  const own = [...items].filter(({ kind }) => kind === "file"), plain = [...files];
  const entries = own.map((item) => item.webkitGetAsEntry());
  if (!entries.some((entry) => entry?.isDirectory)) return plain;
  const handles = own.map((item) => item.getAsFileSystemHandle?.());
  const all = handles[0] ? (await Promise.all(handles)).map((it) => withinHandle(it))
    : entries.map(within);
  return (await Promise.all(all)).flat();
}

function listenForDrops(add) {
  const over = (is) => (event) => {
    event.preventDefault();
    byId("give").classList.toggle("over", is);
  };
  addEventListener("dragover", over(true));
  addEventListener("dragleave", over(false));
  addEventListener("drop", (event) => {
    over(false)(event);
    dropped(event.dataTransfer).then(add, (fault) =>
      say(`What was dropped can't be read (${fault.name}). Choose it by the buttons.`));
  });
}

function listenForChoices(add) {
  for (const input of [byId("files"), byId("folder")]) {
    byId(`choose-${input.id}`).addEventListener("click", () => input.click());
    input.addEventListener("change", () => {
      const chosen = [...input.files];
      input.value = "";       // so that the same files may be chosen again
      add(input.id === "folder" ? chosen.sort(byName) : chosen);
    });
  }
}
