// What the page asks of the decoder, which runs beside it: each question, a name and words, is
// answered in its turn, by whether it could be answered, and by that or by what was wrong.

function answersOf(module) {
  const begun = () => new Library(new WebAssembly.Instance(module, {}).exports);
  let library = begun(), recording = null, table = null;
  return {
    version: () => library.string("rtnlc_version"),
    // Reads an input in this order. Where there was no memory the module is begun anew, since the
    // blocks of another input may have other sizes.
    read(order, input) {
      library = library.isFull ? begun() : library;
      recording = new Recording(library, foundIn(input, order === "big"), order);
      return recording.summary();
    },
    rows: (first, last) => recording.drawn(first, last),
    go: (how, value) => recording.go(how, value),
    text: (isJson) => recording.text(isJson),
    link: () => recording.link(),
    table(dump) {
      table = tableOf(recording, dump);
      return { ...table, entries: table.entries.length };
    },
    entries: (first, last) => table.entries.slice(first, last),
  };
}

const answers = unpacked(PACKED).then(WebAssembly.compile).then(answersOf);
onmessage = async ({ data: [name, ...words] }) => {
  try {
    postMessage([true, (await answers)[name](...words)]);
  } catch (error) {
    postMessage([false, error instanceof Damage ? error.message : `${error.stack ?? error}`]);
  }
};
