// The page: what is handed in goes to the decoder; what is chosen in one view is marked in both.

const LONGEST_LINK = 32768, LONGEST_SHOWN = 50000; // bytes, characters
// How many milliseconds a question to the decoder may take, and where another input waits.
const PATIENCE = 60000, SOON = 1000;
const MOST_TROUBLES = 20; // that are said of one input
const NOTHING = { datagrams: 0, notes: [], dumps: [] };
const NEEDED = ["WebAssembly", "DecompressionStream", "Worker"];

const some = (count, name) => `${count.toLocaleString("en")} ${name}${count === 1 ? "" : "s"}`;

// What the decoder gave up. It is said where that happens, not by each who asked.
class GivenUp extends Error {}

// The decoder, which runs beside the page, and is asked one question after another. One that takes
// too long is given up, and sooner where another input waits; then the decoder is begun anew.
class Decoder {
  constructor() {
    const code = new Blob([`"use strict";(${decoder})()`], { type: "text/javascript" });
    Object.assign(this, { url: URL.createObjectURL(code), worker: null, queue: [], timer: 0 });
    this.given = () => {}; // is told why something was given up, and whether an input waits
  }

  begin() {
    const worker = new Worker(this.url);
    worker.onmessage = ({ data: [isRight, answer] }) => {
      const { done, failed } = this.queue.shift();
      this.next();
      if (isRight) done(answer);
      else failed(new Error(answer));
    };
    worker.onerror = ({ message }) => this.giveUp(message);
    return worker;
  }

  // What waits behind the first question is about another input, when a new one comes.
  ask = (...question) => new Promise((done, failed) => {
    const isInput = question[0] === "read", lost = isInput ? this.queue.splice(1) : [];
    const isFirst = lost.every((it) => it.question[0] !== "read");
    for (const it of lost) it.failed(new GivenUp("another input came"));
    this.queue.push({ question, done, failed });
    if (this.queue.length === 1) this.next();
    else if (isInput && isFirst) this.wait(SOON, "the input before this one was given up");
  });

  next() {
    byId("main").setAttribute("aria-busy", this.queue.length > 0);
    clearTimeout(this.timer);
    if (this.queue.length === 0) return;
    this.wait(PATIENCE, `given up after ${some(PATIENCE / 1000, "second")}`);
    this.worker ??= this.begin();
    this.worker.postMessage(this.queue[0].question);
  }

  wait(time, why) {
    clearTimeout(this.timer);
    this.timer = setTimeout(() => this.giveUp(why), time);
  }

  // Ends the worker, and its recording with it, which the questions before another input are on.
  giveUp(why) {
    this.worker.terminate();
    this.worker = null;
    const at = this.queue.findIndex(({ question: [name] }, it) => it > 0 && name === "read");
    const lost = this.queue.splice(0, at < 0 ? this.queue.length : at);
    this.given(why, at > 0);
    for (const { failed } of lost) failed(new GivenUp(why));
    this.next();
  }
}

class Page {
  constructor(decoding) {
    const { ask } = Object.assign(decoding, { given: (...words) => this.lose(...words) });
    Object.assign(this, { ask, input: null, turn: 0, lost: [], state: null, summary: NOTHING });
    Object.assign(this, { tree: new Tree(this), grid: new Grid(this), table: new Table(this) });
    const on = (id, name, call) => byId(id).addEventListener(name, call);
    on("input", "input", ({ target }) => this.read(target.value));
    on("order", "change", () => this.input !== null && this.read());
    on("file", "change", ({ target }) => this.open(target.files[0]));
    on("sample", "click", () => this.sample(byId("samples").value));
    on("view", "change", () => this.show(byId("view").selectedIndex));
    on("copy", "click", () => this.copy(ask("text", false), "The text"));
    on("json", "click", () => this.copy(ask("text", true), "The JSON"));
    on("link", "click", () => this.link());
    on("fold", "click", () => this.go("foldAll"));
    on("fault", "click", () => this.go("fault"));
    on("find", "submit", (event) => this.find(event));
    document.addEventListener("paste", (event) => this.pasted(event));
    for (const name of ["dragover", "dragleave", "drop"]) {
      document.addEventListener(name, (event) => this.dragged(event));
    }
    addEventListener("hashchange", () => this.restore());
    addEventListener("error", ({ error }) => error && this.trouble(error));
    addEventListener("unhandledrejection", ({ reason }) => this.trouble(reason));
    byId("samples").append(...Object.keys(SAMPLES).map((name) => element("option", {}, name)));
    this.restore();
  }

  // A text that is pasted takes the place of what was there, unless it is added to it.
  pasted(event) {
    const text = event.clipboardData?.getData("text/plain"), field = byId("input");
    const isAdded = event.target === field && field.value !== "" && text?.length <= LONGEST_SHOWN;
    if (!text || event.target === byId("words") || isAdded) return;
    event.preventDefault();
    this.take(text);
  }

  dragged(event) {
    event.preventDefault();
    document.body.classList.toggle("over", event.type === "dragover");
    const { files: [file] } = event.dataTransfer, isDrop = event.type === "drop";
    if (isDrop && file) this.open(file);
    else if (isDrop) this.take(event.dataTransfer.getData("text/plain"));
  }

  // Reads a file. Where that can't be read, nothing is shown, since what was there is of another.
  async open(file) {
    byId("file").value = "";
    if (!file) return;
    const turn = (this.turn += 1), isLong = file.size > LONGEST_FILE;
    const long = () => Promise.reject(new Error(`it is longer than ${LONGEST_FILE} bytes`));
    const [bytes, why] = await (isLong ? long() : file.arrayBuffer()).then(
      (buffer) => [new Uint8Array(buffer)], ({ message }) => [null, message]);
    if (turn !== this.turn) return;
    if (bytes) return this.take(bytes, file.name);
    Object.assign(byId("input"), { value: "", placeholder: file.name });
    this.input = null;
    this.draw({ ...NOTHING, notes: [`${file.name} can't be read: ${why}`] });
  }

  async sample(name) {
    const bytes = new Uint8Array(await unpacked(SAMPLES[name]));
    this.take(/\.(?:hex|xxd|strace)$/.test(name) ? TEXT.decode(bytes) : bytes, name);
  }

  // Reads a text or the bytes of a file. A text that isn't too long is put into the field.
  take(input, name = some(input.length, "character")) {
    const isShown = typeof input === "string" && input.length <= LONGEST_SHOWN;
    const [value, placeholder] = isShown ? [input, ""] : ["", name];
    Object.assign(byId("input"), { value, placeholder });
    return this.read(input);
  }

  // Has an input decoded, or the last one again in another order, and shows it, unless another
  // one came meanwhile.
  async read(input = this.input) {
    const turn = (this.turn += 1), order = byId("order").value;
    this.input = input;
    const failed = (error) => (error instanceof GivenUp ? null
      : { ...NOTHING, notes: [error.message] });
    const summary = await this.ask("read", order, input).catch(failed);
    if (summary && turn === this.turn) await this.draw(summary);
  }

  // What was given up is said, beside the next input where one waits, and is shown no more.
  lose(why, isNext) {
    this.lost = [why];
    if (!isNext) this.draw(NOTHING);
  }

  // Says what went wrong, unless that is said already.
  trouble(error, where = "") {
    const notes = byId("notes"), isRoom = notes.childElementCount < MOST_TROUBLES;
    const isSaid = error instanceof GivenUp || !isRoom;
    if (!isSaid) notes.append(element("li", {}, `${where}${error?.message ?? error}`));
  }

  async draw(summary) {
    const { datagrams, dumps, refused } = summary, isDecoded = datagrams > 0;
    const views = ["messages", ...dumps.map(({ name }) => name)];
    const notes = [...this.lost.splice(0), ...summary.notes];
    this.summary = summary;
    byId("notes").replaceChildren(...notes.map((note) => element("li", {}, note)));
    byId("view").replaceChildren(...views.map((name) => element("option", {}, name)));
    byId("fault").disabled = refused === 0;
    byId("summary").textContent = isDecoded ? this.said() : "";
    document.body.classList.toggle("decoded", isDecoded);
    this.state = null;
    if (isDecoded) await this.go("here");
  }

  said() {
    const { datagrams, bytes, messages, refused, form, big, order } = this.summary;
    const counts = [some(datagrams, "datagram"), some(bytes, "byte"), some(messages, "message")];
    const said = `order ${big ? "big" : "little"}${order === "auto" ? " (guessed)" : ""}`;
    return [...counts, `${refused || "none"} refused`, said, form].join(", ");
  }

  // Goes somewhere in the tree, shows that, and says whether there was something.
  async go(how, value) {
    const state = await this.ask("go", how, value);
    if (!state) return true;
    this.see(0, state.said);
    this.state = state;
    this.tree.list.count = state.rows;
    await Promise.all([this.tree.list.show(state.row), this.grid.show()]);
    return state.isFound;
  }

  see(view, said) {
    byId("messages").hidden = view > 0;
    byId("table").hidden = view === 0;
    byId("view").selectedIndex = view;
    byId("chosen").textContent = said;
    this.tell("");
  }

  // Shows the messages, or the table of a dump.
  async show(view) {
    if (view === 0) return this.go("here");
    const dump = this.summary.dumps[view - 1];
    const failed = (error) => this.trouble(error, `${dump.name}: `);
    const table = await this.ask("table", dump).catch(failed);
    if (!table) return this.state && this.go("here");
    this.see(view, table.said);
    return this.table.show(table);
  }

  tell(text) {
    byId("told").textContent = text;
  }

  async find(event) {
    event.preventDefault();
    const words = byId("words").value.trim();
    if (words && !(await this.go("find", words))) this.tell(`no line has “${words}”`);
  }

  // Copies a text; where the browser doesn't let it, the text is put where a hand can copy it.
  async copy(answer, name) {
    const field = byId("input"), isDone = `${name} is copied`;
    const [text, why] = await Promise.resolve(answer).then((it) => [it], (error) => [null, error]);
    if (why instanceof GivenUp) return;
    if (why) return this.tell(`${name} is not copied: ${why.message}`);
    const byHand = () => {
      const isLong = text.length > LONGEST_SHOWN, long = some(text.length, "character");
      if (isLong) return `${name} is not copied: its ${long} are too many for the field above`;
      field.value = text;
      field.select();
      return document.execCommand("copy") ? isDone : `${name} stands in the field above`;
    };
    const copied = Promise.resolve().then(() => navigator.clipboard.writeText(text));
    this.tell(await copied.then(() => isDone, byHand));
  }

  // The recording as a link: what stands behind # is never sent.
  async link() {
    const isLong = this.summary.bytes > LONGEST_LINK;
    if (isLong) return this.tell("the recording is too long for a link");
    history.replaceState(null, "", `#${await this.ask("link")}`);
    return this.copy(location.href, "The link");
  }

  // Shows the recording of the page's address, if it names one.
  restore() {
    const [, order, digits] = /^#(auto|little|big):([0-9a-fA-F.]+)$/.exec(location.hash) ?? [];
    if (!order) return;
    byId("order").value = order;
    this.take(digits.replaceAll(".", "\n"));
  }
}

const lacking = NEEDED.filter((name) => !(name in globalThis));
const unable = { ask: () => Promise.reject(new Error(`It has no ${lacking}.`)) };
const decoding = lacking.length ? unable : new Decoder();
decoding.ask("version").then((version) => {
  byId("unable").remove();
  byId("able").hidden = false;
  byId("version").textContent = version;
  new Page(decoding);
}).catch(({ message }) => {
  byId("why").textContent = message;
});
