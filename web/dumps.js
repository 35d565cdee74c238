// The dumps of a recording, and their tables, by the library's session.

const MULTI = 2; // NLM_F_MULTI, which is on each message of an answer in parts
const STATES = ["none", "none", "done", "error", "overrun", "none"]; // enum rtnlc_state
// What is dumped, by the type of its messages, and what a table has of an entry: fields of its
// head, and attributes, which have capitals.
const KINDS = {
  16: ["links", "index IFNAME flags MTU OPERSTATE ADDRESS MASTER"],
  20: ["addresses", "index family LOCAL ADDRESS prefix LABEL scope flags"],
  24: ["routes", "family DST dst_len GATEWAY OIF PRIORITY table protocol scope type"],
  28: ["neighbours", "index family DST LLADDR state flags"],
  32: ["rules", "PRIORITY family SRC src_len DST dst_len IIFNAME FWMARK table action"],
};

const MOST_DUMPS = 1000; // that are told apart

// The dumps, each with a name, and whether there are more.
function dumpsOf({ library, datagrams, big }) {
  const found = new Map(), dumps = () => [...found.values()];
  for (const { bytes } of datagrams) {
    for (const { kind, flags, seq, port } of library.messages(bytes, big)) {
      const key = `seq ${seq} port ${port}`, name = `${KINDS[kind]?.[0]}, ${key}`;
      const isPart = flags & MULTI && kind in KINDS && !found.has(key);
      if (isPart && found.size === MOST_DUMPS) return { dumps: dumps(), isMore: true };
      if (isPart) found.set(key, { kind, seq, port, name });
    }
  }
  return { dumps: dumps(), isMore: false };
}

// A cell: a field, with the names of its bits, or what an attribute says.
function cellOf(body, column) {
  const attr = body.attrs.find(({ name }) => name === column), number = body[column];
  if (/^[A-Z]/.test(column)) return String(attr?.value ?? "") || "-";
  const names = body[`${column.replace(/s$/, "")}_names`], isBits = /flags|state/.test(column);
  return names?.length ? names.join(",") : isBits ? `0x${number.toString(16)}` : String(number);
}

// The table of a dump, of a session that is freed in the end, also where it had no memory.
function tableOf(recording, dump) {
  const { library: { session, calls, limits }, library, big } = recording;
  try {
    const made = calls.rtnlc_session_new(session, limits[Number(big)]);
    if (made === NO_MEMORY) library.refuseMemory();
    if (made !== OK) refuse(library.string("rtnlc_code_name", made));
    return tableBy(session, recording, dump);
  } finally {
    calls.rtnlc_session_free(session);
  }
}

// The cells of each entry, and how the dump ended, in the words of `rtnl table`.
function tableBy(session, { library, datagrams, big }, { kind, seq, port }) {
  const total = datagrams.length;
  const feed = ({ bytes }) => {
    const [at, size] = library.given(bytes, big);
    return library.answer(FED, "rtnlc_session_feed", session, at, size).ended;
  };
  library.put("rtnlc_session_begin", session, kind, 0, seq, port);
  const unfed = total - (datagrams.findIndex(feed) + 1 || total);
  const { count, missed } = library.answer(TABLE, "rtnlc_session_table", session, kind);
  const { state, status, ...is } = library.answer(STATUS, "rtnlc_session_status", session);
  const columns = KINDS[kind][1].split(" "), yes = (name) => `${name} ${is[name] ? "yes" : "no"}`;
  const entries = Array.from({ length: count }, (_, index) => {
    const entry = library.put("rtnlc_session_entry", session, kind, index).slice();
    const [message] = JSON.parse(library.show(1, entry, big, true)).messages;
    return columns.map((column) => cellOf(Object.values(message).at(-1), column));
  });
  const end = `end ${STATES[state]}${/done|error/.test(STATES[state]) ? ` ${status}` : ""}`;
  const counts = `entries ${count} missed ${missed} ignored ${is.ignored} unfed ${unfed}`;
  const said = [end, `${counts} ${yes("damaged")} ${yes("interrupted")}`,
    `received ${is.received} visits ${is.visits}`, yes("complete")].join(", ");
  return { columns, entries, said };
}
