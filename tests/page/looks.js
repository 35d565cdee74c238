// What the tests ask of how the page looks, of its roles, and of what it forbids.

(() => {
  const byId = (id) => document.getElementById(id);
  const later = (time) => new Promise((done) => setTimeout(done, time));
  const isSeen = (made) => (
    made.checkVisibility({ opacityProperty: true }) && made.getClientRects().length > 0);
  const seen = () => [...document.querySelectorAll("body *")].filter(isSeen);

  // The roles whose elements stand directly in others, but for groups and what has no role; and
  // the attributes that a role needs.
  const INSIDE = {
    treeitem: ["tree"], row: ["grid", "table"], gridcell: ["row"], rowheader: ["row"],
    cell: ["row"], columnheader: ["row"], rowgroup: ["table"],
  };
  const NEEDED = {
    treeitem: ["aria-level", "aria-posinset", "aria-setsize", "aria-selected"],
    gridcell: ["aria-selected"], tree: ["aria-label"], table: ["aria-label", "aria-rowcount"],
    grid: ["aria-label", "aria-rowcount", "aria-colcount"],
  };
  const CONTROLS = "button, input, select, textarea, a, [role=tree], [role=grid], [role=table]";

  function holderOf(made) {
    let at = made.parentElement;
    while (at && ["none", "rowgroup"].includes(at.getAttribute("role"))) at = at.parentElement;
    return at?.getAttribute("role");
  }

  function nameOf(made) {
    const labels = [...(made.labels ?? [])].filter(isSeen).map((label) => label.textContent);
    return (made.getAttribute("aria-label") ?? (labels.join(" ") || made.textContent)).trim();
  }

  // What is wrong with the role and the name of an element.
  function wrongOf(made) {
    const role = made.getAttribute("role"), active = made.getAttribute("aria-activedescendant");
    const missing = (NEEDED[role] ?? []).filter((it) => !made.getAttribute(it));
    const found = missing.map((it) => `no ${it}`);
    if (made.matches(CONTROLS) && nameOf(made) === "") found.push("no name");
    if (role in INSIDE && !INSIDE[role].includes(holderOf(made))) found.push("misplaced");
    if (active && !byId(active)) found.push(`no such element ${active}`);
    if (/^(?:tree|grid)$/.test(role) && !active) found.push("no active element");
    if (/^(?:tree|grid|table)$/.test(role) && made.tabIndex !== 0) found.push("not for keys");
    if (role === "treeitem") {
      const numbers = ["aria-level", "aria-posinset", "aria-setsize"];
      const [level, position, size] = numbers.map((it) => Number(made.getAttribute(it)));
      if (!(level >= 1 && position >= 1 && position <= size)) found.push("a wrong position");
    }
    return found.map((it) => `${it}: ${made.outerHTML.slice(0, 90)}`);
  }

  // What of roles, names and the width is not as it should be.
  function roles() {
    const found = seen().flatMap(wrongOf), wide = document.documentElement.scrollWidth;
    const ids = [...document.querySelectorAll("[id]")].map((made) => made.id);
    if (new Set(ids).size !== ids.length) found.push("an id stands twice");
    const isNamed = document.documentElement.lang === "en" && document.title !== "";
    if (!isNamed) found.push("no language, no title");
    if (document.querySelectorAll("h1, main").length !== 2) found.push("no one heading and main");
    if (wide > innerWidth) found.push(`wider than the window: ${wide}`);
    return found;
  }

  const channels = (color) => color.match(/[\d.]+/g).map(Number);

  // As WCAG defines it, as the ratio below.
  function luminance(color) {
    const [red, green, blue] = channels(color).slice(0, 3).map((value) => {
      const part = value / 255;
      return part <= 0.04045 ? part / 12.92 : ((part + 0.055) / 1.055) ** 2.4;
    });
    return 0.2126 * red + 0.7152 * green + 0.0722 * blue;
  }

  function behind(made) {
    for (let at = made; at; at = at.parentElement) {
      const color = getComputedStyle(at).backgroundColor;
      if ((channels(color)[3] ?? 1) === 1) return color;
    }
    return "rgb(255,255,255)";
  }

  const hasText = (made) => [...made.childNodes].some((it) => it.nodeType === 3 && it.data.trim());

  // The least contrast of a text with what is behind it, and of which element.
  function contrast() {
    const found = seen().filter((made) => hasText(made) && !made.disabled).map((made) => {
      const colors = [luminance(getComputedStyle(made).color), luminance(behind(made))];
      const ratio = (Math.max(...colors) + 0.05) / (Math.min(...colors) + 0.05);
      return { ratio, of: made.outerHTML.slice(0, 120) };
    });
    return found.reduce((least, it) => (it.ratio < least.ratio ? it : least), { ratio: 21 });
  }

  const WAYS = {
    fetch: (to) => fetch(`http${to}`),
    XMLHttpRequest: (to) => {
      const asked = new XMLHttpRequest();
      asked.open("GET", `http${to}`);
      asked.send();
    },
    WebSocket: (to) => new WebSocket(`ws${to}`),
    Image: (to) => Object.assign(new Image(), { src: `http${to}` }),
    beacon: (to) => navigator.sendBeacon(`http${to}`),
  };

  const heard = (from, name) => new Promise((done) => from.addEventListener(name, done));

  // Tries to connect in one way, and answers whether that was refused, by the policy.
  function connects(way) {
    const refused = heard(document, "securitypolicyviolation");
    Promise.resolve("://127.0.0.1:9/").then(WAYS[way]).catch(() => 0);
    return Promise.race([refused.then(() => "refused"), later(3000).then(() => "made")]);
  }

  // The same of a worker like the page's, whose policy is the page's.
  function workerConnects() {
    const code = `addEventListener("securitypolicyviolation", () => postMessage("refused"));
      fetch("http://127.0.0.1:9/").catch(() => 0);`;
    const worker = new Worker(URL.createObjectURL(new Blob([code])));
    const said = heard(worker, "message").then(({ data }) => data);
    return Promise.race([said, later(3000).then(() => "made")]);
  }

  Object.assign(window.examine, { roles, contrast, connects, workerConnects });
})();
