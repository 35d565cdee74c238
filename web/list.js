// A list of many rows of equal height, of which those in view alone are elements.

// Browsers know no element of some tens of millions of pixels: a longer list scrolls faster.
const MOST_PIXELS = 8000000;

const byId = (id) => document.getElementById(id);

function element(name, attributes, ...children) {
  const made = document.createElement(name);
  for (const [key, value] of Object.entries(attributes)) made.setAttribute(key, value);
  made.append(...children);
  return made;
}

class List {
  // Draws the rows from one up to another by what is handed in, now or later.
  constructor(box, made) {
    Object.assign(this, { box, made, sheet: box.lastElementChild, count: 0, isDrawing: false });
    box.addEventListener("scroll", () => this.draw());
    new ResizeObserver(() => this.draw()).observe(box);
  }

  // How tall a row and the view are, and how many pixels of rows one of the sheet stands for.
  measure() {
    const height = parseFloat(getComputedStyle(this.box).lineHeight), view = this.box.clientHeight;
    const whole = height * this.count, tall = Math.min(whole, MOST_PIXELS);
    this.sheet.style.setProperty("height", `${tall}px`);
    return { height, view, scale: tall > view ? (whole - view) / (tall - view) : 1 };
  }

  // Draws what is in view; once more, where it changed meanwhile.
  async draw() {
    this.isStale = true;
    if (this.isDrawing) return;
    this.isDrawing = true;
    try {
      while (this.isStale) await this.drawOnce();
    } finally {
      this.isDrawing = false;
    }
  }

  async drawOnce() {
    this.isStale = false;
    const { height, view, scale } = this.measure(), seen = this.box.scrollTop * scale;
    const first = Math.max(0, Math.floor(seen / height) - 4);
    const last = Math.min(this.count, Math.ceil((seen + view) / height) + 4);
    const rows = await this.made(first, last), top = this.box.scrollTop * (1 - scale);
    rows.forEach((row, at) => row.style.setProperty("top", `${top + (first + at) * height}px`));
    this.sheet.replaceChildren(...rows);
  }

  // Scrolls as far as brings a row into view; one that is far away is put below a third of it.
  show(row) {
    const { height, view, scale } = this.measure(), { box } = this, top = row * height;
    const seen = box.scrollTop * scale, below = top + height - view;
    const isFar = top < seen - 3 * height || below > seen + 3 * height;
    if (isFar) box.scrollTop = (top - view / 3) / scale;
    else if (top < seen) box.scrollTop = top / scale;
    else if (below > seen) box.scrollTop = below / scale + (scale > 1 ? 1 : 0);
    return this.draw();
  }

  page() {
    const { height, view } = this.measure();
    return Math.max(1, Math.floor(view / height) - 1);
  }
}
