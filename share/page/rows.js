"use strict";
// Elements of the page, and lists of rows that can be chosen.

const $ = (id) => document.getElementById(id);

// An element with classes and content, which is never read as HTML.
function element(name, classes, ...content) {
  const made = document.createElement(name);
  if (classes) made.className = classes;
  made.append(...content);
  return made;
}

// Gives an element a text, where it has another one.
function tell(target, text) {
  if (target.textContent !== text) target.textContent = text;
}

// A byte as a character.
function character(byte) {
  return byte > 32 && byte < 127 ? String.fromCharCode(byte) : byte === 32 ? "\u00a0" : "·";
}

const several = (count, word) => `${count.toLocaleString("en")} ${word}${count === 1 ? "" : "s"}`;

// So many rows are made before they are seen, so that a search of the browser finds their texts.
const ALL_AT_ONCE = 4000;

// Rows that can be chosen by a click or by keys: lines of source, or instructions.
class Rows {
  constructor(box, chosen) {
    this.box = box;
    this.chosen = chosen;
    this.items = new Map();
    this.pieces = new Map();
    this.keys = [];
    this.current = this.cursor = null;
    box.addEventListener("click", (event) => this.choose(event.target.closest("[role=option]"), event.shiftKey));
    box.addEventListener("keydown", (event) => this.key(event));
    box.addEventListener("blur", () => this.mark(null));
  }

  // Fills the box with rows, each a key (null for one that can't be chosen) and a function that makes it. They come in pieces of a hundred: a browser
  // lays out those in sight, and of many rows only those are made that come into sight or are wanted. No count is above the most.
  fill(rows, most) {
    this.box.style.setProperty("--digits", `${most}`.length);
    this.items = new Map();
    this.current = this.cursor = null;
    this.keys = rows.map(([key]) => key).filter((key) => key !== null);
    this.pieces = new Map();
    if (this.sight) this.sight.disconnect();
    this.sight = new IntersectionObserver((seen) => seen.forEach(({ isIntersecting, target }) => isIntersecting && this.make(target)), { root: this.box, rootMargin: "400px" });
    const pieces = [];
    for (let at = 0; at < rows.length; at += 100) {
      const piece = element("div", "piece"), few = rows.slice(at, at + 100);
      piece.setAttribute("role", "presentation");
      piece.style.containIntrinsicSize = `auto ${19 * few.length}px`;
      piece.rows = few;
      for (const [key] of few) this.pieces.set(key, piece);
      pieces.push(piece);
    }
    this.box.replaceChildren(...pieces);
    for (const piece of pieces) if (rows.length <= ALL_AT_ONCE) this.make(piece); else this.wait(piece);
  }

  // A piece has its height before its rows are there.
  wait(piece) {
    piece.style.height = `${19 * piece.rows.length}px`;
    this.sight.observe(piece);
  }

  // Makes the rows of a piece.
  make(piece) {
    if (!piece.rows) return;
    piece.style.height = "";
    piece.append(...piece.rows.map(([key, made]) => {
      const row = made();
      if (key !== null) this.items.set(key, row);
      return row;
    }));
    piece.rows = null;
    this.sight.unobserve(piece);
  }

  // The row of a key, undefined where there is none.
  row(key) {
    const piece = key === null ? undefined : this.pieces.get(key);
    if (piece) this.make(piece);
    return this.items.get(key);
  }

  choose(row, backwards) {
    if (row) this.chosen(Number(row.dataset.key), backwards ? -1 : 1);
  }

  key(event) {
    const { keys } = this;
    if (event.key === "Enter" && this.cursor !== null) this.choose(this.row(this.cursor), event.shiftKey);
    else if (event.key === "ArrowDown" || event.key === "ArrowUp") {
      const at = keys.indexOf(this.cursor ?? this.current);
      this.mark(keys[Math.max(0, Math.min(keys.length - 1, at + (event.key === "ArrowDown" ? 1 : -1)))]);
    } else return;
    event.preventDefault();
  }

  // Marks the row that Enter takes.
  mark(key) {
    if (this.cursor !== null) this.row(this.cursor).classList.remove("cursor");
    this.cursor = key;
    const row = this.row(key);
    if (row) {
      row.classList.add("cursor");
      row.scrollIntoView({ block: "nearest" });
      this.box.setAttribute("aria-activedescendant", row.id);
    } else this.box.removeAttribute("aria-activedescendant");
  }

  // Marks the row of the present step, and brings it into sight.
  show(key) {
    const before = this.row(this.current), now = this.row(key);
    if (before && before !== now) {
      before.classList.remove("current");
      before.setAttribute("aria-selected", "false");
    }
    this.current = now ? key : null;
    if (!now) return;
    now.classList.add("current");
    now.setAttribute("aria-selected", "true");
    bring(this.box, now);
  }
}

// Brings a row into sight within its box, with some rows around it, and never moves the page.
function bring(box, row) {
  const here = row.getBoundingClientRect(), frame = box.getBoundingClientRect(), margin = Math.min(3 * here.height, frame.height / 3);
  if (here.top < frame.top + margin) box.scrollTop += here.top - frame.top - margin;
  else if (here.bottom > frame.bottom - margin) box.scrollTop += here.bottom - frame.bottom + margin;
}

// A row with its number and how often it ran.
function row(id, key, count, number, ...content) {
  const made = element("div", count === undefined ? "" : count ? "ran" : "never",
    element("span", "count", count === undefined ? "" : `${count}`), element("span", "number", `${number}`), ...content);
  made.id = `${id}${key}`;
  made.dataset.key = key;
  made.setAttribute("role", "option");
  made.setAttribute("aria-selected", "false");
  return made;
}
