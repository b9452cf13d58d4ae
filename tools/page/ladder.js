/* Draws a report as a ladder: the reader left, each device right, time downwards.

   drawLadder(element, data, options) fills the element and gives { drawAll, fold, unfold }. Called again for the same
   element it draws anew.

   data, as tools/page/data.py makes it:
     title    a text, or an empty one
     devices  [{ name, kind }], the columns right of the field's
     entries  [{ line, command, answer, frames }], the command only where the script is known, and of each frame
       mark    ">" to the devices, "<" an answer, "*" a clash, "!" a reset
       frame   the bytes, as the report shows them
       fate    "pass", "damage", "lose" or "break"
       words   what the frame is
       column  0 for the field, else the device's place in `devices`, from 1 on
       state   "old", "empty" or "new", what the written tag holds then; or left out
       windows [{ numbers, open, window, own }], of each numbered PDU; or left out

   options:
     all      draw all at once; otherwise a piece is drawn when it comes near the view
     folded   begin with all entries folded; left out: only where there are more than 2,000 frames
     onFrame  function (frame, entry), called where a frame is clicked or Enter is pressed on it

   Texts become text nodes alone, so nothing of the data becomes markup. The looks: ladder.css. */

const drawLadder = (() => {
  "use strict";

  const SVG = "http://www.w3.org/2000/svg";
  const PIECE = 100;
  const FIRST = 4;
  const MANY = 2000;
  const NARROW = 700;
  const MARGIN = 34;
  const ROW = 32;
  const ARROW_Y = 16;
  const FATES = { pass: "", damage: "damaged", lose: "lost", break: "broken off" };
  const STATES = { old: "■ old message", empty: "□ empty", new: "★ new message" };
  const LEGEND = [
    ["pass", ">", "arrives"],
    ["damage", ">", "arrives damaged"],
    ["lose", ">", "is lost"],
    ["break", ">", "is lost, and the field goes dark"],
    ["pass", "*", "clash of several answers"],
    ["", "!", "reset: dark, then lit"],
  ];

  /* Elements ---------------------------------------------------------------------------------------------------- */

  function html(name, className, text) {
    const made = document.createElement(name);
    if (className) made.className = className;
    if (text !== undefined) made.textContent = text;
    return made;
  }

  function svg(name, attributes) {
    const made = document.createElementNS(SVG, name);
    for (const [key, value] of Object.entries(attributes)) made.setAttribute(key, String(value));
    return made;
  }

  function line(x1, y1, x2, y2, className) {
    return svg("line", { x1, y1, x2, y2, class: className });
  }

  function path(d, className) {
    return svg("path", { d, class: className });
  }

  /* Columns: the reader, the field, the devices ------------------------------------------------------------------ */

  function layout(data, width) {
    const count = data.devices.length + 1;
    const wanted = count <= 2 ? 110 : count <= 4 ? 84 : count <= 8 ? 60 : 34;
    const narrow = width < NARROW;
    const room = (narrow ? width : width * 0.55) - 2 * MARGIN - 8;
    const step = Math.max(14, Math.min(wanted, Math.floor(room / count)));
    const places = Array.from({ length: count + 1 }, (_, index) => MARGIN + index * step);
    return { narrow, step, reader: places[0], columns: places.slice(1), width: places[count] + MARGIN };
  }

  /* One frame ---------------------------------------------------------------------------------------------------- */

  function head(x, towards, y) {
    const back = x - 9 * towards;
    return `M${x} ${y} L${back} ${y - 5} L${back} ${y + 5} Z`;
  }

  function zigzag(towards) {
    return [[4, -6], [6, 12], [6, -12], [4, 6]].map(([x, y]) => `l${x * towards} ${y}`).join(" ");
  }

  /* A frame that arrives, a dashed one with a zigzag, one that ends in a cross, and one with a break mark. */
  const SHAPES = {
    pass: (from, to, towards, y) => [
      line(from, y, to - 8 * towards, y, "stroke"),
      path(head(to, towards, y), "solid"),
    ],
    damage: (from, to, towards, y) => {
      const middle = (from + to) / 2;
      return [
        line(from, y, middle - 10 * towards, y, "stroke"),
        path(`M${middle - 10 * towards} ${y}${zigzag(towards)}`, "stroke zigzag"),
        line(middle + 10 * towards, y, to - 9 * towards, y, "stroke"),
        path(head(to, towards, y), "hollow"),
      ];
    },
    lose: (from, to, towards, y) => {
      const end = from + (to - from) * 0.62;
      return [
        line(from, y, end, y, "stroke"),
        path(`M${end - 5} ${y - 5} L${end + 5} ${y + 5} M${end - 5} ${y + 5} L${end + 5} ${y - 5}`, "stroke cross"),
      ];
    },
    break: (from, to, towards, y) => {
      const end = from + (to - from) * 0.5;
      return [
        line(from, y, end - 3 * towards, y, "stroke"),
        path(`M${end - 3} ${y + 8} L${end + 2} ${y - 8} M${end + 3} ${y + 8} L${end + 8} ${y - 8}`, "stroke mark"),
      ];
    },
  };

  function clash(from, to, y) {
    const spikes = [];
    for (let turn = 0; turn < 8; turn += 1) {
      const angle = (turn * Math.PI) / 4;
      spikes.push(`M${from} ${y} L${from + 8 * Math.cos(angle)} ${y + 8 * Math.sin(angle)}`);
    }
    return [
      line(from, y - 2, to + 9, y - 2, "stroke"),
      line(from, y + 2, to + 9, y + 2, "stroke"),
      path(spikes.join(" "), "stroke burst"),
      path(head(to, -1, y), "solid"),
    ];
  }

  function band(columns, y) {
    const left = columns.reader - 14;
    const marks = [];
    for (let x = left + 4; x < columns.width - 20; x += 8) marks.push(`M${x} ${y + 5} l6 -10`);
    return [path(marks.join(" "), "band")];
  }

  function shape(frame, columns, y) {
    if (frame.mark === "!") return band(columns, y);
    const device = columns.columns[frame.column || 0];
    if (frame.mark === "*" && frame.fate === "pass") return clash(device, columns.reader, y);
    const toDevice = frame.mark === ">";
    const from = toDevice ? columns.reader : device;
    const to = toDevice ? device : columns.reader;
    const start = frame.mark === "*" ? [path(`M${from} ${y - 7} v14 M${from - 7} ${y} h14`, "stroke burst")] : [];
    return start.concat(SHAPES[frame.fate](from, to, toDevice ? 1 : -1, y));
  }

  function lifelines(columns, from, to) {
    return [columns.reader, ...columns.columns].map((x) => line(x, from, x, to, "lifeline"));
  }

  function picture(frame, columns) {
    const drawn = svg("svg", { class: "picture", width: columns.width, height: "100%", "aria-hidden": "true" });
    drawn.append(...lifelines(columns, "0", "100%"), ...shape(frame, columns, ARROW_Y));
    if (frame.fate === "break") drawn.append(...band(columns, ARROW_Y + 14));
    return drawn;
  }

  /* The window of a direction: a filled box for each PDU that isn't acknowledged, an empty one for each that may go. */
  function windowNote(note) {
    const made = html("span", "note window");
    const whose = note.own ? "" : "the other's ";
    const boxes = html("span", "boxes", "▮".repeat(note.open) + "▯".repeat(Math.max(0, note.window - note.open)));
    boxes.setAttribute("aria-hidden", "true");
    made.append(`${note.numbers}, `, boxes, ` ${whose}${note.open} of ${note.window} unacknowledged`);
    return made;
  }

  function direction(frame, data) {
    if (frame.mark === "!") return "";
    const device = frame.column ? data.devices[frame.column - 1].name : "the field";
    return frame.mark === ">" ? `reader to ${device}: ` : `${device} to reader: `;
  }

  function words(frame, data) {
    const made = html("div", "words");
    made.append(html("span", "heard", direction(frame, data)));
    if (frame.frame) made.append(html("code", "bytes", frame.frame), " ");
    made.append(html("span", "told", frame.words));
    const fate = FATES[frame.fate];
    if (fate) made.append(" ", html("span", "note fate", fate));
    if (frame.mark === "*") made.append(" ", html("span", "note fate", "clash"));
    if (frame.state) made.append(" ", html("span", `note state state-${frame.state}`, STATES[frame.state]));
    for (const note of frame.windows || []) made.append(" ", windowNote(note));
    return made;
  }

  function className(frame) {
    const marks = { ">": "request", "<": "answer", "*": "clash", "!": "reset" };
    return `frame ${marks[frame.mark]}${frame.fate ? ` fate-${frame.fate}` : ""}`;
  }

  function row(frame, entry, view) {
    const made = html("li", className(frame));
    made.append(picture(frame, view.columns), words(frame, view.data));
    if (view.options.onFrame && frame.mark !== "!") {
      made.tabIndex = 0;
      made.addEventListener("click", () => view.options.onFrame(frame, entry));
      made.addEventListener("keydown", (event) => {
        if (event.key === "Enter") view.options.onFrame(frame, entry);
      });
    }
    return made;
  }

  /* Pieces of an entry, which are drawn when they come near the view, and cleared when they are far from it. ------ */

  function fill(piece, view) {
    if (piece.isDrawn) return;
    piece.isDrawn = true;
    piece.list.append(...piece.frames.map((frame) => row(frame, piece.entry, view)));
    piece.list.style.minHeight = "";
  }

  function clear(piece, height) {
    if (!piece.isDrawn || piece.list.contains(document.activeElement)) return;
    piece.isDrawn = false;
    piece.list.style.minHeight = `${height}px`;
    piece.list.textContent = "";
  }

  function pieces(entry, view) {
    const made = [];
    for (let start = 0; start < entry.frames.length; start += PIECE) {
      const frames = entry.frames.slice(start, start + PIECE);
      const list = html("ol", "piece");
      list.style.minHeight = `${frames.length * ROW * (view.columns.narrow ? 2 : 1)}px`;
      const piece = { list, frames, entry, isDrawn: false };
      view.pieces.set(list, piece);
      made.push(list);
    }
    return made;
  }

  function watch(view) {
    const isLazy = !view.options.all && typeof IntersectionObserver !== "undefined";
    const atOnce = [...view.pieces.values()].slice(0, isLazy ? FIRST : undefined);
    atOnce.forEach((piece) => fill(piece, view));
    if (!isLazy) return;
    view.observer = new IntersectionObserver((changes) => {
      for (const change of changes) {
        const piece = view.pieces.get(change.target);
        if (!piece) continue;
        if (change.isIntersecting) fill(piece, view);
        else if (change.boundingClientRect.height > 0) clear(piece, change.boundingClientRect.height);
      }
    }, { rootMargin: "1200px 0px" });
    view.pieces.forEach((piece) => view.observer.observe(piece.list));
  }

  /* Entries ------------------------------------------------------------------------------------------------------ */

  function count(frames) {
    const number = frames.filter((frame) => frame.mark !== "!").length;
    return number === 1 ? "1 frame" : `${number} frames`;
  }

  function title(entry) {
    const command = entry.command ? [html("code", "command", entry.command), " "] : [];
    const outcome = html("span", "outcome", entry.answer || "cut off");
    return [html("span", "number", `line ${entry.line}`), " ", ...command, outcome];
  }

  function setFolded(part, isFolded) {
    part.body.hidden = isFolded;
    part.button.setAttribute("aria-expanded", String(!isFolded));
  }

  function drawEntry(entry, view) {
    const section = html("section", "entry");
    const heading = html("h2", "heading");
    section.append(heading);
    if (!entry.frames.length) {
      heading.append(...title(entry));
      return section;
    }
    const button = html("button", "fold");
    button.type = "button";
    button.append(html("span", "sign"), ...title(entry), " ", html("span", "count", count(entry.frames)));
    const body = html("div", "body");
    body.append(...pieces(entry, view));
    const part = { button, body };
    button.addEventListener("click", () => setFolded(part, !body.hidden));
    setFolded(part, view.isFolded);
    view.parts.push(part);
    heading.append(button);
    section.append(body);
    return section;
  }

  /* What stands above the entries --------------------------------------------------------------------------------- */

  function column(x, step, text, className) {
    const made = svg("text", { x, y: 14, class: className, "text-anchor": "middle" });
    const width = Math.max(2, Math.min(text.length <= 10 ? 10 : 8, Math.floor(step / 7.2)));
    for (let start = 0, place = 0; start < text.length && place < 3; start += width, place += 1) {
      const piece = svg("tspan", { x, dy: place ? 13 : 0 });
      piece.textContent = text.slice(start, start + width);
      made.append(piece);
    }
    return made;
  }

  function heads(view) {
    const { columns, data } = view;
    const made = svg("svg", { class: "heads", width: columns.width, height: 44, "aria-hidden": "true" });
    const names = data.devices.map((device, index) => (columns.step < 40 ? String(index + 1) : device.name));
    made.append(column(columns.reader, 64, "reader", "name"), column(columns.columns[0], 64, "field", "name"));
    names.forEach((name, index) => made.append(column(columns.columns[index + 1], columns.step, name, "name")));
    return made;
  }

  function legend(view) {
    const made = html("ul", "legend");
    for (const [fate, mark, text] of LEGEND) {
      const frame = { fate, mark, column: 0 };
      const item = html("li", className(frame));
      const sample = svg("svg", { width: 76, height: 20, "aria-hidden": "true" });
      sample.append(...shape(frame, { reader: 10, columns: [66], width: 76 }, 10));
      item.append(sample, html("span", "", text));
      made.append(item);
    }
    return made;
  }

  function devices(view) {
    const made = html("ol", "devices");
    for (const device of view.data.devices) {
      const item = html("li", "");
      item.append(html("code", "", device.name), device.kind ? `, ${device.kind}` : "");
      made.append(item);
    }
    return made;
  }

  function foldAll(view, isFolded) {
    view.parts.forEach((part) => setFolded(part, isFolded));
  }

  function buttons(view) {
    const made = html("p", "buttons");
    for (const [text, isFolded] of [["Unfold all", false], ["Fold all", true]]) {
      const button = html("button", "all", text);
      button.type = "button";
      button.addEventListener("click", () => foldAll(view, isFolded));
      made.append(button);
    }
    return made;
  }

  /* The whole ---------------------------------------------------------------------------------------------------- */

  function draw(view) {
    if (view.observer) view.observer.disconnect();
    Object.assign(view, { pieces: new Map(), parts: [], observer: null });
    view.columns = layout(view.data, view.element.clientWidth || 1000);
    view.element.className = `ladder${view.columns.narrow ? " narrow" : ""}`;
    view.element.style.setProperty("--picture", `${view.columns.width}px`);
    const top = html("div", "top");
    top.append(heads(view));
    const heading = view.data.title ? [html("h1", "", view.data.title)] : [];
    const before = [...heading, devices(view), legend(view), buttons(view), top];
    view.element.replaceChildren(...before, ...view.data.entries.map((entry) => drawEntry(entry, view)));
    watch(view);
  }

  function redrawAtOtherWidth(view) {
    const now = layout(view.data, view.element.clientWidth || 1000);
    if (now.narrow === view.columns.narrow && now.step === view.columns.step) return;
    const folded = view.parts.map((part) => part.body.hidden);
    draw(view);
    view.parts.forEach((part, index) => setFolded(part, folded[index]));
  }

  /* What an element shows; an earlier picture in it listens no more when another takes its place. */
  const views = new WeakMap();

  function leave(element) {
    const before = views.get(element);
    if (!before) return;
    if (before.observer) before.observer.disconnect();
    if (before.listening) before.listening.abort();
  }

  return function drawLadder(element, data, options = {}) {
    const total = data.entries.reduce((sum, entry) => sum + entry.frames.length, 0);
    const isFolded = options.folded === undefined ? total > MANY && !options.all : options.folded;
    const view = { element, data, options, isFolded };
    const drawAll = () => view.pieces.forEach((piece) => fill(piece, view));
    leave(element);
    draw(view);
    if (typeof window !== "undefined") {
      view.listening = new AbortController();
      window.addEventListener("resize", () => redrawAtOtherWidth(view), { signal: view.listening.signal });
      window.addEventListener("beforeprint", drawAll, { signal: view.listening.signal });
    }
    views.set(element, view);
    return { drawAll, fold: () => foldAll(view, true), unfold: () => foldAll(view, false) };
  };
})();

if (typeof module === "object") module.exports = drawLadder;
