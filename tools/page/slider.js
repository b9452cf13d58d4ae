/* The slider over the transmissions of a last write or put: what each place tells, its colour and form, the numbers.

   benchPage.slider(parts, show) gives { begin, add, end, clear }.
     parts  the elements: { section, about, choice, strip, range, told, numbers }
     show   function (row), called with the row of the chosen place, or null for the run as it is

   What a row tells, the server decided: docs/page.md. */

(() => {
  "use strict";

  const FATES = { B: "broken off", D: "damaged", L: "lost" };
  const MOST_GLYPHS = 64;
  const SHOW_AFTER = 120;
  const DRAW_AFTER = 60;

  const KINDS = {
    old: { glyph: "■", label: "the old message" },
    empty: { glyph: "□", label: "empty" },
    new: { glyph: "★", label: "the new message" },
    other: { glyph: "!", label: "something else" },
    told: { glyph: "★", label: "accepted, and told so" },
    accepted: { glyph: "◆", label: "accepted, but not told so" },
    "not accepted": { glyph: "□", label: "not accepted, and not told so" },
    waiting: { glyph: "·", label: "not run yet" },
  };
  const TOLD = { write: ["old", "empty", "new"], put: ["told", "accepted", "not accepted"] };

  function make(name, className, text) {
    const made = document.createElement(name);
    if (className) made.className = className;
    if (text !== undefined) made.textContent = text;
    return made;
  }

  const sum = (view, kind) => [...view.slides.values()].filter((slide) => kindOf(view, slide) === kind).length;

  function kindOf(view, slide) {
    if (!slide) return "waiting";
    return TOLD[view.kind].includes(slide.told) ? slide.told : "other";
  }

  const className = (kind) => `cell-${kind.replace(" ", "-")}`;

  /* The places of a row in stretches: each by itself, or where there are many, neighbours of one kind together. */
  function stretches(view, fate) {
    const made = [];
    for (let at = 1; at <= view.places; at += 1) {
      const kind = kindOf(view, view.slides.get(`${at}${fate}`));
      const last = made[made.length - 1];
      if (last && last.kind === kind && view.places > MOST_GLYPHS) last.count += 1;
      else made.push({ kind, count: 1 });
    }
    return made;
  }

  function cell(view, { kind, count }) {
    const made = make("span", `cell ${className(kind)}`, view.places <= MOST_GLYPHS ? KINDS[kind].glyph : "");
    made.style.flexGrow = String(count);
    return made;
  }

  function row(view, fate) {
    const made = make("div", "row");
    if (view.fates.length > 1) made.append(make("span", "row-name", FATES[fate]));
    const cells = make("div", "cells");
    cells.dataset.fate = fate;
    cells.append(...stretches(view, fate).map((stretch) => cell(view, stretch)), make("span", "here"));
    made.append(cells);
    return made;
  }

  function numbers(view) {
    return [...TOLD[view.kind], "other"].map((kind) => {
      const count = sum(view, kind);
      const item = make("li", "number");
      item.dataset.kind = kind;
      item.append(make("span", `glyph ${className(kind)}`, KINDS[kind].glyph), " ", make("b", "", String(count)));
      item.append(` ${KINDS[kind].label}`);
      item.hidden = count === 0 && kind === "other";
      return item;
    });
  }

  function inbox(view, slide) {
    const accepted = slide.accepted || [];
    if (!accepted.length) return "Its inbox is empty.";
    return `Its inbox: ${accepted.map((one) => (one.length > 60 ? `${one.slice(0, 60)} ..` : one)).join(" ")}.`;
  }

  /* What the chosen place tells, as one or two sentences. */
  function told(view) {
    const what = view.kind === "write" ? "The tag isn't pulled away" : "No transmission is hit";
    if (view.at === 0) return `${what}: this is the run as the script says it.`;
    const start = `Transmission ${view.at} of ${view.places} is ${FATES[view.fate]}`;
    const slide = view.slides.get(`${view.at}${view.fate}`);
    const missing = view.isDone ? "left out, since there are so many places" : "not run yet";
    if (!slide) return `${start}: ${missing}.`;
    const kind = kindOf(view, slide);
    const answer = `the ${view.kind} answers "${slide.answer}"`;
    if (view.kind === "put") return `${start}: ${answer}. The message is ${KINDS[kind].label}. ${inbox(view, slide)}`;
    const found = `finds ${kind === "empty" ? "it " : ""}${KINDS[kind].label}`;
    const held = kind === "other" ? `tells "${slide.told}"` : found;
    return `${start}: ${answer}, and the read behind it ${held}.`;
  }

  function draw(view) {
    const { parts } = view;
    parts.strip.replaceChildren(...view.fates.map((fate) => row(view, fate)));
    parts.numbers.replaceChildren(...numbers(view));
    mark(view);
  }

  function tell(view) {
    const sentence = told(view);
    view.parts.told.textContent = sentence;
    view.parts.range.setAttribute("aria-valuetext", sentence);
  }

  /* The frame around the chosen place. */
  function mark(view) {
    for (const cells of view.parts.strip.querySelectorAll(".cells")) {
      const here = cells.querySelector(".here");
      here.hidden = view.at === 0 || cells.dataset.fate !== view.fate;
      here.style.left = `${(100 * (view.at - 1)) / view.places}%`;
      here.style.width = `max(6px, ${100 / view.places}%)`;
    }
    tell(view);
  }

  function onClick(view, event) {
    const cells = event.target.closest(".cells");
    if (!cells) return;
    const box = cells.getBoundingClientRect();
    const at = Math.ceil(((event.clientX - box.left) / box.width) * view.places);
    move(view, Math.max(1, Math.min(view.places, at)), cells.dataset.fate);
  }

  function move(view, at, fate) {
    Object.assign(view, { at, fate });
    view.parts.range.value = String(at);
    for (const one of view.parts.choice.querySelectorAll("input")) one.checked = one.value === fate;
    mark(view);
    clearTimeout(view.timer);
    view.timer = setTimeout(() => {
      const slide = view.slides.get(`${at}${fate}`);
      if (at === 0 || slide) view.show(at === 0 ? null : slide);
    }, SHOW_AFTER);
  }

  function choice(view) {
    const made = view.fates.map((fate) => {
      const label = make("label", "");
      const input = make("input", "");
      Object.assign(input, { type: "radio", name: "fate", value: fate, checked: fate === view.fate });
      input.addEventListener("change", () => move(view, view.at, fate));
      label.append(input, ` ${FATES[fate]}`);
      return label;
    });
    view.parts.choice.replaceChildren(make("legend", "", "The transmission is"), ...made);
    view.parts.choice.hidden = view.fates.length < 2;
  }

  function begin(view, first) {
    clear(view);
    view.parts.section.hidden = false;
    if (first.none) {
      view.parts.about.textContent = benchPage.sentence(first.none);
      view.parts.section.classList.add("none");
      return;
    }
    const { parts } = view;
    const { kind, places } = first;
    Object.assign(view, { kind, places, fates: kind === "put" ? ["B", "D", "L"] : ["B"] });
    Object.assign(parts.range, { min: 0, max: places, value: 0, disabled: false });
    const isWrite = kind === "write";
    const what = isWrite ? "the tag is pulled away, and read again" : "the frame is hit, and the inbox is told";
    parts.about.textContent = `The ${kind} of line ${first.line} has ${places} transmissions where all pass.`;
    parts.about.append(` At each of them ${what}.`);
    if (first.note) parts.about.append(` ${benchPage.sentence(first.note)}`);
    choice(view);
    draw(view);
  }

  function add(view, slide) {
    view.slides.set(`${slide.at}${slide.fate}`, slide);
    if (view.isWaiting) return;
    view.isWaiting = true;
    setTimeout(() => {
      view.isWaiting = false;
      if (view.kind) draw(view);
    }, DRAW_AFTER);
  }

  /* No more places come; why, where that is told. */
  function end(view, why) {
    view.isDone = true;
    if (why) view.parts.about.append(` ${benchPage.sentence(why)}`);
    if (view.kind) draw(view);
  }

  function clear(view) {
    clearTimeout(view.timer);
    Object.assign(view, { slides: new Map(), kind: "", places: 0, at: 0, fate: "B", fates: ["B"], isDone: false });
    view.parts.section.hidden = true;
    view.parts.section.classList.remove("none");
    for (const part of [view.parts.strip, view.parts.numbers, view.parts.choice]) part.replaceChildren();
    view.parts.told.textContent = "";
    view.parts.range.disabled = true;
  }

  benchPage.slider = (parts, show) => {
    const view = { parts, show };
    clear(view);
    parts.range.addEventListener("input", () => move(view, Number(parts.range.value), view.fate));
    parts.strip.addEventListener("click", (event) => onClick(view, event));
    return {
      begin: (first) => begin(view, first),
      add: (slide) => add(view, slide),
      end: (why) => end(view, why),
      clear: () => clear(view),
    };
  };
})();
