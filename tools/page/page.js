/* The page: a script at the left, what goes over the air at the right, the slider below.

   A saved file holds its runs in the element "saved": there nothing is asked of a server, and no script is run. All
   that a script or a report says becomes text and never markup. */

(() => {
  "use strict";

  const MOST_HEARD = 30;
  const MOST_KEPT = 200;
  const MANY = 2000;
  const DRAWN_AFTER = 150;
  const NARROW = 820;
  const FIRST = [
    "# A text is written to a tag. Move the slider: the tag is pulled away at each place, and read again.",
    "place t2 01020304 16 000000000000000000000000E11006000303D00000FE0000",
    "write 01020304 D101085402656E48656C6C6F",
    "read 01020304",
    "",
  ].join("\n");
  const NAMES = { B: "break", D: "damage", L: "lose" };

  const at = (id) => document.getElementById(id);
  const { sentence, answered, ask, eachPiece, eachLine } = benchPage;
  const area = at("script");
  const saved = at("saved") ? JSON.parse(at("saved").textContent) : null;

  /* base: the script that was run; script, data: what the ladder shows, a place of the slider or the base itself. */
  const state = { base: null, baseShown: null, script: "", data: null, running: null, kept: new Map(), focus: null };

  function make(name, className, text) {
    const made = document.createElement(name);
    if (className) made.className = className;
    if (text !== undefined) made.textContent = text;
    return made;
  }

  function say(told) {
    at("said").textContent = told;
  }

  /* What a script shows. Each is asked once; a script that is run is asked anew. */
  function shownOf(script, signal) {
    if (!state.kept.has(script)) {
      if (state.kept.size >= MOST_KEPT) state.kept.delete(state.kept.keys().next().value);
      const asked = ask("shown", { script }, signal).then((answer) => answer.json());
      state.kept.set(script, asked);
      asked.catch(() => state.kept.delete(script));
    }
    return state.kept.get(script);
  }

  /* What a run tells ----------------------------------------------------------------------------------------------- */

  function count(number, name) {
    return number === 1 ? `1 ${name}` : `${number} ${name}s`;
  }

  function outcome(shown) {
    const entries = shown.data ? shown.data.entries : [];
    const frames = entries.reduce((sum, entry) => sum + entry.frames.filter((frame) => frame.mark !== "!").length, 0);
    const size = `${count(entries.length, "command")}, ${count(frames, "frame")}`;
    const { refused } = shown;
    if (refused) return `Line ${refused.line} is refused: ${refused.reason.replace(/\.?$/, ".")} Before it: ${size}.`;
    if (shown.status === 0) return `Every line was obeyed: ${size}.`;
    return `The run ended with status ${shown.status}: ${size}.`;
  }

  function heard(shown) {
    const entries = shown.data ? shown.data.entries : [];
    const told = entries.slice(0, MOST_HEARD).map((entry) => `Line ${entry.line}: ${entry.answer || "cut off"}.`);
    const more = entries.length - MOST_HEARD;
    return told.join(" ") + (more > 0 ? ` And ${more} more.` : "");
  }

  function tell(shown, place) {
    const parts = [make("p", shown.status === 0 ? "" : "bad", outcome(shown))];
    if (place) parts.unshift(make("p", "", `Shown is the run of place ${place.at}, with its own line of fates.`));
    if (shown.note) parts.push(make("p", "note", sentence(shown.note)));
    parts.push(make("p", "heard", heard(shown)));
    at("result").replaceChildren(...parts);
  }

  /* The picture; of a place, the last entries open alone, and the view on the frame that is hit. */
  function picture(data, place) {
    state.data = data;
    at("hint").hidden = !data || Boolean(saved);
    at("ladder").hidden = !data;
    if (!data) {
      drawLadder(at("ladder"), { title: "", devices: [], entries: [] });
      return;
    }
    const options = saved ? {} : { onFrame: askFate };
    const isLarge = data.entries.reduce((sum, entry) => sum + entry.frames.length, 0) > MANY;
    drawLadder(at("ladder"), data, { ...options, all: !isLarge, folded: isLarge || Boolean(place) });
    if (place) openLast(place, isLarge);
    if (state.focus) focusAgain();
  }

  function openLast(place, isLarge) {
    const last = [...at("ladder").querySelectorAll(".fold")].slice(place.accepted ? -1 : -2);
    last.forEach((button) => button.click());
    if (last.length && isLarge) last[0].scrollIntoView({ block: "nearest" });
    setTimeout(() => showHit(place), isLarge ? DRAWN_AFTER : 0);
  }

  function showHit(place) {
    if (state.chosen !== place) return;
    const hit = [...at("ladder").querySelectorAll(`.piece .fate-${NAMES[place.fate]}`)].pop();
    if (!hit) return;
    hit.classList.add("here");
    hit.scrollIntoView({ block: "nearest" });
  }

  function present(script, shown, place) {
    state.script = script;
    tell(shown, place);
    at("report").textContent = shown.report;
    if (!place && shown.refused) editor.mark(shown.refused);
    picture(shown.data, place);
  }

  /* Running -------------------------------------------------------------------------------------------------------- */

  const editor = benchPage.editor({ area, numbers: at("line-numbers"), band: at("band"), reason: at("reason") });
  const menu = benchPage.menu(at("menu"), choose);
  const slider = benchPage.slider({
    section: at("slider"), about: at("slider-about"), choice: at("choice"), strip: at("strip"), range: at("place"),
    told: at("told"), numbers: at("numbers"),
  }, choosePlace);

  async function choosePlace(place) {
    state.chosen = place;
    menu.close();
    if (!place) {
      if (state.baseShown) present(state.base, state.baseShown);
      return;
    }
    try {
      const shown = saved ? await benchPage.opened(place.shown) : await shownOf(place.script);
      if (state.chosen !== place) return;
      if (shown) present(place.script, shown, place);
      else at("result").replaceChildren(make("p", "", "The run of this place was left out of this file."));
    } catch (error) {
      if (state.chosen === place) at("result").replaceChildren(make("p", "bad", error.message));
    }
  }

  function takeRow(told) {
    if (told.at) slider.add(told);
    else if (told.kind || told.none) slider.begin(told);
    else if (told.done || told.ended) slider.end(told.ended);
  }

  async function slide(script, signal) {
    try {
      await eachLine(await ask("slide", { script }, signal), (told) => signal.aborted || takeRow(told));
    } catch (error) {
      if (!signal.aborted) slider.begin({ none: error.message });
    }
  }

  /* The script that is asked for, also out of a link that was pasted in its place; an empty one has a sentence. */
  async function wanted() {
    const link = benchPage.linkIn(area.value);
    if (link) await open(link);
    if (area.value.trim()) return area.value;
    throw new Error("The script is empty: choose an example, or type a command.");
  }

  async function runQuiet(script, signal) {
    at("report-box").open = true;
    at("report").textContent = "";
    picture(null);
    const answer = await ask("run", { form: "run quiet", script }, signal);
    await eachPiece(answer, (piece) => at("report").append(piece));
    at("result").replaceChildren(make("p", "", "The answers alone are below."));
  }

  /* What a run told comes into view, where it isn't in it. */
  function bringIn(element) {
    const { top } = element.getBoundingClientRect();
    if (top < 0 || top > innerHeight - 240) element.scrollIntoView({ block: "start" });
  }

  async function runWhole(script, signal) {
    state.kept.delete(script);
    const shown = await shownOf(script, signal);
    if (signal.aborted) return;
    const isFirst = !state.base;
    Object.assign(state, { base: script, baseShown: shown });
    const hasFocus = Boolean(state.focus);
    present(script, shown);
    if (!isFirst && !hasFocus && !(shown.refused && innerWidth <= NARROW)) bringIn(at("result"));
    if (!shown.refused && shown.data) await slide(script, signal);
  }

  /* In the place of what was shown before. */
  function fail(why) {
    at("report").textContent = "";
    picture(null);
    at("result").replaceChildren(make("p", "bad", why));
  }

  async function run() {
    if (state.running) state.running.abort();
    const running = new AbortController();
    Object.assign(state, { running, chosen: null });
    menu.close();
    editor.unmark();
    slider.clear();
    say("");
    document.body.dataset.busy = "true";
    try {
      const script = await wanted();
      at("result").replaceChildren(make("p", "", "Running .."));
      await keep(script);
      await (at("form").value === "run" ? runWhole : runQuiet)(script, running.signal);
    } catch (error) {
      if (!running.signal.aborted) fail(error.message);
    }
    if (state.running === running) delete document.body.dataset.busy;
  }

  /* Links ---------------------------------------------------------------------------------------------------------- */

  /* The address keeps the script, where the browser can pack it and takes so long an address. */
  async function keep(script) {
    try {
      history.replaceState(null, "", `#${await benchPage.pack(script)}`);
    } catch (error) {
      say("The address can't keep this script.");
    }
  }

  async function open(fragment) {
    try {
      editor.set(await benchPage.unpack(fragment));
    } catch (error) {
      throw new Error("This link holds no script that can be read: a part of it may be missing.");
    }
  }

  async function openAddress() {
    if (location.hash.length < 2) return false;
    try {
      await open(location.hash.slice(1));
      await run();
    } catch (error) {
      fail(error.message);
    }
    return true;
  }

  async function copy(text, told) {
    try {
      await navigator.clipboard.writeText(text);
      say(told);
    } catch (error) {
      area.select();
      say("The browser doesn't let the page copy: the script is selected, so copy it yourself.");
    }
  }

  async function copyLink() {
    const here = location.href.split("#")[0];
    const link = `${here}#${await benchPage.pack(area.value)}`;
    await copy(link, "The link is copied. Who runs the page too pastes it in the place of the script, and runs it.");
  }

  /* A frame's fate ------------------------------------------------------------------------------------------------- */

  /* Later, since the key that asked would otherwise choose in the menu. */
  function askFate(frame, entry) {
    const row = document.activeElement.closest(".frame") || at("ladder");
    setTimeout(() => menu.open(frame, entry, row));
  }

  function choose(frame, entry, fate) {
    if (area.value !== state.base) {
      say("The script was changed since this run: run it first, then choose the frame.");
      return;
    }
    const script = benchPage.withFate(state.script, state.data.entries, entry, frame, fate);
    const added = script.split("\n").length - state.script.split("\n").length;
    state.focus = { entry: state.data.entries.indexOf(entry) + added, frame: entry.frames.indexOf(frame) };
    editor.set(script);
    run();
  }

  /* Behind the next run the focus is on the frame that was chosen. */
  function focusAgain() {
    const { entry, frame } = state.focus;
    state.focus = null;
    const section = at("ladder").querySelectorAll(".entry")[entry];
    const row = section && section.querySelectorAll(".piece .frame")[frame];
    if (row && row.tabIndex === 0) row.focus({ preventScroll: false });
  }

  /* Saving, and a saved file --------------------------------------------------------------------------------------- */

  async function save() {
    say("The file is made ..");
    try {
      if (!area.value.trim()) throw new Error("The script is empty: there is nothing to save.");
      const file = await (await ask("save", { script: area.value })).blob();
      const link = make("a", "");
      Object.assign(link, { href: URL.createObjectURL(file), download: "nfc-page.html" });
      link.click();
      setTimeout(() => URL.revokeObjectURL(link.href), 60000);
      say("The file is saved: it shows this script and its runs without a server.");
    } catch (error) {
      say(error.message);
    }
  }

  async function showSaved() {
    for (const id of ["choose", "run", "form", "link", "save"]) at(id).hidden = true;
    at("intro").textContent = "A saved script and its runs. Nothing is run here; the script can be read and copied.";
    const all = await benchPage.opened(saved);
    area.readOnly = true;
    editor.set(all.script);
    Object.assign(state, { base: all.script, baseShown: await benchPage.opened(all.shown) });
    if (all.left_out) say(all.left_out);
    if (state.baseShown) present(all.script, state.baseShown);
    else at("result").replaceChildren(make("p", "", all.left_out));
    if (!all.slide) return;
    slider.begin(all.slide.head);
    all.slide.rows.forEach((row, index) => slider.add({ ...row, shown: all.slides[index] }));
    slider.end();
  }

  /* Examples, and the beginning ------------------------------------------------------------------------------------ */

  /* What to look at: a paragraph for what the example is, one for the rest. Between grave accents is code. */
  function paragraphs(about) {
    return about.join(" ").split(/ (?=Look at: )/).map((text) => {
      const made = make("p", "");
      text.split("`").forEach((part, index) => made.append(index % 2 ? make("code", "", part) : part));
      return made;
    });
  }

  function showExample(example) {
    at("about").replaceChildren(...paragraphs(example.about));
    at("about").hidden = false;
    editor.set(example.script);
    run();
  }

  async function offerExamples() {
    const examples = await (await answered("examples")).json();
    const first = make("option", "", "choose one ..");
    first.value = "";
    at("example").replaceChildren(first, ...examples.map((example) => make("option", "", example.name)));
    at("example").addEventListener("change", () => {
      const chosen = examples.find((example) => example.name === at("example").value);
      if (chosen) showExample(chosen);
    });
  }

  /* What is to be told before anything is run: that the program isn't built, and how it is. */
  async function tellProgram() {
    const { note } = await (await answered("program")).json();
    at("program").textContent = sentence(note || "");
    at("program").hidden = !note;
  }

  function onEdit() {
    at("about").hidden = true;
    at("example").value = "";
  }

  /* Past the frames, of which there may be many. */
  function goTo(element) {
    element.focus();
    element.scrollIntoView({ block: "nearest" });
  }

  function listen() {
    area.addEventListener("input", onEdit);
    area.addEventListener("keydown", (event) => {
      if (event.key === "Enter" && (event.ctrlKey || event.metaKey) && !saved) run();
    });
    at("run").addEventListener("click", run);
    at("save").addEventListener("click", save);
    at("copy").addEventListener("click", () => copy(area.value, "The script is copied."));
    at("link").addEventListener("click", copyLink);
    if (!saved) window.addEventListener("hashchange", openAddress);
    for (const skip of document.querySelectorAll(".skip")) {
      skip.addEventListener("click", () => goTo(at(skip.dataset.to)));
    }
    window.addEventListener("beforeprint", () => { at("printed").textContent = area.value; });
  }

  async function start() {
    listen();
    if (saved) return showSaved();
    await tellProgram();
    await offerExamples();
    if (await openAddress()) return undefined;
    editor.set(FIRST);
    await run();
    return undefined;
  }

  start().catch((error) => fail(error.message));
})();
