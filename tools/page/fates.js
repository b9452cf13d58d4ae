/* Which letter of which `fates` line a transmission takes, and the script in which it takes another one.

   Fates stand in one queue: each transmission takes the first that is left, and passes where none is left. What a
   command doesn't take goes on into the next ones. So the letter of a frame is found by counting, from the first line
   on, what the lines appended and what the entries took. */

const benchPage = {};

(() => {
  "use strict";

  const LETTERS = { pass: "P", damage: "D", lose: "L", break: "B" };
  const BEGIN = "fates ";
  const MOST_LETTERS = 4000;

  const isFates = (line) => /^fates [PDLB]+$/.test(line);

  /* The frames of an entry that took a fate: all but the resets. */
  const transmissions = (entry) => entry.frames.filter((frame) => frame.mark !== "!");

  /* The letters that wait when the line of this number begins, each with the index of its line and its place there. */
  function waiting(lines, entries, number) {
    const counts = new Map(entries.map((entry) => [Number(entry.line), transmissions(entry).length]));
    const queue = [];
    let taken = 0;
    lines.slice(0, number - 1).forEach((line, index) => {
      if (isFates(line)) {
        for (let at = BEGIN.length; at < line.length; at += 1) queue.push({ index, at });
      }
      taken = Math.min(queue.length, taken + (counts.get(index + 1) || 0));
    });
    return queue.slice(taken);
  }

  /* Without these letters; a line that loses all of them is empty, so that the lines keep their numbers. */
  function without(lines, letters) {
    const gone = new Set(letters.map(({ index, at }) => `${index} ${at}`));
    return lines.map((line, index) => {
      if (!letters.some((letter) => letter.index === index)) return line;
      const kept = [...line].filter((_, at) => !gone.has(`${index} ${at}`)).join("");
      return kept === BEGIN ? "" : kept;
    });
  }

  /* A letter that is there takes the other's place. Behind a Break nothing of the command is sent: the letters that it
     took there go, or they would come to later commands. */
  function replaced(lines, queue, place, letter, took) {
    const { index, at } = queue[place];
    const changed = [...lines];
    changed[index] = changed[index].slice(0, at) + letter + changed[index].slice(at + 1);
    return letter === "B" ? without(changed, queue.slice(place + 1, took)) : changed;
  }

  /* Letters behind all that wait: at the end of a `fates` line right before the command, or on lines of their own. */
  function appended(lines, number, letters) {
    const before = lines[number - 2];
    const changed = [...lines];
    if (before && isFates(before) && before.length - BEGIN.length + letters.length <= MOST_LETTERS) {
      changed[number - 2] = before + letters;
      return changed;
    }
    const pieces = letters.match(new RegExp(`.{1,${MOST_LETTERS}}`, "g"));
    changed.splice(number - 1, 0, ...pieces.map((piece) => BEGIN + piece));
    return changed;
  }

  /* The script in which this frame of this entry has the fate; `entries` are those of the script's run. */
  benchPage.withFate = (script, entries, entry, frame, fate) => {
    const lines = script.split("\n");
    const number = Number(entry.line);
    const sent = transmissions(entry);
    const place = sent.indexOf(frame);
    const queue = waiting(lines, entries, number);
    if (place < queue.length) return replaced(lines, queue, place, LETTERS[fate], sent.length).join("\n");
    if (fate === "pass") return script;
    return appended(lines, number, "P".repeat(place - queue.length) + LETTERS[fate]).join("\n");
  };
})();

if (typeof module === "object") module.exports = benchPage;
