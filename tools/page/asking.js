/* What is asked of the server, and its answers piece by piece. What it refuses is thrown as its own sentence. */

(() => {
  "use strict";

  const MOST_BYTES = 1000000;
  const TOO_LONG = "The script is too long: at most 1,000,000 bytes are sent.";

  /* A text of the server as a sentence: a capital letter and a full stop. */
  function sentence(text) {
    const trimmed = text.trim();
    const stop = /[.!?:]$/.test(trimmed) || !trimmed ? "" : ".";
    return trimmed.charAt(0).toUpperCase() + trimmed.slice(1) + stop;
  }

  async function answered(word, options) {
    let answer;
    try {
      answer = await fetch(word, options);
    } catch (error) {
      if (error.name === "AbortError") throw error;
      throw new Error("The server doesn't answer: is `nfc.py page` still running?");
    }
    if (!answer.ok) throw new Error(sentence(await answer.text()) || `The server refused this, by ${answer.status}.`);
    return answer;
  }

  async function ask(word, given, signal) {
    const body = JSON.stringify(given);
    if (new Blob([body]).size > MOST_BYTES) throw new Error(TOO_LONG);
    const headers = { "Content-Type": "application/json" };
    return answered(word, { method: "POST", headers, body, signal });
  }

  async function eachPiece(answer, take) {
    const reader = answer.body.pipeThrough(new TextDecoderStream()).getReader();
    for (let next = await reader.read(); !next.done; next = await reader.read()) take(next.value);
  }

  async function eachLine(answer, take) {
    let rest = "";
    await eachPiece(answer, (piece) => {
      const lines = (rest + piece).split("\n");
      rest = lines.pop();
      lines.filter((line) => line.trim()).forEach((line) => take(JSON.parse(line)));
    });
    if (rest.trim()) take(JSON.parse(rest));
  }

  Object.assign(benchPage, { sentence, answered, ask, eachPiece, eachLine });
})();
