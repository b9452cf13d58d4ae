/* Texts made short: the script in the address's fragment, and the runs inside a saved file. */

(() => {
  "use strict";

  const BEGIN = "script=";
  const MOST_BYTES = 5000000;

  async function through(stream, bytes, most) {
    const reader = new Blob([bytes]).stream().pipeThrough(stream).getReader();
    const pieces = [];
    let size = 0;
    for (let next = await reader.read(); !next.done; next = await reader.read()) {
      pieces.push(next.value);
      size += next.value.length;
      if (size > most) throw new RangeError("too long");
    }
    return new Uint8Array(await new Blob(pieces).arrayBuffer());
  }

  const characters = (bytes) => Array.from(bytes, (byte) => String.fromCharCode(byte)).join("");

  const bytesOf = (base64) => Uint8Array.from(atob(base64), (character) => character.charCodeAt(0));

  /* The fragment that keeps a script, without its "#". */
  benchPage.pack = async (script) => {
    const bytes = await through(new CompressionStream("deflate-raw"), new TextEncoder().encode(script), Infinity);
    return BEGIN + btoa(characters(bytes)).replace(/\+/g, "-").replace(/\//g, "_").replace(/=+$/, "");
  };

  /* The script that a fragment keeps; it throws where it keeps none. */
  benchPage.unpack = async (fragment) => {
    if (!fragment.startsWith(BEGIN)) throw new SyntaxError("no script");
    const bytes = bytesOf(fragment.slice(BEGIN.length).replace(/-/g, "+").replace(/_/g, "/"));
    const text = await through(new DecompressionStream("deflate-raw"), bytes, MOST_BYTES);
    return new TextDecoder("utf-8", { fatal: true }).decode(text);
  };

  /* A value of a saved file: where it is `{ z }`, what is compressed in it. */
  benchPage.opened = async (value) => {
    if (!value || typeof value.z !== "string") return value;
    const bytes = await through(new DecompressionStream("deflate"), bytesOf(value.z), Infinity);
    return JSON.parse(new TextDecoder().decode(bytes));
  };

  /* The fragment of a link that was pasted in the place of a script, or an empty text. */
  benchPage.linkIn = (text) => {
    const found = /^\s*(?:https?:\/\/\S*?)?#(script=\S+)\s*$/.exec(text);
    return found ? found[1] : "";
  };
})();
