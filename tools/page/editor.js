/* The script's text with its line numbers, and the mark of a line that is refused.

   benchPage.editor(parts) gives { set, mark, unmark, renew }.
     parts  the elements: { area, numbers, band, reason } */

(() => {
  "use strict";

  const LINE_HEIGHT = 20;
  const PADDING = 6;
  const MOST_NUMBERS = 1001;

  function renew(parts) {
    const count = parts.area.value.split("\n").length;
    const numbers = Array.from({ length: Math.min(count, MOST_NUMBERS) }, (_, index) => index + 1);
    parts.numbers.textContent = numbers.join("\n") + (count > MOST_NUMBERS ? "\n.." : "");
    follow(parts);
  }

  /* The numbers and the mark go with the text where it is scrolled. The reason stands beneath its line, or above it
     where there is no room. */
  function follow({ area, numbers, band, reason }) {
    numbers.scrollTop = area.scrollTop;
    if (band.hidden) return;
    const top = PADDING + (Number(band.dataset.line) - 1) * LINE_HEIGHT - area.scrollTop;
    band.style.top = `${top}px`;
    const isLow = top + LINE_HEIGHT + reason.offsetHeight > area.clientHeight;
    reason.style.top = isLow ? "auto" : `${top + LINE_HEIGHT + 2}px`;
    reason.style.bottom = isLow ? `${area.offsetHeight - top + 2}px` : "auto";
  }

  function unmark({ area, band, reason }) {
    band.hidden = true;
    reason.hidden = true;
    reason.textContent = "";
    area.removeAttribute("aria-invalid");
  }

  function mark(parts, refused) {
    const { area, band, reason } = parts;
    band.dataset.line = refused.line;
    band.hidden = false;
    const expected = refused.expected ? `\nExpected: ${refused.expected}` : "";
    reason.textContent = `✗ Line ${refused.line}: ${refused.reason}${expected}`;
    reason.hidden = false;
    area.setAttribute("aria-invalid", "true");
    area.scrollTop = Math.max(0, PADDING + (refused.line - 1) * LINE_HEIGHT - area.clientHeight / 3);
    follow(parts);
    reason.scrollIntoView({ block: "nearest" });
  }

  function set(parts, script) {
    parts.area.value = script;
    unmark(parts);
    renew(parts);
  }

  benchPage.editor = (parts) => {
    parts.area.addEventListener("scroll", () => follow(parts));
    parts.area.addEventListener("input", () => {
      unmark(parts);
      renew(parts);
    });
    renew(parts);
    return {
      set: (script) => set(parts, script),
      mark: (refused) => mark(parts, refused),
      unmark: () => unmark(parts),
    };
  };
})();
