/* The menu of a frame: what becomes of it. Arrow keys go through it, Enter chooses, Escape leaves.

   benchPage.menu(element, choose) gives { open, close }.
     choose  function (frame, entry, fate) */

(() => {
  "use strict";

  const FATES = [
    ["pass", "Let it pass"],
    ["damage", "Damage it"],
    ["lose", "Lose it"],
    ["break", "Break off: the field goes dark"],
  ];

  function items(view, frame, entry) {
    return FATES.map(([fate, text]) => {
      const item = document.createElement("button");
      item.textContent = `${frame.fate === fate ? "● " : ""}${text}`;
      Object.assign(item, { type: "button", tabIndex: -1 });
      item.setAttribute("role", "menuitem");
      item.dataset.fate = fate;
      item.addEventListener("click", () => {
        close(view);
        view.choose(frame, entry, fate);
      });
      return item;
    });
  }

  /* Beneath the row of the frame, or above it where there is no room. */
  function place({ element, back }) {
    const box = back.getBoundingClientRect();
    const left = Math.min(box.left + 40, document.documentElement.clientWidth - element.offsetWidth - 4);
    const isBelow = box.bottom + element.offsetHeight <= innerHeight;
    const top = isBelow ? box.bottom : Math.max(0, box.top - element.offsetHeight);
    element.style.left = `${Math.max(4, left) + scrollX}px`;
    element.style.top = `${top + scrollY}px`;
  }

  function open(view, frame, entry, row) {
    view.back = row;
    view.element.replaceChildren(...items(view, frame, entry));
    view.element.hidden = false;
    place(view);
    const first = FATES.findIndex(([fate]) => fate === frame.fate);
    view.element.children[Math.max(0, first)].focus({ preventScroll: true });
  }

  function close(view) {
    view.element.hidden = true;
    view.element.replaceChildren();
  }

  function leave(view) {
    close(view);
    view.back.focus({ preventScroll: true });
  }

  function onKey(view, event) {
    const choices = [...view.element.children];
    const here = choices.indexOf(document.activeElement);
    const steps = { ArrowDown: here + 1, ArrowUp: here - 1, Home: 0, End: -1 };
    if (event.key in steps) choices.at(steps[event.key] % choices.length).focus();
    else if (event.key === "Escape" || event.key === "Tab") leave(view);
    else return;
    event.preventDefault();
  }

  benchPage.menu = (element, choose) => {
    const view = { element, choose, back: element };
    element.addEventListener("keydown", (event) => onKey(view, event));
    document.addEventListener("pointerdown", (event) => {
      if (!element.contains(event.target)) close(view);
    });
    return { open: (frame, entry, row) => open(view, frame, entry, row), close: () => close(view) };
  };
})();
