// Loads the page anew every two seconds and makes this one as it is. What is alike stays, so that nothing that is scrolled,
// focused or heard begins anew; while text is selected all of it stays.
"use strict";
const EVERY = 2000, PATIENCE = 10000;
const parts = ["state", "main", "foot"];
let answered = new Date(), isHeld = false;

addEventListener("pointerdown", () => { isHeld = true; });
for (const end of ["pointerup", "pointercancel"]) addEventListener(end, () => { isHeld = false; });

function isSelecting() {
  const selection = getSelection();
  return isHeld || (!selection.isCollapsed && selection.containsNode(document.getElementById("main"), true));
}

function become(node, wanted) {
  if (node.isEqualNode(wanted)) return;
  if (node.nodeType !== Node.ELEMENT_NODE || node.nodeName !== wanted.nodeName) {
    node.replaceWith(wanted);
    return;
  }
  for (const { name } of [...node.attributes]) if (!wanted.hasAttribute(name)) node.removeAttribute(name);
  for (const { name, value } of [...wanted.attributes]) node.setAttribute(name, value);
  const before = [...node.childNodes], after = [...wanted.childNodes];
  after.forEach((child, place) => (place < before.length ? become(before[place], child) : node.append(child)));
  before.slice(after.length).forEach((child) => child.remove());
}

// Beside the state, in sight wherever the page is scrolled to; nothing where the page is of now.
function say(text) {
  const renewal = document.getElementById("renewal");
  if (renewal.textContent !== text) renewal.textContent = text;
  document.getElementById("main").classList.toggle("old", text.startsWith("no answer"));
}

async function renew() {
  if (document.hidden) return;
  if (isSelecting()) {
    say("stands still while text is selected");
    return;
  }
  let page;
  try {
    const answer = await fetch(location.href, { cache: "no-store", signal: AbortSignal.timeout(PATIENCE) });
    if (!answer.ok) throw new Error(answer.status);
    page = new DOMParser().parseFromString(await answer.text(), "text/html");
  } catch {
    say(`no answer: what is below is of ${answered.toISOString().slice(11, 19)} UTC`);
    return;
  }
  answered = new Date();
  if (isSelecting()) return;
  for (const id of parts) become(document.getElementById(id), page.getElementById(id));
  say("");
}

async function go() {
  for (;;) {
    await new Promise((done) => { setTimeout(done, EVERY); });
    await renew();
  }
}

go();
