// The editor: takes examples, asks for answers, and keeps source and script in a link.

const examples = JSON.parse(document.querySelector("#examples").textContent);
const names = ["source", "script", "turns", "state", "answer"];
const [source, script, turns, state, answer] = names.map(name => document.getElementById(name));

/** Asks the programs about what stands in the editor, and shows what they say. */
async function ask(mode) {
  const [scriptBytes, sourceBytes] = [script.value, source.value].map(text => new TextEncoder().encode(text));
  const words = new URLSearchParams({ mode, turns: turns.value || "0", script: scriptBytes.length });
  state.textContent = "running …";
  try {
    const headers = { "Content-Type": "application/octet-stream" };
    const told = await fetch(`/answer?${words}`, { method: "POST", body: new Blob([scriptBytes, sourceBytes]), headers });
    const text = await told.text();
    state.textContent = told.ok ? "" : text;
    if (!told.ok) return;
    // (all of it is escaped where it is made, and the policy of the page runs no script but this one)
    answer.innerHTML = text;
    const shown = answer.querySelector(".answer");
    if (shown) follow(shown);
    answer.scrollIntoView({ block: "start" });
  } catch (error) {
    state.textContent = `There was no answer: ${error.message}. Is tools/page --listen still running?`;
  }
}

/** Puts a source and its script into the editor. */
function take(texts) {
  source.value = texts.source ?? "";
  script.value = texts.script ?? "";
}

/** What stands in a link's fragment. */
function takeFragment() {
  const said = new URLSearchParams(location.hash.slice(1));
  if (!said.has("source")) return false;
  take(Object.fromEntries(said));
  turns.value = said.get("turns") ?? "1000000";
  return true;
}

async function link() {
  location.hash = new URLSearchParams({ source: source.value, script: script.value, turns: turns.value });
  try {
    await navigator.clipboard.writeText(location.href);
    state.textContent = "The link is copied, and stands in the address of this page.";
  } catch {
    state.textContent = "The link stands in the address of this page.";
  }
}

document.querySelector("form").addEventListener("submit", event => {
  event.preventDefault();
  ask(event.submitter?.dataset.mode ?? "run");
});
source.form.addEventListener("keydown", event => {
  if (event.key === "Enter" && (event.ctrlKey || event.metaKey)) ask("run");
});
document.querySelector("#link").addEventListener("click", link);
addEventListener("hashchange", takeFragment);
for (const button of document.querySelectorAll("[data-example]")) {
  button.addEventListener("click", () => {
    take(examples[button.dataset.example]);
    ask("run");
  });
}
if (!takeFragment()) take(examples[document.querySelector("[data-example]").dataset.example]);
