"use strict";
// The page: a job is given to the proved core at each change, and what it answers is shown and drawn.

const $ = (id) => document.getElementById(id);
const LONGEST_SHOWN = 60000;
const STATE = { core: null, editor: null, view: null, planner: null, turn: 0, done: null };

function moduleCode() {
  return Uint8Array.from(atob(CORE), (it) => it.charCodeAt(0));
}

/** Shows a bar and a button while the core works longer than a moment. */
function busy(count) {
  clearTimeout(busy.later);
  if (count === 0) return void ($("busy").hidden = true);
  busy.later = setTimeout(() => ($("busy").hidden = false), 200);
}

/** Gives the job to the core, and shows what comes. Of several runs the last one is shown. */
async function run() {
  const turn = ++STATE.turn;
  const [command, text] = [$("command").value, STATE.editor.text];
  STATE.core.clear();
  try {
    const result = await STATE.core.ask("run", { command, text });
    if (turn === STATE.turn) show(command, text, result);
  } catch (error) {
    if (turn === STATE.turn && error.message !== CLEARED) showFailure(error.message);
  }
  if (turn === STATE.turn) STATE.done = turn;
}

/** Shows that there is no answer: the run was stopped, or the core can't go on. */
function showFailure(why) {
  STATE.editor.clear();
  const said = why === "stopped" ? "Stopped: there is no answer." : "The core can't go on: " + why + ".";
  showStatus(said, "bad");
  $("answer").replaceChildren();
  showPicture(null, said);
}

function showStatus(text, className) {
  $("status").textContent = text;
  $("status").className = className;
}

function show(command, text, result) {
  STATE.editor.clear();
  showStatus(statusOf(result), result.status ? "bad" : "ok");
  showAnswer(result.text);
  if (result.status === 1) markRefused(text, result.text);
  else if (result.status === 0 && result.job && command !== "expand") markErrors(result.job, command, result.text);
  const [shown, note] = pictureOf(command, result);
  showPicture(shown, note);
  if (result.picture && !result.picture.fault) STATE.planner.take(result.picture);
}

function markRefused(text, answer) {
  const [, number, cause] = /^refused (\d+) (\w+)/.exec(answer);
  const row = +number;
  const lines = text.split("\n");
  const box = refusalBox(cause, row ? lines[row - 1] : undefined);
  STATE.editor.mark(row || 1, "refused", box);
  if (cause === "Bad") testBelow(box, lines.slice(0, row), lines[row - 1]);
  if (row) STATE.editor.reveal(row);
}

/** Says below a line with a command, the last of some, what the core's command test says of it. */
async function testBelow(box, lines, line) {
  const command = calledCommand(wordsOf(line));
  const head = lines.slice(0, lines.findIndex((it) => wordsOf(it)[0] === "session")).join("\n");
  if (!command || !head) return;
  const said = await STATE.core.ask("answer", { command: "test", text: head + "\nsession\ntest " + command + "\n" }).catch(() => null);
  const paragraph = said?.status === 0 ? stepParagraph(said.text) : null;
  if (!paragraph) return;
  box.append(paragraph);
  STATE.editor.mirror.refresh();
}

/** Marks the lines of a session that were answered `err`; what that means stands below the first of each number, and below each command. */
function markErrors(job, command, answer) {
  const seen = new Set();
  const lines = STATE.editor.text.split("\n");
  if (command === "test") return;
  for (const { number, words, reply } of turnsOf(job.lines, answer.split("\n"))) {
    if (reply[0] !== "err") continue;
    const box = seen.has(reply[1]) && words[1] !== "cmd" ? null : errorBox(reply[1]);
    const row = job.rows[number];
    STATE.editor.mark(row, "erred", box);
    if (words[1] === "cmd") testBelow(box, lines.slice(0, row), lines[row - 1]);
    seen.add(reply[1]);
  }
}

function showAnswer(text) {
  const lines = text.split("\n").length - 1;
  $("size").textContent = grouped(lines) + (lines === 1 ? " line" : " lines");
  const head = text.length > LONGEST_SHOWN ? text.slice(0, text.lastIndexOf("\n", LONGEST_SHOWN) + 1) : text;
  const parts = head.split(/^((?:refused|err) .*)$/m).map((part, at) => (at % 2 ? elementOf("b", "", part) : part));
  const more = lines - (head.split("\n").length - 1);
  $("answer").replaceChildren(...parts, ...(more ? [elementOf("em", "", "… and " + grouped(more) + " lines more")] : []));
}

/** What is drawn, or why nothing is. */
function pictureOf(command, { status, job, picture }) {
  if (status === 1) return [null, "The job is refused. The line is marked in the editor."];
  if (status) return [null, "There is no answer: " + ENDINGS[status] + "."];
  if (command === "test") return [null, "A test has no samples: its answer says at which step each command fails, and what the board would take."];
  if (picture.fault) return [null, picture.fault];
  const shown = showing(job, picture);
  return shown.lanes.length || shown.rows.length ? [shown, null] : [null, "Nothing is sampled or put out."];
}

function showPicture(shown, note) {
  $("note").hidden = !note;
  $("note").textContent = note ?? "";
  $("csv").disabled = !shown?.lanes.length;
  $("whole").disabled = !shown;
  $("canvas").tabIndex = shown ? 0 : -1;
  $("picture").classList.toggle("empty", !shown);
  const acts = shown?.picture.fills.some((fill) => shown.picture.runs[fill.run].acts.length);
  $("legend").textContent = !shown ? "" : "Wheel or + −: zoom. Drag or Shift ← →: move. ← →: read." + (acts ? " ▴: the client reads or writes." : "");
  $("picture").style.setProperty("--least", shown ? shown.lanes.length * 30 + shown.rows.length * 60 + 60 + "px" : "0px");
  STATE.view.show(shown);
}

/** Puts a job into the editor, and runs it. */
function load(command, text) {
  $("command").value = command;
  STATE.editor.text = text;
  return run();
}

function save(name, type, text) {
  const link = elementOf("a", "");
  link.href = URL.createObjectURL(new Blob([text], { type }));
  link.download = name;
  link.click();
  setTimeout(() => URL.revokeObjectURL(link.href), 1000);
}

async function share() {
  const fragment = await fragmentOf($("command").value, STATE.editor.text);
  history.replaceState(null, "", "#" + fragment);
  let said = "The address of this page holds the whole job now.";
  try {
    await navigator.clipboard.writeText(location.href);
    said += " It is copied.";
  } catch {
    // The clipboard may be closed to pages; the address stands in the browser's bar.
  }
  showStatus(said, "ok");
}

/** The choice of examples and of boards, of which one is chosen at a time. */
function fillChoices() {
  const choices = [["example", EXAMPLES], ["board", BOARDS]];
  for (const [id, items] of choices) {
    $(id).append(new Option("choose …", ""), ...items.map(({ name }) => new Option(name.replaceAll("_", " "), name)));
    $(id).addEventListener("change", () => {
      const item = items.find(({ name }) => name === $(id).value);
      if (!item) return;
      for (const [other] of choices) if (other !== id) $(other).value = "";
      load(item.command, item.job);
    });
  }
}

function choose(name) {
  const isExample = EXAMPLES.some((item) => item.name === name);
  $("example").value = isExample ? name : "";
  $("board").value = isExample ? "" : name;
  const item = [...EXAMPLES, ...BOARDS].find((it) => it.name === name);
  return load(item.command, item.job);
}

function unchoose() {
  $("example").value = $("board").value = "";
}

function listen() {
  $("command").addEventListener("change", run);
  $("whole").addEventListener("click", () => STATE.view.whole());
  $("csv").addEventListener("click", () => save("samples.csv", "text/csv", tableOf(STATE.view.shown.lanes)));
  $("share").addEventListener("click", share);
  $("stop").addEventListener("click", () => STATE.core.stop());
  window.addEventListener("hashchange", () => start());
}

/** Loads the job of the page's address, or an example. */
async function start() {
  const linked = await jobOfFragment(location.hash);
  if (!linked) return choose("scan_with_overrun");
  unchoose();
  return load(linked.command, linked.text);
}

/** Begins where the browser can take the core. What is said where it can't stands in index.html. */
function begin() {
  const code = moduleCode();
  new WebAssembly.Module(code);
  STATE.core = new Core(code, busy);
  STATE.editor = new Editor($("editor"), () => (unchoose(), run()));
  STATE.view = new View($("canvas"), $("tip"), (from, to) => STATE.core.ask("fills", { from, to }).catch(() => null));
  STATE.planner = new Planner(STATE.core, (command, text) => (unchoose(), load(command, text)));
  fillChoices();
  listen();
  document.body.classList.add("begun");
  return start();
}

try {
  begin();
} catch (error) {
  $("sorry-why").textContent = " (" + error.message + ")";
}
