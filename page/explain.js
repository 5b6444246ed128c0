"use strict";
// What is said of a refused line and of an answer `err`: the tables of docs/REFUSALS.md and the forms of docs/FORMATS.md,
// which stand in data.js.

const ENDINGS = ["done", "refused", "no such command", "read fault", "the answer is too long", "no memory"];

/** The word that says what a line is: its first, of a line of a session its second, of `insn` its kind too. */
function keyOf(words) {
  if (words.length > 1 && /^[-+]?\d/.test(words[0])) return words[1] === "insn" ? ["insn", ...words.slice(4, 5)].join(" ") : words[1];
  return words[0] ?? "";
}

function elementOf(name, className, ...parts) {
  const made = document.createElement(name);
  if (className) made.className = className;
  made.append(...parts);
  return made;
}

/** A text of a document, in which words between backquotes are code and links are their texts. */
function saidOf(text) {
  const bare = text.replace(/\[([^\]]*)\]\([^)]*\)/g, "$1");
  const parts = bare.split("`").map((part, at) => (at % 2 ? elementOf("code", "", part) : part));
  return elementOf("span", "", ...parts);
}

/** How alike two lines are: how many words they share at the same place, from the start and from the end. */
function likeness(words, line) {
  const others = wordsOf(line);
  const same = words.filter((word, at) => word === others[at]).length;
  return same + (words.length === others.length ? 1 : 0);
}

/** The rows of REFUSALS.md for a line that was refused: of the same cause and the same kind of line, the likest first. */
function rowsOf(cause, words) {
  const key = keyOf(words);
  const fits = REFUSALS.rows.filter((row) => row.cause === cause && row.keys.includes(key));
  const rank = (row) => likeness(words, row.line) + likeness(words, row.repaired);
  return fits.sort((a, b) => rank(b) - rank(a)).slice(0, 3);
}

/** The forms of a line of this kind. */
function formsOf(words) {
  const key = keyOf(words);
  return REFUSALS.forms.filter((form) => form.key === key).slice(0, 3);
}

/** A list with what stands above it. */
function listOf(head, items) {
  return [elementOf("p", "", head), elementOf("ul", "", ...items.map((parts) => elementOf("li", "", ...parts)))];
}

/** The rules of a block that such a cause may mean, where the line after a block is refused. */
function rulesOf(cause, words) {
  return ["subdevice", "signals"].includes(words[0]) ? REFUSALS.rules.filter((rule) => rule.cause === cause) : [];
}

/** What is said below a refused line: its cause, its form, the rules of the block above it, and rows of repairs. */
function refusalBox(cause, line) {
  const words = line === undefined ? [] : wordsOf(line);
  const [what, reason] = REFUSALS.causes[cause];
  const box = elementOf("div", "said", elementOf("p", "", elementOf("b", "", cause), ": ", saidOf(what), ". Often: ", saidOf(reason), "."));
  for (const { form, says } of formsOf(words)) box.append(elementOf("p", "", "Form: ", elementOf("code", "", form), ": ", saidOf(says)));
  const rules = rulesOf(cause, words).map((rule) => [saidOf(rule.what), ": ", saidOf(rule.mend)]);
  if (rules.length) box.append(...listOf("The line itself may be good, and the block above it break a rule:", rules));
  const rows = rowsOf(cause, words).map((row) => {
    const repaired = row.repaired === row.line ? [] : [" → ", elementOf("code", "good", row.repaired)];
    return [saidOf(row.what), ": ", elementOf("code", "wrong", row.line), ...repaired];
  });
  if (rows.length) box.append(...listOf("Known repairs:", rows));
  return box;
}

/** The words of the command that a line calls, or null. */
function calledCommand(words) {
  const at = { expand: 2, test: 1 }[words[0]] ?? (words[1] === "cmd" ? 3 : 0);
  return at && words.length === at + 8 ? words.slice(at).join(" ") : null;
}

/** What the core's command test says of a command, as a paragraph: the step that fails, and what the board would take. */
function stepParagraph(text) {
  const [, step, command] = /^step (\d) (.*)/.exec(text) ?? [];
  if (!REFUSALS.steps[step]) return null;
  const [name, what, mend] = REFUSALS.steps[step];
  return elementOf("p", "", elementOf("b", "", "step " + step + ", " + name), ": ", saidOf(what), ". The answer: ", elementOf("code", "", command), ". ",
    elementOf("i", "", "Repair: "), saidOf(mend), ".");
}

/** What is said of an answer `err NUMBER` of a line. */
function errorBox(number) {
  const [name, what, mend] = REFUSALS.errors[number] ?? ["", "", ""];
  return elementOf("div", "said mild", elementOf("p", "", elementOf("b", "", "err " + number + " " + name), ": ", saidOf(what), ". ", elementOf("i", "", "Repair: "), saidOf(mend), "."));
}

/** The status of an answer in one sentence. */
function statusOf({ status, text, took }) {
  const refused = status === 1 && /^refused (\d+) (\w+)/.exec(text);
  if (refused) return "Refused " + (+refused[1] ? "at line " + refused[1] : "as a whole") + ": " + refused[2] + ".";
  const lines = text.split("\n").length - 1;
  const ending = ENDINGS[status];
  return ending[0].toUpperCase() + ending.slice(1) + ": " + grouped(lines) + (lines === 1 ? " line" : " lines") + " of answer, status " + status + ", " + took.toFixed(took < 10 ? 1 : 0) + " ms.";
}
