"use strict";
// What runs beside the page, so that a long job stops nothing: it answers jobs, and makes pictures of them.

const CLEARED = "another job came";

/** The worker's own code. A message has the module, or a number with what is asked. */
function work() {
  let module = null;
  let shown = null;
  const ask = (command, text) => answerText(module, COMMANDS.indexOf(command), text);

  function draw(command, text, answer) {
    const job = jobOf(text);
    if (command === "test") return { job, picture: null };
    shown = { job, picture: command === "expand" ? pictureOfExpand(job, answer) : pictureOfSession(job, answer, ask) };
    return shown;
  }

  const does = {
    run({ command, text }) {
      const start = performance.now();
      const answer = ask(command, text);
      const took = performance.now() - start;
      return { ...answer, took, ...(answer.status === 0 ? draw(command, text, answer.text) : {}) };
    },
    answer: ({ command, text }) => ask(command, text),
    fills: ({ from, to }) => fillsOf(shown.job, shown.picture, from, to, ask),
  };

  onmessage = ({ data }) => {
    if (data.code) return void (module = new WebAssembly.Module(data.code));
    try {
      postMessage({ number: data.number, result: does[data.what](data) });
    } catch (error) {
      postMessage({ number: data.number, error: String(error) });
    }
  };
}

/** The text of a worker: the functions that it needs. A page from disk may load no other file into one. */
function workerText() {
  const parts = [
    coreOf, answerBytes, answerText, Sub, wordsOf, jobOf, commandOf, turnsOf,
    takeExpansions, firstFrom, pictureOfExpand, Playing, pictureOfSession, endRun, timesOfFills, fillsOf, switchFills, takeFills,
  ];
  const constants = { COMMANDS, LOSSES };
  const named = Object.entries(constants).map(([name, value]) => "const " + name + " = " + JSON.stringify(value) + ";");
  return ['"use strict";', ...named, ...parts.map(String), "(" + work + ")();"].join("\n");
}

/** The worker, and what was asked of it. */
class Core {
  constructor(code, busy) {
    Object.assign(this, { code, busy, number: 0, waiting: new Map(), url: URL.createObjectURL(new Blob([workerText()], { type: "text/javascript" })) });
    this.start();
  }

  start() {
    this.worker = new Worker(this.url);
    this.worker.onmessage = ({ data }) => this.take(data);
    this.worker.onerror = (event) => this.fail(event.message);
    this.worker.postMessage({ code: this.code });
  }

  take({ number, result, error }) {
    const { resolve, reject } = this.waiting.get(number);
    this.waiting.delete(number);
    this.busy(this.waiting.size);
    if (error === undefined) resolve(result);
    else reject(new Error(error));
  }

  /** Asks the worker, and answers when it has. */
  ask(what, words) {
    return new Promise((resolve, reject) => {
      const number = ++this.number;
      this.waiting.set(number, { resolve, reject });
      this.busy(this.waiting.size);
      this.worker.postMessage({ number, what, ...words });
    });
  }

  /** Ends what is still under way, since another job comes. */
  clear() {
    if (this.waiting.size) this.stop(CLEARED);
  }

  /** Ends all that is under way, and starts a worker anew. */
  stop(why = "stopped") {
    this.worker.terminate();
    this.start();
    this.fail(why);
  }

  fail(why) {
    const waiting = [...this.waiting.values()];
    this.waiting.clear();
    this.busy(0);
    for (const { reject } of waiting) reject(new Error(why));
  }
}
