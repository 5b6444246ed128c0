"use strict";
// What a job and its answer show: for each run of a command its conversions, its end and the fill of its buffer. Times
// and words are the core's answer to `expand`, and fills those to `contents`. Runs in the worker; `ask` answers a job.

/** Puts the lines of an answer to `expand` into the runs, one block for each. */
function takeExpansions(text, runs) {
  let start = 0;
  for (const run of runs) {
    const [times, index, words] = [[], [], []];
    while (start < text.length) {
      const end = text.indexOf("\n", start);
      const row = text.slice(start, end);
      start = end + 1;
      if (row === "done" || row === "dry") break;
      const [time, entry, word] = row.split(" ");
      times.push(+time);
      index.push(+entry);
      words.push(+word);
    }
    run.times = Float64Array.from(times);
    run.index = Uint16Array.from(index);
    run.words = Float64Array.from(words);
  }
}

/** The number of the first time that isn't before this one. */
function firstFrom(times, time) {
  let [low, high] = [0, times.length];
  while (low < high) {
    const middle = (low + high) >> 1;
    if (times[middle] < time) low = middle + 1;
    else high = middle;
  }
  return low;
}

/** The picture of the lines of `expand`. */
function pictureOfExpand(job, text) {
  const runs = job.lines.map((words) => {
    const command = commandOf(words.slice(2));
    return { sub: command.sub, command, call: +words[1], outs: [], acts: [] };
  });
  takeExpansions(text, runs);
  for (const run of runs) run.kept = run.times.length;
  return { runs, readings: [], fills: [], last: 0, end: Math.max(1, ...runs.map((run) => run.times.at(-1) ?? run.call)) };
}

const LOSSES = ["overrun", "fifo", "underrun"];

/** A session's runs of commands, what instructions read, and the internal triggers that the session gives. */
class Playing {
  constructor(job) {
    Object.assign(this, { job, runs: [], readings: [], triggers: [], active: {} });
  }

  take(turn) {
    for (const [sub, time, index, word] of turn.outs) this.active[sub]?.outs.push([time, index, word]);
    const run = this.active[turn.sub];
    if (run && LOSSES.includes(turn.reply[2])) run.lost = { kind: turn.reply[2], count: +turn.reply[3] };
    if (run && [...LOSSES, "done", "dry"].includes(turn.reply[2])) delete this.active[turn.sub];
    if (turn.reply[0] === "ok") this.takeDone(turn, run);
  }

  takeDone(turn, run) {
    const { key, time, sub, words } = turn;
    if (key === "cmd") this.start(turn);
    else if (key === "cancel" && run) this.stop(sub, time);
    else if (key === "close") for (const [of, it] of Object.entries(this.active)) it.file === words[2] && this.stop(of, time);
    if (key === "insn" && words[4] === "inttrig") this.triggers.push(["int", sub, time, words[5]].join(" "));
    else if (key === "insn") this.readings.push(...this.readingsOf(turn));
    const acts = ["read", "release", "write", "mark"];
    if (run && acts.includes(key) && +turn.reply[1]) run.acts.push([time, key + " " + turn.reply[1]]);
  }

  start(turn) {
    const command = commandOf(turn.words.slice(3));
    const run = { sub: command.sub, command, call: turn.time, line: turn.number, file: turn.words[2], outs: [], acts: [] };
    this.active[command.sub] = run;
    this.runs.push(run);
  }

  stop(sub, time) {
    this.active[sub].until = time;
    delete this.active[sub];
  }

  /** What an instruction reads of the channels of its subdevice. */
  readingsOf({ sub, time, words, reply }) {
    if (words[4] === "read") {
      const [channel, range] = words[5].split("/").map(Number);
      return reply.slice(2).map((code) => ({ sub, channel, range, time, code: +code }));
    }
    if (words[4] !== "bits") return [];
    const channels = [...Array(Math.min(32, this.job.subs[sub].channels)).keys()];
    return channels.map((channel) => ({ sub, channel, range: 0, time, code: Math.floor(+reply[3] / 2 ** channel) % 2 }));
  }
}

/** The picture of a session and its answer. */
function pictureOfSession(job, text, ask) {
  const playing = new Playing(job);
  for (const turn of turnsOf(job.lines, text.split("\n"))) playing.take(turn);
  const { runs, readings, triggers } = playing;
  const last = job.lines.length ? +job.lines.at(-1)[0] : 0;
  const lines = runs.map((run) => ["expand", run.call, ...run.command.words].join(" "));
  const expanded = runs.length ? ask("expand", job.head + [...triggers, "session", ...lines].join("\n") + "\n") : { status: 0, text: "" };
  if (expanded.status !== 0) return { fault: "There are too many conversions to draw: " + expanded.text };
  takeExpansions(expanded.text, runs);
  for (const run of runs) endRun(run, last);
  const ends = runs.map((run) => run.lost?.time ?? run.times[run.kept - 1] ?? 0);
  const picture = { runs, readings, last, end: Math.max(1, last, ...ends), fills: [] };
  picture.fills = fillsOf(job, picture, 0, picture.end, ask);
  return picture;
}

/** How many conversions of a run are kept, and when the first is that isn't. */
function endRun(run, last) {
  run.kept = run.lost ? run.lost.count : firstFrom(run.times, (run.until ?? last) + 1);
  if (run.lost) run.lost.time = run.times[run.kept];
}

/** The times at which fills are asked: of conversions, and evenly between two times and over the whole session. */
function timesOfFills({ runs, last }, from, to) {
  const times = new Set();
  for (const run of runs) {
    const first = firstFrom(run.times, from);
    const end = Math.min(run.kept, firstFrom(run.times, to + 1));
    const step = Math.max(1, Math.ceil((end - first) / 500));
    for (let at = Math.max(0, first - 1); at < end; at += step) times.add(run.times[at]);
  }
  for (let at = 0; at <= 400; at++) times.add(Math.round(from + ((to - from) * at) / 400)).add(Math.round((last * at) / 400));
  return [...times].filter((time) => time >= 0 && time <= last).sort((a, b) => a - b);
}

/** How full each run's buffer is: the session again, with lines `contents` between its own. */
function fillsOf(job, picture, from, to, ask) {
  const asked = timesOfFills(picture, from, to);
  const [text, wanted, on] = [[], [], new Set()];
  const fills = picture.runs.map((run, number) => ({ run: number, points: [] }));
  const query = (time) => {
    for (const fill of on) {
      const run = picture.runs[fill.run];
      text.push([time, "contents", run.file, run.sub].join(" "));
      wanted.push([fill, time]);
    }
  };
  let at = 0;
  for (const [number, words] of job.lines.entries()) {
    const time = +words[0];
    while (at < asked.length && asked[at] < time) query(asked[at++]);
    query(time);
    text.push(words.join(" "));
    wanted.push(null);
    switchFills(fills, on, picture.runs, number, words);
    query(time);
  }
  return takeFills(fills, text, wanted, ask("replay", job.head + "session\n" + text.join("\n") + "\n"));
}

/** After a line: the fills of the runs that go on. */
function switchFills(fills, on, runs, number, words) {
  for (const fill of fills) {
    const run = runs[fill.run];
    if (run.line === number) {
      for (const other of on) if (runs[other.run].sub === run.sub) on.delete(other);
      on.add(fill);
    }
    if (run.until === +words[0] && ["cancel", "close"].includes(words[1])) on.delete(fill);
  }
}

function takeFills(fills, text, wanted, answered) {
  if (answered.status !== 0) return [];
  const lines = text.map((line) => line.split(" "));
  for (const { number, reply } of turnsOf(lines, answered.text.split("\n"))) {
    if (wanted[number] && reply[0] === "ok") wanted[number][0].points.push([wanted[number][1], +reply[1]]);
  }
  return fills.filter((fill) => fill.points.length);
}
