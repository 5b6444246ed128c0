"use strict";
// What a job says that the core has taken: its subdevices, and the lines of its session. Runs in the worker and in the page.

/** A subdevice: what its channels have, and how a word of the board is a level. */
class Sub {
  constructor(number, kind, channels) {
    Object.assign(this, { number, kind, channels, bits: 1, munge: ["none"], ranges: [], buffer: 0, own: {} });
  }

  /** The same from plain data, as the worker sends it. */
  static from(data) {
    return Object.assign(new Sub(), data);
  }

  take(words) {
    const [key, ...rest] = words;
    if (key === "bits") this.bits = +rest[0];
    else if (key === "munge") this.munge = rest;
    else if (key === "buffer") this.buffer = +rest[0];
    else if (key === "range") this.ranges.push(rest.map(Number));
    else if (key === "chan") this.takeOwn((this.own[rest[0]] ??= {}), rest[1], rest.slice(2));
  }

  takeOwn(own, key, rest) {
    if (key === "bits") own.bits = +rest[0];
    else if (key === "munge") own.munge = rest;
    else (own.ranges ??= []).push(rest.map(Number));
  }

  get isOutput() {
    return this.kind === "ao" || this.kind === "do";
  }

  bitsOf(channel) {
    return this.own[channel]?.bits ?? this.bits;
  }

  rangeOf(channel, number) {
    return (this.own[channel]?.ranges ?? this.ranges)[number];
  }

  /** The unit of a channel's values. A channel of one bit has none: its values are 0 and 1. */
  unitOf(channel, number) {
    return this.bitsOf(channel) === 1 ? "" : ["V", "mA", ""][this.rangeOf(channel, number)[2]];
  }

  codeOfWord(channel, word) {
    const [name, shift] = this.own[channel]?.munge ?? this.munge;
    if (name === "offset") return word ^ (1 << (this.bitsOf(channel) - 1));
    if (name === "swap16") return ((word & 255) << 8) | (word >> 8);
    return name === "left" ? Math.floor(word / 2 ** +shift) : word;
  }

  /** The level of a code in micro-units: MIN + c * (MAX - MIN) / (2^K - 1), rounded down. */
  levelOfCode(channel, number, code) {
    const [low, high] = this.rangeOf(channel, number);
    const most = 2 ** this.bitsOf(channel) - 1;
    const span = code * (high - low);
    return low + (span < 2 ** 53 ? Math.floor(span / most) : Number((BigInt(code) * BigInt(high - low)) / BigInt(most)));
  }

  /** The value that is shown for a code: in micro-units, and of a channel of one bit 0 or 1. */
  valueOfCode(channel, number, code) {
    return this.bitsOf(channel) === 1 ? code * 1e6 : this.levelOfCode(channel, number, code);
  }

  valueOfWord(channel, number, word) {
    return this.valueOfCode(channel, number, this.codeOfWord(channel, word));
  }
}

/** The words of a line, or none where it is empty or a comment. */
function wordsOf(line) {
  const words = line.trim().split(/\s+/);
  return words[0] === "" || words[0].startsWith("#") ? [] : words;
}

/** A job's subdevices, the text before its session with the line `session`, and the words of its session's lines. */
function jobOf(text) {
  const job = { subs: [], head: "", lines: [], rows: [] };
  const rows = text.split("\n");
  let part = "board";
  for (const [at, row] of rows.entries()) {
    const words = wordsOf(row);
    if (words.length === 0) continue;
    if (part === "session") job.lines.push(words) && job.rows.push(at + 1);
    else if (words[0] === "session") [part, job.head] = ["session", rows.slice(0, at).join("\n") + "\n"];
    else if (words[0] === "signals") part = "signals";
    else if (part === "board" && words[0] === "subdevice") job.subs.push(new Sub(job.subs.length, words[1], +words[2]));
    else if (part === "board" && job.subs.length) job.subs.at(-1).take(words);
  }
  return job;
}

/** A command: its subdevice, its list as pairs of channel and range, and its words. */
function commandOf(words) {
  const entries = words[7] === "-" ? [] : words[7].split(",");
  return { sub: +words[0], list: entries.map((entry) => entry.split("/").slice(0, 2).map(Number)), words };
}

/** The lines of a session with their answers. */
function* turnsOf(lines, answer) {
  let at = 0;
  for (const [number, words] of lines.entries()) {
    const outs = [];
    while (answer[at]?.startsWith("out ")) outs.push(answer[at++].split(" ").slice(1).map(Number));
    const reply = (answer[at++] ?? "").split(" ");
    if (words[1] === "read" && reply[0] === "ok") at += +reply[1];
    yield { number, time: +words[0], key: words[1], file: words[2], sub: +words[3], words, outs, reply };
  }
}
