"use strict";
// The planner: from channels, a rate, a buffer and how often the client comes, the lines of a job. Which of the board's
// triggers and times are taken is asked of the core, by its command test; whether samples are lost is the core's answer.

const MOST_READS = 1000;
const TRIGGERS = [["timer", "timer"], ["timer", "now"], ["follow", "timer"]];

/** The boards with an analog input that takes commands, each with that input. */
function plannedBoards() {
  return BOARDS.flatMap((item) => {
    const sub = jobOf(item.board).subs.find((it) => it.kind === "ai" && it.buffer);
    return sub ? [{ ...item, sub }] : [];
  });
}

/** A board's text with another size of the buffer of one subdevice. */
function withBuffer(board, number, size) {
  let sub = -1;
  const lines = board.split("\n").map((line) => {
    if (line.startsWith("subdevice ")) sub++;
    return sub === number && line.startsWith("buffer ") ? "buffer " + size : line;
  });
  return lines.join("\n");
}

/** The text of a command that is wished for: so many channels in range 0, and a scan each period. */
function wishedCommand({ sub, channels, period }, [scan, convert], scans) {
  const step = Math.floor(period / channels);
  const list = [...Array(channels).keys()].map((channel) => channel + "/0/ground");
  const times = [scan === "timer" ? "timer:" + period : "follow:0", convert === "timer" ? "timer:" + step : "now:0"];
  return [sub.number, 0, "now:0", ...times, "count:" + channels, "count:" + scans, list.join(",")].join(" ");
}

/** How many scans show it: three visits of the client, or the buffer three times, within a bounded number of reads. */
function scansOf({ channels, period, buffer, visit }) {
  const wanted = Math.min((3 * visit) / period, (3 * buffer) / channels);
  return Math.max(1, Math.round(Math.min(wanted, (MOST_READS * visit) / period)));
}

/** The command that the board takes instead of a wish, by the core's test, or null. */
async function acceptedCommand(core, board, plan) {
  for (const triggers of TRIGGERS) {
    let command = wishedCommand(plan, triggers, scansOf(plan));
    for (let turn = 0; turn < 4; turn++) {
      const { status, text } = await core.ask("answer", { command: "test", text: board + "signals 0\nsession\ntest " + command + "\n" });
      const [, step, said] = /^step (\d) (.*)/.exec(status === 0 ? text : "") ?? [];
      if (step === "0") return command;
      if (step !== "3" && step !== "4") break;
      command = said;
    }
  }
  return null;
}

/** The waves at the inputs: a saw, a square, a steady level, and so on, within the range 0. */
function wavesOf({ sub, channels, visit }) {
  const [low, high] = sub.rangeOf(0, 0);
  const [least, most] = [low + Math.round((high - low) / 8), high - Math.round((high - low) / 8)];
  return [...Array(channels).keys()].map((channel) => {
    const period = Math.max(2, 2 * Math.round(visit / (channel + 2)));
    const form = [["saw", least, most, period], ["square", least, most, period], ["const", Math.round((least + 2 * most) / 3)]][channel % 3];
    return ["wave", sub.number, channel, ...form].join(" ");
  });
}

/** The time from scan to scan of a command. */
function periodOf(command, channels) {
  const [scan, convert] = command.split(" ").slice(3, 5).map((word) => word.split(":"));
  return scan[0] === "timer" ? +scan[1] : +convert[1] * channels;
}

/** The whole job of a plan, whose command the board takes. The client comes until the end of the command is reported. */
function plannedJob(plan, board, command) {
  const duration = plan.taken * +command.split(" ")[6].slice("count:".length);
  const visits = Math.min(MOST_READS, Math.ceil(duration / plan.visit));
  const times = [...Array(visits).keys()].map((at) => (at + 1) * plan.visit);
  const last = Math.max(times.at(-1), Math.ceil(duration)) + plan.visit;
  const read = (time) => [time, "read", 1, plan.sub.number, plan.buffer].join(" ");
  const lines = ["0 open 1", "0 cmd 1 " + command, ...times.map(read), read(last), read(last)];
  return [board + "signals " + last, ...wavesOf(plan), "session", ...lines].join("\n") + "\n";
}

/** A time in nanoseconds as people write it. */
function saidTime(time) {
  const [size, unit] = timeUnit(2 * time);
  return plain(+(time / size).toPrecision(6)) + " " + unit;
}

/** What a picture says to the one who plans. */
function verdictOf(picture, plan) {
  const run = picture.runs[0];
  if (!run) return { isBad: true, text: "The board takes no such command." };
  const rate = plan.taken === plan.period ? "" : " The board scans each " + saidTime(plan.taken) + ", not each " + saidTime(plan.period) + ".";
  if (run.lost?.time !== undefined) {
    const text = "Samples are lost at " + saidTime(run.lost.time) + ": " + grouped(run.lost.count) + " came before, and the client reads each " + saidTime(plan.visit) + ".";
    return { isBad: true, text: text + rate };
  }
  const most = picture.fills.reduce((so, fill) => fill.points.reduce((more, [, count]) => Math.max(more, count), so), 0);
  const part = Math.round((100 * most) / plan.buffer);
  return { isBad: false, text: "No sample is lost in this run: at most " + grouped(most) + " of " + grouped(plan.buffer) + " are in the buffer (" + part + " %)." + rate };
}

/** The sliders. A slider's place is a part of the way from its least to its greatest value, by factors where it says so. */
class Planner {
  constructor(core, write) {
    Object.assign(this, { core, write, boards: plannedBoards(), turn: 0, later: 0, plan: null });
    this.board = document.getElementById("plan-board");
    this.board.append(...this.boards.map(({ name }) => new Option(name, name)));
    this.board.value = "ni_pci_6025e";
    this.sliders = {
      channels: this.slider("channels", (part, most) => 1 + Math.round(part * (most - 1)), (it) => String(it)),
      rate: this.slider("rate", (part) => Math.round(+(10 ** (6 * part)).toPrecision(2)), (it) => grouped(it) + " scans/s"),
      buffer: this.slider("buffer", (part) => 2 ** Math.round(3 + 13 * part), (it) => grouped(it) + " samples"),
      visit: this.slider("visit", (part) => Math.round(+(10 ** (4 * part)).toPrecision(2)) * 1e6, saidTime),
    };
    this.board.addEventListener("change", () => this.change());
    this.show();
  }

  slider(name, valueOf, say) {
    const input = document.getElementById("plan-" + name);
    const output = document.getElementById("plan-" + name + "-said");
    input.addEventListener("input", () => this.change());
    return { input, output, valueOf, say };
  }

  get chosen() {
    return this.boards.find(({ name }) => name === this.board.value);
  }

  value(name) {
    const { input, valueOf } = this.sliders[name];
    return valueOf(input.value / input.max, Math.min(16, this.chosen.sub.channels));
  }

  show() {
    for (const [name, { input, output, say }] of Object.entries(this.sliders)) {
      output.textContent = say(this.value(name));
      input.setAttribute("aria-valuetext", output.textContent);
    }
  }

  change() {
    this.show();
    clearTimeout(this.later);
    this.later = setTimeout(() => this.writeJob(), 150);
  }

  /** Writes the job, and has it run. */
  async writeJob() {
    const turn = ++this.turn;
    const { board: text, sub } = this.chosen;
    const [channels, rate, buffer, visit] = ["channels", "rate", "buffer", "visit"].map((name) => this.value(name));
    const plan = { sub, channels, buffer, visit, period: Math.round(1e9 / rate) };
    const board = withBuffer(text, sub.number, buffer);
    this.core.clear();
    const command = await acceptedCommand(this.core, board, plan).catch(() => undefined);
    if (turn !== this.turn || command === undefined) return;
    if (command === null) return this.say({ isBad: true, text: "The board takes no such command: fewer channels, or another rate." });
    plan.taken = periodOf(command, channels);
    this.plan = plan;
    this.write("replay", plannedJob(plan, board, command));
  }

  /** Says what came of the job, if it is still the planned one. */
  take(picture) {
    if (this.plan) this.say(verdictOf(picture, this.plan));
    this.plan = null;
  }

  say({ isBad, text }) {
    const place = document.getElementById("plan-verdict");
    [place.textContent, place.className] = [text, isBad ? "bad" : "ok"];
  }
}
