"use strict";
// From a picture to lanes, one for each channel of a subdevice, with the values of its words; and the table of all values.

/** A channel's samples, or the words that were put out on it: times in nanoseconds, values in micro-units. */
class Lane {
  constructor(sub, channel, unit) {
    Object.assign(this, { sub, channel, unit, key: laneKey(sub.number, channel), times: [], values: [], starts: new Set() });
    this.name = sub.kind + " " + sub.number + ", channel " + channel;
    this.holds = sub.isOutput || sub.bitsOf(channel) === 1;
  }

  put(time, value) {
    this.times.push(time);
    this.values.push(value);
  }

  /** After all values: the span that is drawn, and the unit in which it is written. */
  settle(number) {
    this.color = number;
    this.low = this.values.reduce((a, b) => Math.min(a, b), Infinity) / 1e6;
    this.high = this.values.reduce((a, b) => Math.max(a, b), -Infinity) / 1e6;
    const most = Math.max(Math.abs(this.low), Math.abs(this.high));
    const [size, prefix] = !this.unit || most >= 0.1 ? [1, ""] : most >= 1e-3 ? [1e-3, "m"] : [1e-6, "µ"];
    this.size = size;
    this.shown = this.unit === "mA" && prefix ? { m: "µA", µ: "nA" }[prefix] : prefix + this.unit;
    const room = (this.high - this.low) * 0.12 || Math.max(Math.abs(this.high) * 0.2, 1e-6);
    [this.bottom, this.top] = [this.low - room, this.high + room];
  }
}

function laneKey(sub, channel) {
  return sub + " " + channel;
}

/** The lanes of a picture, by subdevice and channel. */
function lanesOf(subs, picture) {
  const lanes = new Map();
  const laneOf = (sub, channel, range) => {
    const key = laneKey(sub.number, channel);
    if (!lanes.has(key)) lanes.set(key, new Lane(sub, channel, sub.unitOf(channel, range)));
    return lanes.get(key);
  };
  for (const run of picture.runs) putRun(run, subs[run.sub], laneOf);
  for (const { sub, channel, range, time, code } of picture.readings) {
    laneOf(subs[sub], channel, range).put(time, subs[sub].valueOfCode(channel, range, code));
  }
  const all = [...lanes.values()].filter((lane) => lane.times.length);
  all.sort((a, b) => a.sub.number - b.sub.number || a.channel - b.channel);
  all.forEach((lane, number) => lane.settle(number));
  return all;
}

/** The values of one run of a command. */
function putRun(run, sub, laneOf) {
  const entries = run.command.list.map(([channel, range]) => ({ channel, range, lane: laneOf(sub, channel, range) }));
  for (const { lane } of entries) lane.starts.add(lane.times.length);
  const put = (time, index, word) => {
    const { channel, range, lane } = entries[index];
    lane.put(time, sub.valueOfWord(channel, range, word));
  };
  if (sub.isOutput) for (const out of run.outs) put(...out);
  else for (let at = 0; at < run.kept; at++) put(run.times[at], run.index[at], run.words[at]);
}

/** A whole number of units of 10^-places as a decimal number, exactly. */
function decimal(number, places) {
  const digits = String(Math.abs(number)).padStart(places + 1, "0");
  return (number < 0 ? "-" : "") + digits.slice(0, -places) + "." + digits.slice(-places);
}

/** All samples as comma-separated values, in the order of their times, in the form of scripts/to_csv.py. */
function tableOf(lanes) {
  const rows = lanes.flatMap((lane) => lane.times.map((time, at) => [time, lane, lane.values[at]]));
  rows.sort((a, b) => a[0] - b[0]);
  const lines = rows.map(([time, { sub, channel, unit }, value]) => {
    const said = sub.bitsOf(channel) === 1 ? String(value / 1e6) : decimal(value, 6);
    return [decimal(time, 9), sub.number, channel, said, unit].join(",");
  });
  return ["time_s,subdevice,channel,value,unit", ...lines].join("\n") + "\n";
}
