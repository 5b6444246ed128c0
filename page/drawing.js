"use strict";
// The picture on a canvas: lanes of channels, conversions as ticks, fills of buffers, and where samples were lost.

const LEFT = 74;
const RIGHT = 16;
const AXIS = 34;
const TICKS = 40;
const FONT = '12px system-ui, "DejaVu Sans", sans-serif';
const LOST = { overrun: "overrun", fifo: "FIFO overflow", underrun: "underrun" };

const TIMES = [[1, "ns"], [1e3, "µs"], [1e6, "ms"], [1e9, "s"]];

/** The unit in which times up to one are written. */
function timeUnit(most) {
  return TIMES.findLast(([size]) => most >= 2 * size) ?? TIMES[0];
}

/** A round step, of which about so many make a span. */
function niceStep(span, count) {
  const rough = span / count;
  const power = 10 ** Math.floor(Math.log10(rough));
  return power * [1, 2, 5, 10].find((it) => it * power >= rough * 0.999);
}

function plain(number) {
  return String(+number.toPrecision(12)).replace("-", "−");
}

/** A count with thin spaces between its thousands. */
function grouped(number) {
  return String(number).replace(/\B(?=(\d{3})+$)/g, "\u2009");
}

/** What is shown: the lanes, the rows below them, and the whole time. */
function showing(job, picture) {
  const subs = job.subs.map(Sub.from);
  const lanes = lanesOf(subs, picture);
  const rows = [];
  for (const number of new Set(picture.runs.map((run) => run.sub))) {
    const runs = picture.runs.filter((run) => run.sub === number);
    if (runs.some((run) => run.times.length)) rows.push({ sub: subs[number], runs });
    if (picture.fills.some((fill) => picture.runs[fill.run].sub === number)) rows.push({ sub: subs[number], runs, isFill: true });
  }
  const room = picture.end * 0.02;
  const marks = picture.runs.filter((run) => run.lost?.time !== undefined).map((run) => run.lost);
  return { job, picture, lanes, rows, marks, whole: [-room, picture.end + room] };
}

/** Draws one state of the picture: what is shown, from a time to another, with a line at a time or without. */
class Drawing {
  constructor(canvas) {
    this.canvas = canvas;
    this.pen = canvas.getContext("2d");
  }

  /** The colors of the style sheet, which differ in dark mode. */
  readColors() {
    const style = getComputedStyle(this.canvas);
    const color = (name) => style.getPropertyValue("--" + name).trim();
    const names = ["ink", "dim", "grid", "rule", "bad", "fill", "fill-line", "veil"];
    this.colors = Object.fromEntries(names.map((name) => [name, color(name)]));
    this.lanes = [...Array(8).keys()].map((number) => color("lane-" + number));
  }

  laneColor(lane) {
    return this.lanes[lane.color % this.lanes.length];
  }

  draw(shown, view, cursor) {
    const { canvas, pen } = this;
    const box = canvas.getBoundingClientRect();
    const scale = window.devicePixelRatio || 1;
    [canvas.width, canvas.height] = [Math.round(box.width * scale), Math.round(box.height * scale)];
    pen.setTransform(scale, 0, 0, scale, 0, 0);
    pen.clearRect(0, 0, box.width, box.height);
    if (!shown) return;
    this.readColors();
    Object.assign(this, { shown, view, width: box.width - LEFT - RIGHT, right: box.width - RIGHT });
    this.places = this.layOut(box.height);
    [pen.font, pen.lineJoin] = [FONT, "round"];
    const bottom = this.places.at(-1).y + this.places.at(-1).height;
    this.drawAxis(bottom);
    for (const place of this.places) this.drawPlace(place);
    for (const { time } of shown.marks) this.drawMark(time, bottom);
    if (cursor !== null && cursor >= view[0] && cursor <= view[1]) this.line(this.colors.dim, 1, [this.x(cursor), 4], [this.x(cursor), bottom]);
  }

  x(time) {
    const [from, to] = this.view;
    return LEFT + ((time - from) / (to - from)) * this.width;
  }

  /** Where each lane and each row lies. A buffer has as much room as two channels, but at most a third of all. */
  layOut(height) {
    const { lanes, rows } = this.shown;
    const fills = rows.filter((row) => row.isFill).length;
    const rest = height - 4 - AXIS - (rows.length - fills) * TICKS;
    const part = (2 * rest) / (lanes.length + 2 * fills || 1);
    const fill = fills ? Math.min(part, rest / (lanes.length ? 2.6 * fills : fills), 240) : 0;
    const each = lanes.length ? Math.max(26, (rest - fill * fills) / lanes.length) : 0;
    let y = 4;
    const put = (it, size) => ({ ...it, y: (y += size) - size, height: size });
    return [...lanes.map((lane) => put({ lane }, each)), ...rows.map((row) => put({ row }, row.isFill ? fill : TICKS))];
  }

  drawAxis(bottom) {
    const { pen, view: [from, to], width } = this;
    const [size, unit] = timeUnit(Math.min(to, (to - from) * 1e4));
    const step = niceStep((to - from) / size, Math.max(2, width / 100)) * size;
    [pen.textAlign, pen.textBaseline] = ["center", "top"];
    for (let time = Math.ceil(from / step) * step; time <= to + step * 1e-6; time += step) {
      const at = Math.round(this.x(time)) + 0.5;
      this.line(this.colors.grid, 1, [at, 4], [at, bottom]);
      pen.fillStyle = this.colors.dim;
      const text = plain(time / size) + " " + unit;
      pen.fillText(text, Math.min(at, this.right + RIGHT - 4 - pen.measureText(text).width / 2), bottom + 8);
    }
  }

  drawPlace(place) {
    const foot = Math.round(place.y + place.height) + 0.5;
    this.line(this.colors.rule, 1, [LEFT, foot], [this.right, foot]);
    this.pen.save();
    if (place.lane) this.drawLane(place);
    else if (place.row.isFill) new FillDrawing(this, place).draw();
    else this.drawTicks(place);
    this.pen.restore();
  }

  drawMark(time, bottom) {
    const at = this.x(time);
    if (at < LEFT || at > this.right) return;
    this.pen.setLineDash([4, 3]);
    this.line(this.colors.bad, 1.25, [at, 4], [at, bottom]);
    this.pen.setLineDash([]);
  }

  clip({ y, height }) {
    this.pen.beginPath();
    this.pen.rect(LEFT - 6, y, this.width + 12, height);
    this.pen.clip();
  }

  line(color, width, ...points) {
    const { pen } = this;
    [pen.strokeStyle, pen.lineWidth] = [color, width];
    pen.beginPath();
    points.forEach((point, at) => (at ? pen.lineTo(...point) : pen.moveTo(...point)));
    pen.stroke();
  }

  /** A text over what is drawn: of several the first for which there is room, or the last. */
  label(texts, x, y, color, align = "left") {
    const { pen } = this;
    [pen.textAlign, pen.textBaseline] = [align, "middle"];
    const room = align === "left" ? this.right - x : x - LEFT;
    const said = texts.find((text) => pen.measureText(text).width <= room) ?? texts.at(-1);
    const width = pen.measureText(said).width;
    pen.fillStyle = this.colors.veil;
    pen.fillRect(align === "left" ? x - 3 : x - width - 3, y - 8, width + 6, 16);
    pen.fillStyle = color;
    pen.fillText(said, x, y);
  }

  drawLane(place) {
    const { lane, y, height } = place;
    const head = height > 64 ? 20 : 5;
    const inner = height - head - 6;
    const row = (value) => y + head + inner - ((value - lane.bottom) / (lane.top - lane.bottom)) * inner;
    this.drawLevels(lane, row, inner);
    this.clip(place);
    const first = Math.max(0, firstFrom(lane.times, this.view[0]) - 1);
    const end = Math.min(lane.times.length, firstFrom(lane.times, this.view[1]) + 1);
    if (end - first > 2 * this.width) this.drawBand(lane, first, end, row);
    else this.drawPoints(lane, first, end, row);
    this.label([lane.name + (lane.shown ? " (" + lane.shown + ")" : "")], LEFT + 6, y + 12, this.laneColor(lane));
  }

  drawLevels(lane, row, inner) {
    const { pen } = this;
    const step = niceStep(lane.top - lane.bottom, Math.max(1, Math.min(5, inner / 22)));
    let levels = [];
    for (let at = Math.ceil(lane.bottom / step); at * step <= lane.top; at++) levels.push(at * step);
    if (lane.low === lane.high) levels = [lane.low];
    else if (levels.length < 2) levels = Math.abs(row(lane.low) - row(lane.high)) > 13 ? [lane.low, lane.high] : [lane.high];
    [pen.textAlign, pen.textBaseline] = ["right", "middle"];
    for (const level of levels) {
      const at = Math.round(row(level)) + 0.5;
      this.line(this.colors.grid, 1, [LEFT, at], [this.right, at]);
      pen.fillStyle = this.colors.dim;
      pen.fillText(plain(+(level / lane.size).toPrecision(levels.length > 1 ? 4 : 6)), LEFT - 8, row(level));
    }
  }

  drawPoints(lane, first, end, row) {
    const { pen } = this;
    const value = (at) => row(lane.values[at] / 1e6);
    let points = [];
    const flush = () => {
      pen.globalAlpha = lane.holds ? 1 : 0.45;
      this.line(this.laneColor(lane), 1.5, ...points);
      pen.globalAlpha = 1;
      points = [];
    };
    for (let at = first; at < end; at++) {
      if (lane.starts.has(at) && !lane.sub.isOutput) flush();
      else if (lane.holds && points.length) points.push([this.x(lane.times[at]), points.at(-1)[1]]);
      points.push([this.x(lane.times[at]), value(at)]);
    }
    // An output keeps its last word.
    if (lane.sub.isOutput && end === lane.times.length && points.length) points.push([this.x(this.shown.picture.end), points.at(-1)[1]]);
    flush();
    const space = this.width / Math.max(1, end - first);
    const size = space > 12 ? 3 : space > 5 ? 2.2 : space > 2.5 ? 1.4 : 0;
    pen.fillStyle = this.laneColor(lane);
    for (let at = first; size && at < end; at++) this.dot(this.x(lane.times[at]), value(at), size);
  }

  dot(x, y, size) {
    this.pen.beginPath();
    this.pen.arc(x, y, size, 0, 7);
    this.pen.fill();
  }

  /** More samples than there are columns: from the least to the greatest of each column. */
  drawBand(lane, first, end, row) {
    const { pen } = this;
    pen.fillStyle = this.laneColor(lane);
    let [column, low, high, before] = [null, 0, 0, null];
    const flush = () => {
      if (column === null) return;
      if (before !== null) [low, high] = [Math.min(low, before), Math.max(high, before)];
      pen.fillRect(column, row(high / 1e6) - 0.6, 1, Math.max(1.2, row(low / 1e6) - row(high / 1e6)));
    };
    for (let at = first; at < end; at++) {
      const here = Math.floor(this.x(lane.times[at]));
      const value = lane.values[at];
      if (here === column) [low, high] = [Math.min(low, value), Math.max(high, value)];
      else {
        flush();
        before = at ? lane.values[at - 1] : null;
        [column, low, high] = [here, value, value];
      }
    }
    flush();
  }

  drawTicks(place) {
    const { sub, runs } = place.row;
    this.clip(place);
    const [top, foot] = [place.y + 20, place.y + place.height - 4];
    for (const run of runs) {
      this.drawConversions(run, top, foot);
      if (run.lost?.time !== undefined) this.drawCross(this.x(run.lost.time), (top + foot) / 2);
    }
    const kept = runs.reduce((sum, run) => sum + run.kept, 0);
    const lacks = runs.some((run) => run.lost) ? ", and one with no " + (sub.isOutput ? "word" : "room") : "";
    const said = sub.kind + " " + sub.number + ": " + grouped(kept) + lacks;
    this.label(["conversions of " + said, said], LEFT + 6, place.y + 10, this.colors.dim);
  }

  drawConversions(run, top, foot) {
    const { pen, view } = this;
    const [first, end] = [firstFrom(run.times, view[0]), Math.min(run.kept, firstFrom(run.times, view[1] + 1))];
    const colors = run.command.list.map(([channel]) => {
      const lane = this.shown.lanes.find((it) => it.key === laneKey(run.sub, channel));
      return lane ? this.laneColor(lane) : this.colors.dim;
    });
    const isDense = end - first > this.width;
    pen.globalAlpha = isDense ? 0.5 : 1;
    let last = null;
    for (let at = first; at < end; at++) {
      const here = isDense ? Math.floor(this.x(run.times[at])) : this.x(run.times[at]);
      if (isDense && here === last) continue;
      last = here;
      pen.fillStyle = isDense ? this.colors.dim : colors[run.index[at]];
      pen.fillRect(here - (isDense ? 0 : 0.8), top, isDense ? 1 : 1.6, foot - top);
    }
    pen.globalAlpha = 1;
  }

  drawCross(x, y) {
    this.line(this.colors.bad, 2, [x - 4, y - 4], [x + 4, y + 4]);
    this.line(this.colors.bad, 2, [x - 4, y + 4], [x + 4, y - 4]);
  }
}

/** The fill of a subdevice's buffer: how many samples are in it, or how many words wait. */
class FillDrawing {
  constructor(drawing, place) {
    const { shown } = drawing;
    Object.assign(this, { drawing, place, sub: place.row.sub });
    this.fills = shown.picture.fills.filter((fill) => place.row.runs.includes(shown.picture.runs[fill.run]));
    this.most = this.fills.reduce((most, fill) => fill.points.reduce((so, [, count]) => Math.max(so, count), most), 0);
    const size = this.sub.buffer;
    this.inner = place.height - 30;
    this.top = Math.max(1, this.most > size * 0.45 ? size * 1.08 : this.most * 1.3);
  }

  row(count) {
    return this.place.y + 22 + this.inner - (count / this.top) * this.inner;
  }

  draw() {
    const { drawing, sub } = this;
    this.drawScale();
    drawing.clip(this.place);
    for (const fill of this.fills) this.drawFill(drawing.shown.picture.runs[fill.run], fill.points);
    const name = "the buffer of " + sub.kind + " " + sub.number;
    const texts = [(sub.isOutput ? "words that wait in " : "samples in ") + name + ", which holds " + grouped(sub.buffer), name + ", of " + grouped(sub.buffer)];
    drawing.label(texts, LEFT + 6, this.place.y + 10, drawing.colors.dim);
  }

  drawScale() {
    const { drawing, most, sub: { buffer: size } } = this;
    const { pen, colors } = drawing;
    [pen.textAlign, pen.textBaseline, pen.fillStyle] = ["right", "middle", colors.dim];
    pen.fillText("0", LEFT - 8, this.row(0) - 3);
    const isFar = this.row(0) - this.row(most) > 16 && (size > this.top || Math.abs(this.row(most) - this.row(size)) > 13);
    if (most && most !== size && isFar) pen.fillText(grouped(most), LEFT - 8, this.row(most));
    if (size > this.top) return;
    pen.fillStyle = colors.bad;
    pen.fillText(grouped(size), LEFT - 8, this.row(size));
    pen.setLineDash([5, 3]);
    drawing.line(colors.bad, 1, [LEFT, this.row(size)], [drawing.right, this.row(size)]);
    pen.setLineDash([]);
  }

  drawFill(run, points) {
    const { drawing } = this;
    const { pen, colors } = drawing;
    const path = [];
    for (const [time, count] of points) {
      if (path.length) path.push([drawing.x(time), path.at(-1)[1]]);
      path.push([drawing.x(time), this.row(count)]);
    }
    pen.fillStyle = colors.fill;
    pen.beginPath();
    pen.moveTo(path[0][0], this.row(0));
    for (const point of path) pen.lineTo(...point);
    pen.lineTo(path.at(-1)[0], this.row(0));
    pen.fill();
    drawing.line(colors["fill-line"], 1.5, ...path);
    for (const [time] of run.acts) this.drawAct(drawing.x(time), this.row(0));
    if (run.lost?.time !== undefined) this.drawLoss(run.lost);
  }

  /** The client reads or writes. */
  drawAct(x, y) {
    const { pen, colors } = this.drawing;
    pen.fillStyle = colors.ink;
    pen.beginPath();
    pen.moveTo(x, y - 1);
    pen.lineTo(x - 4, y + 6);
    pen.lineTo(x + 4, y + 6);
    pen.fill();
  }

  drawLoss(lost) {
    const { drawing } = this;
    const what = this.sub.isOutput ? " word" : " sample";
    const text = LOST[lost.kind] + " after " + grouped(lost.count) + what + (lost.count === 1 ? "" : "s");
    const at = drawing.x(lost.time);
    drawing.pen.font = "600 " + FONT;
    const isLeft = at + 10 + drawing.pen.measureText(text).width > drawing.right;
    drawing.label([text], at + (isLeft ? -7 : 7), this.row(0.72 * this.top), drawing.colors.bad, isLeft ? "right" : "left");
    drawing.pen.font = FONT;
  }
}
