"use strict";
// The part of the picture that is looked at: wheel, drag and keys move it, and the pointer or the keys read it.

class View {
  /** `refill` asks the fills of a part anew, and gives them when they are there. */
  constructor(canvas, tip, refill) {
    Object.assign(this, { canvas, tip, refill, drawing: new Drawing(canvas), shown: null, span: [0, 1], cursor: null, dragged: null, later: 0 });
    this.listen();
  }

  listen() {
    const on = (name, does, how) => this.canvas.addEventListener(name, does, how);
    on("pointerdown", (event) => this.press(event));
    on("pointerup", () => (this.dragged = null));
    on("pointercancel", () => (this.dragged = null));
    on("pointermove", (event) => this.move(event));
    on("pointerleave", () => this.point(null));
    on("wheel", (event) => this.wheel(event), { passive: false });
    on("dblclick", () => this.whole());
    on("keydown", (event) => this.pressKey(event));
    on("blur", () => this.point(null));
    new ResizeObserver(() => this.draw()).observe(this.canvas);
    matchMedia("(prefers-color-scheme: dark)").addEventListener("change", () => this.draw());
  }

  show(shown) {
    clearTimeout(this.later);
    this.shown = shown;
    this.span = shown ? [...shown.whole] : [0, 1];
    this.point(null);
  }

  draw() {
    this.drawing.draw(this.shown, this.span, this.cursor);
  }

  /** Looks at a part of the time, and asks its fills. */
  look(from, to) {
    if (!this.shown) return;
    const [low, high] = this.shown.whole;
    const span = Math.min(high - low, Math.max(20, to - from));
    const start = Math.max(low, Math.min(from, high - span));
    this.span = [start, start + span];
    this.point(this.cursor, this.at);
    clearTimeout(this.later);
    if (this.shown.picture.fills.length) this.later = setTimeout(() => this.fill(this.shown), 120);
  }

  async fill(shown) {
    const fills = await this.refill(...this.span.map(Math.round));
    if (!fills || this.shown !== shown) return;
    shown.picture.fills = fills;
    this.point(this.cursor, this.at);
  }

  whole() {
    if (this.shown) this.look(...this.shown.whole);
  }

  /** Makes the part greater or smaller around a time. */
  zoom(by, middle) {
    const [from, to] = this.span;
    const at = middle ?? this.cursor ?? (from + to) / 2;
    const part = (at - from) / (to - from);
    const span = (to - from) * by;
    this.look(at - part * span, at + (1 - part) * span);
  }

  pan(part) {
    const by = (this.span[1] - this.span[0]) * part;
    this.look(this.span[0] + by, this.span[1] + by);
  }

  timeAt(x) {
    const width = this.canvas.getBoundingClientRect().width - LEFT - RIGHT;
    return this.span[0] + ((x - LEFT) / width) * (this.span[1] - this.span[0]);
  }

  press(event) {
    this.dragged = { x: event.clientX, span: [...this.span] };
    this.canvas.setPointerCapture(event.pointerId);
  }

  move(event) {
    if (!this.shown) return;
    const box = this.canvas.getBoundingClientRect();
    if (this.dragged) {
      const [from, to] = this.dragged.span;
      const by = ((this.dragged.x - event.clientX) / (box.width - LEFT - RIGHT)) * (to - from);
      this.look(from + by, to + by);
    }
    const x = event.clientX - box.left;
    const isInside = x >= LEFT && x <= box.width - RIGHT;
    this.point(isInside ? this.timeAt(x) : null, event.clientY - box.top);
  }

  wheel(event) {
    if (!this.shown) return;
    event.preventDefault();
    const x = event.clientX - this.canvas.getBoundingClientRect().left;
    this.zoom(Math.exp(event.deltaY * 0.0016), this.timeAt(x));
  }

  pressKey(event) {
    if (!this.shown || event.ctrlKey || event.altKey || event.metaKey) return;
    const step = (this.span[1] - this.span[0]) / 50;
    const start = this.cursor ?? (this.span[0] + this.span[1]) / 2;
    const does = {
      ArrowLeft: () => (event.shiftKey ? this.pan(-0.2) : this.step(start - step)),
      ArrowRight: () => (event.shiftKey ? this.pan(0.2) : this.step(start + step)),
      "+": () => this.zoom(0.5),
      "=": () => this.zoom(0.5),
      "-": () => this.zoom(2),
      Home: () => this.whole(),
      0: () => this.whole(),
      Escape: () => this.point(null),
    }[event.key];
    if (!does) return;
    event.preventDefault();
    does();
  }

  /** Moves the line that reads the picture to a time, and the part with it where it would leave it. */
  step(time) {
    const [low, high] = this.shown.whole;
    const at = Math.max(low, Math.min(high, time));
    if (at < this.span[0]) this.pan(-0.2);
    else if (at > this.span[1]) this.pan(0.2);
    this.point(at, 8);
  }

  /** Reads the picture at a time: beside the line stands what is there. */
  point(time, y = 8) {
    [this.cursor, this.at] = [time, y];
    this.draw();
    this.tip.hidden = !this.shown || time === null;
    if (this.tip.hidden) return;
    this.tip.textContent = this.rowsAt(time).join("\n");
    const box = this.canvas.getBoundingClientRect();
    const x = this.drawing.x(time);
    const left = x + 12 + this.tip.offsetWidth > box.width ? x - 12 - this.tip.offsetWidth : x + 12;
    this.tip.style.left = Math.max(0, left) + "px";
    this.tip.style.top = Math.max(0, Math.min(y + 12, box.height - this.tip.offsetHeight - 4)) + "px";
  }

  rowsAt(time) {
    const { lanes, picture } = this.shown;
    const width = this.span[1] - this.span[0];
    const [size, unit] = timeUnit(Math.min(this.span[1], width * 1e4));
    const places = Math.max(0, Math.min(9, Math.ceil(Math.log10((1000 * size) / width))));
    const rows = [plain(+(time / size).toFixed(places)) + " " + unit];
    for (const lane of lanes.slice(0, 12)) {
      const here = firstFrom(lane.times, time + 1e-9) - 1;
      if (here >= 0) rows.push(lane.name + ": " + plain(+(lane.values[here] / 1e6 / lane.size).toFixed(6)) + " " + lane.shown);
    }
    const near = (4 * width) / this.drawing.width;
    for (const { run, points } of picture.fills) {
      const { sub, acts } = picture.runs[run];
      const here = points.findLast(([at]) => at <= time);
      if (here) rows.push("buffer of " + this.shown.job.subs[sub].kind + " " + sub + ": " + grouped(here[1]));
      const act = acts.find(([at]) => Math.abs(at - time) < near);
      if (act) rows.push("the client: " + act[1]);
    }
    return rows;
  }
}
