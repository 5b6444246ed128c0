"use strict";
// The editor of the job's text: CodeMirror, with the words of a job in color and the refused line marked.

const HEADS = /^(comedi|board|subdevice|signals|session)$/;

CodeMirror.defineMode("job", () => ({
  startState: () => ({ place: 0 }),
  token(stream, state) {
    if (stream.sol()) state.place = 0;
    if (stream.eatSpace()) return null;
    if (state.place === 0 && stream.peek() === "#") return stream.skipToEnd(), "comment";
    stream.eatWhile(/\S/);
    const word = stream.current();
    const isFirst = state.place === 0;
    state.place += state.place === 0 && /^\d+$/.test(word) ? 0.5 : 1;
    if (HEADS.test(word) && isFirst) return "heading";
    if (/^-?\d+$/.test(word)) return "number";
    return state.place <= 1.5 && /^[a-z]/.test(word) ? "word" : null;
  },
}));

class Editor {
  /** `changed` is called a moment after each change of the text. */
  constructor(place, changed) {
    this.mirror = CodeMirror(place, {
      mode: "job",
      lineNumbers: true,
      // Tab goes on to the next part of the page.
      extraKeys: { Tab: false, "Shift-Tab": false, "Ctrl-F": "findPersistent", "Cmd-F": "findPersistent" },
      gutters: ["CodeMirror-linenumbers"],
      lineWrapping: false,
      screenReaderLabel: "The job's text",
    });
    this.later = 0;
    this.marked = [];
    this.mirror.on("change", (_, { origin }) => {
      clearTimeout(this.later);
      if (origin !== "setValue") this.later = setTimeout(changed, 250);
    });
  }

  get text() {
    return this.mirror.getValue();
  }

  /** Puts another text in, in a way that can be undone. */
  set text(text) {
    clearTimeout(this.later);
    this.mirror.setValue(text);
    this.mirror.scrollTo(0, 0);
  }

  /** Marks a line, with a class for its color and what is said of it below it. */
  mark(number, name, below = null) {
    const line = Math.min(Math.max(number - 1, 0), this.mirror.lineCount() - 1);
    this.mirror.addLineClass(line, "background", name);
    this.mirror.addLineClass(line, "gutter", name);
    const widget = below && this.mirror.addLineWidget(line, below, { noHScroll: true });
    this.marked.push(() => {
      this.mirror.removeLineClass(line, "background", name);
      this.mirror.removeLineClass(line, "gutter", name);
      if (widget) widget.clear();
    });
  }

  clear() {
    this.mirror.operation(() => this.marked.splice(0).forEach((undo) => undo()));
  }

  reveal(number) {
    this.mirror.scrollIntoView({ line: Math.min(Math.max(number - 1, 0), this.mirror.lineCount() - 1), ch: 0 }, 80);
  }
}
