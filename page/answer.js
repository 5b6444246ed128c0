"use strict";
// The proved core: a job's text goes in, and the program's status and text come out. Runs in the worker.

const COMMANDS = ["test", "expand", "insn", "replay"];

/** The core with its memory anew: what was computed before leaves nothing behind. */
function coreOf(module) {
  return new WebAssembly.Instance(module).exports;
}

/** What the program answers to a job, as bytes, with its exit status. */
function answerBytes(module, command, job) {
  // A block of heap.c is 2^k bytes with its head.
  for (let room = (1 << 22) - 64; ; room = room * 8 + 448) {
    const core = coreOf(module);
    const [from, out, count] = [job.length + 1, room, 8].map((size) => core.room(BigInt(size)));
    if (!from || !out || !count) return { status: 5, bytes: new Uint8Array() };
    new Uint8Array(core.memory.buffer).set(job, Number(from));
    const status = core.answer_of(command, from, BigInt(job.length), out, BigInt(room), count);
    if (status === 4 && room < 1 << 28) continue;
    const size = Number(new DataView(core.memory.buffer).getBigUint64(Number(count), true));
    return { status, bytes: new Uint8Array(core.memory.buffer, Number(out), size) };
  }
}

/** The same as a text, where a job has only the bytes of its characters. */
function answerText(module, command, text) {
  const { status, bytes } = answerBytes(module, command, new TextEncoder().encode(text));
  return { status, text: new TextDecoder("latin1").decode(bytes) };
}
