"use strict";
// A link that holds a whole job: its command and its text, compressed, after the `#` of the page's address.

// A job has at most a mebibyte; a link to more is none.
const MOST_BYTES = 1 << 20;

/** What comes of bytes that go through a stream, if it isn't more than so many. */
async function through(bytes, stream, most = Infinity) {
  const reader = new Blob([bytes]).stream().pipeThrough(stream).getReader();
  const parts = [];
  for (let size = 0; ; size += parts.at(-1).length) {
    const { done, value } = await reader.read();
    if (done) return new Uint8Array(await new Blob(parts).arrayBuffer());
    parts.push(value);
    if (size + value.length > most) throw new Error("a link to too long a job");
  }
}

/** The part of an address that holds a job. */
async function fragmentOf(command, text) {
  const bytes = await through(new TextEncoder().encode(text), new CompressionStream("deflate-raw"));
  let letters = "";
  for (const byte of bytes) letters += String.fromCharCode(byte);
  return command + "," + btoa(letters).replaceAll("+", "-").replaceAll("/", "_").replaceAll("=", "");
}

/** The job that an address holds, or null. */
async function jobOfFragment(fragment) {
  const [command, letters] = fragment.replace(/^#/, "").split(",");
  if (!COMMANDS.includes(command) || !letters) return null;
  try {
    const bytes = Uint8Array.from(atob(letters.replaceAll("-", "+").replaceAll("_", "/")), (it) => it.charCodeAt(0));
    return { command, text: new TextDecoder().decode(await through(bytes, new DecompressionStream("deflate-raw"), MOST_BYTES)) };
  } catch {
    return null;
  }
}
