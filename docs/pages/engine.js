// Runs the program `timers` (program.js) in the page: its arguments and its input go in, and its output comes out.
"use strict";

const ENGINE = (() => {
  const encoder = new TextEncoder();
  const decoder = new TextDecoder();
  let compiled = null;

  // A text of which each character is a byte, and back.
  const bytesOf = (text) => Uint8Array.from(text, (letter) => letter.charCodeAt(0));

  async function unpacked() {
    const packed = new Blob([bytesOf(atob(PROGRAM.module))]).stream();
    return new Response(packed.pipeThrough(new DecompressionStream("gzip"))).arrayBuffer();
  }

  // Has to end before the first run.
  async function load() { compiled = await WebAssembly.compile(await unpacked()); }

  class Ended extends Error {}

  // One run, by the calls of WASI that the program makes. It takes the more time the more it prints, and some 0.4 ms else.
  function run(words, input) {
    let memory = null;
    let at = 0;
    let status = 0;
    const written = [null, [], []];
    const view = () => new DataView(memory.buffer);
    const number = (place) => view().getUint32(place, true);
    const put = (place, value) => view().setUint32(place, value, true);
    const copy = (place, bytes) => new Uint8Array(memory.buffer).set(bytes, place);
    const given = ["timers", ...words].map((word) => encoder.encode(`${word}\0`));

    const system = {
      args_sizes_get: (count, size) => {
        put(count, given.length);
        put(size, given.reduce((sum, bytes) => sum + bytes.length, 0));
        return 0;
      },
      args_get: (pointers, text) => {
        let place = text;
        given.forEach((bytes, k) => {
          put(pointers + 4 * k, place);
          copy(place, bytes);
          place += bytes.length;
        });
        return 0;
      },
      fd_read: (file, buffers, count, got) => {
        // One line a read: `serve --wakeups` says once a read when to wake up, and the page shows that of each line.
        const end = input.indexOf(10, at) + 1 || input.length;
        const part = input.subarray(at, Math.min(end, at + number(buffers + 4)));
        copy(number(buffers), part);
        at += part.length;
        put(got, part.length);
        return 0;
      },
      fd_write: (file, buffers, count, got) => {
        let sum = 0;
        for (let k = 0; k < count; k += 1) {
          const [place, size] = [number(buffers + 8 * k), number(buffers + 8 * k + 4)];
          written[file].push(new Uint8Array(memory.buffer).slice(place, place + size));
          sum += size;
        }
        put(got, sum);
        return 0;
      },
      proc_exit: (code) => {
        status = code;
        throw new Ended();
      },
    };
    const instance = new WebAssembly.Instance(compiled, {wasi_snapshot_preview1: system});
    ({memory} = instance.exports);
    try {
      instance.exports._start();
    } catch (error) {
      if (!(error instanceof Ended)) throw error;
    }
    const text = (file) => {
      const whole = new Uint8Array(written[file].reduce((sum, part) => sum + part.length, 0));
      let place = 0;
      for (const part of written[file]) {
        whole.set(part, place);
        place += part.length;
      }
      return decoder.decode(whole);
    };
    return {output: text(1), errors: text(2).trim(), status};
  }

  return {load, run, bytesOf};
})();
