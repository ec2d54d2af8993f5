// In a worker: each call has an instance of its own, so that nothing is left of the last one.
const ROOM = 4 << 20, CODE_WORDS = 1 << 18;
let compiled;

function lender({ memory, page_take }) {
  const lend = (array) => {
    const bytes = new Uint8Array(array.buffer, array.byteOffset, array.byteLength);
    const at = page_take(BigInt(Math.max(bytes.length, 1)));
    if (at === 0n) throw new Error("no memory");
    new Uint8Array(memory.buffer, Number(at), bytes.length).set(bytes);
    return [at, BigInt(array.length)];
  };
  const room = (count, size) => [page_take(BigInt(count * size)), BigInt(count)];
  const taken = (Kind, at, count) => new Kind(memory.buffer, Number(at), Number(count)).slice();
  return { lend, room, taken };
}

const bytes_of = (text) => new TextEncoder().encode(text);

function ask(it, { words, text, input }) {
  const { lend, room, taken } = lender(it);
  const given = [bytes_of(words.join("\n")), bytes_of(text), bytes_of(input)].flatMap(lend);
  const out = room(ROOM, 1), err = room(ROOM, 1), [answer] = room(3, 8);
  const from = performance.now();
  it.page_ask(...given, ...out, ...err, answer);
  const time = performance.now() - from;
  const [status, outs, errs] = taken(BigUint64Array, answer, 3);
  return { status: Number(status), out: taken(Uint8Array, out[0], outs), err: taken(Uint8Array, err[0], errs), time };
}

function look(it, { text, input, heap, stack, steps, stops, first, addresses }) {
  const { lend, room, taken } = lender(it);
  const given = [bytes_of(text), bytes_of(input)].flatMap(lend), places = [Uint32Array.from(stops), Uint32Array.from(addresses)].flatMap(lend);
  const registers = room(34, 4), words = room(addresses.length, 8), counts = lend(new Uint32Array(CODE_WORDS));
  const out = room(ROOM, 1), [place] = room(7, 8);
  it.page_look(...given, heap, stack, BigInt(steps), BigInt(first), ...places, ...registers, ...words, ...counts, ...out, place);
  const [status, line, made, ended, at, word, outs] = Array.from(taken(BigUint64Array, place, 7), Number);
  return {
    status, line, made, ended, place: at, word, registers: taken(Uint32Array, ...registers),
    words: Array.from(taken(BigUint64Array, ...words), Number), counts: taken(Uint32Array, ...counts), out: taken(Uint8Array, out[0], outs),
  };
}

async function answer_call(call) {
  const it = (await WebAssembly.instantiate(await compiled, {})).exports;
  return { ask, look }[call.kind](it, call);
}

onmessage = async ({ data }) => {
  if (data.kind === "module") return void (compiled = WebAssembly.compile(data.module));
  let answer;
  try {
    answer = await answer_call(data);
  } catch (error) {
    answer = { trap: String(error) };
  }
  postMessage({ id: data.id, ...answer });
};
