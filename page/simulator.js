// The machine, step by step: each view is that of the machine after so many steps from the start.
const REGISTERS = "zero at v0 v1 a0 a1 a2 a3 t0 t1 t2 t3 t4 t5 t6 t7 s0 s1 s2 s3 s4 s5 s6 s7 t8 t9 k0 k1 gp sp fp ra hi lo".split(" ");
const MOST = 50_000_000, STACK_TOP = 0x7ffffffc, SHOWN = 32;
const machine = { text: "", code: [], made: 0, stops: new Set(), seen: null, names: new Map(), rows: new Map(), sp: STACK_TOP };
const line_at = (place) => machine.code.find((it) => it.count && place >= it.address && place < it.address + 4 * it.count);
const function_at = (place) => {
  const within = line_at(place)?.within;
  return within === undefined ? hex(place) : machine.names.get(within)?.name ?? within;
};

async function open_simulator() {
  const text = at("source").value;
  Object.assign(machine, { text, names: new Map(), made: 0, seen: null, stops: new Set(), sp: STACK_TOP });
  if (!is_assembly(text)) {
    const build = await asked("build", { tell: true });
    if (!build || build.status !== 0) return no_image();
    machine.text = decoded(build.out);
    machine.names = named_labels(machine.text, text);
  } else {
    const tried = await asked("exec", { tell: true, limit: 1 });
    if (!tried || [64, 65, 70].includes(tried.status)) return no_image();
  }
  machine.code = code_of(machine.text, machine.names.size ? machine.names : null);
  draw_code();
  await move_to(0);
}

function no_image() {
  machine.text = "";
  at("next").textContent = TEXTS.no_image;
  for (const id of ["code", "registers", "printed", "frames", "memory"]) at(id).replaceChildren();
}

// The machine after so many steps from the start, or where it comes to a breakpoint, once it has made the first steps.
async function looked(steps, stops = [], first = 0) {
  const base = Number(at("address").value) >>> 2 << 2 >>> 0, addresses = [];
  for (let it = 0; it < SHOWN; it++) addresses.push((base + 4 * it) >>> 0);
  for (let it = 0; it < SHOWN; it++) addresses.push((machine.sp + 4 * it) >>> 0);
  const sizes = { heap: Number(at("heap").value), stack: Number(at("stack").value) };
  return call({ kind: "look", text: machine.text, input: at("input").value, ...sizes, steps, stops, first, addresses });
}

async function move_to(steps, stops, first) {
  let seen = await looked(Math.max(0, Math.min(steps, MOST)), stops, first);
  if (seen?.status === 0 && seen.registers[29] !== machine.sp) {
    machine.sp = seen.registers[29];
    seen = await looked(seen.made);
  }
  if (!seen || seen.trap) return;
  if (seen.status !== 0) return no_image();
  const before = machine.seen;
  Object.assign(machine, { made: seen.made, seen });
  draw_machine(seen, before);
}

function draw_code() {
  machine.rows = new Map();
  const rows = machine.code.map((line) => {
    if (!line.count) return made("div", {}, made("span", { className: "times" }), made("span", {}, line.text.trim()));
    const button = made("button", { ariaPressed: "false" }, hex(line.address)), times = made("span", { className: "times" });
    const row = made("div", {}, times, button, made("span", {}, line.text.trim().replace(/\t/g, " ")));
    button.addEventListener("click", () => {
      const has = machine.stops.delete(line.address) || !machine.stops.add(line.address);
      row.classList.toggle("stop", !has);
      button.ariaPressed = String(!has);
      button.textContent = (has ? "" : "●") + hex(line.address);
    });
    machine.rows.set(line, { row, times });
    return row;
  });
  at("code").replaceChildren(...rows);
}

function draw_machine(seen, before) {
  const line = seen.ended ? null : line_at(seen.place);
  for (const [it, { row, times }] of machine.rows) {
    row.classList.toggle("at", it === line);
    times.textContent = (it === line ? "▶ " : "") + (seen.counts[(it.address - 0x400000) / 4] || "");
  }
  if (line) {
    const { row } = machine.rows.get(line), code = at("code");
    if (row.offsetTop < code.scrollTop + code.offsetTop || row.offsetTop > code.scrollTop + code.offsetTop + code.clientHeight - 40) code.scrollTop = row.offsetTop - code.offsetTop - 90;
  }
  const where = line ? text_of("next", { address: hex(seen.place), text: line.text.trim(), function: function_at(seen.place) }) : seen.ended ? TEXTS.ended : TEXTS.nowhere;
  const far = seen.made === MOST ? ` · ${text_of("too_far", { most: grouped(MOST) })}` : "";
  at("next").textContent = `${text_of("made", { made: grouped(seen.made) })} · ${where}${far}`;
  at("registers").replaceChildren(...REGISTERS.map((name, it) => {
    const isNew = before && before.registers[it] !== seen.registers[it];
    return made("span", { className: isNew ? "new" : "", title: String(seen.registers[it] | 0) }, `${isNew ? "*" : " "}${name.padEnd(4)} ${hex(seen.registers[it])}`);
  }));
  at("printed").textContent = decoded(seen.out);
  draw_words(seen);
}

function draw_words({ words, registers }) {
  const base = Number(at("address").value) >>> 2 << 2 >>> 0, sp = registers[29];
  const told = (address, word) => {
    if (word >= 2 ** 32) return `${hex(address)}  ${TEXTS.unserved}`;
    const bytes = [0, 8, 16, 24].map((it) => (word >>> it) & 255), text = bytes.map((it) => (it > 31 && it < 127 ? String.fromCharCode(it) : ".")).join("");
    return `${hex(address)}  ${hex(word)}  ${bytes.map((it) => it.toString(16).padStart(2, "0")).join(" ")}  ${text}`;
  };
  at("memory").textContent = words.slice(0, SHOWN).map((word, it) => told((base + 4 * it) >>> 0, word)).join("\n");
  const stack = words.slice(SHOWN).map((word, it) => [sp + 4 * it, word]).filter(([address, word]) => address < STACK_TOP && word < 2 ** 32);
  at("frames").textContent = stack.map(([address, word]) => `${hex(address)} ${hex(word)}${line_at(word) ? ` ${text_of("frame", { function: function_at(word) })}` : ""}`).join("\n") || TEXTS.none;
}

function begin_simulator() {
  const moves = { back: () => move_to(0), step_back: () => move_to(machine.made - 1), step: () => move_to(machine.made + 1), ten: () => move_to(machine.made + 10), thousand: () => move_to(machine.made + 1000), to_stop: () => move_to(MOST, [...machine.stops], machine.made + 1), to_end: () => move_to(MOST) };
  at("moves").replaceChildren(...Object.entries(moves).map(([key, move]) => {
    const button = made("button", { id: `move_${key}` }, TEXTS[key]);
    button.addEventListener("click", move);
    return button;
  }));
  at("address").addEventListener("change", () => machine.text && move_to(machine.made));
}
