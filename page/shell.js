// The page itself: calls in a worker, modes, settings, the link, tabs.
const MODES = ["run", "check", "build", "bare", "alloc", "format", "exec"], SETTINGS = ["heap", "stack", "steps"];
const DEFAULTS = { heap: 16777216, stack: 67108864, steps: 1000000000 };
const TABS = { answer: () => {}, stages: () => open_stages(), allocator: () => open_allocator(), simulator: () => open_simulator() };
const FIRST_LEG = 2 ** 24, OF_STEPS = /^tiger: step limit$/m;
const shell = { worker: null, module: null, waits: new Map(), calls: 0, mode: "", from: 0, has: {} };
const decoded = (bytes) => new TextDecoder().decode(bytes);
const seconds = (ms) => (ms < 1000 ? `${ms.toFixed(1)} ms` : `${(ms / 1000).toFixed(2)} s`);
const fill_options = (select, options) => select.replaceChildren(...options.map(([value, name]) => new Option(name, value)));

// A module with a memory of 64 bits, in 13 bytes: whether the browser takes it.
const is_able = () => globalThis.WebAssembly && WebAssembly.validate(Uint8Array.of(0, 97, 115, 109, 1, 0, 0, 0, 5, 3, 1, 4, 1));

function begin_worker() {
  const worker = new Worker(URL.createObjectURL(new Blob([WORKER], { type: "text/javascript" })));
  worker.postMessage({ kind: "module", module: shell.module });
  worker.onmessage = ({ data }) => {
    shell.waits.get(data.id)?.(data);
    shell.waits.delete(data.id);
  };
  shell.worker = worker;
}

// One call of the module: its answer, or nothing where it was stopped.
function call(request) {
  const id = ++shell.calls;
  return new Promise((settle) => {
    shell.waits.set(id, settle);
    shell.worker.postMessage({ id, ...request });
  }).then((answer) => {
    if (answer?.trap) at("state").textContent = text_of("trapped", { what: answer.trap });
    return answer;
  });
}

function stop_calls() {
  shell.worker.terminate();
  const waits = [...shell.waits.values()];
  shell.waits.clear();
  begin_worker();
  for (const settle of waits) settle(null);
  at("state").textContent = text_of("stopped", { mode: shell.mode, time: seconds(performance.now() - shell.from) });
}

// The words of a command as the settings stand; a setting that is as natively isn't said.
function words_for(mode, steps) {
  const words = ["tiger", mode, "page.tig"];
  for (const it of mode === "show" ? [] : SETTINGS) {
    const said = it === "steps" && steps ? String(steps) : at(it).value.trim();
    if (said !== String(DEFAULTS[it])) words.push(`--${it}`, said);
  }
  const is_bare = at("bare").checked && mode === "exec";
  if (at("watch").checked && (mode === "run" || mode === "exec") && !is_bare) words.push("--watch");
  if (at("fold").checked && ["run", "build", "bare", "alloc", "show"].includes(mode)) words.push("--fold");
  if (is_bare) words.push("--bare");
  return words;
}

// What a mode answers, told where that is asked for. A run goes in legs, each four times as long, until it ends by itself.
async function asked(mode, { tell, shows, limit = 0 }) {
  const text = at("source").value, input = at("input").value, most = limit || Number(at("steps").value), is_run = mode === "run" || mode === "exec";
  Object.assign(shell, { mode, from: performance.now() });
  at("bar").hidden = !shows;
  if (shows) at("state").textContent = text_of("waiting", { mode });
  let answer;
  for (let leg = FIRST_LEG; ; leg *= 4) {
    const is_last = !is_run || !(leg < most);
    answer = await call({ kind: "ask", words: words_for(mode, is_last ? limit : leg), text, input });
    if (is_last || !answer || answer.trap || answer.status !== 109 || !OF_STEPS.test(decoded(answer.err))) break;
    const speed = (leg / answer.time / 1000).toFixed(0), time = seconds(performance.now() - shell.from);
    at("state").textContent = text_of("speed", { mode, steps: grouped(leg), speed, time });
    at("out").textContent = decoded(answer.out);
  }
  at("bar").hidden = true;
  if (answer && !answer.trap && tell) tell_fault(mode === "exec" || answer.status === 65 ? decoded(answer.err) : "", await explained(mode, answer));
  return answer?.trap ? null : answer;
}

// The lines that explain a fault of a source, where the program has the flag.
async function explained(mode, { status }) {
  if (status !== 65 || mode === "exec" || !shell.has.explain) return [];
  const more = await call({ kind: "ask", words: ["tiger", "check", "page.tig", "--explain"], text: at("source").value, input: "" });
  return more?.err ? decoded(more.err).trim().split("\n").slice(1).map((it) => it.replace(/^tiger:\s+/, "")) : [];
}

async function press(mode) {
  choose_tab("answer");
  for (const it of at("modes").children) it.ariaPressed = String(it.id === `mode_${mode}`);
  const answer = await asked(mode, { tell: true, shows: true });
  if (!answer) return;
  const { status, out, err, time } = answer, watched = at("watch").checked && /^steps /.test(decoded(err));
  at("state").textContent = text_of("status", { mode, status, bytes: grouped(out.length), time: seconds(time) });
  at("out").textContent = decoded(out);
  at("err").textContent = decoded(err) || TEXTS.none;
  at("take").hidden = !["build", "bare", "format"].includes(mode) || status !== 0;
  at("profile").hidden = !watched;
  if (watched) await tell_profile(decoded(err));
}

async function tell_profile(err) {
  const lines = err.split("\n"), steps = Number(lines[0].split(" ")[1]), covered = /^covered (\d+) of (\d+)$/m.exec(err);
  const kinds = lines.slice(1, lines.findIndex((it) => it.startsWith("covered "))).map((it) => it.split(" ")).sort((a, b) => b[1] - a[1]);
  const row = ([name, count]) => made("tr", {}, made("td", {}, name), made("td", { className: "n" }, grouped(count)), made("td", { className: "n" }, `${((100 * count) / steps).toFixed(1)} %`), made("td", {}, made("meter", { max: steps, value: count })));
  const head = made("tr", {}, ...["name", "count", "share"].map((it) => made("th", {}, TEXTS[it])), made("th"));
  const last = lines.filter((it) => /^0x\w{8} 0x\w{8}$/.test(it));
  at("profile").replaceChildren(made("h2", {}, TEXTS.profile), made("p", {}, text_of("profile_is", { steps: grouped(steps), covered: covered[1], all: covered[2] })), made("p", {}, TEXTS.counts_are),
    made("table", {}, head, ...kinds.map(row)), made("h2", {}, TEXTS.last), made("pre", {}, last.join("\n")));
  if (steps <= MOST) await count_lines(steps);
}

// Puts the steps of each function, or in assembly of each line, beside the lines of the editor.
async function count_lines(steps) {
  const text = at("source").value, is_source = !is_assembly(text);
  const build = is_source && (await asked("build", {}));
  if (is_source && build?.status !== 0) return;
  const assembly = is_source ? decoded(build.out) : text, names = is_source ? named_labels(assembly, text) : null;
  const seen = await call({ kind: "look", text: assembly, input: at("input").value, heap: Number(at("heap").value), stack: Number(at("stack").value), steps, stops: [], first: 0, addresses: [] });
  if (!seen || seen.trap || seen.status !== 0) return;
  code_of(assembly, names).forEach(({ address, count, within }, line) => {
    const times = count ? seen.counts[(address - 0x400000) / 4] : 0, place = is_source ? names.get(within)?.line : line + 1;
    if (count && place) editor.counts.set(place, (editor.counts.get(place) ?? 0) + times);
  });
  draw_editor();
}

function choose_tab(name) {
  for (const it of Object.keys(TABS)) {
    const tab = at(`tab_${it}`), chosen = it === name;
    tab.ariaSelected = String(chosen);
    tab.tabIndex = chosen ? 0 : -1;
    at(it).hidden = !chosen;
  }
}

async function open_tab(name) {
  choose_tab(name);
  await TABS[name]();
}

function begin_tabs() {
  at("tabs").replaceChildren(...Object.keys(TABS).map((name) => {
    const tab = made("button", { id: `tab_${name}`, role: "tab" }, TEXTS[`${name}_tab`]);
    tab.setAttribute("aria-controls", name);
    tab.addEventListener("click", () => open_tab(name));
    return tab;
  }));
  at("tabs").addEventListener("keydown", ({ key }) => {
    const step = { ArrowRight: 1, ArrowLeft: -1 }[key], all = [...at("tabs").children];
    if (step) all[(all.indexOf(document.activeElement) + step + all.length) % all.length].focus();
  });
  choose_tab("answer");
}

// The link holds the text, its input and the settings, packed, behind the address's `#`: a server never sees it.
async function packed(bytes, Stream) {
  return new Uint8Array(await new Response(new Blob([bytes]).stream().pipeThrough(new Stream("deflate-raw"))).arrayBuffer());
}

async function make_link() {
  const held = [at("source").value, at("input").value, ...SETTINGS.map((it) => at(it).value)];
  const bytes = await packed(new TextEncoder().encode(JSON.stringify(held)), CompressionStream);
  let text = "";
  for (const it of bytes) text += String.fromCharCode(it);
  location.hash = btoa(text).replace(/\+/g, "-").replace(/\//g, "_").replace(/=+$/, "");
  at("linked").textContent = TEXTS.linked;
}

async function take_link() {
  try {
    const bytes = Uint8Array.from(atob(location.hash.slice(1).replace(/-/g, "+").replace(/_/g, "/")), (it) => it.charCodeAt(0));
    const [source, input, ...sizes] = JSON.parse(decoded(await packed(bytes, DecompressionStream))).map(String);
    at("input").value = input;
    SETTINGS.forEach((it, place) => (at(it).value = sizes[place] ?? DEFAULTS[it]));
    show_text(source);
    return true;
  } catch {
    return false;
  }
}

function take_example() {
  const { text, input } = EXAMPLES[at("example").value];
  at("input").value = input;
  show_text(text);
}

function begin_modes() {
  at("modes").replaceChildren(...MODES.map((mode) => {
    const button = made("button", { id: `mode_${mode}`, title: TEXTS[`${mode}_is`], ariaPressed: "false" }, TEXTS[mode]);
    button.addEventListener("click", () => press(mode));
    return button;
  }), made("button", { id: "stop", onclick: stop_calls }, TEXTS.stop));
  at("source").addEventListener("keydown", (event) => {
    if (event.key === "Enter" && (event.ctrlKey || event.metaKey)) event.preventDefault(), press(is_assembly(at("source").value) ? "exec" : "run");
  });
  at("take").hidden = true;
  at("take").addEventListener("click", () => show_text(at("out").textContent));
}

function begin_texts() {
  for (const it of document.querySelectorAll("[data-t]")) it.textContent = TEXTS[it.dataset.t];
  for (const it of document.querySelectorAll("[data-l]")) it.setAttribute("aria-label", TEXTS[it.dataset.l]);
  at("foot").textContent = text_of("foot", { made: MADE });
  at("slider").setAttribute("aria-label", TEXTS.round);
  fill_options(at("example"), Object.keys(EXAMPLES).map((it) => [it, it]));
  for (const it of SETTINGS) at(it).value = DEFAULTS[it];
}

async function begin() {
  begin_texts();
  begin_tabs();
  begin_modes();
  for (const it of [begin_editor, begin_stages, begin_allocator, begin_simulator]) it();
  at("example").addEventListener("change", take_example);
  at("link").addEventListener("click", make_link);
  addEventListener("hashchange", take_link);
  at("example").value = "queens.tig" in EXAMPLES ? "queens.tig" : Object.keys(EXAMPLES)[0];
  if (!(await take_link())) take_example();
  if (!is_able()) return (at("state").textContent = TEXTS.unable);
  at("state").textContent = TEXTS.begins;
  shell.module = Uint8Array.from(atob(MODULE), (it) => it.charCodeAt(0));
  begin_worker();
  for (const [name, words] of Object.entries({ show: ["show", "page.tig"], explain: ["check", "page.tig", "--explain"] }))
    shell.has[name] = (await call({ kind: "ask", words: ["tiger", ...words], text: "0", input: "" }))?.status === 0;
  at("state").textContent = TEXTS.ready;
}

shell.begun = begin();
