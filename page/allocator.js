// A round of the allocator as a picture, step by step, as `alloc` tells it.
const SVG = "http://www.w3.org/2000/svg", CELL = { width: 76, height: 40, box: 66, high: 28 };
const allocator = { functions: [], graphs: new Map(), near: null, drawn: new Map(), moves: [], edges: [] };
const COLOURS = "$v0 $v1 $a0 $a1 $a2 $a3 $t0 $t1 $t2 $t3 $t4 $t5 $t6 $t7 $t8 $t9 $s0 $s1 $s2 $s3 $s4 $s5 $s6 $s7 $ra".split(" ");
const hue_of = (register) => COLOURS.indexOf(register) * 79 % 360;
const drawn = (tag, attributes, ...inner) => {
  const element = document.createElementNS(SVG, tag);
  for (const [name, value] of Object.entries(attributes)) element.setAttribute(name, value);
  element.append(...inner);
  return element;
};

// The steps of a round with those of Select, each with its reason; `home` tells what a node gets.
function steps_of(one, round, is_last) {
  const steps = round.steps.map(([word, a, b, test]) => ({ word, a, b, reason: text_of(test ? `${word}_${test}` : word, { a, b }) }));
  const stack = round.steps.filter(([word]) => word === "simplify" || word === "spill").map(([, a]) => a);
  for (const a of stack.reverse()) {
    const spilled = round.spilled.includes(a), home = is_last ? one.homes[a] : "";
    const key = spilled ? "select_spilled" : home ? "select" : "select_any";
    steps.push({ word: "select", a, spilled, home, reason: text_of(key, { a, home }) });
  }
  if (round.steps.some(([word]) => word === "coalesce")) steps.push({ word: "select_joined", reason: TEXTS.select_joined });
  if (one.frame && is_last) steps.push({ word: "frame", reason: TEXTS.in_frame });
  return steps;
}

// The nodes after so many steps: how each is, what it got, and into which it went; and the stack.
function state_after(one, steps, count, nodes) {
  const state = new Map(nodes.map((it) => [it, { kind: it[0] === "$" ? "fixed" : "free", home: "" }])), stack = [];
  for (const { word, a, b, spilled, home } of steps.slice(0, count)) {
    if (word === "simplify" || word === "spill") state.get(a).kind = "out", stack.unshift(a);
    else if (word === "coalesce") Object.assign(state.get(b), { kind: "joined", into: a });
    else if (word === "freeze") state.get(a).kind = "frozen";
    else if (word === "select") stack.shift(), Object.assign(state.get(a), { kind: spilled || home?.startsWith(TEXTS.slot.slice(0, 4)) ? "spilled" : "coloured", home: home ?? "" });
    else if (word === "select_joined") for (const it of state.values()) if (it.kind === "joined") colour_joined(state, it);
  }
  return { state, stack };
}

function colour_joined(state, it) {
  let root = state.get(it.into), name = it.into;
  while (root.into) (name = root.into), (root = state.get(root.into));
  if (name[0] === "$") Object.assign(it, { kind: "coloured", home: name });
  else if (root.kind === "coloured" || root.kind === "spilled") Object.assign(it, { kind: root.kind, home: root.home });
}

// The neighbours of each node after so many steps: what was coalesced gave them to its node.
function neighbours_after(near, steps, count) {
  const now = new Map(Array.from(near, ([name, its]) => [name, new Set(its)])), of = (name) => now.get(name) ?? new Set();
  for (const { word, a, b } of steps.slice(0, count)) {
    const gone = { simplify: a, spill: a, coalesce: b }[word];
    if (word === "coalesce") for (const it of of(b)) if (it !== a) of(it).add(a), of(a).add(it);
    if (gone) for (const it of of(gone)) of(it).delete(gone);
    now.delete(gone);
  }
  return now;
}

// Columns of nodes that become one by the round's end, the registers' first.
function columns_of(steps, nodes) {
  const into = new Map(steps.filter((it) => it.word === "coalesce").map(({ a, b }) => [b, a]));
  const root = (it) => (into.has(it) ? root(into.get(it)) : it), columns = new Map();
  const place = (it) => (it[0] === "$" ? 0 : 1e6) + Number(it.replace(/\D/g, "") || 0);
  const sorted = [...nodes].sort((a, b) => place(root(a)) - place(root(b)) || root(a).localeCompare(root(b)) || place(a) - place(b));
  for (const it of sorted) columns.set(root(it), [...(columns.get(root(it)) ?? []), it]);
  return [...columns.values()];
}

function places_of(columns, width) {
  const across = Math.max(3, Math.floor(width / CELL.width)), places = new Map();
  let top = 0;
  for (let from = 0; from < columns.length; from += across) {
    const row = columns.slice(from, from + across);
    row.forEach((column, x) => column.forEach((it, y) => places.set(it, { x: (x + 0.5) * CELL.width, y: top + (y + 0.5) * CELL.height })));
    top += Math.max(...row.map((it) => it.length)) * CELL.height + 14;
  }
  return { places, width: Math.min(across, columns.length) * CELL.width, height: top };
}

function draw_node(name, { x, y }) {
  const { box, high } = CELL, title = drawn("title", {}, name), label = drawn("text", { x, y: y - 2 }, name), home = drawn("text", { x, y: y + 10 });
  const group = drawn("g", {}, title, drawn("rect", { x: x - box / 2, y: y - high / 2, width: box, height: high, rx: name[0] === "$" ? 0 : 9 }), label, home);
  return { group, home, title };
}

function bow({ x: x1, y: y1 }, { x: x2, y: y2 }) {
  const near = x1 === x2 ? CELL.width * 0.46 : 0;
  return `M${x1} ${y1}Q${(x1 + x2) / 2 + near} ${(y1 + y2) / 2 - (near ? 0 : 20)} ${x2} ${y2}`;
}

function open_round(step) {
  const one = allocator.functions[at("round_function").value], number = Number(at("round").value), round = one.rounds[number];
  const steps = steps_of(one, round, number === one.rounds.length - 1);
  const near = allocator.graphs.get(one.number)?.[number] ?? null, is_last = number === one.rounds.length - 1;
  const told = [...steps.flatMap(({ a, b }) => [a, b]), ...(is_last ? Object.keys(one.homes) : []), ...(near ? near.keys() : [])];
  const nodes = [...new Set(told.filter((it) => it && /^[$t]/.test(it)))];
  const { places, width, height } = places_of(columns_of(steps, nodes), (at("picture").clientWidth || 700) - 12);
  allocator.drawn = new Map(nodes.map((it) => [it, draw_node(it, places.get(it))]));
  allocator.moves = steps.flatMap(({ word, a, b }, step) =>
    ["coalesce", "constrain", "same"].includes(word) && a !== b ? [{ word, step, a, b, path: drawn("path", { d: bow(places.get(a), places.get(b)) }, drawn("title", {}, `${a} ${b}`)) }] : []);
  allocator.edges = Array.from(near ?? [], ([a, its]) => [...its].filter((b) => a < b && (a[0] === "t" || b[0] === "t")).map((b) =>
    ({ a, b, path: drawn("path", { d: bow(places.get(a), places.get(b)) }) }))).flat();
  at("picture").replaceChildren(drawn("svg", { width: width + 8, height, viewBox: `-4 -4 ${width + 8} ${height + 4}`, role: "img" },
    ...allocator.edges.map((it) => it.path), ...allocator.moves.map((it) => it.path), ...Array.from(allocator.drawn.values(), (it) => it.group)));
  Object.assign(allocator, { one, steps, nodes, near });
  Object.assign(at("slider"), { max: steps.length, value: step });
  draw_step();
}

function draw_step() {
  const count = Number(at("slider").value), { one, steps, nodes } = allocator, now = steps[count - 1];
  const { state, stack } = state_after(one, steps, count, nodes), near = allocator.near && neighbours_after(allocator.near, steps, count);
  for (const [name, { kind, home }] of state) {
    const node = allocator.drawn.get(name);
    node.group.setAttribute("class", `${kind} ${home || kind === "fixed" ? "" : "any"} ${now && (now.a === name || now.b === name) ? "now" : ""}`);
    node.group.style.setProperty("--hue", hue_of(home || name));
    node.home.textContent = home || { out: "↑", joined: `=${state.get(name).into ?? ""}`, spilled: "✗", frozen: "❄", coloured: "✓" }[kind] || "";
    node.title.textContent = `${name}: ${TEXTS[`is_${kind}`]} ${home}${near?.has(name) && name[0] === "t" ? text_of("degree", { count: near.get(name).size }) : ""}`;
  }
  for (const { a, b, path } of allocator.edges)
    path.setAttribute("class", `edge ${near.get(a)?.has(b) ? "" : "off"} ${now && [now.a, now.b].some((it) => it === a || it === b) ? "near" : ""}`);
  for (const { word, step, path } of allocator.moves)
    path.setAttribute("class", step >= count ? "" : { coalesce: "joined", constrain: "kept", same: "gone" }[word]);
  at("step_of").textContent = text_of("step_of", { at: count, all: steps.length });
  at("slider").setAttribute("aria-valuetext", now ? now.reason : TEXTS.first_step);
  at("reason").textContent = now ? now.reason : TEXTS.first_step;
  draw_lists(state, stack, count, near);
}

// The worklists beside the picture: nodes by how they are, with their degrees where `show` tells the graph, the stack with its top first,
// and the moves.
function draw_lists(state, stack, count, near) {
  const named = (kind) => Array.from(state).filter(([, it]) => it.kind === kind).map(([name]) => name);
  const moves = (holds) => allocator.moves.filter(holds).map(({ a, b }) => `${a}-${b}`);
  const settled = (word) => moves((it) => it.step < count && it.word === word), degree = (it) => near.get(it)?.size ?? 0;
  const with_degrees = (names) => names.map((it) => (near ? `${it}(${degree(it)})` : it)), free = named("free");
  const lists = {
    ...(near ? { is_low: with_degrees(free.filter((it) => degree(it) < 25)), is_high: with_degrees(free.filter((it) => degree(it) >= 25)) } : { is_free: free }),
    is_frozen: with_degrees(named("frozen")), on_stack: stack, is_joined: named("joined"), is_spilled: named("spilled"),
    moves_left: moves((it) => it.step >= count), moves_coalesced: settled("coalesce"), moves_constrained: settled("constrain"), moves_same: settled("same"),
  };
  at("lists").replaceChildren(...Object.entries(lists).flatMap(([key, names]) =>
    [made("dt", {}, `${TEXTS[key]} (${names.length})`), made("dd", {}, names.join(" ") || TEXTS.none)]));
}

function open_function() {
  const one = allocator.functions[at("round_function").value];
  fill_options(at("round"), one.rounds.map((_, it) => [it, String(it + 1)]));
  open_round(0);
}

async function open_allocator() {
  const source = at("source").value, alloc = await asked("alloc", { tell: true });
  if (!alloc || alloc.status !== 0) return at("picture").replaceChildren(TEXTS.no_stages);
  const show = shell.has.show && (await asked("show", {})), shown = show ? shown_functions(decoded(show.out)) : [];
  allocator.graphs = new Map(shown.map(({ number, stages }) => [number, graphs_of(stages.get("graph") ?? [])]));
  allocator.functions = allocations_of(decoded(alloc.out)).filter((it) => it.rounds.length);
  const labels = allocator.functions.map((it) => `f${it.number}:`).join("\n"), names = named_labels(labels.replace("f32:", "main:"), source);
  fill_options(at("round_function"), allocator.functions.map((it, place) => [place, (names.get(it.number === 32 ? "main" : `f${it.number}`) ?? { name: it.number }).name]));
  open_function();
}

function begin_allocator() {
  at("round_function").addEventListener("change", open_function);
  at("round").addEventListener("change", () => open_round(0));
  addEventListener("resize", () => allocator.one && !at("allocator").hidden && open_round(at("slider").value));
  at("slider").addEventListener("input", draw_step);
  at("key").replaceChildren(["fixed", "free", "out", "joined", "frozen", "coloured", "spilled"].map((it) => TEXTS[`is_${it}`]).join(" · "));
}
