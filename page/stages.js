// The stages of a function, two side by side, and what is one thing on both sides.
const STAGE_WORD = /(\$\w+|[A-Za-z_.][\w.$]*|[^\w$.]+|.)/g;
const stages = { functions: [] };

function marked_words(text) {
  return Array.from(text.matchAll(STAGE_WORD), ([word]) =>
    /^[$A-Za-z_.]/.test(word) ? made("span", { className: "word" }, word) : word);
}

function mark_all(event) {
  const word = event.target.closest?.(".word");
  if (!word) return;
  for (const it of at("stages").querySelectorAll(".word")) it.classList.toggle("marked", it.textContent === word.textContent);
}

// Of the parts of a text that begin where the pattern is, that of a name.
function part(text, begins, name) {
  const lines = text.split("\n"), from = lines.findIndex((it) => begins.exec(it)?.[1] === name);
  if (from < 0) return "";
  const more = lines.slice(from + 1).findIndex((it) => begins.test(it) || it.trim() === ".data");
  return lines.slice(from, more < 0 ? undefined : from + 1 + more).join("\n");
}

// The functions with the texts of their stages: those that `show` tells, else the assembly; and the allocator's steps.
function functions_with_stages(source, assembly, alloc, shown) {
  const lines = source.split("\n");
  return Array.from(named_labels(assembly, source), ([label, named]) => {
    const number = label === "main" ? 32 : Number(label.slice(1)), told = shown.find((it) => it.number === number);
    const { name, line } = told ?? named;
    const texts = told ? Array.from(told.stages, ([stage, its]) => [stage, its.join("\n")]) : [["assembly", part(assembly, /^(main|f\d+):/, label)]];
    return { name, texts: new Map([["source", lines.slice(line ? line - 1 : 0).join("\n")], ...texts, ["alloc", part(alloc, /^function (\d+)/, String(number))]]) };
  });
}

function draw_stages() {
  const one = stages.functions[at("stage_function").value];
  for (const side of ["left", "right"])
    at(side).replaceChildren(...marked_words(one.texts.get(at(`${side}_stage`).value) ?? ""));
}

async function open_stages() {
  const source = at("source").value;
  const build = await asked("build", { tell: true }), alloc = build && build.status === 0 && (await asked("alloc", {}));
  if (!alloc) return at("left").replaceChildren(TEXTS.no_stages), at("right").replaceChildren();
  const show = shell.has.show && (await asked("show", {})), shown = show ? shown_functions(decoded(show.out)) : [];
  stages.functions = functions_with_stages(source, decoded(build.out), decoded(alloc.out), shown);
  fill_options(at("stage_function"), stages.functions.map(({ name }, place) => [place, name]));
  const names = [...stages.functions[0].texts.keys()];
  for (const [id, first] of [["left_stage", shown.length ? "tree" : "alloc"], ["right_stage", "assembly"]]) {
    const before = at(id).value;
    fill_options(at(id), names.map((it) => [it, TEXTS[`of_${it}`] ?? it]));
    at(id).value = names.includes(before) ? before : first;
  }
  draw_stages();
}

function begin_stages() {
  for (const id of ["left_stage", "right_stage", "stage_function"]) at(id).addEventListener("change", draw_stages);
  for (const kind of ["pointerover", "click"]) at("stages").addEventListener(kind, mark_all);
}
