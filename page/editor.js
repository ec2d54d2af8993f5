// The editor: a field over its coloured text, line numbers, the fault's place, counts beside the lines.
const at = (id) => document.getElementById(id);
const made = (tag, attributes = {}, ...inner) => {
  const element = Object.assign(document.createElement(tag), attributes);
  element.append(...inner);
  return element;
};
const grouped = (number) => Number(number).toLocaleString("en");
const hex = (number) => "0x" + number.toString(16).padStart(8, "0");

const editor = { fault: null, counts: new Map() };

// How far a byte of a line is in it, counted in the units of a string.
function unit_of(line, byte) {
  const front = new TextEncoder().encode(line).slice(0, byte);
  return new TextDecoder().decode(front).length;
}

function offset_of(text, line, column) {
  const lines = text.split("\n"), before = lines.slice(0, line - 1);
  return before.reduce((sum, it) => sum + it.length + 1, 0) + unit_of(lines[line - 1] ?? "", column - 1);
}

function draw_editor() {
  const text = at("source").value, { fault, counts } = editor;
  const from = fault ? fault.offset : -1;
  let place = 0;
  const colours = [];
  for (const [kind, token] of tokens_of(text)) {
    const here = from >= place && from < place + token.length;
    colours.push(made("span", { className: here ? `${kind} here` : kind }, token));
    place += token.length;
  }
  if (fault && from >= place) colours.push(made("span", { className: "here" }, " "));
  at("colours").replaceChildren(...colours, "\n");
  const gutter = text.split("\n").flatMap((_, line) => {
    const count = counts.has(line + 1) ? grouped(counts.get(line + 1)) + "  " : "", faulty = fault && fault.line === line + 1;
    return [made("span", { className: faulty ? "faulty" : "" }, `${count}${faulty ? "! " : ""}${line + 1}`), "\n"];
  });
  at("gutter").replaceChildren(...gutter);
  follow();
}

function follow() {
  const { scrollTop, scrollLeft } = at("source");
  Object.assign(at("colours"), { scrollTop, scrollLeft });
  at("gutter").scrollTop = scrollTop;
}

// Marks and tells the fault that a line of the program names, if it names one, with what explains it.
function tell_fault(line, more) {
  const text = at("source").value;
  const found = /^tiger: (?:(\d+):(\d+): |line (\d+): )(.*)/m.exec(line);
  editor.fault = null;
  if (found) {
    const row = Number(found[1] ?? found[3]), column = Number(found[2] ?? 1);
    editor.fault = { line: row, offset: offset_of(text, row, column) };
    const key = found[1] ? "fault" : "fault_line";
    at("fault").replaceChildren([text_of(key, { line: row, column, what: found[4] }), ...more].join("\n"));
  }
  at("fault").hidden = !found;
  draw_editor();
}

function show_text(text) {
  at("source").value = text;
  forget_marks();
}

function forget_marks() {
  editor.fault = null;
  editor.counts = new Map();
  at("fault").hidden = true;
  draw_editor();
}

function begin_editor() {
  at("source").addEventListener("input", forget_marks);
  at("source").addEventListener("scroll", follow);
}
