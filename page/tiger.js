// What the page knows of the texts: tokens, names of functions, places of code.
const KEYWORDS = "array break do else end for function if in let nil of then to type var while".split(" ");
const TIGER_TOKEN = /(\/\*)|("(?:\\[\s\S]|[^"\\])*"?)|(\d+)|([A-Za-z]\w*)|([:<>]=|<>|[-+*/=<>&|:;,.(){}[\]])|(\s+)|([\s\S])/g;
const ASSEMBLY_TOKEN = /(#.*)|("(?:\\.|[^"\\\n])*"?)|(\$\w+)|(-?(?:0x[\da-fA-F]+|\d+))|(\.?[A-Za-z_][\w.$]*)(\s*:)?|(\s+)|([\s\S])/g;

// Whether a text is assembly: a source begins with no label and no directive.
const is_assembly = (text) => /^(?:\s|#.*)*(?:\.[a-z]+|[\w.$]+\s*:(?!=))/.test(text);

function end_of_comment(text, from) {
  const ends = /\/\*|\*\//g;
  let depth = 1;
  ends.lastIndex = from;
  for (let found; depth && (found = ends.exec(text)); ) depth += found[0] === "/*" ? 1 : -1;
  return depth ? text.length : ends.lastIndex;
}

// The tokens of a text: each has a class and its bytes; all of them make the text.
function tokens_of(text) {
  return is_assembly(text) ? assembly_tokens(text) : tiger_tokens(text);
}

function tiger_tokens(text) {
  const found = [], pattern = new RegExp(TIGER_TOKEN);
  for (let one; (one = pattern.exec(text)); ) {
    const [all, comment, string, number, word, sign, blank] = one;
    if (comment) {
      const end = end_of_comment(text, pattern.lastIndex);
      found.push(["comment", text.slice(one.index, end)]);
      pattern.lastIndex = end;
    } else found.push([string ? "string" : number ? "number" : word ? (KEYWORDS.includes(word) ? "keyword" : "name") : sign ? "sign" : blank ? "" : "bad", all]);
  }
  return found;
}

function assembly_tokens(text) {
  return Array.from(text.matchAll(ASSEMBLY_TOKEN), ([all, comment, string, register, number, word, colon, blank]) => [
    comment ? "comment" : string ? "string" : register ? "name" : number ? "number" : colon ? "label" : word ? (word[0] === "." ? "keyword" : "word") : blank ? "" : "sign", all]);
}

// The functions of a source in the order of their labels: those of a group come before those in their bodies.
function functions_of(source) {
  const groups = [], inner = [null];
  let line = 1, named = 0;
  for (const [kind, token] of tiger_tokens(source)) {
    if (kind === "keyword") {
      if (token === "let") inner.push(null);
      if (token === "end") inner.pop();
      if (["in", "var", "type"].includes(token)) inner[inner.length - 1] = null;
      named = token === "function" ? line : 0;
    } else if (kind === "name" && named) {
      if (!inner[inner.length - 1]) groups.push((inner[inner.length - 1] = []));
      inner[inner.length - 1].push({ name: token, line: named });
      named = 0;
    }
    line += token.split("\n").length - 1;
  }
  return groups.flat();
}

// The names of the labels of functions in a built text, with their lines in the source.
function named_labels(assembly, source) {
  const numbers = Array.from(assembly.matchAll(/^f(\d+):/gm), (it) => Number(it[1]));
  const own = numbers.filter((it) => it > 32).sort((a, b) => a - b), names = functions_of(source);
  const found = new Map([["main", { name: "main", line: 1 }]]);
  for (const it of numbers) found.set(`f${it}`, { name: `f${it} (runtime)`, line: 0 });
  if (own.length === names.length) own.forEach((it, at) => found.set(`f${it}`, names[at]));
  return found;
}

function words_of(item) {
  const parts = item.replace(/,/g, " ").trim().split(/\s+/), number = Number(parts[2]);
  return parts[0] === "la" || (parts[0] === "li" && !(number >= -32768 && number <= 65535)) ? 2 : 1;
}

// The lines of an assembly text: its text, the address of its first word of code, how many it has, and its function.
function code_of(assembly, labels) {
  let address = 0x400000, in_code = true, within = "";
  return assembly.replace(/\n$/, "").split("\n").map((text) => {
    let item = text.replace(/#.*|"(\\.|[^"\\])*"/g, "");
    for (let found; (found = /^\s*([\w.$]+)\s*:/.exec(item)); item = item.slice(found[0].length))
      if (in_code && (!labels || labels.has(found[1]))) within = found[1];
    const word = item.trim().split(/\s+/)[0];
    if (word === ".text" || word === ".data") in_code = word === ".text";
    const count = word && in_code && word[0] !== "." ? words_of(item) : 0;
    const line = { text, address, count, within };
    address += 4 * count;
    return line;
  });
}

// What `alloc` tells: the functions by the numbers of their labels, each with its rounds and homes.
function allocations_of(text) {
  const found = [];
  for (const line of text.split("\n")) {
    const [word, ...names] = line.split(" "), one = found[found.length - 1];
    if (word === "function") found.push({ number: Number(names[0]), rounds: [], homes: {}, frame: false });
    else if (word === "round") one.rounds.push({ steps: [], spilled: [] });
    else if (word === "spilled") one.rounds.at(-1).spilled.push(names[0]);
    else if (word === "colour") one.homes[names[0]] = names[1];
    else if (word === "slot") one.homes[names[0]] = text_of("slot", { n: names[1] });
    else if (word === "all") one.frame = true;
    else if (word && word !== "slots") one.rounds.at(-1).steps.push([word, ...names]);
  }
  return found;
}

// What `show` tells: the functions by the numbers of their labels, each with its name, its line in the source and its stages.
function shown_functions(text) {
  const found = [];
  let lines = [];
  for (const line of text.split("\n")) {
    const head = /^function (\d+) (\S+)(?: (\d+):\d+)?$/.exec(line);
    if (head) found.push({ number: Number(head[1]), name: head[2], line: Number(head[3] ?? 0), stages: new Map() });
    else if (line.startsWith("  ")) lines.push(line.slice(2));
    else if (line) found.at(-1).stages.set(line, (lines = []));
  }
  return found;
}

// The operands of a list of `show`: those of a run, as t5..t13, each by itself.
function members_of(words) {
  return words.flatMap((word) => {
    const [, stem, first, last] = /^(\$?[a-z])(\d+)\.\.\$?[a-z](\d+)$/.exec(word) ?? [];
    return stem ? Array.from({ length: last - first + 1 }, (_, at) => stem + (Number(first) + at)) : [word];
  });
}

// The neighbours of each node of the graph of each round, as the stage `graph` tells them: a name, what its degree is, and the others;
// in front of a later round stands its number.
function graphs_of(lines) {
  const graphs = [new Map()], bare = (it) => it.split(":")[0];
  const of = (it) => graphs.at(-1).get(bare(it)) ?? graphs.at(-1).set(bare(it), new Set()).get(bare(it));
  for (const [name, , ...others] of lines.map((it) => it.split(" ")).filter(([word]) => word !== "move")) {
    if (name === "round") graphs.push(new Map());
    else for (const other of (of(name), members_of(others))) of(name).add(bare(other)), of(other).add(bare(name));
  }
  return graphs;
}
