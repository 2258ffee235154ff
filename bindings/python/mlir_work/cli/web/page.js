"use strict";
// A step that changes something has splices, which turn the lists of lines and rows of the step before into its own. A
// splice is a place, how many items to remove there, and the numbers of the items to add. A long list lays out only its
// visible items. Text from the module is always added as text, never as HTML.

const data = JSON.parse(document.getElementById("data").textContent);
const steps = data.steps, kinds = data.kinds;
const HEIGHT = 21, BESIDE = 10, APART = 32, MOST_REFS = 40;
const SAME = 0, COME = 1, GO = 2, SIGNS = [" ", "+", "−"], CLASSES = ["", "come", "go"];
const get = id => document.getElementById(id);
const many = (count, word) => `${count.toLocaleString("en")} ${word}${count === 1 ? "" : "s"}`;

function make(kind, names, ...inside) {
  const it = document.createElement(kind);
  if (names) it.className = names;
  it.append(...inside);
  return it;
}

// The state at a step

const kept = new Map();

function changesOf(number, which) {
  return (which === "module" ? steps[number].module : steps[number].rows?.[which]) || [];
}

function applied(old, splices) {
  const made = [];
  let from = 0;
  for (const [at, gone, ids] of splices) {
    while (made.length < at) made.push(old[from++]);
    from += gone;
    for (const id of ids) made.push(id);
  }
  while (from < old.length) made.push(old[from++]);
  return made;
}

function behind(lists, number) {
  const made = {};
  for (const which of ["module", ...kinds]) {
    const splices = changesOf(number, which);
    made[which] = splices.length ? applied(lists[which], splices) : lists[which];
  }
  return made;
}

// Returns the lists at a step. Some steps keep their lists, so that no step is far from one of them.
function listsAt(number) {
  let from = number;
  while (from >= 0 && !kept.has(from)) from--;
  let lists = from < 0 ? Object.fromEntries(["module", ...kinds].map(which => [which, []])) : kept.get(from);
  while (from < number) {
    lists = behind(lists, ++from);
    if (from % APART === 0) kept.set(from, lists);
  }
  return lists;
}

// How many items splices add and remove, and the text for it.
function sums(splices) {
  return {come: splices.reduce((sum, splice) => sum + splice[2].length, 0),
    go: splices.reduce((sum, splice) => sum + splice[1], 0)};
}

function counts({come, go}) {
  return [...(come ? [" ", make("span", "come", `+${come}`)] : []),
    ...(go ? [" ", make("span", "go", `−${go}`)] : [])];
}

steps.forEach((step, at) => {
  step.absent = step.module ? step.without || {} : steps[at - 1].absent;
  Object.assign(step, sums(changesOf(at, "module")));
  step.acts = at === 0 || step.come + step.go > 0 || Boolean(step.rows);
});

// The visible items of a list

class View {
  constructor() {
    this.ids = [];
    this.marks = [];
    this.others = new Map();
  }
  add(id, mark, other) {
    if (other !== undefined) this.others.set(this.ids.length, other);
    this.ids.push(id);
    this.marks.push(mark);
  }
}

const isHead = id => data.heads[id] === 1;

// Pairs removed lines with the added lines of the same operations.
function paired(went, came, isModule) {
  const places = new Map();
  if (!isModule) return places;
  const owners = new Map(went.map((id, at) => [data.owners[id], at]).filter((_, at) => isHead(went[at])));
  came.forEach((id, at) => isHead(id) && owners.has(data.owners[id]) && places.set(at, owners.get(data.owners[id])));
  return places;
}

// Adds removed lines before added lines, each next to the line that it was paired with.
function addChange(view, went, came, isModule) {
  const places = paired(went, came, isModule), again = new Map([...places].map(([at, its]) => [its, at]));
  let at = 0;
  const addGone = end => {
    for (; at < end; at++) view.add(went[at], GO, again.has(at) ? came[again.get(at)] : undefined);
  };
  const addAlone = () => {
    while (at < went.length && !again.has(at)) addGone(at + 1);
  };
  came.forEach((id, place) => {
    addAlone();
    if (places.get(place) >= at) addGone(places.get(place) + 1);
    view.add(id, COME, places.has(place) ? went[places.get(place)] : undefined);
  });
  addGone(went.length);
}

function viewed(which, list, old, splices, withGone, onlyChanges) {
  const view = new View();
  let shift = 0, done = 0;
  const addSame = end => {
    if (!onlyChanges) for (; done < end; done++) view.add(list[done], SAME);
  };
  for (const [at, gone, ids] of splices) {
    addSame(at);
    addChange(view, withGone ? old.slice(at + shift, at + shift + gone) : [], ids, which === "module");
    done = at + ids.length;
    shift += gone - ids.length;
  }
  addSame(list.length);
  return view;
}

class List {
  constructor(box, row) {
    this.box = box;
    this.row = row;
    this.count = 0;
    this.drawn = new Map();
    this.all = make("div", "all");
    this.all.setAttribute("role", "presentation");
    box.append(this.all);
    box.addEventListener("scroll", () => this.draw(), {passive: true});
    new ResizeObserver(() => this.draw()).observe(box);
  }
  set(count, columns) {
    this.count = count;
    this.all.style.height = `${count * HEIGHT}px`;
    this.all.style.width = columns ? `${columns}ch` : "";
    this.again();
  }
  again() {
    this.drawn.clear();
    this.all.replaceChildren();
    this.draw();
  }
  draw() {
    const top = this.box.scrollTop, first = Math.max(0, Math.floor(top / HEIGHT) - BESIDE);
    const end = Math.min(this.count, Math.ceil((top + this.box.clientHeight) / HEIGHT) + BESIDE);
    for (const [at, row] of this.drawn) {
      if (at >= first && at < end) continue;
      row.remove();
      this.drawn.delete(at);
    }
    for (let at = first; at < end; at++) {
      if (this.drawn.has(at)) continue;
      const row = this.row(at);
      row.style.top = `${at * HEIGHT}px`;
      this.drawn.set(at, row);
      this.all.append(row);
    }
  }
  isSeen(at) {
    return at * HEIGHT >= this.box.scrollTop && (at + 1) * HEIGHT <= this.box.scrollTop + this.box.clientHeight;
  }
  show(at) {
    if (at >= 0 && !this.isSeen(at)) this.box.scrollTop = at * HEIGHT - this.box.clientHeight / 3;
    this.draw();
  }
}

// The words of a line

const WORDS = new RegExp([
  "(?<value>%[va][0-9.]+[0-9])", '(?<op>"(?:[^"\\\\]|\\\\.)*"(?=\\())',
  '(?<symbol>@(?:[\\w$.-]+|"(?:[^"\\\\]|\\\\.)*"))',
  '(?<string>"(?:[^"\\\\]|\\\\.)*")', "(?<type>memref<[^>]*>|\\b[su]?i[0-9]+\\b|\\bindex\\b)",
  "(?<key>\\^\\w+|[\\w$.]+(?= =))",
  "(?<number>#[\\w.]+(?:<[^>]*>)?|-?\\b[0-9]+\\b|\\btrue\\b|\\bfalse\\b)",
].join("|"), "g");
const LOOKS = {op: "op", symbol: "symbol", string: "symbol", type: "type", key: "key", number: "number-of",
  value: "value"};

function words(text) {
  const found = [];
  let end = 0;
  for (const it of text.matchAll(WORDS)) {
    if (it.index > end) found.push([text.slice(end, it.index), ""]);
    found.push([it[0], Object.keys(LOOKS).find(kind => it.groups[kind] !== undefined)]);
    end = it.index + it[0].length;
  }
  if (end < text.length) found.push([text.slice(end), ""]);
  return found;
}

// The first and the last word in which a line differs from its old line.
function otherThan(those, its) {
  if (its === undefined) return [0, 0];
  const before = words(its), most = Math.min(those.length, before.length);
  let first = 0, last = 0;
  while (first < most && those[first][0] === before[first][0]) first++;
  while (last < most - first && those[those.length - 1 - last][0] === before[before.length - 1 - last][0]) last++;
  return [first, those.length - last];
}

function putWords(row, text, its) {
  const those = words(text), [first, end] = otherThan(those, its);
  those.forEach(([word, kind], at) => {
    const isOther = at >= first && at < end && word.trim();
    const names = [LOOKS[kind], isOther && "other"].filter(Boolean).join(" ");
    const span = names ? make("span", names, word) : word;
    if (kind === "value") span.dataset.value = word;
    row.append(span);
  });
}

// Highlights

let hot = null, held = null;

function usesNow() {
  if (!now.uses) {
    now.uses = new Map();
    for (const id of now.lists.uses || []) {
      const [value, user, operand] = data.rows.uses[id].split(" ");
      if (!now.uses.has(value)) now.uses.set(value, []);
      now.uses.get(value).push([Number(user.slice(1)), operand]);
    }
  }
  return now.uses;
}

const makerOf = value => Number(/\d+/.exec(value)[0]);
const usesOf = it => it.value ? usesNow().get(it.value) || []
  : [...usesNow()].filter(([value]) => value.startsWith(`%v${it.op}.`)).flatMap(([, uses]) => uses);

function litBy(it) {
  if (!it) return null;
  const maker = it.value ? makerOf(it.value) : it.op;
  const isIt = it.value ? value => value === it.value : value => value.startsWith(`%v${it.op}.`);
  const isMade = it.value?.startsWith("%a") ? (id, text) => !isHead(id) && text.includes(`${it.value}:`) : isHead;
  return {maker, isIt, isMade, users: new Set(usesOf(it).map(([user]) => user))};
}

let lit = null;

function isMaker(id) {
  return lit !== null && data.owners[id] === lit.maker && lit.isMade(id, data.texts[id]);
}

function light(at, row) {
  const id = now.view.ids[at], isThere = now.view.marks[at] !== GO;
  row.classList.toggle("user", lit !== null && isThere && isHead(id) && lit.users.has(data.owners[id]));
  row.classList.toggle("maker", isThere && isMaker(id));
  lightWords(row);
}

function lightWords(row) {
  for (const word of row.querySelectorAll("[data-value]")) {
    word.classList.toggle("lit", lit !== null && lit.isIt(word.dataset.value));
  }
}

function lightAll() {
  const it = hot || held;
  lit = litBy(it);
  for (const [at, row] of moduleList.drawn) light(at, row);
  for (const row of rowList.drawn.values()) lightWords(row);
  describe(it);
  drawStrip();
}

function refs(uses) {
  const found = uses.slice(0, MOST_REFS)
    .flatMap(([user, operand], at) => [at ? ", " : "", ref(user), ` operand ${operand}`]);
  return uses.length > MOST_REFS ? [...found, `, and ${uses.length - MOST_REFS} more`] : found;
}

function ref(op) {
  const it = make("span", "ref", `#${op}`);
  it.dataset.op = op;
  return it;
}

function nameOf(op) {
  const id = now.lists.module.find(id => data.owners[id] === op && isHead(id));
  return id === undefined ? "isn't in the module" : /"(?:[^"\\]|\\.)*"/.exec(data.texts[id])?.[0] || "";
}

function describe(it) {
  const box = get("detail");
  if (!it) return box.replaceChildren(make("span", "dim", "Point at a value, or at the number of an operation"));
  const uses = usesOf(it), value = make("span", "value", it.value || "");
  if (it.value) value.dataset.value = it.value;
  const makes = it.value ? [value, it.value.startsWith("%a") ? " is an argument of " : " is a result of "] : [];
  const op = it.value ? makerOf(it.value) : it.op;
  box.replaceChildren(...makes, ref(op), " ", make("code", "op", nameOf(op)), it.value ? "" : ` ${toldOf(op)}`,
    steps[now.number].absent.uses ? " · no uses report" : ` · ${many(uses.length, "use")}${uses.length ? ": " : ""}`,
    ...refs(uses));
}

// What the reports say about an operation.
function toldOf(op) {
  const found = [];
  for (const kind of ["diagnostics", "effects", "dead", "unreached"].filter(kind => kinds.includes(kind))) {
    for (const id of now.lists[kind]) {
      const [first, ...rest] = data.rows[kind][id].split(" ");
      if (first === `#${op}`) found.push(kind === "diagnostics" ? ruleTold(rest[0]) : [kind, ...rest].join(" "));
    }
  }
  return found.length ? `· ${found.join(" · ")}` : "";
}

const ruleTold = rule => data.rules[rule] ? `${rule} ${data.rules[rule]}` : rule;

// The module

const now = {number: -1, lists: null, old: null, view: new View(), rowView: new View(), kind: kinds[0], uses: null,
  starts: [], start: -1, found: -1, shown: null};

function moduleRow(at) {
  const id = now.view.ids[at], mark = now.view.marks[at], other = now.view.others.get(at);
  const row = make("div", `row line-of ${CLASSES[mark]}`), gutter = make("span", "gutter");
  row.setAttribute("role", "listitem");
  row.setAttribute("aria-posinset", at + 1);
  row.setAttribute("aria-setsize", now.view.ids.length);
  if (isHead(id) && data.owners[id] >= 0) {
    gutter.textContent = `#${data.owners[id]}`;
    gutter.dataset.op = data.owners[id];
  }
  row.append(gutter, make("span", "sign", SIGNS[mark]));
  putWords(row, data.texts[id], other === undefined ? undefined : data.texts[other]);
  if (at === now.found) row.style.outline = "1px solid var(--accent)";
  light(at, row);
  return row;
}

const moduleList = new List(get("module"), moduleRow);

function reportRow(at) {
  const id = now.rowView.ids[at], mark = now.rowView.marks[at], text = data.rows[now.kind][id];
  const row = make("div", `row report ${CLASSES[mark]}`, make("span", "sign", SIGNS[mark]));
  const word = make("span", "word", ...withRefs(text));
  row.append(word);
  const rule = now.kind === "diagnostics" && data.rules[text.split(" ")[1]];
  if (rule) row.append(make("span", "rule", `  ${rule}`));
  lightWords(row);
  return row;
}

const rowList = new List(get("rows"), reportRow);

const longest = (ids, texts) => ids.reduce((most, id) => Math.max(most, texts[id].length), 0);

// All lines of the first step are new, so none of them is marked.
function spliced(which) {
  return now.number === 0 ? [] : changesOf(now.number, which);
}

function showModule() {
  now.view = viewed("module", now.lists.module, now.old?.module, spliced("module"), get("gone").checked, false);
  now.starts = now.view.marks.flatMap((mark, at) => mark && !now.view.marks[at - 1] ? [at] : []);
  now.start = now.found = -1;
  moduleList.set(now.view.ids.length, longest(now.view.ids, data.texts) + 16);
  get("size").textContent = many(now.lists.module.filter(isHead).length, "operation");
  get("changed").replaceChildren(...delta("module"));
  get("before").disabled = get("behind").disabled = now.starts.length === 0;
}

// If the rows are the same, the drawn rows stay, and none of them is marked.
function showRows() {
  const other = get("other").checked, kind = now.kind, list = now.lists[kind], absent = steps[now.number].absent[kind];
  const isSame = now.shown === list && !spliced(kind).length && !other && !absent;
  now.shown = spliced(kind).length || other || absent ? null : list;
  if (isSame) return;
  now.rowView = viewed(kind, list, now.old?.[kind], spliced(kind), true, other);
  get("rows").setAttribute("aria-label", `${kind}: ${many(list.length, "row")}`);
  rowList.set(now.rowView.ids.length, longest(now.rowView.ids, data.rows[kind]) + 8);
  if (!now.rowView.ids.length) {
    rowList.all.replaceChildren(make("div", "empty",
      absent ? `no ${kind} report: ${absent}` : other && list.length ? "No row changed" : "No rows"));
  }
  const first = now.rowView.marks.findIndex(Boolean);
  rowList.show(first);
}

function delta(kind) {
  return counts(sums(spliced(kind)));
}

function showKinds() {
  get("kinds").replaceChildren(...kinds.map(kind => {
    const absent = steps[now.number].absent[kind], count = absent ? "·" : now.lists[kind].length.toLocaleString("en");
    const it = make("button", "tab", `${kind} `, make("span", "many", count), ...delta(kind));
    it.type = "button";
    it.id = `tab-${kind}`;
    it.setAttribute("role", "tab");
    it.setAttribute("aria-controls", "rows");
    it.setAttribute("aria-selected", kind === now.kind);
    it.tabIndex = kind === now.kind ? 0 : -1;
    it.addEventListener("click", () => choose(kind));
    return it;
  }));
}

function choose(kind) {
  now.kind = kind;
  const isIn = get("kinds").contains(document.activeElement);
  showKinds();
  showRows();
  if (isIn) get(`tab-${kind}`).focus();
}

function drawStrip() {
  const strip = get("strip"), height = strip.clientHeight, ratio = window.devicePixelRatio || 1;
  strip.width = strip.clientWidth * ratio;
  strip.height = height * ratio;
  const pen = strip.getContext("2d"), style = getComputedStyle(document.documentElement);
  const colours = ["--use-edge", "--come-text", "--go-text", "--make-edge"].map(name => style.getPropertyValue(name));
  const most = Math.max(now.view.ids.length, Math.floor(moduleList.box.clientHeight / HEIGHT));
  now.view.ids.forEach((id, at) => {
    const mark = now.view.marks[at], isUser = lit !== null && isHead(id) && lit.users.has(data.owners[id]);
    if (!mark && !isUser && !isMaker(id)) return;
    pen.fillStyle = colours[isMaker(id) ? 3 : isUser ? 0 : mark];
    pen.fillRect(0, Math.floor(at / most * strip.height), strip.width, Math.max(2 * ratio, strip.height / most));
  });
}

// The steps

let items = [];
const stepList = new List(get("steps"), stepRow);

function listSteps() {
  const only = get("effective").checked;
  items = steps.flatMap((step, at) => only && !step.acts ? []
    : step.part?.[0] === 1 ? [{title: step.line, at}, {at}] : [{at}]);
  stepList.set(items.length, 0);
}

function partName(step) {
  const told = [["made", "+"], ["changed", "~"], ["gone", "−"]]
    .flatMap(([what, sign]) => (step.ops?.[what] || []).map(op => `${sign}#${op}`));
  const first = step.by?.length === 1 ? step.by[0][0] : step.part[0];
  return `${first}  ${told.join(" ")}${step.ops?.more ? " .." : ""}`;
}

function select(row) {
  const isIt = Number(row.dataset.step) === now.number;
  if (row.dataset.step) row.setAttribute("aria-selected", isIt);
  if (isIt) get("steps").setAttribute("aria-activedescendant", row.id);
}

// The next listed step, or the previous one.
function walk(by) {
  const listed = items.filter(it => it.title === undefined).map(it => it.at);
  const to = by > 0 ? listed.find(at => at > now.number) : listed.findLast(at => at < now.number);
  if (to !== undefined) go(to);
}

function stepRow(place) {
  const {title, at} = items[place], step = steps[at], isPart = Boolean(step.part);
  const name = title ?? (at === 0 ? "the module before the script" : isPart ? partName(step) : step.line);
  const kind = title !== undefined ? "title"
    : `${isPart ? "part " : ""}${step.acts ? "" : "same "}${step.says ? "refused" : ""}`;
  const row = make("div", `row step ${kind}`, make("span", "number", title === undefined ? `${at}` : ""),
    make("span", "name", name));
  row.title = name;
  if (title !== undefined) {
    row.append(make("span", "count dim", many(step.part[1], "rewrite")));
    return row;
  }
  row.setAttribute("role", "option");
  row.dataset.step = at;
  row.id = `step-${at}`;
  select(row);
  if (step.says) row.append(make("span", "count", make("span", "go", /\d+/.exec(step.reply)[0])));
  else if (at) row.append(make("span", "count", ...counts(step)));
  return row;
}

// A text whose operations and values can be highlighted and selected.
function withRefs(text) {
  return text.split(/(#\d+\b|%[va][\d.]+\d)/).map(part => {
    const isValue = /^%[va]/.test(part);
    const it = /^#\d+$/.test(part) ? ref(Number(part.slice(1))) : isValue ? make("span", "value", part) : part;
    if (isValue) it.dataset.value = part;
    return it;
  });
}

function tell(step) {
  const line = make("div", "line", make("pre", "", ...(step.line ? withRefs(step.line) : ["Module before the script"])),
    make("span", `reply${step.says ? " refused" : ""}`, ...(step.line ? withRefs(step.reply) : [])));
  const found = [...(step.notes || []).map(note => make("div", "note", note)), line];
  for (const [rule, op, text] of step.by || [])
    found.push(make("div", "by", make("span", "rule", rule), " at ", ref(op), " ", ...withRefs(text)));
  if (step.unproved) found.push(make("div", "says", step.unproved.join("; ")));
  if (step.says) {
    const caret = `${" ".repeat(Math.max(step.column || 0, 0))}^`;
    if (step.column !== null) found.push(make("pre", "caret", caret));
    found.push(make("div", "says", step.says));
    if (step.about !== null) found.push(make("div", "note", "Told of ", ref(step.about), ` ${nameOf(step.about)}`));
  }
  get("told").replaceChildren(...found);
}

function go(number) {
  const to = Math.min(Math.max(number, 0), steps.length - 1);
  if (to === now.number) return;
  Object.assign(now, {number: to, lists: listsAt(to), old: to ? listsAt(to - 1) : null, uses: null});
  hot = null;
  get("slider").value = to;
  get("slider").setAttribute("aria-valuetext", `${to} of ${steps.length - 1}: ${steps[to].line || "before script"}`);
  get("position").textContent = `${to} of ${steps.length - 1}`;
  get("previous").disabled = to === 0;
  get("next").disabled = to === steps.length - 1;
  tell(steps[to]);
  lit = litBy(held);
  showModule();
  moduleList.show(now.starts.find(at => moduleList.isSeen(at)) ?? now.starts[0] ?? -1);
  showKinds();
  showRows();
  for (const row of stepList.drawn.values()) select(row);
  stepList.show(items.findIndex(it => it.at === to && it.title === undefined));
  if (steps[to].says) goTo(steps[to].about ?? Number(/#(\d+)/.exec(steps[to].line)?.[1]));
  lightAll();
  history.replaceState(null, "", `#step=${to}`);
}

// Ways through the module

function showFound(at) {
  now.found = at;
  moduleList.show(at);
  moduleList.again();
}

function goTo(op) {
  const {ids, marks} = now.view;
  const at = ids.findIndex((id, place) => data.owners[id] === op && isHead(id) && marks[place] !== GO);
  if (at >= 0) showFound(at);
}

function change(by) {
  const count = now.starts.length;
  if (!count) return;
  now.start = now.start < 0 && by < 0 ? count - 1 : (now.start + by + count) % count;
  showFound(now.starts[now.start]);
}

function hold(it) {
  held = it;
  held && Object.assign(held, {at: -1});
  lightAll();
}

function nextUse() {
  const uses = held ? usesOf(held) : [];
  if (!uses.length) return;
  held.at = (held.at + 1) % uses.length;
  goTo(uses[held.at][0]);
}

function find(by) {
  const text = get("find").value.trim(), count = now.view.ids.length;
  get("find").classList.remove("none");
  if (!text) return;
  if (/^#\d+$/.test(text)) {
    hold({op: Number(text.slice(1))});
    return goTo(held.op);
  }
  if (/^%[va][\d.]+$/.test(text)) hold({value: text});
  for (let step = 1; step <= count; step++) {
    const at = (now.found + by * step + count * 2) % count;
    if (data.texts[now.view.ids[at]].includes(text)) return showFound(at);
  }
  get("find").classList.add("none");
}

// Pointer, clicks and keys

function pointedAt(event) {
  const value = event.target.closest?.("[data-value]"), op = event.target.closest?.("[data-op]");
  return value ? {value: value.dataset.value} : op ? {op: Number(op.dataset.op)} : null;
}

for (const box of ["module", "rows", "detail", "told"].map(get)) {
  box.addEventListener("pointerover", event => {
    const it = pointedAt(event);
    if (it?.value === hot?.value && it?.op === hot?.op || box.id === "detail") return;
    hot = it;
    lightAll();
  });
  box.addEventListener("pointerleave", () => {
    if (hot === null) return;
    hot = null;
    lightAll();
  });
  box.addEventListener("click", event => {
    const it = pointedAt(event);
    if (!it) return;
    hold(it);
    if (box.id !== "module") goTo(it.value ? makerOf(it.value) : it.op);
  });
}

const KEYS = {
  ArrowLeft: () => walk(-1), ArrowRight: () => walk(1), Home: () => go(0),
  End: () => go(steps.length - 1), n: () => change(1), p: () => change(-1), "/": () => get("find").focus(),
  u: nextUse, d: () => held && goTo(held.value ? makerOf(held.value) : held.op), Escape: () => hold(null),
  "?": () => get("keys").showModal(),
};

// The report whose tab an arrow key selects, or nothing if no tab has the focus.
function tabBeside(event) {
  const by = {ArrowLeft: -1, ArrowRight: 1}[event.key];
  if (!by || !get("kinds").contains(event.target)) return null;
  return kinds[(kinds.indexOf(now.kind) + by + kinds.length) % kinds.length];
}

document.addEventListener("keydown", event => {
  const isTyped = event.target === get("find"), isSlider = event.target === get("slider");
  if (event.ctrlKey || event.altKey || event.metaKey || get("keys").open) return;
  if (isTyped) {
    if (event.key === "Enter") find(event.shiftKey ? -1 : 1);
    if (event.key === "Escape") get("module").focus();
    return;
  }
  const tab = tabBeside(event), kind = kinds[Number(event.key) - 1];
  const by = event.target === get("steps") && {ArrowUp: -1, ArrowDown: 1}[event.key];
  const does = by ? () => walk(by) : tab ? () => choose(tab) : kind ? () => choose(kind) : KEYS[event.key];
  if (!does || isSlider && /^(Arrow|Home|End)/.test(event.key)) return;
  event.preventDefault();
  does();
});

get("slider").max = steps.length - 1;
get("slider").addEventListener("input", event => go(Number(event.target.value)));
get("previous").addEventListener("click", () => walk(-1));
get("next").addEventListener("click", () => walk(1));
get("before").addEventListener("click", () => change(-1));
get("behind").addEventListener("click", () => change(1));
get("help").addEventListener("click", () => get("keys").showModal());
get("find").addEventListener("input", () => {
  now.found = -1;
  find(1);
});
get("gone").addEventListener("change", () => {
  showModule();
  moduleList.show(now.starts[0] ?? -1);
  lightAll();
});
get("other").addEventListener("change", showRows);
get("effective").addEventListener("change", () => {
  listSteps();
  stepList.show(items.findIndex(it => it.at === now.number));
});
get("steps").addEventListener("click", event => {
  const row = event.target.closest("[data-step]");
  if (row) go(Number(row.dataset.step));
});
get("strip").addEventListener("click", event => {
  const most = Math.max(now.view.ids.length, Math.floor(moduleList.box.clientHeight / HEIGHT));
  const place = event.offsetY / get("strip").clientHeight * most;
  moduleList.box.scrollTop = place * HEIGHT - moduleList.box.clientHeight / 2;
});
window.addEventListener("hashchange", () => go(asked()));
matchMedia("(prefers-color-scheme: dark)").addEventListener("change", drawStrip);
new ResizeObserver(drawStrip).observe(get("strip"));

function asked() {
  return Number(/^#step=(\d+)$/.exec(location.hash)?.[1] || 0);
}

const digits = String(data.owners.reduce((most, op) => Math.max(most, op), 0)).length;
document.documentElement.style.setProperty("--gutter", `${digits + 3}ch`);
listSteps();
go(asked());
