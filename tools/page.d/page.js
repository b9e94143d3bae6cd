"use strict";
// The page of a run: steps through its turns, tells the events of a turn and of what the pointer is over, and keeps the
// list of what lives.

/** The events of a journal, and the instances that they tell of, in the order of their making. */
function readJournal(text) {
  const events = [], instances = new Map();
  for (const line of text.split("\n")) {
    const [kind, id] = line.split(" ", 2);
    const said = key => line.match(new RegExp(` ${key}=(\\S+)`))?.[1];
    if (!kind) continue;
    const turn = Number(said("turn"));
    events.push({ line, turn });
    const never = { ended: Infinity, exposed: Infinity };
    if (kind === "create") instances.set(id, { id, made: turn, base: said("base"), size: said("size"), ...never, lines: [line] });
    if (kind !== "expose" && kind !== "end") continue;
    const instance = instances.get(id);
    instance[kind === "end" ? "ended" : "exposed"] = turn;
    instance.lines.push(line);
  }
  return { events, instances };
}

/** An element with this text, or with these children. */
function make(name, content, properties = {}) {
  const element = Object.assign(document.createElement(name), properties);
  element.append(...[content].flat());
  return element;
}

/** Lays a shape from one place to another, in hundredths of the picture's width. */
function place(shape, from, to) {
  shape.setAttribute("x", `${from}%`);
  shape.setAttribute("width", `${Math.max(0, to - from)}%`);
}

/** A run's memory: the turn that is looked at, and what shows it. */
class Memory {
  static mostRows = 200;
  static mostLines = 20;

  constructor(part) {
    this.part = part;
    this.canvas = part.querySelector(".canvas");
    this.cursor = part.querySelector(".cursor");
    this.veil = part.querySelector(".veil");
    this.slider = part.querySelector(".stepper input");
    this.told = part.querySelector(".events");
    Object.assign(this, readJournal(part.querySelector(".journal").textContent));
    this.turns = this.canvas.dataset.turns.split(" ").map(Number);
    this.places = this.canvas.dataset.places.split(" ").map(Number);
    this.last = Number(this.slider.max);
    part.querySelector(".stepper").hidden = false;
    this.listen();
    this.go(this.last);
  }

  listen() {
    this.slider.addEventListener("input", () => this.go(Number(this.slider.value)));
    for (const button of this.part.querySelectorAll("[data-step]")) {
      button.addEventListener("click", () => this.step(button.dataset.step));
    }
    this.canvas.addEventListener("click", event => this.go(this.turnAt(event)));
    this.canvas.addEventListener("mouseover", event => this.tell(event.target.closest("[data-id], [data-line]")));
    this.canvas.addEventListener("mouseleave", () => this.tell(null));
  }

  /** Where a turn lies in the picture, in hundredths of its width. */
  placeOf(turn) {
    const after = Math.max(1, this.turns.findIndex(it => it > turn));
    const [from, to] = [this.turns[after - 1], this.turns[after]];
    return this.places[after - 1] + (this.places[after] - this.places[after - 1]) * (turn - from) / (to - from);
  }

  /** The turn at a place of the picture. */
  turnAt(event) {
    const box = this.canvas.getBoundingClientRect();
    const place = 100 * (event.clientX - box.left) / box.width;
    const after = Math.max(1, this.places.findIndex(it => it > place));
    const [from, to] = [this.places[after - 1], this.places[after]];
    return Math.floor(this.turns[after - 1] + (this.turns[after] - this.turns[after - 1]) * (place - from) / (to - from));
  }

  step(where) {
    const others = this.events.map(event => event.turn);
    const next = { back: this.turn - 1, on: this.turn + 1 };
    next.before = others.findLast(turn => turn < this.turn) ?? this.turn;
    next.next = others.find(turn => turn > this.turn) ?? this.turn;
    this.go(next[where]);
  }

  go(turn) {
    this.turn = Math.min(Math.max(turn, 0), this.last);
    this.slider.value = this.turn;
    const [from, to] = [this.placeOf(this.turn), this.placeOf(this.turn + 1)];
    place(this.cursor, from, Math.max(to, from + 0.2));
    place(this.veil, to, 100);
    this.part.querySelector(".stepper output").textContent = this.turn ? `turn ${this.turn} of ${this.last}` : "before main";
    this.showEvents();
    this.showLive();
  }

  /** The events of the turn that is looked at. */
  showEvents() {
    const lines = this.events.filter(event => event.turn === this.turn).map(event => event.line);
    this.showLines(lines.length ? lines : ["nothing happens to memory at this turn"]);
  }

  showLines(lines) {
    const more = lines.length > Memory.mostLines ? [`and ${lines.length - Memory.mostLines} more`] : [];
    this.told.textContent = [...lines.slice(0, Memory.mostLines), ...more].join("\n");
  }

  showLive() {
    const live = [...this.instances.values()].filter(it => it.made <= this.turn && this.turn < it.ended);
    const count = `${live.length} instance${live.length === 1 ? "" : "s"}`;
    this.part.querySelector(".moment h2").textContent = `Live after turn ${this.turn}: ${count}`;
    const rows = live.slice(0, Memory.mostRows).map(it => {
      const exposed = it.exposed <= this.turn ? `since turn ${it.exposed}` : "";
      const row = make("tr", [it.id, it.base, it.size, exposed].map(cell => make("td", cell)));
      row.dataset.id = it.id;
      row.classList.toggle("fresh", it.made === this.turn);
      return row;
    });
    if (live.length > rows.length) rows.push(make("tr", make("td", `and ${live.length - rows.length} more`, { colSpan: 4 })));
    this.part.querySelector(".live tbody").replaceChildren(...rows);
  }

  /** Tells the events of what the pointer is over, and over nothing those of the turn. */
  tell(shape) {
    this.part.querySelector(".over")?.classList.remove("over");
    if (!shape) return this.showEvents();
    shape.classList.add("over");
    this.showLines(shape.dataset.line ? [shape.dataset.line] : this.instances.get(shape.dataset.id).lines);
  }
}

/** Scrolls a source that is higher than its box to a line, and nothing around it. */
function showLine(source, line) {
  if (line) source.scrollTop = line.getBoundingClientRect().top - source.getBoundingClientRect().top - source.clientHeight / 2;
}

/** Follows the memory of an answer, if it has one, and makes the turns of its story lead there. */
function follow(answer) {
  const part = answer.querySelector(".part-memory");
  const memory = part?.querySelector(".canvas") ? new Memory(part) : null;
  answer.memory = memory;
  showLine(answer.querySelector(".source"), answer.querySelector(".source .told"));
  if (!memory) return;
  for (const line of answer.querySelectorAll(".story [data-turn]")) {
    line.addEventListener("click", () => memory.go(Number(line.dataset.turn)));
  }
}

/** The arrow keys step, where nothing else wants them. */
function stepByKey(event) {
  const steps = event.shiftKey ? { ArrowLeft: "before", ArrowRight: "next" } : { ArrowLeft: "back", ArrowRight: "on" };
  const memory = document.querySelector(".answer")?.memory;
  const isTaken = event.target.closest?.("textarea, input, select, pre") || event.ctrlKey || event.altKey || event.metaKey;
  if (!memory || isTaken || !(event.key in steps)) return;
  memory.step(steps[event.key]);
  event.preventDefault();
}

/** On paper all is made as small as one sheet takes, but not smaller than can be read. */
function fitPaper() {
  const width = 718, height = 1040, least = 0.45;
  document.body.style.width = `${width}px`;
  const zoom = Math.min(1, height / document.body.scrollHeight);
  document.body.style.width = "";
  document.body.style.zoom = Math.max(least, zoom);
}

document.addEventListener("keydown", stepByKey);
addEventListener("beforeprint", fitPaper);
addEventListener("afterprint", () => { document.body.style.zoom = ""; });
for (const answer of document.querySelectorAll(".answer")) follow(answer);
