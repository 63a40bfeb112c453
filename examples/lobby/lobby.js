"use strict";
// Draws what /state tells, some six times a second; the buttons ask the lobby's kiosks.

const byId = (id) => document.getElementById(id);

function make(parent, tag, className = "", text = "") {
  const element = document.createElement(tag);
  element.className = className;
  element.textContent = text;
  parent.append(element);
  return element;
}

function setText(element, text) {
  if (element.textContent !== text) element.textContent = text; // or a screen reader would say it again
}

/** Read by a screen reader alone. */
const unseen = (parent, text) => make(parent, "span", "unseen", text);

// (none near the red of a fault)
const HUES = [212, 36, 282, 174, 318, 92, 238, 56, 194, 300, 130, 260, 74, 224, 156, 332];
const hueOf = (letter) => HUES[letter.charCodeAt(0) - 65];

function post(path, body) {
  return fetch(path, { method: "POST", headers: { "Content-Type": "application/json" }, body: JSON.stringify(body) });
}

// Kiosks

const MOST_KEYS = 20, MOST_SHOWN = 4, TYPING = 1500; // floors with a key of their own, kiosks side by side, ms for another digit

function makeKiosk(kiosk, number, floors) {
  const panel = make(byId("kiosks"), "article", "kiosk");
  panel.dataset.kiosk = number;
  panel.setAttribute("aria-label", `Kiosk ${number} at floor ${kiosk.floor}`);
  make(panel, "h2", "", `Kiosk ${number}`);
  make(panel, "p", "where", `at floor ${kiosk.floor}`);
  const display = make(panel, "div", "display");
  display.setAttribute("role", "status");
  const word = unseen(display, "");
  const letter = make(display, "strong", "letter");
  const told = make(display, "span", "told");
  const verdict = make(display, "span", "verdict");
  const keys = make(panel, "div", "keys");
  const foot = make(panel, "div", "foot");
  const partyLine = make(foot, "label", "party", "Party of ");
  const party = make(partyLine, "input");
  Object.assign(party, { type: "number", min: 1, max: 15, value: 1 });
  const exchange = make(foot, "code", "exchange");
  const call = async (floor) => {
    const persons = Math.min(15, Math.max(1, Math.round(Number(party.value)) || 1));
    party.value = 1;
    await post("/call", { kiosk: number, floor, party: persons });
  };
  const parts = { panel, display, word, letter, told, verdict, exchange, call, floors, typed: "", timer: 0 };
  if (floors > MOST_KEYS) makePad(keys, parts);
  else for (let floor = 0; floor < floors; floor++) makeKey(keys, `Floor ${floor}`, String(floor), () => call(floor)).disabled = floor === kiosk.floor;
  goByArrows(keys);
  return parts;
}

function makeKey(keys, name, text, press) {
  const key = make(keys, "button", "", text);
  key.type = "button";
  key.setAttribute("aria-label", name);
  key.addEventListener("click", press);
  return key;
}

function makePad(keys, parts) {
  keys.classList.add("pad");
  for (const digit of "123456789") makeKey(keys, `Digit ${digit}`, digit, () => type(parts, digit));
  makeKey(keys, "Clear", "⌫", () => type(parts, ""));
  makeKey(keys, "Digit 0", "0", () => type(parts, "0"));
  makeKey(keys, "Call", "✓", () => enter(parts));
}

/** One stop of Tab for all keys of a kiosk; the arrows go from key to key. */
function goByArrows(keys) {
  const all = [...keys.children].filter((key) => !key.disabled);
  all.forEach((key, at) => { key.tabIndex = at ? -1 : 0; });
  const steps = { ArrowLeft: -1, ArrowUp: -1, ArrowRight: 1, ArrowDown: 1 };
  keys.addEventListener("keydown", (event) => {
    const at = all.indexOf(event.target), step = steps[event.key];
    if (!step || at < 0) return;
    event.preventDefault();
    all[(at + step + all.length) % all.length].focus();
  });
  keys.addEventListener("focusin", (event) => all.forEach((key) => { key.tabIndex = key === event.target ? 0 : -1; }));
}

/** A digit more; the floor is called when no further digit makes another floor, or none comes for a while. */
function type(parts, digit) {
  clearTimeout(parts.timer);
  const typed = digit && parts.typed + digit;
  parts.typed = typed && Number(typed) < parts.floors ? String(Number(typed)) : "";
  showTyped(parts);
  if (!parts.typed) return;
  const isWhole = typed.length > 1 || Number(typed) * 10 >= parts.floors && typed !== "0";
  parts.timer = setTimeout(() => enter(parts), isWhole ? 0 : TYPING);
}

function enter(parts) {
  clearTimeout(parts.timer);
  if (parts.typed) parts.call(Number(parts.typed));
  parts.typed = "";
}

function showTyped(parts) {
  if (parts.typed) setText(parts.told, `Floor ${parts.typed}_`);
}

function chosenKiosk() {
  const inside = document.activeElement.closest(".kiosk");
  return page.kiosks[inside ? Number(inside.dataset.kiosk) : Number(byId("kiosk").value)];
}

document.addEventListener("keydown", (event) => {
  if (!page || event.ctrlKey || event.altKey || event.metaKey || event.target.closest("input, select")) return;
  const parts = chosenKiosk();
  if (/^[0-9]$/.test(event.key)) type(parts, event.key);
  else if (event.key === "Enter" && parts.typed) enter(parts);
  else if (["Escape", "Backspace"].includes(event.key) && parts.typed) type(parts, "");
  else return;
  event.preventDefault();
});

function chooseKiosk() {
  const chosen = Number(byId("kiosk").value);
  page.kiosks.forEach((parts, number) => parts.panel.classList.toggle("chosen", number === chosen));
}

function makeKiosks(state) {
  const kiosks = state.kiosks.map((kiosk, number) => {
    byId("kiosk").add(new Option(`${number}, at floor ${kiosk.floor}`, number));
    return makeKiosk(kiosk, number, state.floors);
  });
  document.body.classList.toggle("few", kiosks.length <= MOST_SHOWN);
  return kiosks;
}

const VERDICTS = { same: "asked again: same letter", different: "asked again: ANOTHER ANSWER", "asking again": "asking again",
  in: "had no answer, but was in", "not in": "was not in: asked again" };

function showKiosk(parts, kiosk, isAlive) {
  const persons = kiosk.party > 1 ? ` for ${kiosk.party}` : "";
  setText(parts.word, kiosk.letter ? "Car " : "");
  setText(parts.letter, kiosk.letter || "");
  if (parts.typed) showTyped(parts);
  else setText(parts.told, kiosk.message || (kiosk.letter && kiosk.to !== null ? `to floor ${kiosk.to}${persons}` : kiosk.letter ? "" : "Choose a floor"));
  if (kiosk.letter) parts.letter.style.setProperty("--hue", hueOf(kiosk.letter));
  parts.display.classList.toggle("old", !isAlive || kiosk.verdict === "asking again");
  setText(parts.verdict, VERDICTS[kiosk.verdict] || "");
  parts.verdict.classList.toggle("wrong", kiosk.verdict === "different");
  setText(parts.exchange, kiosk.exchange);
}

// The journal

const PLAIN = ["body", "next gate closed", "sync", "gate open", "sync"].map((name) => ({ name, state: "", kept: "" }));
const STATES = { asked: "now", done: "done", cut: "power cut", fail: "failed", failed: "failed" };
const KEPT = { there: "on the disk", lost: "lost", torn: "in part" };

function showCalls(list, calls) {
  const key = JSON.stringify(calls);
  if (list.dataset.key === key) return;
  list.dataset.key = key;
  list.replaceChildren();
  calls.forEach((call, at) => {
    const box = make(list, "li", `${call.state} ${call.name === "sync" ? "sync" : ""}`);
    make(box, "b", "", `${at + 1} ${call.name}`);
    make(box, "span", "", [STATES[call.state], KEPT[call.kept]].filter(Boolean).join(", "));
  });
}

function nameOf(record) {
  return record.letter ? `Call ${record.number} of kiosk ${record.seat - 16}, to floor ${record.to}: car ${record.letter}`
    : `Stop ${record.number} of car ${String.fromCharCode(65 + record.seat)} at floor ${record.floor}`;
}

/** The batch's calls; behind a cut, those that it didn't come to too. */
const callsOf = (write) => [...write.calls, ...PLAIN.slice(write.calls.length)];

function outcomeOf(struck) {
  const told = { true: "It was in, and keeps its letter", false: "It was not in, and is asked again", null: "In or out: the start tells" };
  return struck.records.map((record) => `${nameOf(record)}. ${record.letter || record.isIn !== true ? told[record.isIn] : "It was in"}`).join("; ");
}

const ENDS = { cut: "The power was cut", fail: "The disk failed", killed: "The server was killed" };

function showJournal({ can, slow, plan, write, struck }, isFailed) {
  showCalls(byId("calls"), write ? callsOf(write) : PLAIN);
  byId("bounds").hidden = Boolean(write) && write.calls.length > PLAIN.length;
  const isIn = write && !write.end && write.calls.every((call) => call.state === "done") && write.calls.length >= PLAIN.length;
  setText(byId("write"), write ? (write.records.map(nameOf).join("; ") || "A checkpoint") + (isIn ? ". It is in" : "") : "Nothing was written yet");
  byId("struck").hidden = !struck;
  if (struck) {
    const at = struck.calls.findLastIndex((call) => call.state !== "done") + 1;
    setText(byId("struckTitle"), `${ENDS[struck.end]}${at ? ` in call ${at}` : ""}, and the disk had`);
    showCalls(byId("struckCalls"), callsOf(struck));
    setText(byId("outcome"), isFailed ? "UNKNOWN is answered to all, until a new start" : outcomeOf(struck));
  }
  for (const how of ["cut", "fail"]) {
    byId(how).disabled = !can;
    byId(how).title = can ? "" : "It needs a C compiler, cc";
    byId(how).setAttribute("aria-pressed", Boolean(plan) && plan[0] === how);
  }
  byId("slow").disabled = !can;
  if (document.activeElement !== byId("slow")) byId("slow").checked = slow;
}

// The building

function makeBuilding(state) {
  const shafts = byId("shafts");
  byId("building").style.setProperty("--floors", state.floors);
  const landings = make(shafts, "ol", "landings");
  const waiting = [];
  for (let floor = state.floors - 1; floor >= 0; floor--) {
    const landing = make(landings, "li");
    make(landing, "span", "floor", String(floor));
    waiting[floor] = make(landing, "span", "waiting");
  }
  const cars = state.cars.map((car) => {
    const shaft = make(shafts, "div", "shaft");
    shaft.setAttribute("role", "img");
    shaft.style.setProperty("--hue", hueOf(car.letter));
    for (let floor = 0; floor < state.floors; floor++) {
      if (car.serves.includes(floor)) continue;
      make(shaft, "div", "closed").style.setProperty("--at", floor);
      byId("unserved").hidden = false;
    }
    const halts = make(shaft, "div");
    const cabin = make(shaft, "div", "cabin");
    make(cabin, "b", "name", car.letter);
    const riders = make(cabin, "div", "riders");
    const list = make(byId("lists"), "div", "list");
    list.style.setProperty("--hue", hueOf(car.letter));
    return { shaft, halts, cabin, riders, list, title: make(list, "b", "", `Car ${car.letter}`),
      load: make(list, "span"), times: make(list, "span", "times"), stops: seen(make(list, "span", "stops")), words: unseen(list, ""),
      exchange: make(list, "code", "exchange") };
  });
  shafts.scrollTop = shafts.scrollHeight; // (a tall building on a phone begins at its lobby)
  return { waiting, cars };
}

/** Not read by a screen reader, which has it in words. */
function seen(element) {
  element.setAttribute("aria-hidden", true);
  return element;
}

const arrow = (way) => (way === "up" ? "▲" : "▼");

function showRiders(place, rows) {
  const key = JSON.stringify(rows);
  if (place.dataset.key === key) return;
  place.dataset.key = key;
  place.replaceChildren();
  for (const row of rows) {
    const persons = row.party > 1 ? `×${row.party}` : "";
    const rider = make(place, "span", "rider");
    const words = `${row.party} for car ${row.car} to floor ${row.to}`;
    make(rider, "span", "", `${row.aboard ? "" : `${row.car}→`}${row.to}${persons}`).setAttribute("aria-hidden", true);
    unseen(rider, `${words}. `);
    rider.style.setProperty("--hue", hueOf(row.car));
    rider.title = words;
  }
}

function showCar(parts, car, rows) {
  const own = rows.filter((row) => row.car === car.letter);
  const aboard = own.filter((row) => row.aboard);
  const persons = aboard.reduce((sum, row) => sum + row.party, 0);
  parts.cabin.style.setProperty("--at", car.height);
  parts.cabin.classList.toggle("open", car.open);
  showRiders(parts.riders, aboard);
  const halts = car.halts.map(([floor, way]) => `${floor}${arrow(way)}`).join("  ");
  if (parts.halts.dataset.key !== halts) {
    parts.halts.dataset.key = halts;
    parts.halts.replaceChildren();
    for (const [floor, way] of car.halts) make(parts.halts, "span", `halt ${way}`, arrow(way)).style.setProperty("--at", floor);
  }
  const inWords = car.halts.map(([floor, way]) => `${floor} ${way}`).join(", ") || "none";
  const doors = car.open ? ", doors open" : "";
  parts.shaft.setAttribute("aria-label", `Car ${car.letter} near floor ${Math.round(car.height)}${doors}, ${persons} aboard, stops: ${inWords}`);
  setText(parts.load, `${persons} of ${car.places} places`);
  setText(parts.times, car.wait === null ? "" : `wait ${seconds(car.wait)}, to goal ${seconds(car.way)}`);
  setText(parts.stops, halts || "no stops");
  setText(parts.words, `Stops: ${inWords}`);
  setText(parts.exchange, car.exchange);
}

const seconds = (value) => (value === null ? "–" : `${value.toFixed(0)} s`);

function morningOf(morning) {
  if (!morning.came) return morning.pattern ? "Passengers come" : "";
  return `${morning.came} came, ${morning.arrived} have arrived, ${morning.waiting} wait, ${morning.refused} times no car had room. `
    + `Mean wait ${seconds(morning.wait)}, to the goal ${seconds(morning.way)}`;
}

function statusOf(state) {
  const { plan, write } = state.disk;
  if (state.failed) return "The disk failed: UNKNOWN is answered, and no letter shown. The server is started again";
  if (!state.alive && !state.starts) return state.fault || "The server starts";
  if (!state.alive && state.fault) return `The server said ${state.fault}, and is started again`;
  if (!state.alive) return write && write.end === "cut" ? "The power was cut. The server is started again" : "The server is killed. It is started again";
  if (plan) return `Choose a floor: in call ${plan[1]} of its write ${plan[0] === "cut" ? "the power is cut" : "the disk fails"}`;
  if (state.starts === 1) return `liftd runs as process ${state.process}`;
  const read = state.kiosks.filter((kiosk) => kiosk.reading !== null);
  const same = read.filter((kiosk) => kiosk.reading);
  return `Started again as process ${state.process}. Letters that stand: ${same.length} of ${read.length} asked again`;
}

/** A speed that isn't offered, as one of the command line, is offered from then on. */
function showSpeed(chosen, speed) {
  if (![...chosen.options].some((option) => option.value === speed)) chosen.add(new Option(`${speed}×`, speed));
  chosen.value = speed;
}

let page = null;

function show(state) {
  if (!page) {
    page = { kiosks: makeKiosks(state), building: makeBuilding(state) };
    chooseKiosk();
  }
  document.body.classList.toggle("dead", !state.alive || state.failed);
  setText(byId("status"), statusOf(state));
  byId("kill").disabled = !state.alive;
  showJournal(state.disk, state.failed);
  showSpeed(byId("speed"), String(state.speed));
  setText(byId("done"), `Calls carried: ${state.done}`);
  setText(byId("morning"), morningOf(state.morning));
  if (document.activeElement !== byId("pattern")) byId("pattern").value = state.morning.pattern || "";
  state.kiosks.forEach((kiosk, number) => showKiosk(page.kiosks[number], kiosk, state.alive));
  page.building.waiting.forEach((place, floor) => showRiders(place, state.rows.filter((row) => !row.aboard && row.from === floor)));
  state.cars.forEach((car, number) => showCar(page.building.cars[number], car, state.rows));
}

async function look() {
  try {
    show(await (await fetch("/state")).json());
  } catch (error) {
    setText(byId("status"), `The lobby has ended (${error.message})`);
  }
  setTimeout(look, 150);
}

byId("kill").addEventListener("click", () => post("/kill", {}));
for (const how of ["cut", "fail"]) {
  byId(how).addEventListener("click", (event) => {
    const isChosen = event.target.getAttribute("aria-pressed") === "true";
    post("/strike", { how: isChosen ? null : how, call: Number(byId("at").value) });
  });
}
byId("slow").addEventListener("change", (event) => post("/slow", { slow: event.target.checked }));
byId("kiosk").addEventListener("change", chooseKiosk);
byId("speed").addEventListener("change", (event) => post("/speed", { speed: Number(event.target.value) }));
const play = () => post("/morning", { pattern: byId("pattern").value || null, rate: Number(byId("rate").value) || 6 });
byId("pattern").addEventListener("change", play);
byId("rate").addEventListener("change", play);
look();
