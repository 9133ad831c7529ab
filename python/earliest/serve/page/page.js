"use strict";
// The page of the service: asks it for the network once, and for arrivals whenever the source or the departure changes.
const $ = (id) => document.getElementById(id);
const DAY = 86400;
let network, names = [], map, source = 0, target = 0, departure = 0, until = false, asking = false, again = false, taken = 0, pointed = null;

async function ask(path, binary) {
  const reply = await fetch(path, { headers: { Accept: binary ? "application/octet-stream" : "application/json" } });
  if (!reply.ok) {
    const told = await reply.json().catch(() => ({}));
    throw new Error(told.detail || `the service replied ${reply.status}`);
  }
  return binary ? reply.arrayBuffer() : reply.json();
}

const nameOf = (node) => (names.length ? `${names[node - 1]} (node ${node})` : `node ${node}`);
const note = (text) => { $("note").textContent = text; };

// A node that was typed: its number or its name; 0 if there is none.
function nodeOf(text) {
  const named = names.indexOf(text) + 1;
  if (named) return named;
  const number = /^\d+$/.test(text) ? Number(text) : 0;
  return number >= 1 && number <= network.nodes ? number : 0;
}

// Arrivals from the source or, if the switch is on, latest departures for the target, at the time of the slider. While a request is under way
// a drag asks for one more at most: the last one.
async function refresh() {
  if (!(until ? target : source)) return;
  if (asking) { again = true; return; }
  asking = true;
  state();
  try {
    do {
      again = false;
      if (!(until ? target : source)) break;
      const [from, at, to, turned, began] = [source, departure, target, until, performance.now()];
      const times = arrivalsOf(await ask(turned ? `/v1/departures?target=${to}&arrival=${at}` : `/v1/arrivals?source=${from}&departure=${at}`, true));
      taken = performance.now() - began;
      // The switch may have turned meanwhile.
      if (turned !== until) continue;
      scaled(times, at, turned ? -to : from, turned);
      map.show(times, at, turned);
      if (pointed) hover(map.near(...pointed), pointed);
      map.walk = [];
      $("latest").textContent = "";
      await (turned ? walkUntil(from, to, at, times) : walk(from, to, at, times));
      note("");
    } while (again);
  } catch (error) {
    note(`${error.message}`);
  } finally {
    asking = false;
    state();
    bookmark();
  }
}

// The legend's longest time is chosen with the node. It grows while the time is dragged, and never shrinks.
function scaled(times, at, node, turned) {
  const longest = longestOf(times, at, network.per_second, turned);
  if (map.scaledFor === node && map.longest >= longest) return;
  map.longest = longest;
  map.scaledFor = node;
  legend($("legend"), map.longest, network.per_second, turned);
}

// The walk from the source at its latest departure.
async function walkUntil(from, to, by, times) {
  const leave = from ? times[from - 1] : -1;
  $("found").dataset.departure = leave < 0 ? "never" : leave;
  if (leave < 0) { $("found").textContent = from ? `From ${nameOf(from)} no departure is in time.` : ""; return; }
  const found = await ask(`/v1/pairs?sources=${from}&targets=${to}&departures=${leave}&walks=true`), way = found.walks[0];
  map.walk = way.nodes;
  map.draw();
  $("found").dataset.arcs = way.arcs.join(" ");
  $("found").textContent = `${nameOf(from)}: leave at ${clock(leave, network.per_second)}, ${span(by - leave, network.per_second)} before, over ${way.arcs.length} arcs.`;
}

async function walk(from, to, at, arrivals) {
  if (!to) { $("found").textContent = ""; return; }
  const found = await ask(`/v1/pairs?sources=${from}&targets=${to}&departures=${at}&walks=true`);
  const arrival = found.arrivals[0], way = found.walks[0];
  map.walk = way ? way.nodes : [];
  map.draw();
  $("found").dataset.arrival = arrival === null ? "never" : arrival;
  $("found").dataset.arcs = way ? way.arcs.join(" ") : "";
  $("found").textContent = arrival === null ? `${nameOf(to)} is not reached.`
    : `${nameOf(to)}: arrive at ${clock(arrival, network.per_second)}, after ${span(arrival - at, network.per_second)} over ${way.arcs.length} arcs.`;
  if (arrival === null || arrivals[to - 1] !== arrival) return;
  const late = await ask(`/v1/latest?sources=${from}&targets=${to}&arrivals=${arrival}`);
  $("latest").dataset.departure = late.departures[0];
  $("latest").textContent = `The latest departure for the same arrival is ${clock(late.departures[0], network.per_second)}.`;
}

function hover(node, place) {
  pointed = place;
  const arrival = node && map.arrivals ? map.arrivals[node - 1] : -1;
  const text = !node ? "" : !map.arrivals ? nameOf(node)
    : arrival < 0 ? `${nameOf(node)}: ${map.until ? "no departure is in time" : "not reached"}`
    : map.until ? `${nameOf(node)}: leave at ${clock(arrival, network.per_second)}, ${span(map.departure - arrival, network.per_second)} before`
    : `${nameOf(node)}: ${clock(arrival, network.per_second)}, after ${span(arrival - map.departure, network.per_second)}`;
  $("hover").textContent = text || "\u00a0";
  $("hover").dataset.node = node || "";
  $("hover").dataset.arrival = node && arrival >= 0 ? arrival : "";
  tipped(map, $("tip"), text, place);
}

function chosen() { return document.querySelector("input[name=sets]:checked").value; }
function choose(what) { document.querySelector(`input[name=sets][value=${what}]`).checked = true; }

function set(what, node) {
  if (what === "source") {
    source = node;
    $("source").value = node ? names[node - 1] || node : "";
    choose("target");
  } else {
    target = node;
    $("target").value = node ? names[node - 1] || node : "";
  }
  map.source = source, map.target = target;
  if (!target || !source) { map.walk = []; $("found").textContent = ""; $("latest").textContent = ""; }
  map.draw();
  refresh();
}

// The switch: latest departures for the target in place of arrivals from the source.
function turn(on) {
  until = on;
  $("until").checked = on;
  $("clock").textContent = on ? "Be there by" : "Departure";
  if (on && !target) choose("target");
  map.arrivals = null;
  map.walk = [];
  $("found").textContent = "";
  $("latest").textContent = "";
  map.draw();
  if (on ? target : source) refresh();
  else state();
}

// What a test reads: "ready" if nothing is under way, and the departure that the map shows.
function state() {
  document.body.dataset.state = asking ? "asking" : "ready";
  document.body.dataset.departure = map.arrivals ? map.departure : "";
}

// The address keeps what is chosen, so that it can be passed on.
function bookmark() {
  const words = new URLSearchParams();
  if (source) words.set("source", source);
  if (target) words.set("target", target);
  words.set("departure", departure);
  if (until) words.set("until", 1);
  history.replaceState(null, "", `#${words}`);
}

function leave(time) {
  departure = time;
  $("departure").value = time;
  $("when").textContent = clock(time, network.per_second);
  if (until ? target : source) refresh();
  else state();
}

async function begin() {
  network = await ask("/v1/network");
  if (!network.coordinates) { note("This service has no coordinates: start it with --co to see a map."); return; }
  const [coordinates, arcs, told] = await Promise.all([ask("/v1/network/coordinates", true), ask("/v1/network/arcs", true), network.names ? ask("/v1/network/names") : { names: [] }]);
  names = told.names;
  map = new RoadMap($("map"), new Float64Array(coordinates), new Uint32Array(arcs), network.degrees);
  if (network.tiles) map.tiles = new Tiles($("tiles"), network.tiles, map);
  $("credit").textContent = network.credit || "";
  window.earliest = { map, times: () => ({ taken, painted: map.painted }) };
  guided(map, hover, (node) => { if (node) set(chosen(), node); });
  const slider = $("departure"), unit = network.per_second || 1;
  slider.max = DAY * unit - 1;
  slider.step = unit * (network.per_second ? 60 : 1);
  slider.addEventListener("input", () => leave(Number(slider.value)));
  for (const what of ["source", "target"]) $(what).addEventListener("change", () => {
    const text = $(what).value.trim(), node = text ? nodeOf(text) : 0;
    if (text && !node) note(`No node is called ${text}.`);
    else { note(""); set(what, node); }
  });
  $("until").addEventListener("change", () => turn($("until").checked));
  $("words").addEventListener("submit", (event) => event.preventDefault());
  map.canvas.addEventListener("keydown", (event) => {
    if (event.key === "s" || event.key === "t") choose(event.key === "s" ? "source" : "target");
    else if (event.key === "l") turn(!until);
    else if (event.key === "Escape") set("target", 0);
  });
  legend($("legend"), rounded(3600 * unit, network.per_second), network.per_second);
  const words = new URLSearchParams(location.hash.slice(1));
  leave(Math.min(Number(/^\d+$/.test(words.get("departure") || "") ? words.get("departure") : 8 * 3600 * unit), Number(slider.max)));
  const [from, to] = ["source", "target"].map((it) => nodeOf(words.get(it) || ""));
  if (words.get("until")) turn(true);
  if (from) set("source", from);
  if (to) set("target", to);
}

begin().catch((error) => note(error.message));
