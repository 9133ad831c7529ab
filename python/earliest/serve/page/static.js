"use strict";
// The page of one report, with its data in the page itself.
const $ = (id) => document.getElementById(id);
const data = JSON.parse($("data").textContent);
const bytes = (text) => Uint8Array.from(atob(text), (it) => it.charCodeAt(0)).buffer;
const map = new RoadMap($("map"), new Float64Array(bytes(data.coordinates)), new Uint32Array(bytes(data.arcs)), data.degrees);
const arrivals = arrivalsOf(bytes(data.arrivals));
window.earliest = { map };

function hover(node, place) {
  const arrival = node ? arrivals[node - 1] : -1;
  const text = !node ? "" : arrival < 0 ? `node ${node}: ${data.until ? "no departure is in time" : "not reached"}`
    : data.until ? `node ${node}: leave at ${clock(arrival, data.per_second)}, ${span(data.departure - arrival, data.per_second)} before`
    : `node ${node}: ${clock(arrival, data.per_second)}, after ${span(arrival - data.departure, data.per_second)}`;
  $("hover").textContent = text || "\u00a0";
  $("hover").dataset.node = node || "";
  $("hover").dataset.arrival = node && arrival >= 0 ? arrival : "";
  tipped(map, $("tip"), text, place);
}

map.longest = longestOf(arrivals, data.departure, data.per_second, data.until);
map[data.until ? "target" : "source"] = data.sources.length === 1 ? data.sources[0] : 0;
map.show(arrivals, data.departure, data.until);
legend($("legend"), map.longest, data.per_second, data.until);
guided(map, hover, () => {});
