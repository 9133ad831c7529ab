"use strict";
// The map: nodes and arcs on a canvas, coloured by how long after the departure a node is reached or, for latest departures, how long before the
// arrival it is left. Times are pairs of unsigned 32 bits, the low half first, as the service sends them; both halves full is "never".

// Cividis at 11 places (Nunez, Anderton, Renslow, 2018): readable with every sort of colour vision, and dark to light.
const CIVIDIS = [[0, 34, 78], [8, 51, 112], [53, 69, 108], [79, 87, 108], [102, 105, 112], [125, 124, 120], [148, 142, 119], [174, 163, 113], [200, 184, 102], [229, 207, 82], [254, 232, 56]];
const SHADES = 64;
const GREY = [200, 200, 200];
// The most arcs that are drawn as lines at once; with more in sight nodes are drawn as points.
const MOST_LINES = 60000;

function colour(part) {
  const at = Math.min(Math.max(part, 0), 1) * (CIVIDIS.length - 1), low = Math.min(Math.floor(at), CIVIDIS.length - 2), rest = at - low;
  return CIVIDIS[low].map((it, band) => Math.round(it + (CIVIDIS[low + 1][band] - it) * rest));
}

const PALETTE = Array.from({ length: SHADES }, (_, at) => colour(1 - at / (SHADES - 1)));
const css = ([r, g, b]) => `rgb(${r},${g},${b})`;

// A time in words: with a unit as hours, minutes and seconds, else the number.
function span(time, perSecond) {
  if (!perSecond) return String(time);
  const seconds = Math.floor(time / perSecond), rest = time - seconds * perSecond, hours = Math.floor(seconds / 3600), two = (it) => String(it).padStart(2, "0");
  const end = rest ? (rest / perSecond).toFixed(Math.ceil(Math.log10(perSecond))).slice(1) : "";
  return hours ? `${hours}:${two(Math.floor(seconds / 60) % 60)}:${two(seconds % 60)}${end} h` : `${Math.floor(seconds / 60)}:${two(seconds % 60)}${end} min`;
}

function clock(time, perSecond) {
  if (!perSecond) return String(time);
  const seconds = Math.floor(time / perSecond), two = (it) => String(it).padStart(2, "0"), days = Math.floor(seconds / 86400);
  return `${two(Math.floor(seconds / 3600) % 24)}:${two(Math.floor(seconds / 60) % 60)}:${two(seconds % 60)}${days ? ` (day ${days + 1})` : ""}`;
}

// The arrivals of a reply: -1 for a node that is not reached. A time is less than 2^48, so a float holds it.
function arrivalsOf(buffer) {
  const halves = new Uint32Array(buffer), found = new Float64Array(halves.length / 2);
  for (let at = 0; at < found.length; at++) {
    const high = halves[2 * at + 1];
    found[at] = high === 0xffffffff ? -1 : high * 4294967296 + halves[2 * at];
  }
  return found;
}

// The least round number that is at least a length: a longest time for the legend that stays while the departure is dragged.
function rounded(length, perSecond) {
  const unit = perSecond || 1;
  if (perSecond) for (const seconds of [60, 120, 300, 600, 900, 1200, 1500, 1800, 2700, 3600, 5400, 7200, 10800, 14400, 21600, 43200, 86400]) if (length <= seconds * unit) return seconds * unit;
  const power = 10 ** Math.floor(Math.log10(Math.max(length, 1)));
  return [1, 2, 5, 10].map((it) => it * power).find((it) => it >= length);
}

// Mercator's y of a latitude, in degrees of longitude at the equator; the projection of map tiles.
const MOST_LATITUDE = 85.0511287798066;
const mercator = (latitude) => (180 / Math.PI) * Math.atanh(Math.sin((Math.min(Math.max(latitude, -MOST_LATITUDE), MOST_LATITUDE) * Math.PI) / 180));

// Map tiles below the roads, of 256 pixels each, from an address with {z}, {x} and {y}.
class Tiles {
  constructor(canvas, template, map) {
    Object.assign(this, { canvas, template, map, images: new Map(), drawn: 0 });
  }

  // The image of a tile; it is drawn once it is there. The oldest of many are dropped.
  image(zoom, x, y) {
    const address = this.template.replace("{z}", zoom).replace("{x}", x).replace("{y}", y);
    let found = this.images.get(address);
    if (!found) {
      found = new Image();
      found.onload = () => this.map.draw();
      found.src = address;
      this.images.set(address, found);
      if (this.images.size > 512) this.images.delete(this.images.keys().next().value);
    }
    return found;
  }

  paint() {
    const { canvas, map } = this, context = canvas.getContext("2d");
    canvas.width = map.canvas.width, canvas.height = map.canvas.height;
    const zoom = Math.max(0, Math.min(19, Math.round(Math.log2((map.scale * 360) / (256 * map.ratio))))), count = 2 ** zoom, size = 360 / count;
    const x = (pixel) => map.west + (pixel - map.left) / map.scale, y = (pixel) => map.south + (map.bottom - pixel) / map.scale;
    const column = (pixel) => Math.floor((x(pixel) + 180) / size), row = (pixel) => Math.floor((180 - y(pixel)) / size);
    this.drawn = 0;
    for (let at = Math.max(0, row(0)); at <= Math.min(count - 1, row(canvas.height)); at++) for (let across = column(0); across <= column(canvas.width); across++) {
      const image = this.image(zoom, ((across % count) + count) % count, at);
      if (!image.complete || !image.naturalWidth) continue;
      const left = map.left + (across * size - 180 - map.west) * map.scale, top = map.bottom - (180 - at * size - map.south) * map.scale;
      context.drawImage(image, left, top, size * map.scale, size * map.scale);
      this.drawn++;
    }
  }
}

class RoadMap {
  // `coordinates` has x and y of each node, NaN if there are none; `ends` tail and head of each arc.
  constructor(canvas, coordinates, ends, degrees) {
    Object.assign(this, { canvas, coordinates, ends, tiles: null, nodes: coordinates.length / 2, arcs: ends.length / 2, arrivals: null, departure: 0, until: false, longest: 1, walk: [], source: 0, target: 0 });
    this.context = canvas.getContext("2d");
    this.xs = new Float32Array(this.nodes);
    this.ys = new Float32Array(this.nodes);
    let west = Infinity, east = -Infinity, south = Infinity, north = -Infinity;
    const upward = degrees ? mercator : (y) => y;
    for (let at = 0; at < this.nodes; at++) {
      const x = coordinates[2 * at], y = upward(coordinates[2 * at + 1]);
      if (Number.isNaN(x)) continue;
      west = Math.min(west, x), east = Math.max(east, x), south = Math.min(south, y), north = Math.max(north, y);
    }
    // Coordinates become floats from the south-west corner.
    for (let at = 0; at < this.nodes; at++) {
      this.xs[at] = coordinates[2 * at] - west;
      this.ys[at] = upward(coordinates[2 * at + 1]) - south;
    }
    Object.assign(this, { west, south, width: east - west, height: north - south });
    this.fill();
    this.resize();
  }

  // A grid over the map with some nodes in each cell, for what is in sight and what is near.
  fill() {
    this.side = Math.max(1, Math.round(Math.sqrt(this.nodes / 4)));
    const count = new Uint32Array(this.side * this.side + 1), cells = new Int32Array(this.nodes).fill(-1);
    for (let at = 0; at < this.nodes; at++) {
      if (Number.isNaN(this.xs[at])) continue;
      cells[at] = this.column(this.xs[at]) + this.side * this.row(this.ys[at]);
      count[cells[at] + 1]++;
    }
    for (let cell = 0; cell < this.side * this.side; cell++) count[cell + 1] += count[cell];
    this.first = count.slice();
    this.members = new Uint32Array(count[this.side * this.side]);
    for (let at = 0; at < this.nodes; at++) if (cells[at] >= 0) this.members[count[cells[at]]++] = at;
    // The arcs of each tail, so that a part of the map draws its own arcs alone.
    this.firstArc = new Uint32Array(this.nodes + 1);
    for (let arc = 0; arc < this.arcs; arc++) this.firstArc[this.ends[2 * arc]]++;
    for (let at = 0; at < this.nodes; at++) this.firstArc[at + 1] += this.firstArc[at];
    const next = this.firstArc.slice();
    this.heads = new Uint32Array(this.arcs);
    for (let arc = 0; arc < this.arcs; arc++) this.heads[next[this.ends[2 * arc] - 1]++] = this.ends[2 * arc + 1] - 1;
  }

  column(x) { return Math.min(this.side - 1, Math.max(0, Math.floor((x / (this.width || 1)) * this.side))); }
  row(y) { return Math.min(this.side - 1, Math.max(0, Math.floor((y / (this.height || 1)) * this.side))); }

  resize() {
    const ratio = window.devicePixelRatio || 1, box = this.canvas.getBoundingClientRect();
    this.canvas.width = Math.max(1, Math.round(box.width * ratio));
    this.canvas.height = Math.max(1, Math.round(box.height * ratio));
    this.ratio = ratio;
    this.whole();
  }

  // Shows all of the map.
  whole() {
    const margin = 24 * this.ratio;
    this.scale = Math.min((this.canvas.width - 2 * margin) / (this.width || 1), (this.canvas.height - 2 * margin) / (this.height || 1));
    this.left = (this.canvas.width - this.width * this.scale) / 2;
    this.bottom = (this.canvas.height + this.height * this.scale) / 2;
    this.draw();
  }

  // Zooms about a place of the canvas, or moves by pixels of the page.
  zoom(factor, x = this.canvas.width / 2, y = this.canvas.height / 2) {
    const least = Math.min(this.canvas.width / (this.width || 1), this.canvas.height / (this.height || 1)) / 4;
    const scale = Math.min(Math.max(this.scale * factor, least), least * 1e6), by = scale / this.scale;
    this.left = x - (x - this.left) * by;
    this.bottom = y - (y - this.bottom) * by;
    this.scale = scale;
    this.draw();
  }

  move(dx, dy) {
    this.left += dx * this.ratio;
    this.bottom += dy * this.ratio;
    this.draw();
  }

  // Where a node is on the page, from the canvas's corner.
  at(node) {
    return [(this.left + this.xs[node - 1] * this.scale) / this.ratio, (this.bottom - this.ys[node - 1] * this.scale) / this.ratio];
  }

  // The node nearest to a place on the page and within `most` pixels of it, 0 if there is none.
  near(px, py, most = 30) {
    const x = (px * this.ratio - this.left) / this.scale, y = (this.bottom - py * this.ratio) / this.scale, reach = (most * this.ratio) / this.scale;
    let best = reach * reach, found = 0;
    for (let row = this.row(y - reach); row <= this.row(y + reach); row++) for (let column = this.column(x - reach); column <= this.column(x + reach); column++) {
      const cell = column + row * this.side;
      for (let it = this.first[cell]; it < this.first[cell + 1]; it++) {
        const node = this.members[it], far = (this.xs[node] - x) ** 2 + (this.ys[node] - y) ** 2;
        if (far < best || (far === best && found && node + 1 < found)) [best, found] = [far, node + 1];
      }
    }
    return found;
  }

  // The time between the one that was asked for and a node's: -1 for never, or if nothing was asked yet.
  span(node) {
    const time = this.arrivals ? this.arrivals[node] : -1;
    return time < 0 ? -1 : this.until ? this.departure - time : time - this.departure;
  }

  // The shade of a node: -1 for never.
  shade(node) {
    const span = this.span(node);
    return span < 0 ? -1 : Math.min(SHADES - 1, Math.floor((span / this.longest) * SHADES));
  }

  // Shows arrivals after a departure or, with `until`, latest departures before an arrival.
  show(times, clock, until = false) {
    this.arrivals = times;
    this.departure = clock;
    this.until = until;
    this.draw();
  }

  // Draws once in the next frame, however often it is called before.
  draw() {
    if (!this.waits) {
      this.waits = true;
      requestAnimationFrame(() => { this.waits = false; this.paint(); });
    }
  }

  // The cells in sight: first and last column, first and last row.
  sight() {
    const x = (it) => (it - this.left) / this.scale, y = (it) => (this.bottom - it) / this.scale;
    return [this.column(x(0)), this.column(x(this.canvas.width)), this.row(y(this.canvas.height)), this.row(y(0))];
  }

  paint() {
    const { context, canvas } = this, began = performance.now(), [west, east, south, north] = this.sight();
    context.setTransform(1, 0, 0, 1, 0, 0);
    context.fillStyle = "#fff";
    if (this.tiles) this.tiles.paint(), context.clearRect(0, 0, canvas.width, canvas.height);
    else context.fillRect(0, 0, canvas.width, canvas.height);
    let count = 0;
    const nodes = [];
    for (let row = south; row <= north; row++) {
      const from = this.first[west + row * this.side], to = this.first[east + row * this.side + 1];
      nodes.push([from, to]);
      count += to - from;
    }
    if (count * (this.arcs / Math.max(this.nodes, 1)) <= MOST_LINES) this.lines(nodes);
    else this.points(nodes);
    this.overlay();
    this.painted = performance.now() - began;
    if (this.onpaint) this.onpaint();
  }

  // Arcs as lines in the colour of their heads, one path for each shade; crossings as dots if there is room for them.
  lines(nodes) {
    const { context } = this, paths = Array.from({ length: SHADES + 1 }, () => []);
    const x = (node) => this.left + this.xs[node] * this.scale, y = (node) => this.bottom - this.ys[node] * this.scale;
    let count = 0;
    for (const [from, to] of nodes) for (let it = from; it < to; it++) {
      const tail = this.members[it];
      count++;
      for (let arc = this.firstArc[tail]; arc < this.firstArc[tail + 1]; arc++) if (!Number.isNaN(this.xs[this.heads[arc]])) paths[this.shade(this.heads[arc]) + 1].push(tail, this.heads[arc]);
    }
    context.lineCap = "round";
    const width = Math.max(1, Math.min(4, 300 / Math.sqrt(count + 1) / 4)) * this.ratio;
    paths.forEach((path, at) => {
      if (!path.length) return;
      context.lineWidth = at ? width : width / 2;
      context.strokeStyle = css(at ? PALETTE[at - 1] : GREY);
      context.beginPath();
      for (let it = 0; it < path.length; it += 2) context.moveTo(x(path[it]), y(path[it])), context.lineTo(x(path[it + 1]), y(path[it + 1]));
      context.stroke();
    });
    if (count > 3000) return;
    const radius = Math.min(6, 40 / Math.sqrt(count + 1) + 1.5) * this.ratio;
    for (const [from, to] of nodes) for (let it = from; it < to; it++) {
      const node = this.members[it], shade = this.shade(node);
      context.fillStyle = css(shade < 0 ? GREY : PALETTE[shade]);
      context.beginPath();
      context.arc(x(node), y(node), shade < 0 ? radius / 2 : radius, 0, 7);
      context.fill();
    }
  }

  // Nodes as squares that reach to the next ones, straight into the picture's bytes.
  points(nodes) {
    const { canvas, context } = this, picture = context.getImageData(0, 0, canvas.width, canvas.height), out = new Uint32Array(picture.data.buffer);
    const word = ([r, g, b]) => (255 << 24) | (b << 16) | (g << 8) | r, words = Uint32Array.from([GREY, ...PALETTE], word), wide = canvas.width, high = canvas.height;
    const size = Math.min(8, Math.max(2, Math.ceil(this.scale * Math.sqrt((this.width * this.height) / Math.max(this.nodes, 1)))));
    for (const [from, to] of nodes) for (let it = from; it < to; it++) {
      const node = this.members[it], x = Math.floor(this.left + this.xs[node] * this.scale), y = Math.floor(this.bottom - this.ys[node] * this.scale);
      if (x < 0 || y < 0 || x > wide - size || y > high - size) continue;
      const shade = words[this.shade(node) + 1];
      for (let row = x + y * wide, end = row + size * wide; row < end; row += wide) for (let column = 0; column < size; column++) out[row + column] = shade;
    }
    context.putImageData(picture, 0, 0);
  }

  // The walk, the source and the target over the map.
  overlay() {
    const { context, ratio } = this;
    const draw = (nodes, colour, width) => {
      context.strokeStyle = colour;
      context.lineWidth = width * ratio;
      context.lineJoin = "round";
      context.beginPath();
      nodes.forEach((node, at) => context[at ? "lineTo" : "moveTo"](this.left + this.xs[node - 1] * this.scale, this.bottom - this.ys[node - 1] * this.scale));
      context.stroke();
    };
    const walk = this.walk.filter((node) => !Number.isNaN(this.xs[node - 1]));
    if (walk.length > 1) draw(walk, "#fff", 8), draw(walk, "#d4006a", 4);
    [[this.source, "circle"], [this.target, "square"]].forEach(([node, form]) => {
      if (!node || Number.isNaN(this.xs[node - 1])) return;
      const x = this.left + this.xs[node - 1] * this.scale, y = this.bottom - this.ys[node - 1] * this.scale, size = 8 * ratio;
      context.beginPath();
      if (form === "circle") context.arc(x, y, size, 0, 7);
      else context.rect(x - size, y - size, 2 * size, 2 * size);
      context.fillStyle = "#fff";
      context.fill();
      context.strokeStyle = "#d4006a";
      context.lineWidth = 4 * ratio;
      context.stroke();
    });
  }
}

// A legend: the bar of colours with times below it, and grey.
function legend(place, longest, perSecond, until = false) {
  const bar = document.createElement("div"), marks = document.createElement("div"), never = document.createElement("div"), head = document.createElement("div");
  const [unit, name] = !perSecond ? [1, "the network's unit"] : longest >= 7200 * perSecond ? [3600 * perSecond, "hours"] : [60 * perSecond, "minutes"];
  head.textContent = until ? `Time before the arrival, in ${name}` : `Time after the departure, in ${name}`;
  bar.className = "bar";
  const picture = document.createElement("canvas");
  picture.width = SHADES, picture.height = 1;
  const pen = picture.getContext("2d");
  PALETTE.forEach((it, at) => { pen.fillStyle = css(it); pen.fillRect(at, 0, 1, 1); });
  bar.append(picture);
  marks.className = "marks";
  for (const part of [0, 0.5, 1]) {
    const mark = document.createElement("span");
    mark.textContent = `${Number(((longest * part) / unit).toFixed(2))}${part === 1 ? " and more" : ""}`;
    marks.append(mark);
  }
  const grey = document.createElement("span");
  grey.className = "grey";
  never.append(grey, until ? " no departure in time (thin lines)" : " not reached (thin lines)");
  place.replaceChildren(head, bar, marks, never);
}

// The longest time for the legend: a round number that the spans of 98 of 100 nodes are within.
function longestOf(times, clock, perSecond, until = false) {
  const spans = times.filter((it) => it >= 0).map((it) => (until ? clock - it : it - clock)).sort();
  return rounded(spans.length ? spans[Math.min(spans.length - 1, Math.floor(spans.length * 0.98))] : 1, perSecond);
}

// Shows a node's time beside the pointer. `text` is empty if there is nothing to show.
function tipped(map, tip, text, place) {
  tip.hidden = !text;
  if (!text || !place) return;
  tip.textContent = text;
  const right = place[0] + 16 + tip.offsetWidth > map.canvas.clientWidth, low = place[1] + 12 + tip.offsetHeight > map.canvas.clientHeight;
  tip.style.left = `${right ? place[0] - 16 - tip.offsetWidth : place[0] + 16}px`;
  tip.style.top = `${low ? place[1] - 12 - tip.offsetHeight : place[1] + 12}px`;
}

// Moves, zooms and points by mouse, touch and keyboard. `hover(node)` and `click(node)` get a node, or 0 if none is near.
function guided(map, hover, click) {
  const { canvas } = map, held = new Map();
  let moved = 0;
  const place = (event) => { const box = canvas.getBoundingClientRect(); return [event.clientX - box.left, event.clientY - box.top]; };
  canvas.addEventListener("pointerdown", (event) => { canvas.setPointerCapture(event.pointerId); held.set(event.pointerId, place(event)); moved = 0; });
  canvas.addEventListener("pointermove", (event) => {
    const now = place(event), before = held.get(event.pointerId);
    if (!before) return hover(map.near(...now), now);
    const others = [...held].filter(([id]) => id !== event.pointerId).map(([, it]) => it);
    if (others.length) {
      const far = (it) => Math.hypot(it[0] - others[0][0], it[1] - others[0][1]) || 1;
      map.zoom(far(now) / far(before), others[0][0] * map.ratio, others[0][1] * map.ratio);
      moved = 99;
    } else {
      moved += Math.hypot(now[0] - before[0], now[1] - before[1]);
      if (moved > 4) map.move(now[0] - before[0], now[1] - before[1]);
    }
    held.set(event.pointerId, now);
  });
  const up = (event) => { if (held.delete(event.pointerId) && moved <= 4 && event.type === "pointerup") click(map.near(...place(event))); };
  canvas.addEventListener("pointerup", up);
  canvas.addEventListener("pointercancel", up);
  canvas.addEventListener("pointerleave", () => hover(0));
  canvas.addEventListener("wheel", (event) => { event.preventDefault(); const [x, y] = place(event); map.zoom(Math.exp(-event.deltaY * (event.deltaMode ? 0.05 : 0.002)), x * map.ratio, y * map.ratio); }, { passive: false });
  canvas.addEventListener("keydown", (event) => {
    const moves = { ArrowLeft: [60, 0], ArrowRight: [-60, 0], ArrowUp: [0, 60], ArrowDown: [0, -60] };
    if (moves[event.key]) map.move(...moves[event.key]);
    else if (event.key === "+" || event.key === "=") map.zoom(1.4);
    else if (event.key === "-") map.zoom(1 / 1.4);
    else if (event.key === "0") map.whole();
    else return;
    event.preventDefault();
  });
  window.addEventListener("resize", () => map.resize());
}
