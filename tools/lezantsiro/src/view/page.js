// The page: the layers' masks, the heights, and what holds under the cursor.
"use strict";

const data = JSON.parse(document.getElementById("data").textContent);
const canvas = document.getElementById("plate");
const slider = document.getElementById("layer");
const by = (id) => document.getElementById(id);
const shown = data.layers;
const clauses = data.clauses;

const view = { scale: 1, left: 0, top: 0, heights: false, at: 0, cursor: null };
const pictures = new Map();

function picture(url) {
  if (!pictures.has(url)) {
    pictures.set(url, new Promise((resolve, reject) => {
      const image = new Image();
      image.onload = () => resolve(image);
      image.onerror = () => reject(new Error("a picture of this page is damaged"));
      image.src = url;
    }));
  }
  return pictures.get(url);
}

// The bytes of a picture, four a pixel.
async function pixelsOf(url) {
  const image = await picture(url);
  const sheet = document.createElement("canvas");
  sheet.width = image.width;
  sheet.height = image.height;
  const context = sheet.getContext("2d", { willReadFrequently: true });
  context.drawImage(image, 0, 0);
  return context.getImageData(0, 0, image.width, image.height);
}

// From violet to yellow: lightness rises all along.
const STEPS = [[68, 1, 84], [59, 81, 139], [33, 144, 141], [92, 200, 99], [253, 231, 37]];
function colour(part) {
  const place = Math.min(Math.max(part, 0), 1) * (STEPS.length - 1);
  const step = Math.min(Math.floor(place), STEPS.length - 2);
  return STEPS[step].map((from, i) => Math.round(from + (STEPS[step + 1][i] - from) * (place - step)));
}

let sheet = null; // what is shown, one pixel a pixel of the plate
let mask = null; // the bytes of the layer's mask
let heights = null; // those of the heights

async function load() {
  const at = view.at;
  const pixels = await pixelsOf(shown[at].mask);
  if (at !== view.at) return;
  mask = pixels;
  heights = heights || await pixelsOf(data.heights);
  const made = document.createElement("canvas");
  made.width = data.width;
  made.height = data.height;
  const context = made.getContext("2d");
  const out = context.createImageData(data.width, data.height);
  for (let p = 0; p < data.width * data.height; p++) {
    const index = heights.data[4 * p] * 256 + heights.data[4 * p + 1];
    const level = mask.data[4 * p];
    const rgb = view.heights
      ? index === 0 ? [22, 24, 28] : colour(index / data.highest)
      : [40 + level * 0.78, 42 + level * 0.78, 48 + level * 0.75];
    out.data.set([rgb[0], rgb[1], rgb[2], 255], 4 * p);
  }
  context.putImageData(out, 0, 0);
  sheet = made;
  if (view.cursor) point(...view.cursor);
  draw();
  say();
  // how many pixels of the layer have material, for who reads the page by a program
  document.body.dataset.material = mask.data.reduce((sum, byte, at) => sum + (at % 4 === 0 && byte > 0 ? 1 : 0), 0);
}

function fit() {
  const box = canvas.getBoundingClientRect();
  view.scale = Math.min(box.width / data.width, box.height / data.height) * 0.95;
  view.left = (box.width - data.width * view.scale) / 2;
  view.top = (box.height - data.height * view.scale) / 2;
}

function draw() {
  const box = canvas.getBoundingClientRect();
  const ratio = window.devicePixelRatio || 1;
  canvas.width = Math.round(box.width * ratio);
  canvas.height = Math.round(box.height * ratio);
  const context = canvas.getContext("2d");
  context.scale(ratio, ratio);
  context.imageSmoothingEnabled = view.scale < 1;
  if (sheet) context.drawImage(sheet, view.left, view.top, data.width * view.scale, data.height * view.scale);
  context.strokeStyle = "#56b4e9";
  context.strokeRect(view.left, view.top, data.width * view.scale, data.height * view.scale);
  if (view.cursor) {
    const side = Math.max(view.scale, 6);
    const x = view.left + (view.cursor[0] + 0.5) * view.scale;
    const y = view.top + (view.cursor[1] + 0.5) * view.scale;
    context.lineWidth = 2;
    context.strokeStyle = "#e69f00";
    context.strokeRect(x - side / 2, y - side / 2, side, side);
  }
}

// A length in mm as a fraction of two whole numbers, in units, rounded down.
const fraction = ([num, den]) => [BigInt(num), BigInt(den)];

// The sample's place on an axis in units: origin + (i + 1/2) pitch, rounded down.
function units(axis, index) {
  if (!axis.exact) {
    const [origin, step] = [BigInt(axis.begin), BigInt(axis.step)];
    return origin + BigInt(index) * step + floored(step, 2n);
  }
  const [on, od] = fraction(axis.origin);
  const [pn, pd] = fraction(axis.pitch);
  const num = on * 2n * pd + pn * (2n * BigInt(index) + 1n) * od;
  return floored(num * ONE, od * 2n * pd);
}

// Rows of a mask go down from the greatest y where y goes up.
const rowOf = (y) => (data.up ? data.height - 1 - y : y);

function sampleAt(column, row, a, b) {
  const aa = data.aa;
  return [units(data.x, column * aa + a), units(data.y, rowOf(row) * aa + b), BigInt(shown[view.at].z)];
}

// As a shell takes it.
const quoted = (words) => (/^[\w./-]+$/.test(words) ? words : `'${words.replaceAll("'", "'\\''")}'`);

const mm = (v) => (Number(v) / 65536).toFixed(5).replace(/0+$/, "").replace(/\.$/, "");

function say() {
  const layer = shown[view.at];
  slider.value = view.at;
  by("where").textContent = `layer ${layer.index} of ${data.count}, z = ${mm(layer.z)} mm`;
  by("heights").setAttribute("aria-pressed", view.heights);
  if (!view.cursor || !mask) return;
  const [column, row] = view.cursor;
  const middle = sampleAt(column, row, Math.floor(data.aa / 2), Math.floor(data.aa / 2));
  const values = valuesAt(clauses, middle);
  const value = values[values.length - 1];
  let full = 0;
  for (let b = 0; b < data.aa; b++) {
    for (let a = 0; a < data.aa; a++) {
      const each = valuesAt(clauses, sampleAt(column, row, a, b));
      full += each[each.length - 1] < 0n ? 1 : 0;
    }
  }
  const expected = Math.round(255 * full / (data.aa * data.aa));
  const level = mask.data[4 * (row * data.width + column)];
  const agrees = Math.abs(level - expected) <= 1;
  by("pixel").textContent = `${column}, ${row}`;
  by("point").textContent = `${mm(middle[0])}, ${mm(middle[1])}, ${mm(middle[2])} mm`;
  by("value").textContent = `${mm(value)} (${value} units)`;
  by("material").textContent = data.aa === 1 ? (value < 0n ? "yes" : "no") : `${full} of ${data.aa * data.aa} samples`;
  by("agrees").innerHTML = agrees ? "agrees" : '<span class="bad">differs: run verify</span>';
  const index = heights.data[4 * (row * data.width + column)] * 256 + heights.data[4 * (row * data.width + column) + 1];
  by("height").textContent = index === 0 ? "none" : `layer ${index - 1}`;
  by("command").textContent = `./lezantsiro why ${quoted(data.folder)} --pixel ${column},${row} --layer ${layer.index}`;
  mark(decidedBy(clauses, values));
}

// The formula with what decided marked, and what lost in grey.
function mark(path) {
  const box = by("formula");
  const last = path[path.length - 1];
  if (!data.formula) {
    box.textContent = `clause ${last} of ${clauses.length} decided (the part is a tape, without a text)`;
    return;
  }
  const text = new TextEncoder().encode(data.formula);
  const cut = (from, to) => new TextDecoder().decode(text.slice(from, to));
  const [from, to] = data.spans[last];
  const piece = (name, words) => {
    const span = document.createElement("span");
    span.className = name;
    span.textContent = words;
    return span;
  };
  box.replaceChildren(piece("lost", cut(0, from)), piece("decided", cut(from, to)), piece("lost", cut(to)));
}

function go(at) {
  view.at = Math.min(Math.max(at, 0), shown.length - 1);
  load().catch((error) => { by("where").textContent = error.message; });
}

function point(column, row) {
  const within = (v, most) => Math.min(Math.max(v, 0), most - 1);
  view.cursor = [within(column, data.width), within(row, data.height)];
  draw();
  say();
}

function zoom(factor, x, y) {
  const scale = Math.min(Math.max(view.scale * factor, 0.05), 64);
  view.left = x - (x - view.left) * scale / view.scale;
  view.top = y - (y - view.top) * scale / view.scale;
  view.scale = scale;
  draw();
}

const place = (event) => {
  const box = canvas.getBoundingClientRect();
  return [event.clientX - box.left, event.clientY - box.top];
};
const pixelAt = ([x, y]) => [Math.floor((x - view.left) / view.scale), Math.floor((y - view.top) / view.scale)];

let drag = null;
canvas.addEventListener("pointerdown", (event) => { drag = { from: place(event), moved: false }; canvas.setPointerCapture(event.pointerId); });
canvas.addEventListener("pointerup", () => { drag = null; });
canvas.addEventListener("pointermove", (event) => {
  const at = place(event);
  if (drag) {
    view.left += at[0] - drag.from[0];
    view.top += at[1] - drag.from[1];
    drag.from = at;
    draw();
    return;
  }
  const [column, row] = pixelAt(at);
  if (column >= 0 && row >= 0 && column < data.width && row < data.height) point(column, row);
});
canvas.addEventListener("wheel", (event) => { event.preventDefault(); zoom(event.deltaY < 0 ? 1.25 : 0.8, ...place(event)); }, { passive: false });
slider.addEventListener("input", () => go(Number(slider.value)));
by("heights").addEventListener("click", () => { view.heights = !view.heights; go(view.at); });
by("fit").addEventListener("click", () => { fit(); draw(); });
window.addEventListener("resize", () => { fit(); draw(); });

document.addEventListener("keydown", (event) => {
  if (event.target === slider) return;
  const [column, row] = view.cursor || [Math.floor(data.width / 2), Math.floor(data.height / 2)];
  const far = event.shiftKey ? 10 : 1;
  const middle = [canvas.clientWidth / 2, canvas.clientHeight / 2];
  const keys = {
    ArrowLeft: () => point(column - far, row),
    ArrowRight: () => point(column + far, row),
    ArrowUp: () => point(column, row - far),
    ArrowDown: () => point(column, row + far),
    PageUp: () => go(view.at + far),
    PageDown: () => go(view.at - far),
    Home: () => go(0),
    End: () => go(shown.length - 1),
    "+": () => zoom(1.25, ...middle),
    "-": () => zoom(0.8, ...middle),
    0: () => { fit(); draw(); },
    h: () => { view.heights = !view.heights; go(view.at); },
  };
  if (keys[event.key]) {
    event.preventDefault();
    keys[event.key]();
  }
});

// A link may say where to look: #layer=17&pixel=120,80&heights
function asked() {
  const words = new URLSearchParams(location.hash.slice(1));
  const pixel = (words.get("pixel") || "").split(",").map(Number);
  const layer = Number(words.get("layer") ?? Math.floor(data.count / 2));
  const at = shown.findIndex((each) => each.index >= layer);
  view.heights = words.has("heights");
  if (pixel.length === 2 && pixel.every(Number.isInteger)) view.cursor = pixel;
  return at < 0 ? shown.length - 1 : at;
}

slider.max = shown.length - 1;
fit();
go(asked());
