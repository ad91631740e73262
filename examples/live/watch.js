"use strict";
// What the page's own address says: names, and a server of this host. Whoever made the link may be a stranger.
const said = new URLSearchParams(location.search);
const WORDS = ["Filled", "Waiting", "NotDecided", "DoesNotFit", "NotSignalled", "NoStart"]; // of `why`, which have a look of their own
const wrong = []; // what is wrong with the address
const programme = said.has("programme") ? nameOf("programme") : null, channel = nameOf("channel");
const playlists = serverOf("playlists");
const address = programme ? `${location.origin}/${programme}.m3u8` : addressOf(channel);
const SECOND = 22; // pixels of a second
const RATE = 10, KINDS = ["programme", "ad a", "ad b", "fallback"]; // (media.py)
const SETTLED = 5000; // milliseconds for which words of renditions may differ: they are asked one after the other
const STANDS = 500, AGAIN = 12000; // milliseconds after which a picture stands still, and after which the playlist is loaded again
const at = (id) => document.getElementById(id);
const video = at("video");
const state = { shownKey: null, on: null, loadedAt: performance.now() };
let renditions = []; // { name, address, width, height, items, endsAt, target, faults, strip .. }
// What was shown, for examples/live/check: [kind, number of the frame, milliseconds since the page began, height of the picture];
// and how many frames the browser itself says that it dropped, or showed without a call of onFrame.
const seen = [];
const missed = { dropped: 0, unseen: 0 };

function addressOf(name) {
  return `${playlists}/channels/${name}/live.m3u8`;
}

// The name that the page's address gives; `news` if it gives none, or one that no channel has.
function nameOf(parameter) {
  const name = said.get(parameter) ?? "news";
  if (/^[a-z0-9-]{1,32}$/.test(name)) return name;
  wrong.push(`${parameter} isn't 1 to 32 of a to z, 0 to 9 and '-'`);
  return "news";
}

// Whether an address is one of this page's own host.
function isOwn(text) {
  const url = URL.canParse(text) ? new URL(text) : null;
  return Boolean(url) && ["http:", "https:"].includes(url.protocol) && url.hostname === location.hostname && !url.username && !url.password;
}

// The server that the page's address names, which has to be of the page's own host; else the page's own.
function serverOf(parameter) {
  const text = said.get(parameter) ?? location.origin;
  if (isOwn(text)) return new URL(text).origin;
  wrong.push(`${parameter} names a server of another host`);
  return location.origin;
}

// An element with a text. Nothing that was read becomes HTML.
function made(kind, text, look = "") {
  const element = document.createElement(kind);
  element.textContent = text;
  element.className = look;
  return element;
}

const clock = (time) => new Date(time).toISOString().slice(11, 19);

// Shows a text, in red if it is bad.
function show(element, text, isBad = false) {
  element.textContent = text;
  element.classList.toggle("bad", isBad);
}

// The items of a written playlist: number, address, duration, whether a discontinuity goes before, and the instant, if one is stated.
function itemsOf(text) {
  const number = (name) => Number(text.match(new RegExp(`^#EXT-X-${name}:(\\d+)$`, "m"))?.[1] ?? 0);
  const items = [];
  let item = {};
  for (const line of text.split("\n")) {
    if (line.startsWith("#EXT-X-DISCONTINUITY") && !line.includes(":")) item.isAfter = true;
    else if (line.startsWith("#EXT-X-PROGRAM-DATE-TIME:")) item.instant = Date.parse(line.slice(25));
    else if (line.startsWith("#EXTINF:")) item.duration = parseFloat(line.slice(8));
    else if (line && !line.startsWith("#")) {
      items.push({ ...item, uri: line, number: number("MEDIA-SEQUENCE") + items.length });
      item = {};
    }
  }
  return { items, media: number("MEDIA-SEQUENCE"), discontinuities: number("DISCONTINUITY-SEQUENCE"), target: number("TARGETDURATION") };
}

// The instant at which the playlist ends: a pod's segments state none, and count on from the segment before.
function endOf(items) {
  let end = null;
  for (const it of items) {
    if (it.instant !== undefined) end = it.instant;
    if (end !== null) end += it.duration * 1000;
  }
  return end;
}

const fileOf = (item) => item.uri.split("/").pop();

// A segment without an instant is an advertisement's; its file's first letter says of which (media.py).
function lookOf(item) {
  if (item.instant !== undefined) return "programme";
  return { a: "ad0", b: "ad1", f: "ad2" }[fileOf(item)[0]] ?? "ad0";
}

// Boxes keep their place on the belt, which moves to the left.
function draw(rendition) {
  const { belt, strip, items } = rendition;
  const kept = new Map([...belt.children].map((it) => [it.dataset.number, it]));
  const last = belt.lastElementChild;
  let right = last ? Number(last.dataset.right) : 0;
  for (const item of items) {
    let box = kept.get(String(item.number));
    kept.delete(String(item.number));
    if (!box) {
      box = document.createElement("div");
      box.dataset.number = item.number;
      box.className = `${lookOf(item)}${item.isAfter ? " discontinuity" : ""}`;
      box.style.left = `${right}px`;
      box.style.width = `${item.duration * SECOND}px`;
      right += item.duration * SECOND;
      box.dataset.right = right;
      box.append(made("span", item.number), made("small", fileOf(item)));
      belt.append(box);
    }
    item.box = box;
  }
  for (const old of kept.values()) old.remove();
  belt.style.transform = `translateX(${strip.clientWidth - right - 4}px)`;
}

// A rendition with its strip: `name` of the channel, the picture's width and height if the master playlist states them.
function begin(name, from, width, height) {
  const label = document.createElement("div"), strip = document.createElement("div"), belt = document.createElement("div");
  label.className = "name";
  strip.className = "strip";
  belt.className = "belt";
  strip.append(belt);
  at("strips").append(...(programme ? [label] : []), strip);
  return { name, address: from, width, height, label, strip, belt, items: [], endsAt: null, faults: {}, breaks: new Map() };
}

async function read(from) {
  const reply = await fetch(from, { cache: "no-store" });
  if (!reply.ok) throw new Error(`is answered ${reply.status}`);
  return reply.text();
}

// Reads something of a rendition; a fault is kept with since when it lasts, until it is read again.
async function attempt(rendition, what, from, take) {
  try {
    take(await read(from));
    rendition.faults[what] = null;
  } catch (fault) {
    rendition.faults[what] = { text: fault instanceof TypeError ? "isn't answered" : fault.message, since: rendition.faults[what]?.since ?? Date.now() };
  }
}

const faultOf = (rendition, what) => rendition.faults[what] && `${what} ${rendition.faults[what].text} since ${clock(rendition.faults[what].since)}`;

async function refresh(rendition) {
  await attempt(rendition, "the playlist", rendition.address, (text) => {
    Object.assign(rendition, itemsOf(text));
    rendition.endsAt = endOf(rendition.items);
    draw(rendition);
  });
  await attempt(rendition, "why", `/channels/${rendition.name}/why`, (text) => {
    rendition.why = new Map(text.split("\n").filter(Boolean).map((line) => line.split("\t")));
  });
}

// The number of the last segment, and its discontinuity number.
function numbersOf({ items, media, discontinuities }) {
  return [media + items.length - 1, discontinuities + items.filter((it) => it.isAfter).length];
}

// Whether two renditions whose lists end with the same segment have other numbers there.
function isApart(rendition) {
  const first = renditions[0];
  if (!rendition.items.length || !first.items.length || fileOf(rendition.items.at(-1)) !== fileOf(first.items.at(-1))) return false;
  return String(numbersOf(rendition)) !== String(numbersOf(first));
}

const lag = (rendition) => (Date.now() - rendition.endsAt) / 1000;
const isLate = (rendition) => Boolean(rendition.endsAt) && lag(rendition) > 3 * (rendition.target || 2);

function tell() {
  const shown = state.on ?? renditions[0];
  if (!shown) return;
  const fault = faultOf(shown, "the playlist");
  if (fault) show(at("end"), fault, true);
  else if (shown.endsAt) show(at("end"), `${lag(shown).toFixed(1)} s${isLate(shown) ? ": it stands still" : ""}`, isLate(shown));
  at("count").textContent = `${shown.items.length}, ${shown.items.reduce((sum, it) => sum + it.duration, 0).toFixed(0)} s`;
  at("media").textContent = shown.media ?? "–";
  at("discontinuities").textContent = shown.discontinuities ?? "–";
  for (const it of renditions) {
    const [number, discontinuities] = numbersOf(it), isBad = Boolean(it.faults["the playlist"]) || isLate(it) || isApart(it);
    const size = it.width ? ` (${it.width} × ${it.height})` : "";
    it.label.textContent = `${it.name}${size}${it === state.on ? ", on" : ""}: ` + (faultOf(it, "the playlist") ??
      `ends with media number ${number} and discontinuity number ${discontinuities}${isApart(it) ? ", which come apart" : ""}, ${lag(it).toFixed(1)} s behind real time`);
    it.label.className = `name${it === state.on ? " on" : ""}${isBad ? " bad" : ""}`;
  }
  tellWhy();
  tellStill();
}

// The word of a break in a rendition. One that was filled stays so on the page: `why` says other words once its pod has left the list.
function wordIn(rendition, id) {
  const word = rendition.why?.get(id);
  if (word && rendition.breaks.get(id) !== "Filled") rendition.breaks.set(id, word);
  return rendition.breaks.get(id);
}

// Breaks that `why` no longer names stay on the page for a while. Renditions are asked one after the other, so words that differ are
// told only once they have done so for SETTLED milliseconds: for each rendition its own.
const breaks = new Map();
function tellWhy(now = Date.now()) {
  const known = new Set(renditions.flatMap((it) => [...(it.why?.keys() ?? [])]));
  for (const id of known) {
    const words = renditions.map((it) => [it, wordIn(it, id)]).filter(([, word]) => word);
    const before = breaks.get(id), isOne = new Set(words.map(([, word]) => word)).size === 1;
    const since = isOne ? null : before?.since ?? now;
    if (isOne) breaks.set(id, { look: words[0][1], text: words[0][1], since });
    else if (before && now - since < SETTLED) before.since = since;
    else breaks.set(id, now - since < SETTLED ? { look: "", text: words[0][1], since } : { look: "mixed", text: words.map(([it, word]) => `${it.name} ${word}`).join(", "), since });
  }
  while (breaks.size > 6) breaks.delete(breaks.keys().next().value);
  const faults = renditions.map((it) => it.faults.why && `${it.name}: ${faultOf(it, "why")}`).filter(Boolean);
  if (faults.length) at("whyFault").textContent = `${faults.join("; ")}. What stands here is from before.`;
  else if (!wrong.length) at("whyFault").textContent = "";
  at("why").className = faults.length ? "old" : "";
  for (const it of renditions) for (const id of it.breaks.keys()) if (!known.has(id) && !breaks.has(id)) it.breaks.delete(id);
  at("why").replaceChildren(...[...breaks].reverse().map(([id, { look, text }]) => {
    const row = document.createElement("tr");
    row.append(made("td", id), made("td", `${text}${known.has(id) ? "" : " (gone)"}`, faults.length || ![...WORDS, "mixed"].includes(look) ? "" : look));
    return row;
  }));
}

// Which frame this is: the blocks at its foot say so (media.py). A film of an ad server has none, and reads as the very first frame.
const canvas = new OffscreenCanvas(320, 180);
const pen = canvas.getContext("2d", { willReadFrequently: true });
function readFrame() {
  pen.drawImage(video, 0, 0, 320, 180);
  const row = pen.getImageData(0, 171, 320, 1).data;
  let value = 0;
  for (let place = 0; place < 20; place++) value = value * 2 + (row[(place * 16 + 8) * 4] > 127 ? 1 : 0);
  return [KINDS[value >> 18], value & 0x3ffff];
}

// The box of the segment that a frame is of: the oldest one that isn't before the one shown until now.
function mark(kind, number) {
  const file = { programme: "p", "ad a": "a", "ad b": "b", fallback: "f" }[kind] + "-" + Math.floor(number / (2 * RATE)) + ".ts";
  if (state.shownKey?.file === file && state.shownKey.name === state.on?.name) return;
  const least = state.shownKey === null ? -1 : state.shownKey.number + (state.shownKey.file === file ? -1 : 0);
  const item = state.on?.items.find((it) => it.uri.endsWith("/" + file) && it.number > least);
  for (const it of document.querySelectorAll(".belt .shown")) it.classList.remove("shown");
  if (!item) return;
  item.box.classList.add("shown");
  state.shownKey = { file, number: item.number, name: state.on.name };
}

let last = null, stalls = 0, longest = 0, called = 0, firstPresented;

// A picture that stands still counts while it stands.
function tellStill() {
  if (document.hidden) return; // (a hidden page is shown no frames)
  const standing = performance.now() - (last ?? state.loadedAt), isStill = standing > (last === null ? 5000 : STANDS);
  const count = stalls + (isStill ? 1 : 0), most = Math.max(longest, isStill ? standing : 0);
  const text = count ? `${count}, the longest ${(most / 1000).toFixed(1)} s` : "none";
  const since = clock(Date.now() - standing);
  if (state.behind) show(at("picture"), `${(state.behind + (last === null ? 0 : standing / 1000)).toFixed(1)} s`, isStill);
  show(at("stalls"), isStill ? `${text}; ${last === null ? "there is no picture" : "this one stands still"} since ${since}` : text, isStill);
  if (standing > AGAIN && performance.now() - state.loadedAt > AGAIN && renditions.length && !renditions.some((it) => isLate(it) || it.faults["the playlist"]))
    load("no picture came, though the playlist goes on");
}

function onFrame(now, { presentedFrames, height }) {
  const [kind, number] = readFrame();
  seen.push([kind, number, Math.round(now), height]);
  missed.unseen = presentedFrames - (firstPresented ??= presentedFrames) + 1 - ++called;
  missed.dropped = video.getVideoPlaybackQuality().droppedVideoFrames;
  if (seen.length > 20000) seen.shift();
  if (last !== null && now - last > STANDS) {
    stalls += 1;
    longest = Math.max(longest, now - last);
  }
  last = now;
  state.on = renditions.find((it) => it.height === height) ?? (renditions.length === 1 ? renditions[0] : null);
  at("rendition").textContent = `${state.on?.name ?? "–"}, ${video.videoWidth} × ${height}`;
  const isNumbered = kind !== "programme" || number > 0;
  at("frame").textContent = isNumbered ? `${kind}, frame ${number}` : "a film";
  mark(kind, number);
  // (a pod is as long as its break, so the picture's distance is that of its place in the playlist)
  const rest = (state.on?.items ?? []).filter((it) => it.number >= (state.shownKey?.number ?? Infinity)).reduce((sum, it) => sum + it.duration, 0);
  if (rest && isNumbered && state.on.endsAt) state.behind = lag(state.on) + rest - (number % (2 * RATE)) / RATE;
  video.requestVideoFrameCallback(onFrame);
}

// Loads the playlist, and again if the player reports an error, which it doesn't mend by itself.
let loads = 0;
function load(why) {
  state.loadedAt = performance.now();
  state.shownKey = null;
  if (why) show(at("player"), `${why}; the playlist was loaded again at ${clock(Date.now())} (${++loads} in all)`, true);
  video.src = address;
  video.play().catch(() => {});
}

video.addEventListener("error", () => {
  const text = video.error?.message || `error ${video.error?.code}`;
  show(at("player"), `stopped at ${clock(Date.now())}: ${text}`, true);
  setTimeout(load, 2000, text);
});
document.addEventListener("visibilitychange", () => { last = null; state.loadedAt = performance.now(); });

// The renditions that the master playlist names; or the one channel.
async function find() {
  if (!programme) return [begin(channel, address)];
  const lines = (await read(address)).split("\n");
  return lines.flatMap((line, n) => {
    const [, width, height] = lines[n - 1]?.match(/RESOLUTION=(\d+)x(\d+)/) ?? [];
    return line && !line.startsWith("#") && isOwn(line) ? [begin(new URL(line).pathname.split("/").at(-2) ?? "", line, Number(width), Number(height))] : [];
  });
}

async function main() {
  at("name").textContent = programme ? `programme ${programme}` : `channel ${channel}`;
  if (wrong.length) show(at("whyFault"), `This page's address is wrong: ${wrong.join("; ")}`, true);
  if (!video.canPlayType("application/vnd.apple.mpegurl")) show(at("player"), "this browser doesn't play HLS by itself", true);
  video.requestVideoFrameCallback(onFrame);
  load();
  while (!renditions.length) {
    try {
      renditions = await find();
    } catch (fault) {
      show(at("end"), `the master playlist ${fault.message}`, true);
      await new Promise((done) => setTimeout(done, 1000));
    }
  }
  const all = () => renditions.forEach(refresh);
  all();
  setInterval(all, 1000);
  setInterval(tell, 200);
}
main();
