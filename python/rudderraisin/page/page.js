"use strict";
// Nothing that players write becomes HTML: every text is put into an element by textContent.

const AGAIN = 15_000;   // milliseconds to the next try, and between two looks where nobody may listen any more
const SILENT = 50_000;  // milliseconds without a sign of life behind which a connection counts as gone
const KEYS = { users: "name", battles: "battleID", channels: "name" };
const names = new Intl.Collator(undefined, { sensitivity: "base", numeric: true }).compare;
const tables = { users: new Map(), battles: new Map(), channels: new Map() };
const shown = { users: new Map(), battles: new Map(), channels: new Map() };    // by key the row and its element
const stale = new Set();    // the tables that are to be drawn
let lobby = null, version = null, source = null, heard = 0, isReached = false, isDrawing = false;

const ORDER = {
  users: (a, b) => names(a.name, b.name),
  battles: (a, b) => b.members.length - a.members.length || a.battleID - b.battleID,
  channels: (a, b) => b.userCount - a.userCount || names(a.name, b.name),
};
const TEXTS = {
  users: it => [it.name],
  battles: it => [it.title, it.map, it.gameName, ...it.members],
  channels: it => [it.name],
};
const NONE = { users: "Nobody is logged in.", battles: "No battle is open.", channels: "No channel is open." };
const ELEMENTS = { users: userElement, battles: battleElement, channels: channelElement };

function element(tag, kind, ...inside) {
  const made = document.createElement(tag);
  if (kind) made.className = kind;
  for (const it of inside) made.append(it);     // a string is appended as a text
  return made;
}

function text(said, kind) {
  const made = element("bdi", kind);
  made.textContent = said;
  if (said.length > 60) made.title = said;
  return made;
}

function userElement(it) {
  const made = element("li", "", text(it.name));
  const marks = [it.country === "??" ? "" : it.country, it.bot && "bot", it.moderator && "moderator",
    it.away && !it.inGame && "away"];
  for (const mark of marks) if (mark) made.append(element("span", "mark", mark));
  if (it.inGame) made.append(element("span", "mark in-game", "in game"));
  return made;
}

function battleElement(it) {
  const playing = Math.max(0, it.members.length - it.spectatorCount);
  const title = element("h3", "", text(it.title || "(no title)", "text"));
  title.append(element("span", playing >= it.maxPlayers ? "full" : "", `${playing} of ${it.maxPlayers}`));
  const watching = it.spectatorCount && `${it.spectatorCount} ${it.spectatorCount > 1 ? "spectators" : "spectator"}`;
  const about = element("p", "faint", [it.locked && "locked", it.passworded && "password", watching]
    .filter(Boolean).join(" · "));
  if (it.inGame) about.prepend(element("span", "in-game", "in game"), about.textContent ? " · " : "");
  const members = element("p", "members", ...it.members.map(name => element("span", "", text(name),
    name === it.founder ? element("span", "mark", "host") : "")));
  return element("li", "", title, element("p", "", text(it.map || "(no map)", "text")),
    element("p", "faint text", text(it.gameName), " · ", text(`${it.engineName} ${it.engineVersion}`)),
    about.textContent ? about : "", members);
}

function channelElement(it) {
  return element("li", "", text(it.name), element("span", "mark", String(it.userCount)));
}

function draw() {
  isDrawing = false;
  const wanted = document.getElementById("wanted").value.trim().toLowerCase();
  for (const name of stale) drawTable(name, wanted);
  stale.clear();
  for (const name of Object.keys(tables)) {
    document.querySelector(`[data-count=${name}]`).textContent = lobby && lobby.connected ? tables[name].size : "";
  }
  drawState();
}

// Leaves each element whose row is the same where it stands, so that a change costs no more than itself.
function drawTable(name, wanted) {
  const list = document.querySelector(`#${name} ul`);
  list.nextElementSibling.textContent = tables[name].size ? "None found." : NONE[name];
  const isWanted = it => !wanted || TEXTS[name](it).some(said => said.toLowerCase().includes(wanted));
  const rows = [...tables[name].values()].filter(isWanted).sort(ORDER[name]);
  const old = shown[name], next = new Map();
  for (const it of rows) {
    const there = old.get(it[KEYS[name]]);
    next.set(it[KEYS[name]], there && there.row === it ? there : { row: it, made: ELEMENTS[name](it) });
  }
  for (const [key, it] of old) if (next.get(key) !== it) it.made.remove();
  let at = list.firstElementChild;
  for (const { made } of next.values()) {
    if (made === at) at = at.nextElementSibling;
    else list.insertBefore(made, at);
  }
  shown[name] = next;
}

function drawState() {
  const since = () => new Date(lobby.since * 1000).toLocaleTimeString([], { hour: "2-digit", minute: "2-digit" });
  const isLost = !isReached || !lobby.connected;
  const said = !lobby ? "Connecting"
    : !isReached ? "This page is not renewed: its server does not answer. It tries again."
    : !lobby.connected ? `The lobby has been away since ${since()} (${lobby.reason}). This page waits for it.`
    : source && source.readyState === 1 ? "Live" : "Renewed every 15 seconds";
  const state = document.getElementById("state");
  if (state.textContent !== said) state.textContent = said;
  state.classList.toggle("lost", isLost && lobby !== null);
  document.body.classList.toggle("lost", isLost);
  document.body.classList.toggle("away", !lobby || !lobby.connected);
}

function drawSoon(...names) {
  for (const name of names) stale.add(name);
  if (!isDrawing) requestAnimationFrame(draw);
  isDrawing = true;
}

function reached(is) {
  isReached = is;
  heard = Date.now();
  drawSoon();
}

async function load() {
  const answer = await fetch("status.json", { cache: "no-cache" });
  if (!answer.ok) throw new Error(answer.statusText);
  const all = await answer.json();
  ({ lobby, version } = all);
  for (const [name, key] of Object.entries(KEYS)) tables[name] = new Map(all[name].map(it => [it[key], it]));
  drawSoon(...Object.keys(tables));
  reached(true);
}

function take(event) {
  const changed = JSON.parse(event.data);
  version = event.lastEventId;
  if (changed.lobby) lobby = changed.lobby;
  for (const [name, key] of Object.entries(KEYS)) {
    if (!changed[name]) continue;
    drawSoon(name);
    for (const it of changed[name].gone) tables[name].delete(it);
    for (const it of changed[name].set) tables[name].set(it[key], it);
  }
  reached(true);
}

function listen() {
  source = new EventSource("changes?since=" + encodeURIComponent(version));
  source.onopen = () => reached(true);
  source.addEventListener("change", take);
  source.addEventListener("still", () => reached(true));
  // All who listen are told at once: they come one after the other.
  source.addEventListener("again", () => { source.close(); setTimeout(start, Math.random() * 2_000); });
  source.onerror = () => {
    if (source.readyState === 2) setTimeout(start, AGAIN);  // refused, for too many listen: this looks again
    else reached(false);                                    // it connects anew by itself
    drawSoon();
  };
}

async function start() {
  if (source) source.close();
  source = null;
  try {
    await load();
    listen();
  } catch (_) {
    reached(false);
    setTimeout(start, AGAIN / 3);
  }
}

document.getElementById("wanted").addEventListener("input", () => drawSoon(...Object.keys(tables)));
setInterval(() => { if (source && source.readyState !== 2 && Date.now() - heard > SILENT) start(); }, SILENT / 10);
start();
