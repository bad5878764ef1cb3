// The data of the page, and its words.
const data = JSON.parse(document.getElementById("data").textContent);
const ALPHABET = "ABCDEFGHIJKLMNOPQRSTUVWXYZabcdefghijklmnopqrstuvwxyz0123456789-_";
const ONE = 4294967296;
const ROW = 34, TOP = 30;

const byId = (id) => document.getElementById(id);

// An HTML element with attributes and children; a string child is text.
function element(name, attributes, ...children) {
  const made = document.createElement(name);
  for (const [key, value] of Object.entries(attributes || {})) made.setAttribute(key, value);
  made.append(...children);
  return made;
}

// The same for the picture.
function drawn(name, attributes, ...children) {
  const made = document.createElementNS("http://www.w3.org/2000/svg", name);
  for (const [key, value] of Object.entries(attributes)) made.setAttribute(key, value);
  made.append(...children);
  return made;
}

// Units of 1 / 2^32 with six decimals; every number of units here is below 2^53, so that the division is exact.
const six = (units) => (units / ONE).toFixed(6);
const signed = (units) => (units > 0 ? "+" : "") + six(units).replace("-", "\u2212");

const title = (station) => (data.names[station] ? `${station} ${data.names[station]}` : `${station}`);

// The walks of a text, each a list of positions.
function walksOf(text, hops) {
  const walks = [];
  for (let at = 0; at < text.length; at += 2 * hops) {
    const walk = [];
    for (let leg = at; leg < at + 2 * hops; leg += 2) {
      walk.push(64 * ALPHABET.indexOf(text[leg]) + ALPHABET.indexOf(text[leg + 1]));
    }
    walks.push(walk);
  }
  return walks;
}

// A pair of the data, with the stations inside its walks.
function pairOf([source, destination, hops, count, text, insides]) {
  return { source, destination, hops, count, text, insides };
}

const pairs = data.listed.map(pairOf);
const pairBetween = (source, destination) =>
  pairs.find((pair) => pair.source === source && pair.destination === destination);

// The account of a station: its pairs by share, the largest first, then by source and destination.
function accountOf(station) {
  const account = [];
  for (const pair of pairs) {
    const inside = pair.insides.find((entry) => entry[0] === station);
    if (!inside) continue;
    const [, through, share, places, apart] = inside;
    const listed = walksOf(apart || pair.text, pair.hops);
    const walks = apart ? listed : [...places].map((place) => listed[ALPHABET.indexOf(place)]);
    account.push({ ...pair, through, share, walks });
  }
  return account.sort((one, other) => other.share - one.share);
}
