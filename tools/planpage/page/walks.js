// Walks drawn in the picture, one after another.
const walker = { walks: [], at: 0, timer: 0, drew: () => {} };

const lineOf = (station) => TOP + ROW * (station + 0.5);

// The arrow of a leg, and its number at the middle.
function drawLeg(layer, [, a, b, x], number) {
  const from = lineOf(a), to = lineOf(b), back = from < to ? -11 : 11;
  layer.append(drawn("path", { class: "halo", d: `M${x} ${from}V${to}` }));
  layer.append(drawn("path", { class: "way", d: `M${x} ${from}V${to + back}` }));
  layer.append(drawn("path", { class: "tip", d: `M${x} ${to}l6 ${back}h-12z` }));
  const middle = (from + to) / 2;
  const text = drawn("text", { x, y: middle + 4 }, `${number}`);
  return drawn("g", { class: "leg" }, drawn("circle", { cx: x, cy: middle, r: 8 }), text);
}

// The time between two legs, along the line of the station that waits.
function drawWait(layer, from, to) {
  layer.append(drawn("path", { class: "wait", d: `M${from[3]} ${lineOf(from[2])}H${to[3]}` }));
}

// The source as a disc, the destination as a square.
function drawEnds(layer, legs) {
  const first = legs[0], last = legs[legs.length - 1];
  layer.append(drawn("circle", { class: "end", cx: first[3], cy: lineOf(first[1]), r: 6 }));
  const [x, y] = [last[3] - 6, lineOf(last[2]) - 6];
  const beyond = last[1] < last[2] ? 6 : -6;
  layer.append(drawn("rect", { class: "end", x, y: y + beyond, width: 12, height: 12 }));
}

// Draws a walk, and shows where it reaches a station, or its first leg.
function drawWalk(walk, station) {
  const layer = byId("walk");
  layer.replaceChildren();
  byId("plan").classList.toggle("walking", walk !== null);
  if (walk === null) return;
  const legs = walk.map((position) => data.contacts[position]);
  const numbers = [];
  legs.forEach((leg, at) => {
    if (at > 0) drawWait(layer, legs[at - 1], leg);
    numbers.push(drawLeg(layer, leg, at + 1));
  });
  drawEnds(layer, legs);
  layer.append(...numbers);
  const aim = legs.find((leg) => leg[2] === station) || legs[0];
  showAcross(legs[0][3], legs[legs.length - 1][3], aim[3]);
  showLine(aim[2]);
}

// Scrolls the picture sideways so that the part from one place to another can be seen, or what is around the aim where
// all of it is too wide.
function showAcross(from, to, aim) {
  const picture = byId("picture"), plan = byId("plan").getBoundingClientRect();
  const scale = plan.width / byId("plan").viewBox.baseVal.width;
  const offset = plan.left - picture.getBoundingClientRect().left + picture.scrollLeft;
  const kept = byId("labels").getBoundingClientRect().width + 24;
  const room = picture.clientWidth - kept - 24;
  const low = offset + from * scale - kept, high = offset + to * scale - kept - room;
  if (high > low) picture.scrollLeft = offset + aim * scale - kept - room / 2;
  else if (picture.scrollLeft > low) picture.scrollLeft = low;
  else if (picture.scrollLeft < high) picture.scrollLeft = high;
}

// Scrolls the page so that a station's line can be seen above a panel that covers it.
function showLine(station) {
  const plan = byId("plan").getBoundingClientRect(), panel = byId("panel");
  const covered = getComputedStyle(panel).position === "fixed";
  const end = covered ? panel.getBoundingClientRect().top : window.innerHeight;
  const line = plan.top + (lineOf(station) * plan.height) / byId("plan").viewBox.baseVal.height;
  if (line < 0 || line > end) window.scrollBy(0, line - end / 2);
}

function walkText(walk) {
  const leg = (position) => {
    const [slot, a, b] = data.contacts[position];
    return `slot ${slot}: ${title(a)} → ${title(b)}`;
  };
  return walk.map(leg).join(", ");
}

// Draws the walk at a place of the list.
function showWalk(at) {
  const shown = walker.walks[at];
  walker.at = at;
  drawWalk(shown.walk, shown.station);
  byId("walk-number").textContent = shown.label;
  byId("walk-text").textContent = walkText(shown.walk);
  byId("previous").disabled = at === 0;
  byId("next").disabled = at === walker.walks.length - 1;
  walker.drew(shown);
}

function stepWalk(by) {
  const at = walker.at + by;
  if (at >= 0 && at < walker.walks.length) showWalk(at);
}

function stopPlaying() {
  clearInterval(walker.timer);
  walker.timer = 0;
  byId("play").textContent = "Play";
}

// Plays from here, and from the first after the last.
function play() {
  if (walker.timer) return stopPlaying();
  byId("play").textContent = "Stop";
  if (walker.at === walker.walks.length - 1) showWalk(0);
  walker.timer = setInterval(() => {
    stepWalk(1);
    if (walker.at === walker.walks.length - 1) stopPlaying();
  }, 1400);
}

// Takes a list of walks, each with its label, and draws the first; none draws nothing.
function walkThrough(walks, drew) {
  stopPlaying();
  Object.assign(walker, { walks, at: 0, drew: drew || (() => {}) });
  byId("walker").hidden = walks.length === 0;
  byId("play").hidden = walks.length < 2;
  if (walks.length > 0) showWalk(0);
  else drawWalk(null);
}

byId("previous").addEventListener("click", () => stepWalk(-1));
byId("next").addEventListener("click", () => stepWalk(1));
byId("play").addEventListener("click", play);
byId("walker").addEventListener("keydown", (event) => {
  const by = { ArrowLeft: -1, ArrowRight: 1 }[event.key];
  if (!by) return;
  event.preventDefault();
  stopPlaying();
  stepWalk(by);
});
