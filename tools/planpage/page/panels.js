// What is shown of a station, of a contact and of a pair.

function mark(selector) {
  for (const marked of document.querySelectorAll("#picture .on")) marked.classList.remove("on");
  if (selector === null) return;
  for (const chosen of document.querySelectorAll(selector)) chosen.classList.add("on");
}

// The panel with a title and a body; the choices that do not belong to it are put back.
function showPanel(heading, body, keep) {
  byId("panel-title").textContent = heading;
  byId("panel-body").replaceChildren(...body);
  byId("clear").hidden = false;
  byId("panel").scrollTop = 0;
  document.body.classList.add("chosen");
  for (const id of ["pick-station", "pick-contact"]) if (id !== keep) byId(id).value = "";
}

function paragraph(text) {
  return element("p", {}, text);
}

function table(heads, rows) {
  const cells = heads.map((head) => element("th", { scope: "col" }, head));
  return element("table", {}, element("thead", {}, element("tr", {}, ...cells)), element("tbody", {}, ...rows));
}

// "3 walks" and how many of them are not listed.
function counted(count, listed) {
  const more = BigInt(count) - BigInt(listed);
  const walks = `${count} ${count === "1" ? "walk" : "walks"}`;
  return more > 0n ? `${walks}; the first ${listed} listed, ${more} more` : walks;
}

// The walks of an account's pairs, one pair behind another.
function accountWalks(account, station) {
  const all = [];
  account.forEach((pair, row) => {
    pair.walks.forEach((walk, at) => {
      all.push({ walk, row, station, label: `${pair.source} → ${pair.destination}: ${at + 1} of ${pair.through}` });
    });
  });
  return all;
}

function accountRow(pair, draw) {
  const both = [title(pair.source), title(pair.destination)];
  const ends = both.join(both.join("").includes(" ") ? "\u00a0→ " : "\u00a0→\u00a0");
  const button = element("button", { type: "button" }, ends);
  button.addEventListener("click", draw);
  button.disabled = pair.walks.length === 0;
  const more = BigInt(pair.through) - BigInt(pair.walks.length);
  const drawable = more > 0n ? ` (${pair.walks.length} drawn, ${more} more)` : "";
  const cells = [`${pair.hops}`, `${pair.through} of ${pair.count}${drawable}`, six(pair.share)];
  const row = element("tr", {}, element("td", {}, button), ...cells.map((cell) => element("td", {}, cell)));
  row.children[2].className = "counts";
  row.children[3].title = `${pair.share} / 2^32`;
  return row;
}

function showStation(station) {
  const account = accountOf(station);
  const walks = accountWalks(account, station);
  const firstOf = (row) => walks.findIndex((entry) => entry.row === row);
  const rows = account.map((pair, row) => accountRow(pair, () => {
    stopPlaying();
    showWalk(firstOf(row));
  }));
  const number = account.length;
  const sum = account.reduce((total, pair) => total + pair.share, 0);
  const body = number === 0
    ? [paragraph("Idle: it is inside no shortest walk of two other stations.")]
    : [
      paragraph(`Load ${six(data.loads[station])} from ${number} ${number === 1 ? "pair" : "pairs"}, by share. `
        + "A row draws the pair's walks that pass the station."),
      table(["pair", "legs", "walks that pass it", "share"], rows),
      paragraph(`The shares add up to ${six(sum)}.`),
    ];
  byId("pick-station").value = `${station}`;
  mark(`.row[data-station="${station}"], #y${station}`);
  showPanel(`Station ${title(station)}: account`, body, "pick-station");
  walkThrough(walks, (shown) => rows.forEach((row, at) => row.classList.toggle("drawn", at === shown.row)));
}

function changeRow(station, change, largest) {
  const bar = element("span", { class: change < 0 ? "change falls" : "change" });
  bar.style.width = `${Math.max(1, Math.round((60 * Math.abs(change)) / largest))}px`;
  const after = data.loads[station] + change;
  const cells = [title(station), signed(change), six(after)].map((cell) => element("td", {}, cell));
  return element("tr", {}, ...cells, element("td", {}, bar));
}

function showContact(position) {
  const [slot, a, b, x] = data.contacts[position];
  const [number, used, ...changed] = data.struck[position];
  const rows = [];
  const sizes = changed.filter((_, at) => at % 2 === 1).map(Math.abs);
  for (let at = 0; at < changed.length; at += 2) {
    rows.push(changeRow(changed[at], changed[at + 1], Math.max(...sizes)));
  }
  const body = [paragraph(`Position ${position}: in slot ${slot} station ${title(a)} sends, station ${title(b)} hears.`)];
  if (number !== 0) {
    body.push(paragraph(`Refused ${number}: without it a station has over 2^64−1 shortest walks from some source.`));
  } else {
    const using = used === 1 ? "pair has a shortest walk that uses" : "pairs have shortest walks that use";
    body.push(paragraph(`${used} ordered ${using} it.`));
    body.push(rows.length === 0
      ? paragraph("If it is struck out no load changes.")
      : table(["if struck out", "change", "load then", ""], rows));
    if (rows.length > 0 && rows.length < data.names.length) body.push(paragraph("The other loads stay."));
  }
  byId("pick-contact").value = `${position}`;
  mark(`#c${position}`);
  showPanel(`Contact in slot ${slot}: ${a} → ${b}`, body, "pick-contact");
  walkThrough([]);
  showAcross(x, x, x);
  showLine(b);
}

function showPair(source, destination) {
  const heading = `From ${title(source)} to ${title(destination)}`;
  mark(null);
  const pair = pairBetween(source, destination);
  if (source === destination) {
    showPanel(heading, [paragraph("Choose two different stations.")], "");
    return walkThrough([]);
  }
  if (!pair) {
    showPanel(heading, [paragraph("There is no walk.")], "");
    return walkThrough([]);
  }
  const walks = walksOf(pair.text, pair.hops);
  const rows = walks.map((walk, at) => {
    const button = element("button", { type: "button" }, walkText(walk));
    button.addEventListener("click", () => {
      stopPlaying();
      showWalk(at);
    });
    return element("tr", {}, element("td", {}, `${at + 1}`), element("td", {}, button));
  });
  const legs = `${pair.hops} ${pair.hops === 1 ? "leg" : "legs"}`;
  showPanel(heading, [paragraph(`${legs}, ${counted(pair.count, walks.length)}.`), table(["", "walk"], rows)], "");
  const labelled = walks.map((walk, at) => ({ walk, at, label: `${at + 1} of ${pair.count}` }));
  walkThrough(labelled, (shown) => rows.forEach((row, at) => row.classList.toggle("drawn", at === shown.at)));
}

function clearPanel() {
  byId("panel-title").textContent = "Nothing chosen";
  byId("panel-body").replaceChildren();
  byId("clear").hidden = true;
  document.body.classList.remove("chosen");
  for (const id of ["pick-station", "pick-contact"]) byId(id).value = "";
  mark(null);
  walkThrough([]);
}
