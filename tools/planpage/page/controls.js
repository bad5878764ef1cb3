// Pointer, keys and controls.

// One member of a group is a tab stop; keys go from it to others.
function rove(members, moves, choose) {
  const focus = (at) => {
    const next = members[at];
    if (!next) return;
    for (const member of members) member.setAttribute("tabindex", member === next ? "0" : "-1");
    next.focus();
  };
  members.forEach((member, at) => {
    member.addEventListener("click", () => {
      for (const other of members) other.setAttribute("tabindex", other === member ? "0" : "-1");
      choose(at);
    });
    member.addEventListener("keydown", (event) => {
      if (event.key === "Enter" || event.key === " ") choose(at);
      else if (moves[event.key]) focus(moves[event.key](at));
      else return;
      event.preventDefault();
    });
  });
}

const stations = [...document.querySelectorAll(".station")];
const contacts = [...document.querySelectorAll(".contact")];
const lastOf = (list) => () => list.length - 1;

// The first contact of the next slot that has one, or of the one before.
function bySlot(at, step) {
  const slot = data.contacts[at][0];
  let other = at;
  while (data.contacts[other] && data.contacts[other][0] === slot) other += step;
  if (!data.contacts[other]) return at;
  if (step > 0) return other;
  return data.contacts.findIndex((contact) => contact[0] === data.contacts[other][0]);
}

rove(stations, {
  ArrowUp: (at) => at - 1,
  ArrowDown: (at) => at + 1,
  Home: () => 0,
  End: lastOf(stations),
}, showStation);

rove(contacts, {
  ArrowLeft: (at) => at - 1,
  ArrowRight: (at) => at + 1,
  PageUp: (at) => bySlot(at, -1),
  PageDown: (at) => bySlot(at, 1),
  Home: () => 0,
  End: lastOf(contacts),
}, showContact);

for (const row of document.querySelectorAll("#loads .row, #plan .row")) {
  row.addEventListener("click", () => showStation(Number(row.dataset.station)));
}

byId("pick-station").addEventListener("change", (event) => {
  if (event.target.value === "") clearPanel();
  else showStation(Number(event.target.value));
});
byId("pick-contact").addEventListener("change", (event) => {
  if (event.target.value === "") clearPanel();
  else showContact(Number(event.target.value));
});
byId("controls").addEventListener("submit", (event) => {
  event.preventDefault();
  showPair(Number(byId("pick-from").value), Number(byId("pick-to").value));
});

let zoom = 1;
function zoomBy(factor) {
  zoom = Math.min(4, Math.max(0.5, zoom * factor));
  byId("picture").style.setProperty("--zoom", zoom);
}
byId("smaller").addEventListener("click", () => zoomBy(1 / 1.25));
byId("larger").addEventListener("click", () => zoomBy(1.25));
byId("print").addEventListener("click", () => window.print());
byId("clear").addEventListener("click", clearPanel);
document.addEventListener("keydown", (event) => {
  if (event.key === "Escape") clearPanel();
});
