// What is chosen, and which clocks are seen.

const least = Math.min(4, view.until); // clocks of a view
let chosen = null;
let isDrawing = false;

const isChosen = (kind, name) => chosen !== null && chosen.kind === kind && chosen.name === name;

/** Adds up what the chosen module does in the view. */
function readOut() {
  const place = chosen && chosen.kind === 'module' ? facts.modules.indexOf(chosen.name) : -1;
  const sums = [0, 0, 0];
  if (place >= 0) {
    eachShare(place, (start, stop, shares) => shares.forEach((amount, kind) => { sums[kind] += amount; }));
  }
  document.getElementById('readout').textContent = place < 0 ? ''
    : `${chosen.name}, ${clocks(view.first, view.until)}: ${count(sums[0], 'move')}, ` +
      `${count(sums[1], 'clock')} of waiting for elements, ${count(sums[2], 'clock')} of waiting for places.`;
}

function draw() {
  if (isDrawing) return;
  isDrawing = true;
  requestAnimationFrame(() => {
    isDrawing = false;
    drawLanes();
    noteView();
    drawFill();
    readOut();
  });
}

/** Scrolls the graph so that a node is seen. */
function showInPane(node) {
  const pane = document.getElementById('graph-pane');
  const box = node.getBoundingClientRect();
  const frame = pane.getBoundingClientRect();
  if (box.left < frame.left || box.right > frame.right) {
    pane.scrollLeft += box.left - frame.left - frame.width / 2 + box.width / 2;
  }
  if (box.top < frame.top || box.bottom > frame.bottom) {
    pane.scrollTop += box.top - frame.top - frame.height / 2 + box.height / 2;
  }
}

/** Chooses a module or a channel in all parts of the page, or nothing where there is no name. */
function choose(kind, name) {
  chosen = name ? {kind, name} : null;
  for (const one of all('[data-module], [data-channel]')) {
    one.classList.toggle('chosen', chosen !== null && one.dataset[kind] === name);
  }
  for (const one of all('button.name')) one.classList.toggle('chosen', one.dataset.pick === `${kind}:${name}`);
  document.querySelector('.chosen-name').hidden = chosen === null;
  document.querySelector('.chosen-name b').textContent = name;
  const node = document.querySelector('.node.chosen');
  if (node) showInPane(node);
  draw();
}

function show(first, until) {
  const most = Math.max(1, clock);
  const span = Math.round(Math.min(Math.max(until - first, least), most));
  view.first = Math.round(Math.min(Math.max(0, first), most - span));
  view.until = view.first + span;
  draw();
}

function zoom(times, at = (view.first + view.until) / 2) {
  const old = view.until - view.first;
  const span = Math.max(least, old * times);
  show(at - (at - view.first) * span / old, at + (view.until - at) * span / old);
}

function pan(share) {
  const by = share * (view.until - view.first);
  show(view.first + by, view.until + by);
}
