// What a pointer or a key does, and how the page begins.

const keys = {
  ArrowLeft: () => pan(-0.2), ArrowRight: () => pan(0.2), Home: () => show(0, clock),
  '+': () => zoom(0.5), '=': () => zoom(0.5), '-': () => zoom(2),
};
const views = {
  left: () => pan(-0.5), right: () => pan(0.5), in: () => zoom(0.5), out: () => zoom(2), all: () => show(0, clock),
};

const clockAt = event => view.first + (event.clientX - lanesSvg.getBoundingClientRect().left - left) / scale();
const laneAt = event => Math.floor((event.clientY - lanesSvg.getBoundingClientRect().top - axis - 6) / laneStep);

/** What a module does in a clock, as far as it is kept. */
function told(module, value) {
  const one = windowAt(value);
  if (one) {
    const {starts, values} = one.lanes[module];
    const at = placeOf(starts, value);
    if (at >= values.length) return `clock ${number(value)}: it moves no more`;
    const cause = values[at] === 0 ? 'moves' : `waits: ${channelOf(values[at])} is ${kinds[kindOf(values[at])]}`;
    return `${clocks(starts[at], starts[at + 1])} (${count(starts[at + 1] - starts[at], 'clock')})\n${cause}`;
  }
  if (!buckets) return 'it never moves';
  const at = Math.floor(value / buckets.size);
  const [moves, empty, full] = buckets.shares[module].map(row => number(row[at]));
  return `${clocks(at * buckets.size, Math.min(clock, (at + 1) * buckets.size))}, of which\n` +
    `${moves} moves, ${empty} waits: empty, ${full} waits: full`;
}

function hover(event) {
  const tip = document.getElementById('tooltip');
  const value = Math.floor(clockAt(event));
  const module = laneAt(event);
  tip.hidden = !(value >= view.first && value < view.until && module >= 0 && module < facts.modules.length);
  if (tip.hidden) return;
  tip.textContent = `${facts.modules[module]}\n${told(module, value)}`;
  tip.style.left = `${Math.min(event.clientX + 14, window.innerWidth - tip.offsetWidth - 8)}px`;
  tip.style.top = `${event.clientY + 18}px`;
}

/** Zooms at the pointer, or pans; beside the lanes, and where the whole run is seen already, the page scrolls. */
function wheel(event) {
  if (clockAt(event) < view.first) return;
  const along = event.shiftKey ? event.deltaY : event.deltaX;
  if (event.shiftKey || Math.abs(along) > Math.abs(event.deltaY)) {
    event.preventDefault();
    pan(along / wide());
  } else if (event.deltaY < 0 || view.until - view.first < clock) {
    event.preventDefault();
    zoom(Math.exp(Math.max(-120, Math.min(120, event.deltaY)) / 400), clockAt(event));
  }
}

function listenToPointer() {
  let from = null;
  let isMoved = false;
  lanesSvg.addEventListener('pointerdown', event => {
    from = {x: event.clientX, ...view};
    isMoved = false;
  });
  window.addEventListener('pointermove', event => {
    if (!from) return;
    const by = (from.x - event.clientX) / scale();
    isMoved = isMoved || Math.abs(event.clientX - from.x) > 3;
    if (isMoved) show(from.first + by, from.until + by);
  });
  window.addEventListener('pointerup', () => { from = null; });
  lanesSvg.addEventListener('click', event => { if (isMoved) event.stopPropagation(); });
  lanesSvg.addEventListener('pointermove', hover);
  lanesSvg.addEventListener('pointerleave', () => { document.getElementById('tooltip').hidden = true; });
  lanesSvg.addEventListener('wheel', wheel, {passive: false});
}

function pickFrom(event) {
  const found = event.target.closest('[data-pick]');
  if (found) choose(...found.dataset.pick.split(':'));
}

function listenToKeys() {
  document.addEventListener('keydown', event => {
    if (event.key === 'Escape') choose('', '');
    const isButton = event.target.getAttribute('role') === 'button';
    if (isButton && (event.key === 'Enter' || event.key === ' ')) {
      event.preventDefault();
      pickFrom(event);
    }
  });
  document.getElementById('lanes-pane').addEventListener('keydown', event => {
    if (!keys[event.key]) return;
    event.preventDefault();
    keys[event.key]();
  });
}

function listenToForm() {
  for (const button of all('[data-view]')) button.addEventListener('click', views[button.dataset.view]);
  document.getElementById('view').addEventListener('submit', event => {
    event.preventDefault();
    const [first, last] = ['first', 'until'].map(name => Number(event.target[name].value.replace(/[^0-9]/g, '')));
    show(first, last + 1);
  });
}

/** The buttons that make the graph larger and smaller. */
function listenToGraph() {
  const svg = document.getElementById('flow');
  const pane = document.getElementById('graph-pane');
  const [, , width, height] = svg.getAttribute('viewBox').split(' ').map(Number);
  const fit = () => Math.min(1, (pane.clientWidth - 4) / width);
  let times = Math.max(0.6, fit());
  const changes = {in: () => times * 1.25, out: () => times / 1.25, fit};
  const resizeGraph = () => {
    svg.setAttribute('width', width * times);
    svg.setAttribute('height', height * times);
  };
  for (const button of all('[data-graph]')) {
    button.addEventListener('click', () => {
      times = changes[button.dataset.graph]();
      resizeGraph();
    });
  }
  resizeGraph();
}

async function begin() {
  await takeAll();
  listenToGraph();
  listenToPointer();
  listenToKeys();
  listenToForm();
  document.addEventListener('click', pickFrom);
  new ResizeObserver(draw).observe(lanesSvg.parentElement);
  choose(facts.chosen.kind, facts.chosen.name);
  requestAnimationFrame(() => requestAnimationFrame(() => { document.documentElement.dataset.ready = 'yes'; }));
}

begin();
