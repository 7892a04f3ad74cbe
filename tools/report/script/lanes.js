// The timeline: a lane for each module, and the chain that makes the latency over them.

const mostSpans = Math.max(60, Math.min(300, Math.floor(3000 / facts.modules.length))); // shown one by one in a lane
const mostLinks = 250;
const few = facts.modules.length <= 12;
const laneHigh = few ? 26 : facts.modules.length <= 32 ? 19 : 14;
const laneStep = laneHigh + (few ? 8 : 4);
const laneTop = module => axis + 6 + module * laneStep;
const laneMiddle = module => laneTop(module) + laneHigh / 2;

function axisText(height) {
  return ticks().map(at => element('line', {class: 'grid', x1: xOf(at), x2: xOf(at), y1: axis - 4, y2: height}) +
    element('text', {
      class: 'tick', x: xOf(at), y: axis - 9, 'text-anchor': xOf(at) > wide() - 40 ? 'end' : 'middle',
    }, number(at))).join('');
}

/** The spans of a lane, each a rectangle of its own. */
function spansText(spans, top) {
  return spans.map(([code, start, stop]) => element('rect', {
    class: `${kinds[kindOf(code)]}-piece`, x: xOf(start), y: top, width: (stop - start) * scale(), height: laneHigh,
    'data-first': String(start), 'data-clocks': String(stop - start), 'data-cause': causeOf(code),
  })).join('');
}

/** The shares of a module's clocks in columns, by kind. */
function columnsOf(module, length) {
  const unit = (view.until - view.first) / length;
  const sums = kinds.map(() => new Float64Array(length));
  eachShare(module, (start, stop, shares) => shares.forEach((amount, kind) => {
    if (amount) spread(sums[kind], unit, start, stop, amount);
  }));
  return sums.map(row => row.map(value => value / unit));
}

/** Rectangles of columns as one path; `base` has the shares below them. Columns that are alike are one rectangle. */
function columnsPath(row, base, top) {
  const unit = inner() / row.length;
  const alike = (one, two) => Math.abs(row[one] - row[two]) < 0.004 && Math.abs(base[one] - base[two]) < 0.004;
  let path = '';
  for (let at = 0, end; at < row.length; at = end) {
    end = at + 1;
    while (end < row.length && alike(at, end)) end++;
    if (row[at] <= 0.002) continue;
    const width = ((end - at) * unit).toFixed(1);
    const y = (top + laneHigh * (1 - base[at] - row[at])).toFixed(2);
    path += `M${(left + at * unit).toFixed(1)},${y}h${width}v${(laneHigh * row[at]).toFixed(2)}h-${width}z`;
  }
  return path;
}

/** The shares of a lane, one path for each kind: moves below, stalls above. */
function sharesText(module, top) {
  const columns = columnsOf(module, columnsIn());
  const base = new Float64Array(columns[0].length);
  return columns.map((row, kind) => {
    const path = columnsPath(row, base, top);
    row.forEach((value, at) => { base[at] += value; });
    return element('path', {class: `${kinds[kind]}-piece`, d: path});
  }).join('');
}

/** The spans of a module in the view, or null where they are too many, or not all kept. */
function spansInView(module) {
  const whole = wholeView();
  if (!whole || piecesIn(whole.lanes[module].starts) > mostSpans) return null;
  const spans = [];
  eachPiece(whole.lanes[module], view.first, view.until, (...piece) => spans.push(piece));
  return spans;
}

/** What a module waits for, for ever, at the end of the run. */
function heldText(module) {
  const held = facts.held[facts.modules[module]];
  if (!held || view.until < clock) return '';
  return element('text', {
    class: 'held-name', x: wide() - right - 6, y: laneMiddle(module) + 4, 'text-anchor': 'end',
  }, `waits for ever: ${held}`);
}

function laneText(module) {
  const name = facts.modules[module];
  const top = laneTop(module);
  const spans = spansInView(module);
  const shown = name.length > 20 ? `${name.slice(0, 19)}…` : name;
  return element('g', {
    class: isChosen('module', name) ? 'lane chosen' : 'lane', 'data-module': name, 'data-pick': `module:${name}`,
    'data-mode': spans ? 'clocks' : 'shares',
  }, element('rect', {class: 'lane-ground', x: left, y: top, width: inner(), height: laneHigh}) +
    element('text', {
      class: 'lane-name', tabindex: '0', role: 'button', x: left - 10, y: laneMiddle(module) + 4, 'text-anchor': 'end',
    }, `${shown}<title>${name}</title>`) +
    (spans ? spansText(spans, top) : sharesText(module, top)) + heldText(module));
}

/** The links of the chain in the view, or null where they are too many, or not all kept. */
function linksInView() {
  const whole = wholeView();
  if (!whole || piecesIn(whole.links.starts) > mostLinks) return null;
  const found = [];
  eachLink((...link) => found.push(link));
  return found;
}

/** The chain link by link: a line in the lane of each, and steps from one to the next. */
function linksPaths(links) {
  let path = '';
  let steps = '';
  links.forEach(([module, start, stop], at) => {
    path += `M${xOf(start).toFixed(1)},${laneMiddle(module)}H${xOf(stop).toFixed(1)}`;
    const next = links[at + 1];
    if (next) {
      steps += `M${xOf(stop).toFixed(1)},${laneMiddle(module)}L${xOf(next[1]).toFixed(1)},${laneMiddle(next[0])}`;
    }
  });
  return [path, steps];
}

/** The chain where its links are many: lines in the columns that it goes through. */
function chainColumns() {
  const length = columnsIn();
  const unit = (view.until - view.first) / length;
  const sums = facts.modules.map(() => new Float64Array(length));
  eachLink((module, start, stop) => spread(sums[module], unit, start, stop, 1));
  let path = '';
  sums.forEach((row, module) => {
    for (let at = 0, end; at < length; at = end) {
      end = at + 1;
      while (end < length && row[end] > 0 === row[at] > 0) end++;
      const [start, stop] = [at, end].map(column => (left + column * unit * scale()).toFixed(1));
      if (row[at] > 0) path += `M${start},${laneMiddle(module)}H${stop}`;
    }
  });
  return [path, ''];
}

function chainText() {
  const links = linksInView();
  const [path, steps] = links ? linksPaths(links) : chainColumns();
  const width = Math.min(4, laneHigh / 4);
  return element('path', {class: 'chain under', 'stroke-width': width + 3, d: path}) +
    element('path', {class: 'chain-step', d: steps}) +
    element('path', {class: 'chain', 'stroke-width': width, d: path, 'data-links': links ? String(links.length) : ''});
}

function drawLanes() {
  const height = laneTop(facts.modules.length) + 2;
  const focused = document.activeElement.closest('.lane');
  resize(lanesSvg, wide(), height);
  lanesSvg.innerHTML = axisText(height) + facts.modules.map((_, module) => laneText(module)).join('') + chainText();
  lanesSvg.dataset.first = view.first;
  lanesSvg.dataset.until = view.until;
  if (focused) lanesSvg.querySelector(`[data-module="${focused.dataset.module}"] .lane-name`).focus();
}

/** Tells which clocks are seen, and how exactly. */
function noteView() {
  const form = document.getElementById('view');
  form.first.value = view.first;
  form.until.value = view.until - 1;
  let text = `${clocks(view.first, view.until)} of ${number(clock)}.`;
  if (buckets) {
    const ends = kept.map(one => clocks(one.first, one.until)).join(' and ') || 'no part of this run';
    text += ` Single clocks are kept for ${ends}; elsewhere a bucket of ${count(facts.bucket, 'clock')} tells which ` +
      'share of them was what.';
  } else if (all('.lane[data-mode=shares]').length) {
    text += ' A column tells which share of its clocks was what; zoom in for single clocks.';
  }
  document.getElementById('view-note').textContent =
    `${text[0].toUpperCase()}${text.slice(1)} The wheel, + and − zoom; dragging and the arrow keys pan.`;
}
