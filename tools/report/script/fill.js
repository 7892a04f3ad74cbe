// The fill of the chosen FIFO over the clocks of the view, with its depth as a line.

const fillSvg = document.getElementById('fill');
const fillHigh = 150; // pixels
const fillBase = fillHigh - 8;
const mostPieces = 500;

/** What a FIFO holds, by columns: the least and the most. */
function boundsOf(fifo, length) {
  const unit = (view.until - view.first) / length;
  const low = new Float64Array(length).fill(Infinity);
  const high = new Float64Array(length).fill(-1);
  const note = (start, stop, least, most) => {
    for (let at = Math.floor((start - view.first) / unit); at < length && at * unit < stop - view.first; at++) {
      low[at] = Math.min(low[at], least);
      high[at] = Math.max(high[at], most);
    }
  };
  eachKept(one => one.fills[fifo], (value, start, stop) => note(start, stop, value, value));
  eachBucket((at, start, stop) => note(start, stop, buckets.bounds[fifo][0][at], buckets.bounds[fifo][1][at]));
  return [...low.keys()].filter(at => high[at] >= 0)
    .map(at => [view.first + at * unit, view.first + (at + 1) * unit, low[at], high[at]]);
}

/** Pieces of the curve: the first clock, the clock after the last, and the least and the most that is held. */
function fillPieces(fifo) {
  const whole = wholeView();
  if (!whole || piecesIn(whole.fills[fifo].starts) > mostPieces) return boundsOf(fifo, mostPieces);
  const found = [];
  eachPiece(whole.fills[fifo], view.first, view.until, (value, start, stop) => found.push([start, stop, value, value]));
  return found;
}

/** What a FIFO holds in the verdict's clock, if that is seen and kept. */
function fillAtEnd(fifo) {
  const last = kept.find(one => one.until === clock);
  return view.until >= clock && last ? last.fills[fifo].values.at(-1) : undefined;
}

function curveText(pieces, yOf) {
  const point = (value, level) => `${xOf(value).toFixed(1)},${yOf(level).toFixed(1)}`;
  const over = pieces.map(([start, stop, , most]) => `${point(start, most)} ${point(stop, most)}`).join(' ');
  const under = pieces.map(([start, stop, low]) => `${point(stop, low)} ${point(start, low)}`).reverse().join(' ');
  const ground = pieces.length ? `${point(pieces.at(-1)[1], 0)} ${point(pieces[0][0], 0)}` : '';
  const exact = pieces.every(([, , least, most]) => least === most);
  return element('polygon', {class: 'fill-area', points: `${over} ${ground}`}) + element('polyline', {
    class: 'fill-line', points: exact ? over : `${over} ${under}`,
    'data-fill': exact && pieces.length <= 200 ? pieces.map(([start, , , most]) => `${start}:${most}`).join(' ') : '',
  });
}

function depthText(depth, isNear, yOf) {
  const line = isNear ? element('line', {
    class: 'depth-line', x1: left, x2: wide() - right, y1: yOf(depth), y2: yOf(depth),
  }) : '';
  return line + element('text', {
    class: 'depth-name', x: wide() - right, y: isNear ? yOf(depth) - 5 : 13, 'text-anchor': 'end',
  }, `depth ${number(depth)}${isNear ? '' : ', far above'}`);
}

function levelsText(top, yOf) {
  return [...new Set([0, Math.round(top / 2), top])].map(level =>
    element('line', {class: 'grid', x1: left, x2: wide() - right, y1: yOf(level), y2: yOf(level)}) +
    element('text', {class: 'tick', x: left - 8, y: yOf(level) + 4, 'text-anchor': 'end'}, number(level))).join('');
}

function endText(fifo, yOf) {
  const last = fillAtEnd(fifo);
  return last === undefined ? '' : element('circle', {class: 'fill-end', r: 4, cx: xOf(clock), cy: yOf(last)},
    `<title>In clock ${number(clock)} it holds ${number(last)}</title>`);
}

function drawFill() {
  if (!fillSvg) return;
  const place = facts.fifos.findIndex(one => isChosen('channel', one.name));
  const fifo = facts.fifos[place];
  fillSvg.style.display = fifo ? '' : 'none';
  document.getElementById('fill-title').textContent = !fifo ? 'Choose a FIFO to see its fill.'
    : `Fill of ${fifo.name}: depth ${number(fifo.depth)}, at most ${number(fifo.most)} held; ` +
      clocks(view.first, view.until);
  if (!fifo) return;
  const isNear = fifo.depth <= 3 * fifo.most + 4;
  const top = Math.max(1, fifo.most, isNear ? fifo.depth : 0);
  const yOf = value => fillBase - (fillBase - 18) * value / top;
  resize(fillSvg, wide(), fillHigh);
  fillSvg.dataset.fifo = fifo.name;
  fillSvg.innerHTML = levelsText(top, yOf) + curveText(fillPieces(place), yOf) + endText(place, yOf) +
    depthText(fifo.depth, isNear, yOf);
}
