// What the page knows of the run: series of values, unpacked, and how they are read in a range of clocks.

const facts = JSON.parse(document.getElementById('facts').textContent);
const clock = facts.clock;
const kinds = ['moves', 'empty', 'full'];
const view = {first: 0, until: Math.max(1, clock)};
let kept = []; // the ranges of clocks that are known one by one
let buckets = null; // the whole run in shares, where not all of it is kept

const kindOf = code => (code === 0 ? 0 : code % 2 ? 1 : 2);
const channelOf = code => facts.channels[(code - 1) >> 1];
const causeOf = code => (code === 0 ? 'moves' : `${kinds[kindOf(code)]} ${channelOf(code)}`);

/** Gives a function that takes the next number of a packed text. */
async function unpacked(text) {
  const bytes = Uint8Array.from(atob(text), char => char.charCodeAt(0));
  const stream = new Blob([bytes]).stream().pipeThrough(new DecompressionStream('deflate'));
  const plain = new Uint8Array(await new Response(stream).arrayBuffer());
  let at = 0;
  return () => {
    for (let value = 0, unit = 1; ; unit *= 128) {
      const byte = plain[at++];
      value += (byte & 127) * unit;
      if (byte < 128) return value;
    }
  };
}

function takeSeries(take, first) {
  const length = take();
  const starts = new Float64Array(length + 1);
  const values = new Float64Array(length);
  starts[0] = first;
  for (let at = 0; at < length; at++) {
    starts[at + 1] = starts[at] + take();
    values[at] = take();
  }
  return {starts, values};
}

function takeLinks(take, first) {
  const length = take();
  const links = {
    modules: new Uint16Array(length), starts: new Float64Array(length), stops: new Float64Array(length),
  };
  for (let at = 0, before = first; at < length; at++) {
    links.modules[at] = take();
    links.starts[at] = before + take();
    before = links.stops[at] = links.starts[at] + take();
  }
  return links;
}

function takeWindow(take, [first, until]) {
  const lanes = facts.modules.map(() => takeSeries(take, first));
  const fills = facts.fifos.map(() => takeSeries(take, first));
  return {first, until, lanes, fills, links: takeLinks(take, first)};
}

function takeBuckets(take) {
  const length = Math.ceil(clock / facts.bucket);
  const rows = (columns, things) => things.map(() => {
    const row = Array.from({length: columns}, () => new Float64Array(length));
    for (let at = 0; at < length; at++) for (const column of row) column[at] = take();
    return row;
  });
  return {size: facts.bucket, shares: rows(4, facts.modules), bounds: rows(2, facts.fifos)};
}

async function takeAll() {
  const take = await unpacked(facts.kept);
  kept = facts.windows.map(range => takeWindow(take, range));
  if (facts.buckets) buckets = takeBuckets(await unpacked(facts.buckets));
}

/** The last place whose start is at most a clock. */
function placeOf(starts, value) {
  let low = 0;
  let high = starts.length - 1;
  while (low < high) {
    const middle = (low + high + 1) >> 1;
    if (starts[middle] <= value) low = middle;
    else high = middle - 1;
  }
  return low;
}

const windowAt = value => kept.find(one => one.first <= value && value < one.until);
const wholeView = () => kept.find(one => one.first <= view.first && view.until <= one.until);
const piecesIn = starts => placeOf(starts, view.until) - placeOf(starts, view.first) + 1;

/** Calls `see(value, start, stop)` for each piece of a series in a range. */
function eachPiece({starts, values}, first, until, see) {
  for (let at = placeOf(starts, first); at < values.length && starts[at] < until; at++) {
    const start = Math.max(first, starts[at]);
    const stop = Math.min(until, starts[at + 1]);
    if (start < stop) see(values[at], start, stop);
  }
}

/** The same in the view, for the series that `pick` takes of each range that is kept. */
function eachKept(pick, see) {
  for (const one of kept) {
    eachPiece(pick(one), Math.max(view.first, one.first), Math.min(view.until, one.until), see);
  }
}

/** Calls `see(bucket, start, stop)` for the buckets of the view whose clocks are not kept. */
function eachBucket(see) {
  if (!buckets) return;
  const low = kept.length ? kept[0].until : 0;
  const high = kept.length ? kept[kept.length - 1].first : clock;
  const first = Math.max(low, view.first);
  const until = Math.min(high, view.until);
  for (let at = Math.floor(first / buckets.size); at * buckets.size < until; at++) {
    see(at, Math.max(first, at * buckets.size), Math.min(until, (at + 1) * buckets.size));
  }
}

/** Calls `see(start, stop, clocks by kind)` for all that is known of a module in the view, in no order. */
function eachShare(module, see) {
  eachKept(one => one.lanes[module], (code, start, stop) => {
    const shares = [0, 0, 0];
    shares[kindOf(code)] = stop - start;
    see(start, stop, shares);
  });
  eachBucket((at, start, stop) => {
    const size = Math.min(clock, (at + 1) * buckets.size) - at * buckets.size;
    see(start, stop, kinds.map((_, kind) => buckets.shares[module][kind][at] * (stop - start) / size));
  });
}

/** Calls `see(module, start, stop)` for what is known of the chain in the view. */
function eachLink(see) {
  for (const {links, first, until} of kept) {
    const stopAt = Math.min(until, view.until);
    for (let at = placeOf(links.starts, Math.max(first, view.first)); at < links.modules.length; at++) {
      if (links.starts[at] >= stopAt) break;
      const start = Math.max(view.first, links.starts[at]);
      const stop = Math.min(view.until, links.stops[at]);
      if (start < stop) see(links.modules[at], start, stop);
    }
  }
  eachBucket((at, start, stop) => facts.modules.forEach((_, module) => {
    if (buckets.shares[module][3][at]) see(module, start, stop);
  }));
}

/** Adds an amount, spread evenly from start to stop, to columns of so many clocks each. */
function spread(sums, unit, start, stop, amount) {
  let from = (start - view.first) / unit;
  const to = (stop - view.first) / unit;
  const share = amount / (to - from);
  while (from < to) {
    const column = Math.min(sums.length - 1, Math.floor(from + 1e-9));
    const end = Math.min(to, column + 1);
    if (end <= from) break;
    sums[column] += share * (end - from);
    from = end;
  }
}
