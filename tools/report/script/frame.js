// Texts and measures that all drawings share.

const lanesSvg = document.getElementById('lanes');
const left = 170; // pixels beside the lanes
const right = 14;
const axis = 24;

const all = selector => [...document.querySelectorAll(selector)];
const number = value => Math.round(value).toLocaleString('en-US');
const count = (value, noun) => `${number(value)} ${noun}${Math.round(value) === 1 ? '' : 's'}`;
const clocks = (first, until) => (until - first === 1 ? `clock ${number(first)}`
  : `clocks ${number(first)} to ${number(until - 1)}`);

const wide = () => Math.max(600, lanesSvg.parentElement.clientWidth - 2);
const inner = () => wide() - left - right;
const scale = () => inner() / (view.until - view.first);
const xOf = value => left + (value - view.first) * scale();
const columnsIn = () => Math.floor(inner() / 2);

/** An element as text: its name, its attributes, and what is in it. */
function element(name, attributes, inside = '') {
  const told = Object.entries(attributes).map(([key, value]) =>
    ` ${key}="${typeof value === 'number' ? +value.toFixed(2) : value}"`);
  return `<${name}${told.join('')}>${inside}</${name}>`;
}

function resize(svg, width, height) {
  svg.setAttribute('viewBox', `0 0 ${width} ${height}`);
  svg.setAttribute('width', width);
  svg.setAttribute('height', height);
}

/** Round clocks for the axis, some ten of them. */
function ticks() {
  const room = (view.until - view.first) / 9;
  const power = 10 ** Math.floor(Math.log10(room));
  const step = Math.max(1, [1, 2, 5, 10].map(times => times * power).find(value => value >= room));
  const found = [];
  for (let at = Math.ceil(view.first / step) * step; at <= view.until; at += step) found.push(at);
  return found;
}
