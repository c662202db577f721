'use strict';
// The run that the page shows, and how its values are written.
const byId = id => document.getElementById(id);
const run = JSON.parse(byId('run').textContent);
for (const step of run.steps) {
  for (const name of ['creators', 'queue', 'registers', 'memory', 'jobs']) step[name] = run.parts[step[name]];
  for (const at of Object.keys(step.stations)) step.stations[at] = run.parts[step.stations[at]];
}
// Steps have their numbers in the run: a page may begin later.
const first = run.first, last = first + run.steps.length - 1;
const stepAt = at => run.steps[at - first];
const view = { at: first, hexadecimal: false, onPaper: false, followed: -1, isShown: !run.quiz };

const MARKED = { '&': '&amp;', '<': '&lt;', '>': '&gt;', '"': '&quot;' };
const safe = text => String(text).replace(/[&<>"]/g, mark => MARKED[mark]);
const hexadecimal = value => '0x' + value.toString(16).padStart(8, '0');
const shortPc = pc => (pc & 0xfff).toString(16).padStart(3, '0');

// Small numbers are decimal with their sign, unless the reader wants them otherwise.
function shown(value) {
  const signed = value | 0;
  return view.hexadecimal || Math.abs(signed) >= 10000 ? hexadecimal(value) : String(signed);
}

// The words of a step: `code` and {value}.
function inHtml(words) {
  return safe(words)
    .replace(/\{(\d+)\}/g, (_, value) => shown(Number(value)))
    .replace(/`([^`]*)`/g, '<code>$1</code>');
}

const lineOf = new Map(run.listing.map(line => [line.pc, line]));
const textOf = tenant => {
  const half = { Low: ' (LO)', High: ' (HI)' }[tenant.half] || '';
  return (lineOf.get(tenant.pc) || { text: tenant.text }).text + half;
};
const placeOf = pc => {
  const line = lineOf.get(pc);
  return !line ? hexadecimal(pc) : line.labels.length ? line.labels[line.labels.length - 1] : `line ${line.line}`;
};
const operationOf = tenant => tenant.text.split(' ')[0];
const isJump = tenant => /^[bj]/.test(operationOf(tenant)) && operationOf(tenant) !== 'break';
const isStore = tenant => /^s[bhw]/.test(operationOf(tenant));

// How a state looks. OPEN is two, by whether an operand is awaited.
const LOOKS = {
  free: ['free', 'free', 'FREE'],
  waits: ['open', 'waits', 'OPEN'],
  ready: ['open', 'ready', 'OPEN'],
  busy: ['busy', 'executes', 'BUSY'],
  addr: ['addr', 'has address', 'ADDR'],
  done: ['done', 'done', 'DONE'],
  miss: ['miss', 'mispredicted', 'MISS'],
  stop: ['stop', 'would stop', 'STOP'],
};
const awaits = operand => operand !== null && 'from' in operand;
function lookOf(station) {
  if (!station) return 'free';
  if (station.state !== 'OPEN') return station.state.toLowerCase();
  return station.operands.some(awaits) ? 'waits' : 'ready';
}
const colourOf = look => LOOKS[look][0];
const wordOf = look => LOOKS[look][1];
const glyph = look => `<svg class="glyph" aria-hidden="true"><use href="#glyph-${look}"/></svg>`;

function pill(number, station) {
  const look = lookOf(station);
  return `<span class="pill ${colourOf(look)}" title="station ${number}: ${wordOf(look)}">` +
    `${glyph(look)}${number}<span class="unseen"> ${wordOf(look)}</span></span>`;
}

const shape = () => view.onPaper ? 'paper' : innerWidth < 600 ? 'narrow' : innerWidth < 860 ? 'slim' : innerWidth <= 1050 ? 'middle' : 'broad';
const isNarrow = () => shape() === 'narrow';
const isSame = (one, other) => JSON.stringify(one) === JSON.stringify(other);
