// The chart: a row for each instruction that was dispatched, a column for each step. What lies ahead is pale. On paper the rows
// are cut into sheets.
const THICKNESS = { open: .16, busy: .72, addr: .45, done: .22, miss: .22, stop: .22 };
const ROWS_ON_PAPER = 44;
const chart = { column: 6, row: 16 };

byId('legend').innerHTML = Object.entries(LOOKS).map(([look, [colour, word, state]]) =>
  `<span class="${colour}">${glyph(look)}${word} <code>${look === 'ready' ? '' : state}</code></span>`).join('') +
  '<span>○ dispatched</span><span><b class="to-retire">▮</b>retired</span><span>✕ squashed</span>';

const left = step => ((step - first) * chart.column).toFixed(1);
const centre = step => ((step - first + .5) * chart.column).toFixed(1);
const middleOf = at => (at + .5) * chart.row;
const endOf = tenant => tenant.retire ?? tenant.squash ?? last + 1;
// Rows by their tenants: those that left before the page begins have none.
const rows = run.tenants.map((tenant, number) => number).filter(number => (run.tenants[number].stale ?? endOf(run.tenants[number])) >= first);

// Each state of an instruction with the step at which it began.
function phases(tenant) {
  const reached = (tenant.reached || '').toLowerCase();
  const begun = [[tenant.let, 'open'], [tenant.claim, 'busy'], [tenant.finish, reached], [tenant.load ?? tenant.mend, 'done']];
  return begun.filter(([step]) => step !== undefined && step < endOf(tenant));
}

function phaseHtml(from, to, look, at) {
  const high = THICKNESS[look] * chart.row;
  return `<rect class="phase ${look}" x="${left(from)}" y="${middleOf(at) - high / 2}" width="${(to - from) * chart.column}" height="${high}"/>`;
}

const crossHtml = (step, at, look) =>
  `<path class="cross ${look}" d="M${centre(step) - 4},${middleOf(at) - 4}l8,8m0,-8l-8,8"/>`;

function rowHtml(tenant, at) {
  const begun = phases(tenant), parts = [];
  begun.forEach(([from, look], place) => {
    const to = place + 1 < begun.length ? begun[place + 1][0] : endOf(tenant);
    if (to > first) parts.push(phaseHtml(Math.max(first, place ? from : from + .5), to, look, at));
  });
  if (tenant.let >= first) parts.push(`<circle class="entry open" cx="${centre(tenant.let)}" cy="${middleOf(at)}" r="${chart.row * .2}"/>`);
  if (tenant.reached === 'MISS' && tenant.finish >= first) parts.push(crossHtml(tenant.finish, at, 'miss'));
  if (tenant.retire !== undefined) {
    parts.push(`<rect class="phase done" x="${left(tenant.retire)}" y="${middleOf(at) - chart.row * .42}" width="${Math.max(chart.column, 4)}" height="${chart.row * .84}"/>`);
  }
  if (tenant.squash >= first) parts.push(crossHtml(tenant.squash, at, 'free'));
  if (tenant.stale !== undefined) {
    parts.push(`<path class="old busy" d="M${centre(Math.max(first, tenant.squash ?? tenant.claim))},${middleOf(at)}H${centre(tenant.stale)}"/>`, crossHtml(tenant.stale, at, 'busy'));
  }
  return parts.join('');
}

const turnHtml = high => run.steps.map((step, at) => step.kind === 'miss' || step.kind === 'recover' ?
  `<rect class="turn" x="${left(first + at)}" y="0" width="${chart.column}" height="${high}"/>` : '').join('');

// A row's life in words, for who cannot see the bars.
function lifeOf(tenant) {
  const parts = [['dispatched', tenant.let], ['claimed', tenant.claim], ['finished', tenant.finish], ['loaded', tenant.load],
    ['retired', tenant.retire], ['squashed', tenant.squash], ['stale', tenant.stale]];
  return parts.filter(([, step]) => step !== undefined).map(([what, step]) => `${what} ${step}`).join(', ');
}

function nameHtml(at) {
  const tenant = run.tenants[at], life = lifeOf(tenant);
  return `<li class="code" data-row="${at}" title="station ${tenant.station}, tag ${tenant.tag}: ${life}">` +
    `${at} ${safe(textOf(tenant))}<span class="unseen">: steps ${life}</span></li>`;
}

function axisHtml() {
  const marks = run.steps.map((_, at) => first + at).map(at => at % 10 ? '' : `<b data-step="${at}" style="left:${centre(at)}px">${at}</b>`);
  return marks.join('') + '<b class="now"></b>';
}

function barsHtml(numbers) {
  const wide = run.steps.length * chart.column + 2, high = (numbers.length + .3) * chart.row;
  return `<svg class="bars" width="${wide}" height="${high}" aria-hidden="true">${turnHtml(high)}` +
    `<rect class="column" y="0" width="${Math.max(chart.column, 4)}" height="${high}"/>${numbers.map((number, at) => rowHtml(run.tenants[number], at)).join('')}` +
    `<rect class="future" y="0" width="${wide}" height="${high}"/></svg>`;
}

// The rows from one on, with names and axis of their own.
function sheetHtml(from, count) {
  const numbers = rows.slice(from, from + count);
  return '<div class="sheet"><div class="corner">instruction / step</div>' +
    `<div class="axis" style="min-width:${run.steps.length * chart.column}px">${axisHtml()}</div>` +
    `<ol class="names">${numbers.map(nameHtml).join('')}</ol>${barsHtml(numbers)}</div>`;
}

function placeChart() {
  const plot = byId('plot'), rem = parseFloat(getComputedStyle(document.documentElement).fontSize);
  const room = plot.clientWidth - rem * (isNarrow() ? 9 : 14) - 18;
  chart.row = Math.round(rem * 1.15);
  chart.column = Math.max(view.onPaper ? 1.5 : isNarrow() ? 7 : 5, Math.min(26, room / run.steps.length));
  plot.style.setProperty('--row', chart.row + 'px');
  const count = view.onPaper ? ROWS_ON_PAPER : Math.max(1, rows.length), sheets = [];
  for (let from = 0; from === 0 || from < rows.length; from += count) sheets.push(sheetHtml(from, count));
  plot.innerHTML = sheets.join('');
}

function drawAxis(axis, at) {
  for (const mark of axis.children) {
    if (mark.className) continue;
    const isCrowded = chart.column * 10 < 24 && mark.dataset.step % 50 !== 0;
    mark.style.visibility = isCrowded || Math.abs(mark.dataset.step - at) * chart.column < 26 ? 'hidden' : '';
  }
  const now = axis.lastChild;
  now.textContent = at;
  now.style.left = centre(at) + 'px';
}

function drawNames(step, at) {
  const live = new Set(step.live.map(number => step.stations[number].tenant));
  for (const name of byId('plot').querySelectorAll('.names li')) {
    const row = Number(name.dataset.row), tenant = run.tenants[row];
    name.className = 'code' + kinOf(row) + ' ' + (live.has(row) ? 'live' : tenant.squash <= at ? 'squashed' : tenant.retire <= at ? 'past' : '');
  }
}

// The current column in the middle, and the oldest instruction in flight on top.
function scrollChart(step, at) {
  const plot = byId('plot'), wide = plot.querySelector('.names').offsetWidth;
  const oldest = step.live.length ? step.stations[step.live[0]].tenant : run.tenants.filter(tenant => tenant.let <= at).length;
  const row = rows.findIndex(number => number >= oldest);
  plot.scrollTop = Math.max(0, ((row < 0 ? rows.length : row) - 1) * chart.row);
  if (plot.scrollWidth > plot.clientWidth) plot.scrollLeft = centre(at) - (plot.clientWidth - wide) / 2;
}

function drawChart(step, at) {
  for (const sheet of byId('plot').children) {
    sheet.querySelector('.column').setAttribute('x', left(at));
    sheet.querySelector('.future').setAttribute('x', left(at + 1));
    drawAxis(sheet.querySelector('.axis'), at);
  }
  drawNames(step, at);
  scrollChart(step, at);
}

// The instruction that a click on a name or on a bar means, or none.
function rowOfClick(event) {
  const name = event.target.closest('[data-row]'), bar = event.target.closest('.phase');
  if (name) return Number(name.dataset.row);
  return bar ? rows[Math.floor((event.clientY - bar.closest('.bars').getBoundingClientRect().top) / chart.row)] : -1;
}

// The step that a click into the chart means, or none.
function stepOfClick(event) {
  const mark = event.target.closest('[data-step]'), bars = event.target.closest('.bars');
  if (mark) return Number(mark.dataset.step);
  return bars ? first + Math.floor((event.clientX - bars.getBoundingClientRect().left) / chart.column) : -1;
}
