// The ring of stations: a card for each, in an even number of rows, from left to right and back in turn.
const LEAST_CARD = 7.4;
const ring = { columns: run.ring / 2 };
const rowOf = number => Math.floor(number / ring.columns);
const isForward = number => rowOf(number) % 2 === 0;
const cards = Array.from({ length: run.ring }, () => {
  const card = document.createElement('div');
  card.setAttribute('role', 'listitem');
  return byId('stations').appendChild(card);
});

// On a narrow screen the cards go down on the left and up on the right; else there are as many columns as have room for words.
function placeCards() {
  const grid = byId('stations').style, rem = parseFloat(getComputedStyle(document.documentElement).fontSize);
  ring.columns = run.ring / 2;
  while (!isNarrow() && ring.columns > 4 && byId('stations').clientWidth / ring.columns < LEAST_CARD * rem) ring.columns /= 2;
  const rows = run.ring / ring.columns, bands = Array.from({ length: rows }, () => 'auto').join(' var(--band) ');
  grid.gridTemplateColumns = isNarrow() ? '' : `repeat(${ring.columns}, minmax(0, 1fr))`;
  grid.gridTemplateRows = isNarrow() ? '' : bands;
  byId('ring').classList.toggle('folded', rows > 2);
  cards.forEach((card, number) => {
    const place = number % ring.columns, along = isForward(number) ? place + 1 : ring.columns - place, across = 2 * rowOf(number) + 1;
    card.style.gridArea = isNarrow() ? `${along} / ${across}` : `${across} / ${along}`;
  });
}

// What a station made, as its state says.
function resultOf(station, tenant) {
  if (station.state === 'ADDR') return '@ ' + shown(station.value);
  if (station.state === 'STOP') return 'only if it retires';
  if (station.state === 'MISS' || station.state === 'DONE' && isJump(tenant)) return '→ ' + placeOf(station.value);
  if (station.state === 'DONE' && !isStore(tenant)) return '= ' + shown(station.value);
  return '';
}

function operandHtml(operand, at, isNew) {
  if (operand === null) return '';
  const value = awaits(operand) ? `<span class="from">← <span class="long">station </span>${operand.from}</span>` :
    `<span>${shown(operand.value)}${isNew ? ' ◂ new' : ''}</span>`;
  return `<div class="operand code${isNew ? ' new' : ''}"><i>${'ab'[at]}</i>${value}</div>`;
}

const operandWords = operands => operands.map((operand, at) => operand === null ? '' :
  `, operand ${'ab'[at]} ` + (awaits(operand) ? `waits for station ${operand.from}` : `is ${shown(operand.value)}`)).join('');

// What is known of a card: its station, and of an empty one the tenant that has just left.
function cardFacts(number, step, before) {
  const station = step.stations[number], was = before && before.stations[number];
  const missed = step.live.findIndex(it => step.stations[it].state === 'MISS');
  return {
    number, station, look: lookOf(station),
    isChanged: Boolean(before) && !isSame(was, station),
    isWrong: missed >= 0 && step.live.indexOf(number) > missed,
    leaves: station || !was ? '' : (step.squashed || []).includes(number) ? 'squashed' : 'retired',
    tenant: station ? run.tenants[station.tenant] : was ? run.tenants[was.tenant] : null,
    isHead: step.head === number, isTail: step.tail === number, isFollowed: stationOfFollowed(step) === number,
  };
}

function flagsHtml(facts) {
  const head = facts.isHead ? '<span class="to-retire">▶ head</span>' : '';
  const tail = facts.isTail ? '<span class="to-come">+ tail</span>' : '';
  const path = facts.isWrong ? '<span class="path">wrong path</span>' : '';
  return `<div class="flags">${head}${tail}${path}</div>`;
}

function cardHtml(facts, sent) {
  const { number, station, look, tenant } = facts;
  const isNew = at => sent.some(it => it.to === number && it.operand === at);
  const tag = station ? `<span class="tag">tag ${station.tag}</span>` : '';
  return flagsHtml(facts) +
    `<div class="top"><b>${number}</b><span>${glyph(look)} ${facts.leaves || wordOf(look)}</span>${tag}</div>` +
    (tenant ? `<code class="text">${safe(textOf(tenant))}</code>` : '') +
    (station ? station.operands.map((operand, at) => operandHtml(operand, at, isNew(at))).join('') : '') +
    (station ? `<div class="operand code result">${safe(resultOf(station, tenant))}</div>` : '');
}

function cardLabel(facts) {
  const { number, station, look, tenant } = facts;
  const parts = [`Station ${number}: ${facts.leaves || wordOf(look)}`];
  if (tenant) parts.push(textOf(tenant));
  if (station) parts.push(`tag ${station.tag}${operandWords(station.operands)}`, resultOf(station, tenant));
  if (facts.isWrong) parts.push('on a wrong path');
  if (facts.isHead) parts.push('head');
  if (facts.isTail) parts.push('tail');
  return parts.filter(part => part).join(', ');
}

function drawRing(step, before) {
  cards.forEach((card, number) => {
    const facts = cardFacts(number, step, before);
    card.className = ['card', colourOf(facts.look), isForward(number) ? 'first' : 'second', facts.leaves,
      facts.isChanged ? 'changed' : '', facts.isWrong ? 'wrong' : '', facts.isFollowed ? 'followed' : ''].filter(name => name).join(' ');
    card.innerHTML = cardHtml(facts, step.sent || []);
    card.dataset.tenant = facts.tenant ? run.tenants.indexOf(facts.tenant) : -1;
    card.setAttribute('aria-label', cardLabel(facts));
  });
}
