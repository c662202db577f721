// Curves between the cards: who waits for whom, and which value goes where. Places are pairs [along, across]: the ring runs
// along its rows, and the rows face each other across the band between them.
const toPage = place => isNarrow() ? [place[1], place[0]] : place;
const written = place => toPage(place).map(Math.round).join(',');

// Each card's ends along its row, its edges and its middle.
function boxes() {
  const around = byId('ring').getBoundingClientRect();
  return cards.map(card => {
    const box = card.getBoundingClientRect();
    const [left, top] = [box.left - around.left, box.top - around.top];
    const [begin, extent, near, depth] = isNarrow() ? [top, box.height, left, box.width] : [left, box.width, top, box.height];
    return { begin, extent, near, far: near + depth, middle: [begin + extent / 2, near + depth / 2] };
  });
}

// On which side of a card its curve to another begins: 1 is below. In a row that is the side of the row it faces.
const sideTo = (number, other) => Math.sign(rowOf(other) - rowOf(number)) || (isForward(number) ? 1 : -1);

const port = (all, number, share, side) => [all[number].begin + all[number].extent * share, side > 0 ? all[number].far : all[number].near];

// A curve from a port to another, which leaves both at right angles, with its middle.
function curve(all, from, fromShare, to, toShare) {
  const sides = [sideTo(from, to), sideTo(to, from)];
  const begin = port(all, from, fromShare, sides[0]), end = port(all, to, toShare, sides[1]);
  const band = all[ring.columns].near - all[0].far, span = Math.abs(begin[0] - end[0]);
  const reach = rowOf(from) === rowOf(to) ? Math.min(band * .95, band * .4 + span * .12) : Math.abs(end[1] - begin[1]) / 2;
  const one = [begin[0], begin[1] + sides[0] * reach], two = [end[0], end[1] + sides[1] * reach];
  const middle = [0, 1].map(axis => (begin[axis] + 3 * one[axis] + 3 * two[axis] + end[axis]) / 8);
  return { path: `M${written(begin)}C${written(one)} ${written(two)} ${written(end)}`, begin, end, middle, leaves: sides[0], comesFrom: sides[1] };
}

// An arrow's head at the end of a curve, against the inner edge of the card.
function headHtml(found) {
  const [along, across] = found.end, back = across + 11 * found.comesFrom;
  return `<path class="head" d="M${written([along, across])}L${written([along - 6, back])}L${written([along + 6, back])}z"/>`;
}

function badgeHtml(place, text, side) {
  const wide = text.length > 1 ? 28 : 17, [x, y] = toPage([place[0], place[1] + (isNarrow() ? side * wide / 2 : 0)]);
  return `<rect class="badge" x="${x - wide / 2}" y="${y - 8}" width="${wide}" height="16" rx="8"/>` +
    `<text class="port" x="${x}" y="${y + 4}">${text}</text>`;
}

const data = link => `data-kind="${link.kind}" data-from="${link.from}" data-to="${link.to}"`;
const isOfFollowed = link => [link.from, link.to].includes(stationOfFollowed(stepAt(view.at))) ? ' followed' : '';

function waitHtml(all, link) {
  const found = curve(all, link.from, OPERAND_SHARES[link.operands[0]], link.to, .8);
  const text = link.operands.map(at => 'ab'[at]).join(' ');
  return `<g class="wait${isOfFollowed(link)}" ${data(link)}><path class="curve" d="${found.path}"/>${headHtml(found)}${badgeHtml(found.begin, text, found.leaves)}</g>`;
}

function carriedHtml(all, link) {
  const found = curve(all, link.from, .66, link.to, OPERAND_SHARES[link.operand || 0]);
  const [x, y] = toPage(found.middle);
  return `<g class="${link.kind}${isOfFollowed(link)}" ${data(link)}><path class="curve" d="${found.path}"/>${headHtml(found)}` +
    `<text class="carried" x="${x}" y="${y + 5}">${safe(link.text)}</text></g>`;
}

const OPERAND_SHARES = [.2, .42];

// A link for each producer that a station waits for.
function waits(step) {
  return step.live.flatMap(number => {
    const operands = step.stations[number].operands;
    const producers = [...new Set(operands.filter(awaits).map(operand => operand.from))];
    return producers.map(to => ({
      kind: 'wait', from: number, to,
      operands: [0, 1].filter(at => operands[at] !== null && operands[at].from === to),
    }));
  });
}

// Links that carry a value in this step: one for each producer and consumer.
function carried(step) {
  const sent = (step.sent || []).filter((it, at, all) => all.findIndex(other => other.to === it.to && other.from === it.from) === at)
    .map(it => ({ kind: 'sent', from: it.from, to: it.to, operand: it.operand, text: shown(it.value) }));
  if (step.kind === 'blocked') sent.push({ kind: 'blocked', from: step.station, to: step.store, text: 'blocked' });
  if (step.kind === 'load' && Number.isInteger(step.origin)) {
    sent.push({ kind: 'forwarded', from: step.origin, to: step.station, text: shown(step.value) });
  }
  return sent;
}

function drawLinks(step) {
  const all = boxes();
  byId('links').innerHTML = waits(step).map(link => waitHtml(all, link)).join('') +
    carried(step).map(link => carriedHtml(all, link)).join('');
  byId('links').setAttribute('class', stationOfFollowed(step) < 0 ? '' : 'aside');
  drawTrack(step, all);
}

// The way from a station to the next: straight, or along the left side where the last row goes back to the first.
function wayTo(all, number, next) {
  const aside = run.ring === 2 ? (number ? -60 : 60) : 0, ends = [all[number].middle, all[next].middle].map(place => [place[0] + aside, place[1]]);
  if (next !== 0 || rowOf(number) < 2) return ends;
  return [ends[0], [5, ends[0][1]], [5, ends[1][1]], ends[1]];
}

// The way around the ring, thick where instructions in flight follow each other.
function drawTrack(step, all) {
  const follows = (one, next) => {
    const at = step.live.indexOf(one);
    return at >= 0 && step.live[at + 1] === next;
  };
  byId('track').innerHTML = all.map((box, number) => {
    const next = (number + 1) % run.ring, way = wayTo(all, number, next).map(toPage), live = follows(number, next) ? 'live' : '';
    const [one, two] = way.length > 2 ? way.slice(1, 3) : way, middle = [(one[0] + two[0]) / 2, (one[1] + two[1]) / 2];
    const turn = Math.atan2(two[1] - one[1], two[0] - one[0]) * 180 / Math.PI;
    return `<path class="${live}" d="M${way.join('L')}"/><path class="arrow ${live}" transform="translate(${middle}) rotate(${turn})" d="M-4,-7L5,0L-4,7"/>`;
  }).join('');
}
