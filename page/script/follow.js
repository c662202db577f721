// The instruction that is followed: its steps, whom it waited for, and who waited for it.
const EVENTS = [['dispatched', 'let'], ['issued', 'claim'], ['finished', 'finish'], ['loaded', 'load'], ['mended', 'mend'],
  ['retired', 'retire'], ['squashed', 'squash'], ['stale', 'stale']];
const eventsOf = tenant => EVENTS.map(([what, name]) => [what, tenant[name]]).filter(([, step]) => step >= first)
  .sort((one, other) => one[1] - other[1]);

// The tenants for whose values an instruction waited from its dispatch on, and the store that gave or blocked a load's value.
function producersOf(number) {
  const tenant = run.tenants[number], found = new Set();
  if (tenant.let >= first) {
    const { stations } = stepAt(tenant.let);
    for (const operand of stations[tenant.station].operands) if (operand && awaits(operand)) found.add(stations[operand.from].tenant);
  }
  for (const step of run.steps) {
    const store = step.tenant !== number ? null : step.kind === 'blocked' ? step.store : step.kind === 'load' ? step.origin : null;
    if (Number.isInteger(store) && step.stations[store]) found.add(step.stations[store].tenant);
  }
  return found;
}
const producers = run.tenants.map((_, number) => producersOf(number));
const consumersOf = number => producers.flatMap((found, other) => found.has(number) ? [other] : []);

// The station that holds the instruction which is followed, or -1.
function stationOfFollowed(step) {
  const tenant = run.tenants[view.followed], station = tenant && step.stations[tenant.station];
  return station && station.tenant === view.followed ? tenant.station : -1;
}

function follow(number) {
  view.followed = number in run.tenants && number !== view.followed ? number : -1;
  draw();
}

// Of a line of the listing: the instruction there that is in flight, or came last; if that is followed, the next one.
function followLine(pc) {
  const numbers = rows.filter(number => run.tenants[number].pc === pc);
  const now = numbers.indexOf(view.followed), come = numbers.filter(number => run.tenants[number].let <= view.at);
  const at = now >= 0 ? now + 1 : Math.max(0, come.length - 1);
  if (at < numbers.length) follow(numbers[at]);
}

const createdBy = ([station, tag]) => run.tenants.findLastIndex(tenant => tenant.station === station && tenant.tag === tag && tenant.let <= view.at);

const stepHtml = ([what, step]) => `<button data-step="${step}"${step === view.at ? ' class="here"' : ''}>${what} ${step}</button>`;
const tenantHtml = number => `<button data-tenant="${number}">${number} <code>${safe(textOf(run.tenants[number]))}</code></button>`;

function drawFollowed() {
  const panel = byId('followed'), tenant = run.tenants[view.followed];
  panel.hidden = !tenant || !view.isShown;
  panel.innerHTML = '';
  if (panel.hidden) return;
  const waited = [...producers[view.followed]], used = consumersOf(view.followed);
  panel.innerHTML = `<span>Followed: ${view.followed} <code>${safe(textOf(tenant))}</code></span>${eventsOf(tenant).map(stepHtml).join('')}` +
    (waited.length ? `<span>waited for</span>${waited.map(tenantHtml).join('')}` : '') +
    (used.length ? `<span>awaited by</span>${used.map(tenantHtml).join('')}` : '') + '<button data-tenant="-1" aria-label="Follow none">✕</button>';
}

// How a row of the chart stands to the instruction that is followed.
function kinOf(number) {
  if (view.followed < 0) return '';
  return number === view.followed ? ' followed' : producers[view.followed].has(number) ? ' gives' : producers[number].has(view.followed) ? ' takes' : '';
}
