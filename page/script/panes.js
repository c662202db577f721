// Units, queue, create vector with registers, and memory.
const ofAll = part => [...new Set(run.steps.flatMap(step => part(step)).map(Number))].sort((one, other) => one - other);
const registers = ofAll(step => [...Object.keys(step.registers), ...Object.keys(step.creators)]).filter(number => number !== 0);
const words = ofAll(step => Object.keys(step.memory));

function unitHtml(unit, step, before) {
  const job = step.jobs[unit], now = job && step.stations[job.station];
  const isOld = job && !(now && now.tenant === job.tenant);
  const name = !job ? '' : isOld ? 'miss' : 'busy', isChanged = before && !isSame(before.jobs[unit], job);
  const what = !job ? 'idle' : isOld ? `old job of station ${job.station}, tag ${job.tag}` : `works for station ${job.station}`;
  return `<li class="${name}${isChanged ? ' changed' : ''}${job && job.tenant === view.followed ? ' followed' : ''}" data-tenant="${job ? job.tenant : -1}"><b>${unit}</b> ${what}` +
    (job ? `<code>${safe(textOf(run.tenants[job.tenant]))}</code>` : '') + '</li>';
}

function drawUnits(step, before) {
  byId('units').innerHTML = run.units.map(unit => unitHtml(unit, step, before)).join('');
}

function queueHtml(entry, step) {
  const station = step.stations[entry.station], look = lookOf(station);
  const value = number => number === null ? '?' : shown(number);
  return `<li class="${entry.kind} ${colourOf(look)}${station.tenant === view.followed ? ' followed' : ''}" data-tenant="${station.tenant}" title="station ${entry.station}: ${wordOf(look)}">` +
    `<b>${entry.station}</b> ${glyph(look)} ${entry.kind}<br><span class="code"><span class="unseen">address </span>@ ${value(entry.address)}` +
    `<br><span class="unseen">data </span>= ${value(entry.data)}</span></li>`;
}

function drawQueue(step) {
  byId('queue').innerHTML = step.queue.map(entry => queueHtml(entry, step)).join('') || '<li class="none">empty</li>';
}

function creatorHtml(made, step) {
  if (!made) return '<span class="quiet">–</span>';
  const [number, tag] = made, station = step.stations[number];
  if (station && station.tag === tag) return '→ ' + pill(number, station);
  return `<span class="quiet" title="station ${number}, tag ${tag}: it has retired, so the committed value counts">${number}, retired</span>`;
}

function registerHtml(number, step, before) {
  const value = step.registers[number] || 0, isChanged = before && value !== (before.registers[number] || 0);
  const isMoved = before && !isSame(step.creators[number], before.creators[number]);
  const creator = step.creators[number] ? createdBy(step.creators[number]) : -1;
  return `<tr class="${isChanged ? 'changed' : ''}${creator >= 0 && creator === view.followed ? ' followed' : ''}" data-tenant="${creator}"><th scope="row" class="code">${run.names[number]}</th>` +
    `<td class="value code">${shown(value)}</td><td class="${isMoved ? 'changed' : ''}">${creatorHtml(step.creators[number], step)}</td></tr>`;
}

function wordHtml(address, step, before) {
  const value = step.memory[address] || 0, isChanged = before && value !== (before.memory[address] || 0);
  return `<tr class="${isChanged ? 'changed' : ''}"><th scope="row" class="code">${shown(address)}</th>` +
    `<td class="value code">${shown(value)}</td></tr>`;
}

function drawState(step, before) {
  byId('registers').tBodies[0].innerHTML = registers.map(number => registerHtml(number, step, before)).join('') ||
    '<tr><td colspan="3">none is written</td></tr>';
  byId('memory').tBodies[0].innerHTML = words.map(address => wordHtml(address, step, before)).join('') ||
    '<tr><td>all bytes are 0</td></tr>';
}
