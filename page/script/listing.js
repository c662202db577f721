// The listing, with the stations that hold each of its instructions.
byId('lines').innerHTML = run.listing.map(line => {
  const label = line.labels.map(name => `<span class="label code">${safe(name)}: </span>`).join('');
  const title = `${hexadecimal(line.pc)}, line ${line.line}${line.comment ? ': ' + line.comment : ''}`;
  return `<li data-pc="${line.pc}"><span class="at code">${line.line}</span><span class="mark"></span>` +
    `<span title="${safe(title)}">${label}<code class="text">${safe(line.text)}</code></span><span class="holders"></span></li>`;
}).join('');
const items = new Map([...byId('lines').children].map(item => [Number(item.dataset.pc), item]));

function clearListing() {
  for (const item of items.values()) {
    item.className = '';
    item.querySelector('.mark').innerHTML = '';
    item.querySelector('.holders').innerHTML = '';
  }
}

function markListing(pc, name, mark, what) {
  const item = items.get(pc);
  if (!item) return;
  item.classList.add(name);
  item.querySelector('.mark').innerHTML += `<span class="${mark[0]}" title="${what}">${mark[1]}<span class="unseen"> ${what}</span></span>`;
}

// Scrolls the listing alone, and only as far as it must.
function keepInSight(item) {
  const box = byId('lines');
  if (!item || box.scrollHeight <= box.clientHeight + 4) return;
  const top = item.offsetTop, isSeen = top >= box.scrollTop + 24 && top <= box.scrollTop + box.clientHeight - 72;
  if (!isSeen) box.scrollTop = top - 60;
}

function drawListing(step, before) {
  clearListing();
  for (const number of step.live) {
    const station = step.stations[number], item = items.get(run.tenants[station.tenant].pc);
    item.querySelector('.holders').innerHTML += pill(number, station);
    if (before && !isSame(before.stations[number], station)) item.classList.add('changed');
    if (station.tenant === view.followed) item.classList.add('followed');
  }
  if (step.kind === 'end') return;
  markListing(step.pc, 'oldest', ['to-retire', '▶'], 'retires next');
  markListing(step.next, 'coming', ['to-come', '+'], 'dispatched next');
  keepInSight(items.get(step.pc) || items.get(step.next));
}
