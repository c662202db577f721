// The step in words, and the ways to move: slider, buttons, keys, chart and the address of the page.
const JUMPS = [['miss', 'misprediction', 'm'], ['stale', 'stale result', 's'], ['blocked', 'blocked load', 'b'],
  ['load', 'load', 'l'], ['retire', 'retirement', 'r']].filter(([kind]) => run.steps.some(step => step.kind === kind));
const EDGES = { let: 'open', claim: 'busy', load: 'addr', finish: 'done', retire: 'done', end: 'done', stop: 'stop',
  miss: 'miss', recover: 'miss', stale: 'miss', blocked: 'miss' };
// Milliseconds between two steps, and how the page names that speed.
const PACES = [[2400, '½'], [1200, '1'], [600, '2'], [300, '4'], [100, '12']];
const KEYS = [['→ ←', 'a step on, a step back'], ['Page Down, Page Up', 'ten steps'], ['Home, End', 'first and last step'],
  ['space', 'play, pause'], ['+ −', 'speed of Play'], ...JUMPS.map(([, what, key]) => [key, `next ${what}; with Shift the one before`]),
  ['f', 'follow the instruction of this step'], [', .', 'follow the instruction before it, after it'],
  ['n', 'next step of what is followed; with Shift the one before'], ['Esc', 'follow none'], ['h', 'hexadecimal'], ['d', 'dark'],
  ...(run.quiz ? [['q', 'show what is covered']] : []), ['?', 'these keys']];
const timers = { play: 0, address: 0 };

byId('slider').min = first;
byId('slider').max = last;
byId('settings').textContent = `${run.ring} stations, queue of ${run.queue}, predictor ${run.predictor}, ${run.order}`;
byId('about').hidden = !run.about;
byId('about').lastChild.textContent = run.about;
byId('jumps').innerHTML = JUMPS.map(([kind, what, key]) =>
  `<button data-kind="${kind}" aria-label="Next ${what}" title="Next ${what}: key ${key}, with Shift the one before">` +
  `<span aria-hidden="true">▶▶ <span class="long">${what}</span><span class="short">${kind}</span></span> <kbd aria-hidden="true">${key}</kbd></button>`).join('');
document.querySelector('main').classList.toggle('wide', run.ring > 8);
byId('pace').innerHTML = PACES.map(([pace, name]) => `<option value="${pace}"${name === '1' ? ' selected' : ''}>${name}×</option>`).join('');
byId('keys').innerHTML = '<h2>Keys</h2><dl>' + KEYS.map(([key, what]) => `<dt>${key}</dt><dd>${what}</dd>`).join('') +
  '</dl><p>A click on a station, line, register, queue entry, unit or row follows that instruction.</p>';
byId('cover').hidden = !run.quiz;

// The next step of a kind in one direction, or none.
function find(kind, direction) {
  for (let at = view.at + direction; at >= first && at <= last; at += direction) if (stepAt(at).kind === kind) return at;
  return -1;
}

function passedHtml(passed) {
  if (!passed.length) return '';
  const count = passed.length === 1 ? 'One command before it changed nothing' : `${passed.length} commands before it changed nothing`;
  return `<details><summary>${count}</summary>` + passed.map(([command, answer]) => `<code>${safe(command)} → ${safe(answer)}</code>`).join('<br>') + '</details>';
}

// For a quiz sentence, command and chart are covered until a key shows them.
function drawCover() {
  document.documentElement.classList.toggle('covered', !view.isShown);
  byId('cover').setAttribute('aria-pressed', view.isShown);
}

function drawTold(step, at) {
  byId('told').className = view.isShown ? EDGES[step.kind] || '' : '';
  byId('words').innerHTML = view.isShown ? inHtml(step.words) : 'What did this step do, and why could it? <kbd>q</kbd> shows it.';
  byId('command').innerHTML = step.command && view.isShown ? `<p title="${safe(step.answer)}"><code>${safe(step.command)}</code> ` +
    `<span aria-hidden="true">→</span> <code>${safe(step.answer)}</code></p>${passedHtml(step.passed)}` : '';
  byId('slider').value = at;
  byId('slider').setAttribute('aria-valuetext', `step ${at} of ${last}`);
  byId('count').textContent = `${at} / ${last}`;
}

function drawControls(at) {
  byId('first').disabled = byId('back').disabled = at === first;
  byId('on').disabled = at === last;
  for (const button of byId('jumps').children) button.disabled = find(button.dataset.kind, 1) < 0;
  clearTimeout(timers.address);
  // a page beside another has no address of its own
  if (location.protocol !== 'about:') timers.address = setTimeout(() => history.replaceState(null, '', '#' + at), 400);
}

function draw() {
  const step = stepAt(view.at), before = view.at > first ? stepAt(view.at - 1) : null;
  drawCover();
  drawTold(step, view.at);
  drawFollowed();
  drawListing(step, before);
  drawRing(step, before);
  drawUnits(step, before);
  drawQueue(step);
  drawState(step, before);
  drawLinks(step);
  drawChart(step, view.at);
  drawControls(view.at);
}

function layOut() {
  const classes = document.documentElement.classList;
  classes.remove('broad', 'middle', 'slim', 'narrow', 'paper');
  classes.add(shape());
  placeCards();
  placeChart();
  draw();
}

// The step with a number, or the first or last where there is none.
const within = to => Math.max(first, Math.min(last, to || first));

function go(to) {
  if (view.at !== within(to)) view.isShown = !run.quiz;
  view.at = within(to);
  draw();
}

function play(isOn) {
  clearInterval(timers.play);
  timers.play = isOn ? setInterval(() => view.at < last ? go(view.at + 1) : play(false), Number(byId('pace').value)) : 0;
  const [sign, word] = isOn ? ['❚❚', 'Pause'] : ['▶', 'Play'];
  byId('play').innerHTML = `${sign} <span class="long">${word}</span>`;
  byId('play').setAttribute('aria-label', word);
  if (isOn && view.at === last) go(first);
}

function stopAndGo(to) {
  play(false);
  if (to >= 0) go(to);
}

// A click on what shows an instruction follows it, and one on a step of the instruction that is followed leads there.
function followClick(event) {
  const place = event.target.closest('[data-tenant]'), step = event.target.closest('[data-step]');
  if (step) stopAndGo(Number(step.dataset.step));
  else if (place) follow(Number(place.dataset.tenant));
}

function uncover() {
  view.isShown = !run.quiz || !view.isShown;
  draw();
}

function showKeys(isOn) {
  byId('keys').open = isOn;
  byId('keys-button').setAttribute('aria-expanded', isOn);
}

function changePace(by) {
  const pace = byId('pace');
  pace.selectedIndex = Math.max(0, Math.min(PACES.length - 1, pace.selectedIndex + by));
  pace.onchange();
}

// The next step of the instruction that is followed, or none.
function nextOfFollowed(direction) {
  const steps = view.followed < 0 ? [] : eventsOf(run.tenants[view.followed]).map(([, step]) => step);
  return (direction > 0 ? steps.find(step => step > view.at) : steps.findLast(step => step < view.at)) ?? -1;
}

// What a key does that leads to no step of its own.
const ACTIONS = {
  ' ': () => play(!timers.play), '+': () => changePace(1), '-': () => changePace(-1), '?': () => showKeys(!byId('keys').open),
  h: () => byId('base').click(), d: () => byId('theme').click(), q: uncover,
  f: () => follow(stepAt(view.at).tenant ?? -1), n: event => stopAndGo(nextOfFollowed(event.shiftKey ? -1 : 1)),
  ',': () => follow(rows[Math.max(0, rows.indexOf(view.followed) - 1)]), '.': () => follow(rows[rows.indexOf(view.followed) + 1] ?? view.followed),
  Escape: () => { showKeys(false); follow(-1); },
};

function setTheme(isDark) {
  document.documentElement.classList.toggle('dark', isDark);
  byId('theme').setAttribute('aria-pressed', isDark);
}

byId('slider').oninput = event => stopAndGo(Number(event.target.value));
byId('first').onclick = () => stopAndGo(first);
byId('back').onclick = () => stopAndGo(within(view.at - 1));
byId('on').onclick = () => stopAndGo(view.at + 1);
byId('play').onclick = () => play(!timers.play);
byId('theme').onclick = () => setTheme(!document.documentElement.classList.contains('dark'));
byId('pace').onchange = () => timers.play && play(true);
byId('keys-button').onclick = () => showKeys(!byId('keys').open);
byId('cover').onclick = () => uncover();
byId('base').onclick = () => {
  view.hexadecimal = !view.hexadecimal;
  byId('base').setAttribute('aria-pressed', view.hexadecimal);
  draw();
};
byId('jumps').onclick = event => {
  const button = event.target.closest('button');
  if (button) stopAndGo(find(button.dataset.kind, event.shiftKey ? -1 : 1));
};
byId('plot').onclick = event => {
  const row = rowOfClick(event);
  if (row >= 0) follow(row);
  stopAndGo(stepOfClick(event));
};
byId('lines').onclick = event => {
  const line = event.target.closest('[data-pc]');
  if (line) followLine(Number(line.dataset.pc));
};
for (const id of ['stations', 'units', 'queue', 'registers', 'followed']) byId(id).onclick = followClick;

// Where a key leads, or nothing. A box that scrolls keeps the keys by which it scrolls.
function target(event) {
  const isBox = event.target.id === 'lines';
  switch (event.key) {
    case 'ArrowRight': return view.at + 1;
    case 'ArrowLeft': return Math.max(first, view.at - 1);
    case 'PageDown': return isBox ? undefined : view.at + 10;
    case 'PageUp': return isBox ? undefined : Math.max(first, view.at - 10);
    case 'Home': return isBox ? undefined : first;
    case 'End': return isBox ? undefined : last;
    default: return undefined;
  }
}

addEventListener('keydown', event => {
  if (event.ctrlKey || event.metaKey || event.altKey) return;
  const to = target(event), jump = JUMPS.find(([, , key]) => key === event.key.toLowerCase());
  const action = ACTIONS[event.key] || ACTIONS[event.key.toLowerCase()], isOnButton = ['BUTTON', 'SUMMARY', 'SELECT'].includes(event.target.tagName);
  if (to !== undefined) stopAndGo(to);
  else if (jump) stopAndGo(find(jump[0], event.shiftKey ? -1 : 1));
  else if (action && !(isOnButton && event.key === ' ')) action(event);
  else return;
  event.preventDefault();
});

// For paper the page is laid out anew, at the width of a sheet.
function setPaper(isOn) {
  view.onPaper = isOn;
  layOut();
}
addEventListener('beforeprint', () => setPaper(true));
addEventListener('afterprint', () => setPaper(false));
addEventListener('resize', layOut);
addEventListener('hashchange', () => go(parseInt(location.hash.slice(1), 10)));

const wanted = new URLSearchParams(location.search).get('theme'), system = matchMedia('(prefers-color-scheme: dark)');
setTheme(wanted ? wanted === 'dark' : system.matches);
system.addEventListener('change', event => setTheme(event.matches));
view.at = within(parseInt(location.hash.slice(1), 10));
layOut();
