// Steps through a page by its keys, and tells what stands in it at each step. Behind the page's own script, in a frame whose parent
// is told: {seen, faults}.
(() => {
  const faults = [], seen = [];
  const all = (selector, within = document) => [...within.querySelectorAll(selector)];
  const text = (selector, within = document) => within.querySelector(selector)?.textContent.trim() ?? '';
  const press = (key, more = {}) => document.body.dispatchEvent(new KeyboardEvent('keydown', { key, bubbles: true, cancelable: true, ...more }));
  const want = (what, isSo) => isSo || faults.push(what);
  const count = () => text('#count');
  addEventListener('error', event => faults.push(event.message));

  const card = it => ({
    word: text('.top span', it).trim(), tag: text('.tag', it), text: text('.text', it),
    operands: all('.operand:not(.result)', it).map(part => part.textContent.trim()),
  });
  const look = () => ({
    words: text('#words'), count: count(), cards: all('.card').map(card),
    links: all('#links [data-kind]').map(it => ({ kind: it.dataset.kind, from: Number(it.dataset.from), to: Number(it.dataset.to) })),
    registers: all('#registers tbody tr').filter(row => row.cells.length === 3).map(row => [row.cells[0].textContent, row.cells[1].textContent]),
  });

  // The contrast of a text with what is behind it.
  const parts = colour => colour.match(/[\d.]+/g).map(Number);
  const light = colour => parts(colour).slice(0, 3).map(it => it / 255).map(it => it <= .03928 ? it / 12.92 : ((it + .055) / 1.055) ** 2.4)
    .reduce((sum, it, at) => sum + it * [.2126, .7152, .0722][at], 0);
  const isOpaque = colour => { const found = parts(colour); return found.length < 4 || found[3] === 1; };
  function ground(element) {
    for (let at = element; at; at = at.parentElement) {
      const colour = getComputedStyle(at).backgroundColor;
      if (isOpaque(colour)) return colour;
    }
    return 'rgb(255, 255, 255)';
  }
  function contrast(element) {
    const [one, two] = [light(getComputedStyle(element).color), light(ground(element))].sort((a, b) => b - a);
    return (one + .05) / (two + .05);
  }
  const hasText = element => [...element.childNodes].some(node => node.nodeType === 3 && node.data.trim());
  function readable(where) {
    for (const element of all('body *').filter(it => hasText(it) && it.getClientRects().length && !it.closest('svg, script'))) {
      const found = contrast(element);
      if (found < 4.5) faults.push(`${where}: a contrast of ${found.toFixed(2)}: ${element.tagName} ${element.className} ${element.textContent.slice(0, 30)}`);
    }
  }

  // Texts that are cut or lie over each other. A pane may scroll up and down, the queue and the chart sideways too; a long name in
  // the chart has all of it in its title. The bar of the steps lies over a page that is higher than the window.
  const FRAMES = '.card, #units li, #queue li, td, th, button, #told, header, .pane';
  const clips = element => ['auto', 'hidden', 'scroll', 'clip'].includes(getComputedStyle(element).overflowX);
  function shownTexts() {
    const walker = document.createTreeWalker(document.body, NodeFilter.SHOW_TEXT), found = [];
    for (let node = walker.nextNode(); node; node = walker.nextNode()) {
      const element = node.parentElement, range = document.createRange();
      if (!node.data.trim() || !element.checkVisibility({ contentVisibilityAuto: true }) || element.closest('script, style, svg, select, dialog, .unseen, #steps')) continue;
      range.selectNodeContents(node);
      for (const box of range.getClientRects()) if (box.width > 1 && box.height > 1) found.push({ element, words: node.data.trim(), box });
    }
    return found;
  }
  function cutIn({ element, box }) {
    for (let at = element; at && at !== document.body; at = at.parentElement) {
      const frame = at.getBoundingClientRect(), isScrolled = at.matches('#plot, #queue');
      if (at.matches('.names li') && at.title || isScrolled || element.closest('.axis')) return false;
      const isWide = box.left < frame.left - 1 || box.right > frame.right + 1;
      const isHigh = box.top < frame.top - 1 || box.bottom > frame.bottom + 1;
      if (at.matches(FRAMES) && !element.closest('.flags') && (isWide || isHigh && !clips(at) && !at.querySelector('#lines'))) return at.id || at.className || at.tagName;
      if (clips(at)) return isWide && at.id;
    }
    return false;
  }
  function clipped({ element, box }) {
    let [left, top, right, bottom] = [box.left, box.top, box.right, box.bottom];
    for (let at = element; at; at = at.parentElement) {
      if (!clips(at) || at === document.body || at === document.documentElement) continue;
      const frame = at.getBoundingClientRect();
      [left, top, right, bottom] = [Math.max(left, frame.left), Math.max(top, frame.top), Math.min(right, frame.right), Math.min(bottom, frame.bottom)];
    }
    return [left, top, right, bottom];
  }
  function placed(where) {
    const texts = shownTexts();
    for (const it of texts) if (cutIn(it)) faults.push(`${where}: ${it.words.slice(0, 30)} is cut in ${cutIn(it)}`);
    const boxes = texts.filter(it => !it.element.closest('.axis, .corner')).map(it => [it, clipped(it)]).filter(([, [left, top, right, bottom]]) => right - left > 2 && bottom - top > 2);
    boxes.forEach(([one, a], at) => {
      for (const [other, b] of boxes.slice(at + 1)) {
        if (Math.min(a[2], b[2]) - Math.max(a[0], b[0]) > 2 && Math.min(a[3], b[3]) - Math.max(a[1], b[1]) > 4) {
          faults.push(`${where}: ${one.words.slice(0, 30)} lies over ${other.words.slice(0, 30)}`);
        }
      }
    });
  }

  const page = JSON.parse(text('#run')), steps = page.steps;
  // steps by their places in the page, which may begin later than the run
  const last = Number(count().split('/')[1]) - page.first;
  const at = () => Number(count().split('/')[0]) - page.first;
  press('Home');
  want('Home', at() === 0);
  for (let step = 0; step <= last; step++) {
    seen.push(look());
    if (innerWidth >= 1024 && faults.length < 20) placed(`step ${step}`);
    if (/NaN|undefined|null/.test(document.querySelector('main').textContent + document.querySelector('#links').innerHTML)) faults.push(`step ${step}: no value`);
    press('ArrowRight');
  }
  want('the last step stays', at() === last);
  press('ArrowLeft');
  want('ArrowLeft', at() === last - 1);
  press('Home');
  press('PageDown');
  want('PageDown', at() === Math.min(10, last));
  press('PageUp');
  want('PageUp', at() === 0);
  press('End');
  want('End', at() === last);
  for (const [key, first] of [['r', /^(Retired|Half)/], ['m', / MISS /], ['s', /^Stale/], ['b', /^Blocked/], ['l', /^Loaded/]]) {
    press('Home');
    press(key);
    want(`key ${key}`, at() === 0 ? !steps.some(step => first.test(step.answer)) : first.test(steps[at()].answer));
  }
  press(' ');
  want('play', text('#play').includes('Pause'));
  press(' ');
  want('pause', text('#play').includes('Play'));

  document.documentElement.scrollTop = 100000;
  const end = document.getElementById('steps').getBoundingClientRect();
  want('the bar of the steps stays in sight', Math.abs(end.bottom - innerHeight) < 2 && document.querySelector('main').getBoundingClientRect().bottom < end.top + 2);
  document.documentElement.scrollTop = 0;
  if (innerWidth >= 1280) {
    const plot = document.getElementById('plot').getBoundingClientRect(), bar = document.getElementById('steps').getBoundingClientRect();
    want('the chart is in sight', plot.bottom <= bar.top && plot.height > 100 || page.ring === 32);
  }

  // what is followed: by a click on a station, a line, a register, an entry of the queue or a row, and by keys
  if (!page.quiz) {
    const followed = () => Number(text('#followed').match(/^Followed: (\d+)/)?.[1] ?? -1);
    const clickOn = it => it?.dispatchEvent(new MouseEvent('click', { bubbles: true }));
    const middle = steps.findIndex(step => step.live.length > 1);
    location.hash = '#' + (page.first + middle);
    dispatchEvent(new Event('hashchange'));
    const holder = steps[middle].live[0], tenant = page.parts[steps[middle].stations[holder]].tenant;
    clickOn(all('.card')[holder]);
    want('a click on a station follows', followed() === tenant && all('.card')[holder].classList.contains('followed'));
    want('what is followed is marked once', all('.card.followed').length === 1 && all('.names .followed').length === 1 && all('#lines .followed').length === 1);
    clickOn(all('.card')[holder]);
    want('a second click follows none', followed() === -1 && !all('.followed').length);
    clickOn(document.querySelector(`.names [data-row="${tenant}"]`));
    want('a click on a row follows', followed() === tenant);
    press('Escape');
    want('Escape follows none', followed() === -1);
    clickOn(document.querySelector(`#lines [data-pc="${page.tenants[tenant].pc}"]`));
    want('a click on a line follows', page.tenants[followed()]?.pc === page.tenants[tenant].pc);
    press('Escape');
    const made = all('#registers tr').find(row => row.querySelector('.pill'));
    if (made) {
      clickOn(made);
      want('a click on a register follows', all('.card.followed .top b').map(it => it.textContent).join() === made.querySelector('.pill').textContent.match(/\d+/)[0]);
      press('Escape');
    }
    const entry = document.querySelector('#queue [data-tenant]');
    if (entry) {
      clickOn(entry);
      want('a click on the queue follows', followed() === Number(entry.dataset.tenant));
      press('Escape');
    }
    press('f');
    want('key f', followed() === steps[middle].tenant);
    press('n', { shiftKey: true });
    press('n');
    want('key n', all('#followed .here').length === 1);
    press('.');
    press(',');
    want('keys . and ,', followed() === steps[middle].tenant);
    if (innerWidth >= 1024) placed('followed');
    press('Escape');
  }
  press('?');
  want('the keys are told', document.getElementById('keys').open && all('#keys dt').length > 9);
  want('the keys are in sight', document.getElementById('keys').getBoundingClientRect().bottom <= innerHeight || innerWidth < 600);
  press('?');
  const pace = document.getElementById('pace');
  press('+');
  want('key +', Number(pace.value) === 600);
  press('-');
  want('key -', Number(pace.value) === 1200);
  if (page.quiz) {
    press('Home');
    press('ArrowRight');
    const isCovered = () => !document.getElementById('words').textContent.includes('dispatched') && !text('#command') &&
      all('#plot text, #plot li, .bars').every(it => getComputedStyle(it).visibility === 'hidden');
    want('sentence and chart are covered', isCovered());
    press('q');
    want('key q shows them', !isCovered() && text('#command'));
    press('ArrowRight');
    want('the next step is covered', isCovered());
  }

  const slider = document.getElementById('slider');
  slider.value = page.first + Math.min(5, last);
  slider.dispatchEvent(new Event('input', { bubbles: true }));
  want('the slider', at() === Math.min(5, last));
  document.getElementById('base').click();
  want('hexadecimal', all('#registers td.value').every(cell => cell.textContent.startsWith('0x')));
  document.getElementById('base').click();
  const bars = document.querySelector('.bars').getBoundingClientRect();
  document.querySelector('.bars').dispatchEvent(new MouseEvent('click', { clientX: bars.left + bars.width * 2.5 / (last + 1), bubbles: true }));
  want('a click into the chart', at() === 2);
  const spills = it => it.clientWidth < 90 || it.scrollWidth > it.clientWidth;
  want('no card too small for its words', !all('.card').some(spills));
  want('no sideways scroll', document.documentElement.scrollWidth <= innerWidth);
  want('each control is reached by keys', all('button, input, select, summary').every(it => it.tabIndex >= 0));

  const kinds = new Map(steps.map((step, number) => [step.kind, number]));
  const isDark = () => document.documentElement.classList.contains('dark');
  for (let theme = 0; theme < 2; theme++) {
    for (const [kind, number] of kinds) {
      location.hash = '#' + (page.first + number);
      dispatchEvent(new Event('hashchange'));
      readable(`${kind}, ${isDark() ? 'dark' : 'light'}`);
      if (innerWidth >= 1024 && faults.length < 20) placed(`${kind}, ${isDark() ? 'dark' : 'light'}`);
    }
    document.getElementById('theme').click();
  }
  parent.postMessage(JSON.stringify({ seen, faults }), '*');
})();
