'use strict';
(() => {
  const all = (what, where = document) => [...where.querySelectorAll(what)];
  const status = document.getElementById('status');
  const rows = all('tr.row[id]');

  // which records come of each other: the links of the lines, both ways
  const near = new Map(rows.map(row => [row, []]));
  for (const row of rows) {
    const link = row.querySelector('th a');
    const other = link && document.getElementById(link.getAttribute('href').slice(1));
    if (other) { near.get(row).push(other); near.get(other).push(row); }
  }
  const family = row => {
    const seen = new Set([row]);
    for (const one of seen) for (const other of near.get(one) || []) seen.add(other);
    return seen;
  };
  const mark = (row, name) => {
    all('.' + name).forEach(one => one.classList.remove(name));
    if (row) family(row).forEach(one => one.classList.add(name));
  };

  // what a cell is, in words
  const tell = (row, cell) => {
    const panel = row.closest('.panel');
    const stage = panel.querySelector('.number').textContent, line = row.querySelector('th').textContent;
    let text = `stage ${stage}, line ${line}`;
    if (cell && cell.dataset.spine) {
      const from = cell.dataset.thread, part = Number(cell.dataset.part);
      text += `, column ${cell.dataset.column}: spine ${cell.dataset.spine} here (extract -f ${cell.dataset.spine})`;
      text += part > 1 ? `, its column ${part}` : '';
      text += `, thread ${from}: ${cell.textContent}`;
    }
    status.textContent = text;
  };

  const unfold = (index, open) => {
    for (const body of all(`tbody[data-group="${index}"]`)) {
      body.classList.toggle('folded', !open);
      const button = body.querySelector('button');
      if (button) button.setAttribute('aria-expanded', String(open));
    }
  };
  all('.same').forEach(button => button.addEventListener('click', () => button.parentNode.classList.remove('closed')));
  const reveal = row => {
    row.closest('.panel').classList.remove('closed');
    const body = row.closest('tbody');
    if (body.dataset.group !== undefined) unfold(body.dataset.group, true);
    row.scrollIntoView({ block: 'center', inline: 'nearest' });
  };
  // the first body of the bars says which are folded
  all('.rail tbody').forEach(body => unfold(body.dataset.group, !body.classList.contains('folded')));
  all('.rail button').forEach(button => button.addEventListener('click', () =>
    unfold(button.closest('tbody').dataset.group, button.getAttribute('aria-expanded') !== 'true')));
  const each = open => all('.rail tbody').forEach(body => unfold(body.dataset.group, open));
  const on = (id, what, does) => { const one = document.getElementById(id); if (one) one.addEventListener(what, does); };
  on('fold', 'click', () => each(false));
  on('unfold', 'click', () => each(true));
  on('bar', 'change', event => {
    unfold(event.target.value, true);
    document.querySelector(`.rail tbody[data-group="${event.target.value}"]`).scrollIntoView({ block: 'start' });
  });
  on('tools', 'submit', event => event.preventDefault());

  // search: each cell with the text is marked; Enter goes to the next
  let hits = [], at = -1;
  on('find', 'input', event => {
    all('.hit').forEach(one => one.classList.remove('hit'));
    const text = event.target.value;
    hits = text ? all('tr.row td').filter(cell => cell.textContent.includes(text)) : [];
    hits.forEach(cell => { cell.classList.add('hit'); cell.parentNode.classList.add('hit'); });
    at = -1;
    document.getElementById('found').textContent = text ? `${hits.length} found` : '';
  });
  on('find', 'keydown', event => {
    if (event.key !== 'Enter' || !hits.length) return;
    event.preventDefault();
    at = (at + (event.shiftKey ? hits.length - 1 : 1)) % hits.length;
    const row = hits[at].parentNode;
    reveal(row);
    mark(row, 'held');
    tell(row, hits[at]);
    document.getElementById('found').textContent = `${at + 1} of ${hits.length}`;
  });

  // a record that is pointed at, held or moved to
  const go = (row, cell) => {
    if (!row) return;
    rows.forEach(one => one.tabIndex = -1);
    row.tabIndex = 0;
    reveal(row);
    row.focus({ preventScroll: true });
    tell(row, cell);
  };
  document.addEventListener('mouseover', event => {
    const row = event.target.closest && event.target.closest('tr.row[id]');
    mark(row, 'near');
    if (row) tell(row, event.target.closest('td'));
  });
  document.addEventListener('click', event => {
    const row = event.target.closest('tr.row[id]');
    if (!row) return;
    if (event.target.closest('a')) event.preventDefault();
    const held = row.classList.contains('held');
    mark(held ? null : row, 'held');
    go(row, event.target.closest('td'));
  });
  const beside = (row, step) => {
    const panels = all('.panel'), own = panels.indexOf(row.closest('.panel'));
    const found = [...family(row)].filter(one => Math.sign(panels.indexOf(one.closest('.panel')) - own) === step);
    return found.sort((one, other) => step * (panels.indexOf(one.closest('.panel')) - panels.indexOf(other.closest('.panel'))))[0];
  };
  document.addEventListener('keydown', event => {
    const row = event.target.closest && event.target.closest('tr.row[id]');
    if (!row) return;
    const own = all('tr.row[id]', row.closest('.panel')), place = own.indexOf(row);
    const to = { ArrowDown: () => own[place + 1], ArrowUp: () => own[place - 1], ArrowRight: () => beside(row, 1), ArrowLeft: () => beside(row, -1),
                 Home: () => own[0], End: () => own[own.length - 1] }[event.key];
    if (to) { event.preventDefault(); const next = to(); mark(next, 'near'); go(next); }
    if (event.key === 'Enter' || event.key === ' ') { event.preventDefault(); mark(row.classList.contains('held') ? null : row, 'held'); }
    if (event.key === 'Escape') mark(null, 'held');
  });
  all('.panel').forEach(panel => { const first = panel.querySelector('tr.row[id]'); if (first) first.tabIndex = 0; });
  if (location.hash) { const row = document.getElementById(location.hash.slice(1)); if (row && row.matches('tr')) reveal(row); }
})();
