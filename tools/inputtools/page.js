// The page's script: places or time, ranges that links lead to, and the text of a mark or bar, which the
// pointer, a touch and the arrow keys bring up. Printed pages show closed parts too.
const said = document.getElementById('said');
for (const choice of document.querySelectorAll('input[name=by]'))
  choice.onchange = () => { document.body.className = choice.value; tell(null); bring() };

function show() {
  const part = document.getElementById(location.hash.slice(1));
  if (part && 'open' in part) part.open = true;
  return part;
}
window.onhashchange = show; show();

// The sentence on top leads to its range, and there to the bar that it tells of: the last one of its row. On a narrow
// screen the picture begins there too.
const link = document.querySelector('#sentence a[data-shows]');
function bar(part) {
  const picture = part.querySelector('.' + document.body.className.slice(3));
  const row = [...picture.querySelectorAll('[data-row]')].find(row => row.dataset.row == link.dataset.shows);
  if (!row) return null;
  const rest = row.closest('details');
  if (rest) rest.open = true;
  return items(row).filter(item => !item.classList.contains('held')).pop();
}
function begin(item) {
  const chart = item.closest('.chart'), labels = chart.querySelector('.labels').getBoundingClientRect().right;
  chart.scrollLeft += item.getBoundingClientRect().left - labels - 30;
}
function bring() {
  const part = link && document.querySelector(link.hash.split('-')[0]), item = part && bar(part);
  if (item) begin(item);
}
bring();
if (link) link.onclick = event => {
  event.preventDefault();
  location.hash = link.hash;
  const item = bar(show());
  tell(item);
  if (!item) return;
  item.scrollIntoView({block: 'center', inline: 'nearest'});
  begin(item);
};

let closed = [];
window.onbeforeprint = () => {
  closed = [...document.querySelectorAll('details:not([open])')];
  for (const part of closed) part.open = true;
};
window.onafterprint = () => { for (const part of closed) part.open = false };

function tell(item) {
  for (const old of document.querySelectorAll('.now')) old.classList.remove('now');
  said.hidden = !item;
  if (!item) return;
  item.classList.add('now');
  said.textContent = item.closest('[data-row]').dataset.row + ': ' + item.querySelector('title').textContent;
}
function told(shape) {
  const item = shape.closest('[data-row] > *');
  return item && item.querySelector('title') ? item : null;
}
function middle(item) { const box = item.getBBox(); return box.x + box.width / 2 }
function items(row) {
  return [...row.children].filter(told).sort((one, other) => one.getBBox().x - other.getBBox().x);
}
function away(item, x) {
  const box = item.getBBox();
  return Math.max(box.x - x, x - box.x - box.width, 0);
}
function nearest(list, away) {
  return list.reduce((best, item) => away(item) < away(best) ? item : best);
}
// (a narrow mark goes before the wide bar that it stands on)
function onPaper(item, event) {
  const box = item.getBoundingClientRect();
  const x = Math.max(box.left - event.clientX, event.clientX - box.right, 0);
  const y = Math.max(box.top - event.clientY, event.clientY - box.bottom, 0);
  return Math.hypot(x, y) + (box.width > 16 ? 12 : 0);
}
function moved(chart, key) {
  const rows = [...chart.querySelectorAll('[data-row]')].filter(row => row.getClientRects().length);
  const seen = rows.filter(row => items(row).length), now = chart.querySelector('.now');
  if (!seen.length) return null;
  if (!now || !seen.includes(now.closest('[data-row]'))) return items(seen[0])[0];
  const row = now.closest('[data-row]'), here = items(row), index = here.indexOf(now);
  const steps = {ArrowLeft: index - 1, ArrowRight: index + 1, Home: 0, End: here.length - 1};
  if (key in steps) return here[Math.max(0, Math.min(steps[key], here.length - 1))];
  const other = seen[seen.indexOf(row) + (key == 'ArrowDown' ? 1 : -1)];
  return other ? nearest(items(other), item => away(item, middle(now))) : now;
}
for (const chart of document.querySelectorAll('.chart')) {
  chart.onkeydown = event => {
    if (event.key == 'Escape') return tell(null);
    if (!['ArrowLeft', 'ArrowRight', 'ArrowUp', 'ArrowDown', 'Home', 'End'].includes(event.key)) return;
    event.preventDefault();
    const item = moved(chart, event.key);
    tell(item);
    if (item) item.scrollIntoView({block: 'nearest', inline: 'nearest'});
  };
  chart.onpointerover = event => {
    const item = event.pointerType == 'mouse' && told(event.target);
    if (item) tell(item);
  };
  chart.onclick = event => {
    if (event.target.closest('a')) return;
    const all = [...chart.querySelectorAll('[data-row] > *')].filter(told);
    const best = all.length ? nearest(all, item => onPaper(item, event)) : null;
    tell(best && onPaper(best, event) <= 24 ? best : told(event.target));
  };
}
