'use strict';
// The page at work: the chosen event, its keys and its search.

const page = JSON.parse(document.getElementById('data').textContent);
const run = new Run(page);
const byId = id => document.getElementById(id);

const timeline = new Timeline(run, { names: byId('names'), scroller: byId('scroller'), canvas: byId('canvas'), axis: byId('axis'), spacer: byId('spacer') }, go);
const paper = new Paper(timeline, byId('paper'));

const panes = {
  event: new EventPane(run, go), sites: new SitesPane(run, go), table: new TablePane(run), findings: new FindingsPane(run, showLine),
  graph: new GraphPane(run, go), record: new RecordPane(run), help: { show() {} },
};

let chosen = 0, pane = 'event', hits = [], hitText = '';

// Chooses an event.
function go(event) {
  chosen = Math.max(0, Math.min(run.count - 1, event));
  timeline.show(chosen);
  byId('number').value = chosen;
  showSource();
  showPane(pane);
  byId('live').textContent = 'event ' + chosen + ', ' + run.event.at(chosen) + ': ' + run.told.at(chosen) + '. ' + panes.event.whoWords(chosen);
  if (hits.length) tellHits();
  history.replaceState(null, '', '#' + chosen);
}

function showPane(name) {
  pane = name;
  document.querySelectorAll('#tabs button').forEach(tab => tab.setAttribute('aria-selected', String(tab.dataset.pane === name)));
  document.querySelectorAll('.panel').forEach(panel => panel.classList.toggle('open', panel.id === 'pane-' + name));
  panes[name].show(byId('pane-' + name), chosen);
}

// The task code, each line with what is known of it.
function buildSource() {
  const notes = new Map();
  page.blocks.forEach((block, k) => {
    const words = [block.form && 'b' + k + ' ' + FORM_SIGNS[block.form.split(' ')[0]] + ' ' + block.form, ...block.told.filter(word => !block.form || word !== 'dead')].filter(word => word);
    if (block.line && words.length) notes.set(block.line, (notes.get(block.line) ? notes.get(block.line) + '; ' : '') + words.join(', '));
  });
  byId('lines').append(...page.code.map((text, k) => {
    const line = element('div', 'line');
    const note = element('span', 'note', notes.get(k + 1) || ' ');
    note.title = note.textContent;
    line.append(element('span', 'number', String(k + 1)), note, element('code', '', text || ' '));
    line.addEventListener('click', () => goToLine(k + 1));
    return line;
  }));
}

function showSource() {
  const block = page.blocks[run.block.at(chosen)];
  showLine(block ? block.line : 0);
}

function showLine(number) {
  byId('lines').querySelectorAll('.on').forEach(line => line.classList.remove('on'));
  const line = byId('lines').children[number - 1], box = byId('lines');
  if (!line) return;
  line.classList.add('on');
  const top = line.offsetTop - box.offsetTop - box.scrollTop;
  if (top < 0 || top > 12 * line.offsetHeight) box.scrollTop += top - 5 * line.offsetHeight;
}

// To the next event at which a statement of this line is done, from the first one again behind the last.
function goToLine(number) {
  const events = run.block.startsOf(block => block >= 0 && page.blocks[block].line === number);
  if (events.length) go(nextOf(events, chosen) ?? events[0]);
}

function search(way) {
  const text = byId('search').value.trim();
  if (text !== hitText) {
    hits = text ? run.find(text) : [];
    hitText = text;
    way = way && hits.includes(chosen) ? 0 : way;
  }
  if (hits.length && way) go(way > 0 ? nextOf(hits, chosen) ?? hits[0] : lastOf(hits, chosen) ?? hits[hits.length - 1]);
  tellHits();
}

function tellHits() {
  const place = hits.indexOf(chosen);
  byId('hits').textContent = !hitText ? '' : !hits.length ? 'not found' : (place < 0 ? '' : place + 1 + ' of ') + hits.length;
}

const jump = (events, way) => go((way > 0 ? nextOf : lastOf)(events, chosen) ?? chosen);
const screen = () => Math.max(1, Math.floor(timeline.width / timeline.zoom) - 2);
const zoom = factor => timeline.setZoom(timeline.zoom * factor, chosen);
const NAMES = ['event', 'sites', 'table', 'findings', 'graph', 'record', 'help'];

const KEYS = {
  ArrowRight: e => go(chosen + (e.shiftKey ? 10 : 1)), ArrowLeft: e => go(chosen - (e.shiftKey ? 10 : 1)), Home: () => go(0), End: () => go(run.count - 1),
  PageDown: () => go(chosen + screen()), PageUp: () => go(chosen - screen()), n: () => jump(run.dispatches, 1), p: () => jump(run.dispatches, -1),
  e: () => jump(run.errors, 1), E: () => jump(run.errors, -1), '+': () => zoom(1.5), '=': () => zoom(1.5), '-': () => zoom(1 / 1.5), 0: () => timeline.fit(),
  '/': () => byId('search').focus(), g: () => byId('number').select(), f: () => search(1), F: () => search(-1), '?': () => showPane('help'),
};
NAMES.forEach((name, k) => { KEYS[k + 1] = () => showPane(name); });

function keyed(e) {
  const isTyping = /^(INPUT|SELECT|TEXTAREA)$/.test(e.target.tagName) && e.target.type !== 'checkbox';
  if (isTyping && e.key === 'Escape') e.target.blur();
  if (e.ctrlKey || e.metaKey || e.altKey || isTyping || !KEYS[e.key]) return;
  e.preventDefault();
  KEYS[e.key](e);
}

function light(name) {
  document.documentElement.dataset.theme = name;
  timeline.ask();
}

function begin() {
  buildSource();
  panes.table.chosen = () => go(chosen);
  document.addEventListener('keydown', keyed);
  document.querySelectorAll('[data-key]').forEach(one => one.addEventListener('click', e => KEYS[one.dataset.key](e)));
  document.querySelectorAll('#tabs button').forEach(tab => tab.addEventListener('click', () => showPane(tab.dataset.pane)));
  byId('number').max = run.count - 1;
  byId('number').addEventListener('change', e => go(Math.floor(Number(e.target.value)) || 0));
  byId('search').addEventListener('keydown', e => { if (e.key === 'Enter') search(e.shiftKey ? -1 : 1); });
  byId('theme').addEventListener('click', () => light(isDark() ? 'light' : 'dark'));
  matchMedia('(prefers-color-scheme: dark)').addEventListener('change', () => timeline.ask());
  addEventListener('beforeprint', () => { NAMES.forEach(name => panes[name].show(byId('pane-' + name), chosen)); paper.begin(chosen); });
  addEventListener('afterprint', () => paper.end());
  addEventListener('hashchange', () => go(Number(location.hash.slice(1)) || 0));
  timeline.resize();
  go(Number(location.hash.slice(1)) || 0);
}

const isDark = () => (document.documentElement.dataset.theme || (matchMedia('(prefers-color-scheme: dark)').matches ? 'dark' : 'light')) === 'dark';

begin();
