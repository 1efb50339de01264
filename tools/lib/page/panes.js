'use strict';
// The panes below the timeline. Each shows itself again where the chosen event has changed.

function element(name, kind = '', text = '') {
  const made = document.createElement(name);
  if (kind) made.className = kind;
  if (text) made.textContent = text;
  return made;
}

function button(text, title, act) {
  const made = element('button', '', text);
  made.type = 'button';
  made.title = title;
  made.addEventListener('click', act);
  return made;
}

// A table of rows of cells: texts or elements.
function table(heads, rows) {
  const made = element('table'), head = element('tr'), body = element('tbody');
  heads.forEach(text => { const cell = element('th', '', text); cell.scope = 'col'; head.append(cell); });
  const top = element('thead');
  top.append(head);
  rows.forEach(cells => body.append(rowOf(cells)));
  made.append(top, body);
  return made;
}

function rowOf(cells) {
  const row = element('tr');
  cells.forEach(cell => { const made = element('td'); made.append(cell); row.append(made); });
  return row;
}

function paragraph(kind, ...parts) {
  const made = element('p', kind);
  made.append(...parts.map(part => (typeof part === 'string' ? document.createTextNode(part) : part)));
  return made;
}

const FORM_SIGNS = { never: '∅', stay: '=', direct: '→', general: '?' };

// A site's form, with a sign of its own.
function pill(block) {
  if (!block.form) return block.isSite ? element('span', 'pill', 'form not known') : block.told.includes('free') ? element('span', 'pill', 'free: nobody holds it here in any run') : '';
  const word = block.form.split(' ')[0], known = block.known && block.known !== 'any' ? ', known ' + block.known : '';
  return element('span', 'pill ' + word, FORM_SIGNS[word] + ' ' + block.form + known);
}

const timesWords = times => (times === 1 ? 'once' : times + ' times');

function placeOf(blocks, number) {
  const block = blocks[number];
  return 'b' + number + ' ' + block.owner + (block.line ? ' line ' + block.line : '') + ': ' + block.text;
}

class EventPane {
  constructor(run, go) {
    this.run = run;
    this.go = go;
  }

  show(panel, event) {
    const { run } = this, block = Number(run.block.at(event)), blocks = run.page.blocks;
    panel.replaceChildren(
      paragraph('what', element('b', '', run.event.at(event)), ' ', element('span', 'told', run.told.at(event)), ' ', block < 0 ? '' : pill(blocks[block])),
      paragraph('trace', element('code', '', run.line(event))),
      paragraph('why', element('b', '', this.whoWords(event)), ': ', element('span', 'reason', run.why.at(event)), '.'),
      this.rows(event), this.others(event), this.jumps(event, block));
  }

  whoWords(event) {
    const who = this.run.who.at(event);
    return who === '-' ? 'The processor is idle' : who === '#' ? 'The processor is halted' : who + ' has the processor';
  }

  rows(event) {
    const { run } = this, isTold = row => row.kind === 'task' || row.why.at(event) || this.words(row, event) || (event > 0 && this.words(row, event - 1));
    return table(['task, routine', 'priority', 'state', 'since', 'why it waits'], run.rows.filter(isTold).map(row => {
      const name = element('span', run.who.at(event) === row.name ? 'first' : '', row.name);
      return [name, String(row.priority), this.state(row, event), row.since ? row.since.at(event) : '', row.why.at(event)];
    }));
  }

  // A row's state, what it holds, its events; and what it was, where that has just changed.
  state(row, event) {
    const made = element('span'), now = this.words(row, event), was = event > 0 ? this.words(row, event - 1) : now;
    made.append(now || 'out');
    if (now !== was) made.append(' ', element('span', 'was', '(was ' + (was || 'out') + ')'));
    return made;
  }

  words(row, event) {
    const { run } = this, state = run.state(row, event), text = row.word.at(event), words = state ? [state] : [];
    if (row.kind === 'routine') return words.concat(text.includes('+') ? 'holds ' + text.split('+').slice(1).join(', ') : []).join(', ');
    const { further, events, held } = taskWord(text);
    if (further) words.push(further + ' more activation' + (further > 1 ? 's' : ''));
    if (held.length) words.push('holds ' + held.join(', '));
    if (events && events !== '0') words.push('set: ' + eventNames(row, events));
    return words.join(', ');
  }

  others(event) {
    const { run } = this, parts = [paragraph('', 'level ' + run.level.at(event) + '; point ', element('code', 'point', run.point.at(event)))];
    const names = [...run.counters.map(counter => counter.name + ' is at ' + counter.word.at(event)),
      ...run.alarms.map(alarm => alarm.name + ' (' + alarm.counter + ') is ' + alarm.word.at(event))];
    if (names.length) parts.push(paragraph('', names.join('; ')));
    const made = element('div', 'others');
    made.append(...parts);
    return made;
  }

  // Where the same statement comes again.
  jumps(event, block) {
    const made = element('p', 'jumps');
    if (block < 0) return made;
    const events = this.run.block.startsOf(text => Number(text) === block), before = lastOf(events, event), behind = nextOf(events, event);
    made.append('this statement: ');
    if (before !== undefined) made.append(button('before, at ' + before, 'the last time before this', () => this.go(before)));
    if (behind !== undefined) made.append(button('again at ' + behind, 'the next time', () => this.go(behind)));
    if (before === undefined && behind === undefined) made.append('here alone');
    return made;
  }
}

// The names of the events of a mask, and what is left of it in hexadecimal.
function eventNames(task, mask) {
  const bits = BigInt('0x' + mask);
  const named = task.events.filter(([, own]) => BigInt('0x' + own) & bits).map(([name]) => name);
  return named.length ? named.join(', ') + ' (' + mask + ')' : mask;
}

class SitesPane {
  constructor(run, go) {
    this.run = run;
    this.go = go;
    this.times = run.blocks();
    this.taken = run.edges();
    this.edges = new Map();
    const { points, edges } = run.page.graph;
    edges.forEach(([from, to]) => {
      const of = points[from].split('/')[0];
      if (!this.edges.has(of)) this.edges.set(of, []);
      this.edges.get(of).push(points[from] + ' ' + points[to]);
    });
  }

  show(panel) {
    if (panel.childElementCount) return;
    const { blocks } = this.run.page, box = element('input'), label = element('label');
    box.type = 'checkbox';
    label.append(box, ' all statements');
    const place = element('div');
    const fill = () => place.replaceChildren(this.table(blocks.map((block, k) => k).filter(k => box.checked || blocks[k].isSite)));
    box.addEventListener('change', fill);
    panel.append(paragraph('', label), place);
    fill();
  }

  table(numbers) {
    const { blocks } = this.run.page;
    return table(['block', 'line', 'statement', 'of', 'form, known status', 'done', 'edges taken'], numbers.map(number => {
      const block = blocks[number], times = this.times.get(number);
      const done = times ? button(timesWords(times.times), 'where it is done first', () => this.go(times.first)) : block.told.includes('dead') ? 'never: dead' : 'not done';
      return ['b' + number, block.line ? String(block.line) : '', block.text, block.owner, pill(block), done, this.outcomes(number)];
    }));
  }

  outcomes(number) {
    const own = this.edges.get('b' + number);
    return own ? own.filter(edge => this.taken.has(edge)).length + ' of ' + own.length : '';
  }
}

class TablePane {
  constructor(run) {
    this.run = run;
    this.follows = true;
  }

  show(panel, event) {
    const { table: told, source } = this.run.page;
    if (!told) {
      panel.replaceChildren(paragraph('', 'No table is here: ' + source + '.'));
      return;
    }
    if (!panel.childElementCount) this.build(panel, told);
    if (this.follows) this.field.value = this.run.point.at(event);
    this.fill(told, event);
  }

  build(panel, told) {
    this.field = element('input');
    this.field.setAttribute('list', 'points');
    this.field.setAttribute('aria-label', 'point');
    const list = element('datalist'), box = element('input'), label = element('label');
    list.id = 'points';
    list.append(...Object.keys(told.points).map(point => { const made = element('option'); made.value = point; return made; }));
    box.type = 'checkbox';
    box.checked = true;
    label.append(box, ' follows the event');
    box.addEventListener('change', () => { this.follows = box.checked; if (this.chosen) this.chosen(); });
    this.field.addEventListener('input', () => { this.follows = box.checked = false; this.fill(told); });
    this.place = element('div');
    panel.append(paragraph('', 'point ', this.field, ' ', label, told.isPart ? ' (of this application those points alone are told that were reached)' : ''), this.place);
  }

  fill(told) {
    const ids = told.points[this.field.value];
    if (!ids) {
      this.place.replaceChildren(paragraph('', 'No state of the table stands here' + (told.isPart ? ', or it was not reached' : '') + '.'));
      return;
    }
    this.place.replaceChildren(paragraph('faint', 'What each part may be at this point, each by itself:'), table(['what', 'may be'], ids.map(id => {
      const [name, ...rest] = told.words[id].split(': ');
      return [name, rest.join(': ')];
    })));
  }
}

class FindingsPane {
  constructor(run, showLine) {
    this.run = run;
    this.showLine = showLine;
  }

  show(panel) {
    if (panel.childElementCount) return;
    const { findings, blocks, source } = this.run.page;
    if (!findings) return panel.append(paragraph('', 'No report is here: ' + source + '.'));
    panel.append(paragraph('faint', 'What comes in no run, in no mode, under no list of events; by ' + source + '.'));
    panel.append(findings.length ? table(['report', 'says', 'where'], findings.map(found => {
      const block = blocks[found.block], where = block ? placeOf(blocks, found.block) : '';
      return [element('code', '', found.line), found.said, block && block.line ? button(where, 'shows the line', () => this.showLine(block.line)) : where];
    })) : paragraph('', 'Nothing is reported.'));
  }
}

const GROUPS = [['dispatches', ['dispatch', 'restart', 'idle', 'shutdown']], ['interrupts and returns', ['interrupt', 'return']], ['within a body', ['flow', '']]];

class GraphPane {
  constructor(run, go) {
    this.run = run;
    this.go = go;
    this.taken = run.edges();
    this.recorded = new Set(run.page.records.flatMap(record => record.taken));
    this.group = 0;
    this.owners = run.page.graph.points.map(point => {
      const match = /^b(\d+)/.exec(point);
      return match ? run.page.blocks[match[1]].owner : point;
    });
  }

  show(panel) {
    if (panel.childElementCount) return;
    const { graph, source } = this.run.page;
    if (!graph.edges.length) return panel.append(paragraph('', 'No graph is here: ' + source + '.'));
    const choice = element('select');
    GROUPS.forEach(([name], k) => { const made = element('option', '', name); made.value = k; choice.append(made); });
    choice.setAttribute('aria-label', 'edges');
    choice.addEventListener('change', () => { this.group = Number(choice.value); this.fill(); });
    this.matrix = element('div', 'wide');
    this.cell = element('div');
    panel.append(paragraph('', choice, ' ' + this.share(graph.edges) + '. A cell says how many of its edges were taken; choose one to see them.'), this.matrix, this.cell);
    this.fill();
  }

  key([from, to]) {
    const { points } = this.run.page.graph;
    return points[from] + ' ' + points[to];
  }

  isTaken(edge) {
    return this.taken.has(this.key(edge)) || this.recorded.has(this.key(edge));
  }

  share(edges) {
    return edges.filter(edge => this.isTaken(edge)).length + ' of ' + edges.length + ' edges taken';
  }

  // Who leads to whom: a row for each that edges leave, a column for each that they come to.
  fill() {
    const edges = this.run.page.graph.edges.filter(edge => GROUPS[this.group][1].includes(edge[2])), cells = new Map();
    edges.forEach(edge => {
      const key = this.owners[edge[0]] + ' ' + this.owners[edge[1]];
      if (!cells.has(key)) cells.set(key, []);
      cells.get(key).push(edge);
    });
    const names = [...new Set([...this.run.rows.map(row => row.name.replace(/^[@%]/, '')), 'idle', 'halt'])];
    const ends = [0, 1].map(end => new Set(edges.map(edge => this.owners[edge[end]])));
    const [from, to] = ends.map(met => names.filter(name => met.has(name)));
    this.cell.replaceChildren();
    this.matrix.replaceChildren(table(['from \\ to', ...to], from.map(row => [element('b', '', row), ...to.map(column => this.entry(row, column, cells.get(row + ' ' + column)))])));
  }

  entry(row, column, edges) {
    if (!edges) return element('span', 'faint', '·');
    const taken = edges.filter(edge => this.isTaken(edge)).length, sign = taken === edges.length ? '✓ ' : '';
    const made = button(sign + taken + '/' + edges.length, row + ' to ' + column, () => this.unfold(row, column, edges));
    made.className = taken === 0 ? 'none' : taken === edges.length ? 'all' : 'some';
    return made;
  }

  unfold(row, column, edges) {
    const { points } = this.run.page.graph;
    this.cell.replaceChildren(element('h3', '', row + ' to ' + column + ': ' + this.share(edges)), table(['from', 'to', 'kind', 'taken'], edges.map(edge => {
      const seen = this.taken.get(this.key(edge));
      const times = seen ? button(timesWords(seen.times) + (seen.times > 1 ? ', first at ' : ', at ') + seen.first, 'shows the event', () => this.go(seen.first)) : this.recorded.has(this.key(edge)) ? 'by a record' : 'not taken';
      return [this.pointWords(points[edge[0]]), this.pointWords(points[edge[1]]), edge[2] || 'flow', times];
    })));
    this.cell.scrollIntoView({ block: 'nearest' });
  }

  pointWords(point) {
    return pointWords(this.run.page.blocks, point);
  }
}

function pointWords(blocks, point) {
  const match = /^b(\d+)(?:\/(.*))?$/.exec(point);
  if (!match) return point;
  return placeOf(blocks, match[1]) + (match[2] ? match[2] === '-' ? ', over nobody' : ', over ' + match[2] : '');
}

const RECORD_ROWS = 60;

class RecordPane {
  constructor(run) {
    this.run = run;
  }

  show(panel) {
    if (panel.childElementCount) return;
    const { records } = this.run.page;
    if (!records.length) return panel.append(paragraph('', 'No record is here: --record FILE shows one, as osekfit record prints it or a bench logged it.'));
    records.forEach(record => panel.append(this.one(record)));
  }

  one(record) {
    const made = element('section'), field = element('input'), rows = element('div', 'wide');
    made.append(element('h3', '', record.name), paragraph(record.alarm ? 'bad' : '', record.alarm ? '⚠ ' + record.alarm.told : 'no alarm: ' + record.told));
    field.type = 'number';
    field.min = 0;
    field.max = record.points.length - 1;
    field.setAttribute('aria-label', 'place');
    field.value = record.alarm ? record.alarm.place : 0;
    const fill = () => rows.replaceChildren(this.rows(record, Math.max(0, Math.min(Number(field.value), record.points.length - 1))));
    field.addEventListener('input', fill);
    made.append(paragraph('', 'points around place ', field, ' of ' + (record.points.length - 1)), rows);
    fill();
    return made;
  }

  rows(record, place) {
    const first = Math.max(0, place - RECORD_ROWS / 2), shown = record.points.slice(first, first + RECORD_ROWS), { blocks } = this.run.page;
    return table(['place', 'point', 'where'], shown.map((point, k) => {
      const at = first + k, isAlarm = record.alarm && record.alarm.place === at;
      return [(isAlarm ? '⚠ ' : at === place ? '▸ ' : '') + at, element('code', isAlarm ? 'bad' : '', point), pointWords(blocks, point)];
    }));
  }
}
