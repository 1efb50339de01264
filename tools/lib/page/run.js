'use strict';
// The run: columns of what is so behind each event, the rows of the timeline, and where things come.

class Column {
  constructor(data, count) {
    this.texts = data.texts;
    this.ids = Int32Array.from(data.ids);
    this.starts = new Int32Array(data.steps.length);
    this.count = count;
    let place = 0;
    data.steps.forEach((step, k) => { place += step; this.starts[k] = place; });
  }

  // The number of the stretch that an event is in.
  stretch(event) {
    let low = 0, high = this.starts.length - 1;
    while (low < high) {
      const middle = (low + high + 1) >> 1;
      if (this.starts[middle] <= event) low = middle; else high = middle - 1;
    }
    return low;
  }

  end(stretch) {
    return stretch + 1 < this.starts.length ? this.starts[stretch + 1] : this.count;
  }

  at(event) {
    return this.texts[this.ids[this.stretch(event)]];
  }

  changesAt(event) {
    return event > 0 && this.starts[this.stretch(event)] === event;
  }

  // The first event of each stretch whose text is one of these.
  startsOf(isMeant) {
    const meant = this.texts.map(isMeant), found = [];
    for (let k = 0; k < this.ids.length; k++) if (meant[this.ids[k]]) found.push(this.starts[k]);
    return found;
  }
}

const OUT = 0, RUNS = 1, INTERRUPTED = 2, READY = 3, WAITS = 4;
const STATE_WORDS = ['', 'runs', 'interrupted', 'ready', 'waits'];

// How a row is painted: stretches of one state and of the same held resources.
class Paint {
  constructor(count) {
    this.starts = [];
    this.states = [];
    this.helds = [];
    this.texts = [];
    this.count = count;
  }

  put(start, state, held, text) {
    const last = this.starts.length - 1;
    if (last >= 0 && this.states[last] === state && this.helds[last] === held && this.texts[last] === text) return;
    this.starts.push(start);
    this.states.push(state);
    this.helds.push(held);
    this.texts.push(text);
  }

  end(stretch) {
    return stretch + 1 < this.starts.length ? this.starts[stretch + 1] : this.count;
  }
}
Paint.prototype.stretch = Column.prototype.stretch;

const LETTERS = { S: OUT, Y: READY, R: RUNS, W: WAITS };
const TASK_WORD = /^(\w+)=([SYRW])(?:\*(\d+))?(?::([0-9a-f]+))?((?:\+\w+)*)$/;

// What a task's word of the trace says.
function taskWord(word) {
  const [, , letter, further, events, held] = TASK_WORD.exec(word);
  return { letter, further: Number(further || 0), events: events || '', held: held ? held.slice(1).split('+') : [] };
}

// Who has the processor decides whether what has begun runs or is interrupted: the stretches of `who` from one event to another.
function eachWho(who, from, to, visit) {
  for (let k = who.stretch(from); k < who.starts.length && who.starts[k] < to; k++) {
    visit(Math.max(from, who.starts[k]), who.texts[who.ids[k]]);
  }
}

function paintOfTask(name, word, who) {
  const paint = new Paint(word.count), said = word.texts.map(taskWord);
  for (let k = 0; k < word.ids.length; k++) {
    const { letter, further, events, held } = said[word.ids[k]];
    const text = (further ? '*' + further : '') + (further && events && events !== '0' ? ':' : '') + (events === '0' ? '' : events);
    if (letter !== 'R') paint.put(word.starts[k], LETTERS[letter], held.join(' '), text);
    else eachWho(who, word.starts[k], word.end(k), (start, whose) => paint.put(start, whose === name ? RUNS : INTERRUPTED, held.join(' '), text));
  }
  return paint;
}

function paintOfRoutine(name, word, who) {
  const paint = new Paint(word.count);
  for (let k = 0; k < word.ids.length; k++) {
    const text = word.texts[word.ids[k]], held = text.split('+').slice(1).join(' ');
    eachWho(who, word.starts[k], word.end(k), (start, whose) => paint.put(start, whose === name ? RUNS : text ? INTERRUPTED : OUT, held, ''));
  }
  return paint;
}

const IDLE = 1, HALTED = 2;

function paintOfRest(who) {
  const paint = new Paint(who.count);
  who.ids.forEach((id, k) => paint.put(who.starts[k], { '-': IDLE, '#': HALTED }[who.texts[id]] || OUT, '', ''));
  return paint;
}

class Run {
  constructor(page) {
    const { run, tasks, sources } = page, column = data => new Column(data, run.count);
    const columns = found => Object.fromEntries(Object.entries(found).map(([name, data]) => [name, column(data)]));
    this.page = page;
    this.count = run.count;
    Object.assign(this, columns(run.all));
    this.tasks = tasks.map((task, k) => ({ ...task, kind: 'task', ...columns(run.tasks[k]) }));
    this.sources = sources.map((source, k) => ({ ...source, kind: 'routine', name: source.mark + source.name, ...columns(run.sources[k]) }));
    this.alarms = page.alarms.map((alarm, k) => ({ ...alarm, word: column(run.alarms[k]) }));
    this.counters = page.counters.map((counter, k) => ({ ...counter, word: column(run.counters[k]) }));
    this.tasks.forEach(task => { task.paint = paintOfTask(task.name, task.word, this.who); });
    this.sources.forEach(source => { source.paint = paintOfRoutine(source.name, source.word, this.who); });
    this.rest = paintOfRest(this.who);
    this.rows = [...byPriority(this.sources), ...byPriority(this.tasks)];
    this.rowOf = new Map(this.rows.map((row, k) => [row.name, k]));
    this.sources.forEach(source => { source.requests = []; });
    this.keepRequests();
    this.noted = this.notes.texts.map(noted);
    this.dispatches = this.outcome.startsOf(text => text === 'dispatch');
    this.errors = this.notes.startsOf(text => /^!(?!E_OK)/.test(text));
  }

  // Keeps where each source is requested, and whether that is lost.
  keepRequests() {
    const rows = new Map(this.sources.map(source => [source.name, source.requests]));
    for (let k = 0; k < this.outcome.ids.length; k++) {
      const text = this.outcome.texts[this.outcome.ids[k]];
      for (let event = this.outcome.starts[k]; (text === 'request' || text === 'lost') && event < this.outcome.end(k); event++) {
        const [kind, name] = this.event.at(event).split(' ');
        rows.get((kind === 'irq' ? '@' : '%') + name).push({ event, isLost: text === 'lost' });
      }
    }
  }

  // The line of the trace.
  line(event) {
    const words = [...this.tasks, ...this.sources].map(row => row.word.at(event));
    return [String(event), this.who.at(event), ...words, this.notes.at(event)].filter(word => word).join(' ');
  }

  state(row, event) {
    const k = row.paint.stretch(event);
    return STATE_WORDS[row.paint.states[k]] || (row.kind === 'task' ? 'suspended' : '');
  }

  // Events at which the run comes to a text: in the words of the trace, in what was done, in the events; or to a point of this name.
  find(query) {
    const low = query.toLowerCase(), has = text => text.toLowerCase().includes(low);
    const columns = [this.who, this.told, this.notes, this.event, ...[...this.tasks, ...this.sources].map(row => row.word)];
    const found = columns.map(column => column.startsOf(has)).concat([this.point.startsOf(text => text.toLowerCase() === low)]);
    return [...new Set(found.flat())].sort((a, b) => a - b);
  }

  // How often each edge was taken, and where first; by the edge's two points.
  edges() {
    const found = new Map();
    for (let event = 1, before = this.point.at(0); event < this.count; event++) {
      const after = this.point.at(event), key = before + ' ' + after;
      if (before !== after || this.outcome.at(event) === 'dispatch') {
        const seen = found.get(key);
        if (seen) seen.times++; else found.set(key, { times: 1, first: event });
      }
      before = after;
    }
    return found;
  }

  // How often each block was done, and where first.
  blocks() {
    const found = new Map();
    this.block.ids.forEach((id, k) => {
      const block = Number(this.block.texts[id]), times = this.block.end(k) - this.block.starts[k], seen = found.get(block);
      if (seen) seen.times += times; else found.set(block, { times, first: this.block.starts[k] });
    });
    return found;
  }
}

// What a step noted, by the words at the end of its line; null where that is nothing.
function noted(text) {
  const words = text.split(' '), status = words[0][0] === '!' ? words[0].slice(1) : '';
  const hooks = words.filter(word => word[0] === '^').map(word => word.slice(1));
  return text && { status, isError: status !== '' && status !== 'E_OK', hooks };
}

// Rows from the highest priority down, those of one priority as they are declared.
function byPriority(rows) {
  return rows.map((row, k) => [row, k]).sort(([a, i], [b, j]) => b.priority - a.priority || i - j).map(([row]) => row);
}

// The first of some events behind this one, or the last before it; undefined where there is none.
function nextOf(events, event) {
  let low = 0, high = events.length;
  while (low < high) {
    const middle = (low + high) >> 1;
    if (events[middle] > event) high = middle; else low = middle + 1;
  }
  return events[low];
}

function lastOf(events, event) {
  let low = 0, high = events.length;
  while (low < high) {
    const middle = (low + high) >> 1;
    if (events[middle] >= event) high = middle; else low = middle + 1;
  }
  return events[low - 1];
}
