'use strict';
// The timeline: a canvas that draws what is seen of the rows, whatever the run's length. A state is told by the height and the hatching of
// its bar, and not by the colour alone.

const HEAD = 24, NOTES = 18;
const MOST = 48, DETAIL = 3, MANY = 16, HATCH = 5;

class Timeline {
  constructor(run, parts, go) {
    this.run = run;
    this.parts = parts;
    this.go = go;
    this.zoom = 0;
    this.event = 0;
    this.picture = document.createElement('canvas');
    this.hatchings = new Map();
    this.row = run.rows.length > MANY ? 17 : 26;
    this.bar = run.rows.length > MANY ? 10 : 15;
    this.height = (run.rows.length + 1) * this.row + 2 * NOTES + 6;
    this.names();
    parts.scroller.addEventListener('scroll', () => this.ask());
    parts.scroller.addEventListener('wheel', e => this.wheel(e), { passive: false });
    parts.canvas.addEventListener('click', e => this.go(this.eventAt(e.offsetX)));
    new ResizeObserver(() => this.resize()).observe(parts.scroller);
  }

  // The names at the left, which stay: each with its priority and its state at the chosen event.
  names() {
    const { names } = this.parts;
    this.rowNames = this.run.rows.map((row, k) => {
      const line = element('div', 'name ' + row.kind);
      line.style.top = k * this.row + 'px';
      line.style.height = line.style.lineHeight = this.row + 'px';
      line.append(element('b', '', row.name), element('i', '', String(row.priority)), element('span', 'state'));
      names.append(line);
      return line;
    });
    ['idle, halted', 'status', 'hooks'].forEach((text, k) => {
      const line = element('div', 'name note', text);
      line.style.top = this.run.rows.length * this.row + (k ? this.row + (k - 1) * NOTES : 0) + 'px';
      names.append(line);
    });
    names.style.height = this.height + 'px';
  }

  resize() {
    const { scroller, canvas, axis, spacer } = this.parts;
    this.width = Math.max(50, scroller.clientWidth);
    this.size(canvas, this.height);
    this.size(axis, HEAD);
    this.size(this.picture, this.height);
    this.drawn = '';
    spacer.style.height = this.height + 'px';
    this.setZoom(this.zoom || Math.min(28, Math.max(12, this.width / this.run.count)), this.event);
  }

  size(canvas, height) {
    const scale = window.devicePixelRatio || 1;
    canvas.width = this.width * scale;
    canvas.height = height * scale;
    canvas.style.width = this.width + 'px';
    canvas.style.height = height + 'px';
  }

  // The pen of a canvas, which is cleared.
  penOf(canvas, height) {
    const scale = window.devicePixelRatio || 1, pen = canvas.getContext('2d');
    pen.setTransform(scale, 0, 0, scale, 0, 0);
    pen.clearRect(0, 0, this.width, height);
    return pen;
  }

  fit() {
    this.setZoom(this.width / this.run.count, this.event);
  }

  // Changes the width of an event; the chosen one, or the one under the pointer, stays where it is.
  setZoom(zoom, fixed, x) {
    const { scroller, spacer } = this.parts;
    const at = x === undefined ? Math.min(Math.max(this.x(fixed), 0), this.width) : x;
    this.zoom = Math.min(MOST, Math.max(zoom, this.width / this.run.count));
    spacer.style.width = Math.max(this.width, Math.ceil(this.run.count * this.zoom)) + 'px';
    scroller.scrollLeft = fixed * this.zoom - at;
    this.ask();
  }

  wheel(e) {
    if (!e.ctrlKey && !e.metaKey) return;
    e.preventDefault();
    const x = e.clientX - this.parts.scroller.getBoundingClientRect().left;
    this.setZoom(this.zoom * Math.exp(-e.deltaY / 300), (this.parts.scroller.scrollLeft + x) / this.zoom, x);
  }

  x(event) {
    return event * this.zoom - this.parts.scroller.scrollLeft;
  }

  eventAt(x) {
    const event = Math.floor((x + this.parts.scroller.scrollLeft) / this.zoom);
    return Math.max(0, Math.min(this.run.count - 1, event));
  }

  show(event) {
    const { scroller } = this.parts;
    this.event = event;
    const x = this.x(event), room = Math.min(60, this.width / 4);
    if (x < room) scroller.scrollLeft = event * this.zoom - room;
    else if (x + this.zoom > this.width - room) scroller.scrollLeft = (event + 1) * this.zoom - this.width + room;
    this.run.rows.forEach((row, k) => {
      this.rowNames[k].className = 'name ' + row.kind + (this.run.who.at(event) === row.name ? ' first' : '');
      this.rowNames[k].lastChild.textContent = this.run.state(row, event) + (row.requested && row.requested.at(event) ? ' asked' : '');
    });
    this.ask();
  }

  ask() {
    if (!this.asked) {
      this.asked = true;
      requestAnimationFrame(() => { this.asked = false; this.draw(); });
    }
  }

  colours() {
    const style = getComputedStyle(document.documentElement), of = name => style.getPropertyValue('--' + name).trim();
    return Object.fromEntries(['ink', 'faint', 'line', 'paper', 'ground', 'run', 'ready', 'waits', 'isr', 'tick', 'held', 'bad', 'good', 'cursor']
      .map(name => [name, of(name)]));
  }

  draw() {
    const { canvas, axis, scroller } = this.parts, begun = performance.now();
    this.colour = this.colours();
    this.left = scroller.scrollLeft;
    this.from = Math.max(0, Math.floor(this.left / this.zoom));
    this.to = Math.min(this.run.count, Math.ceil((this.left + this.width) / this.zoom) + 1);
    this.pen = this.penOf(axis, HEAD);
    this.drawAxis();
    const key = [this.left, this.zoom, this.width, ...Object.values(this.colour)].join();
    if (key !== this.drawn) this.drawRun();
    this.drawn = key;
    this.pen = this.penOf(canvas, this.height);
    this.pen.drawImage(this.picture, 0, 0, this.width, this.height);
    this.drawCursor();
    this.took = performance.now() - begun;
  }

  // What is seen of the run, without the chosen event: a picture that is kept while the place and the zoom stay.
  drawRun() {
    this.pen = this.penOf(this.picture, this.height);
    this.drawRows();
  }

  drawRows() {
    this.drawGround();
    this.run.rows.forEach((row, k) => this.drawRow(row, k * this.row));
    this.drawRest(this.run.rows.length * this.row);
    if (this.zoom >= DETAIL) this.drawDispatches();
    this.drawNotes((this.run.rows.length + 1) * this.row);
  }

  // The events that have a number on the axis, and where they are.
  *marks() {
    const every = [0, 1, 2, 3, 4, 5, 6].flatMap(e => [1, 2, 5].map(n => n * 10 ** e)).find(n => n * this.zoom >= 64) || 10 ** 7;
    for (let event = Math.ceil(this.from / every) * every; event < this.to; event += every) yield [event, event * this.zoom - this.left];
  }

  drawAxis() {
    this.pen.font = '11px ' + FONT;
    for (const [event, x] of this.marks()) {
      this.box(x, 17, 1, HEAD - 17, this.colour.line);
      this.text(String(event), x + 3, 14, this.colour.faint);
    }
    this.box(this.x(this.event), HEAD - 6, Math.max(2, this.zoom), 6, this.colour.cursor);
  }

  drawGround() {
    for (let k = 0; k <= this.run.rows.length; k += 2) this.box(0, k * this.row, this.width, this.row, this.colour.ground);
    for (const [, x] of this.marks()) this.box(x, 0, 1, this.height, this.colour.line);
  }

  box(x, y, width, height, colour) {
    this.pen.fillStyle = colour;
    this.pen.fillRect(x, y, width, height);
  }

  text(text, x, y, colour) {
    this.pen.fillStyle = colour;
    this.pen.fillText(text, x, y);
  }

  drawRow(row, y) {
    const whole = row.kind === 'task' ? this.colour.run : row.name[0] === '@' ? this.colour.isr : this.colour.tick;
    const look = { [RUNS]: whole, [INTERRUPTED]: whole, [READY]: this.colour.ready, [WAITS]: this.colour.waits };
    if (row.requested) this.drawRequested(row, y, whole);
    this.stretches(row.paint, (x, width, state, stretch) => this.drawBar(row, x, y, width, state, stretch, look[state]));
    if (row.requested) this.drawRequests(row, y, whole);
  }

  // The states of a row that are seen, as bars. Where events are narrower than a pixel, a pixel shows the state that has most of it.
  stretches(paint, visit) {
    const first = paint.stretch(this.from);
    if (this.zoom >= DETAIL) {
      for (let k = first; k < paint.starts.length && paint.starts[k] < this.to; k++) {
        const [x, right] = [paint.starts[k], paint.end(k)].map(event => Math.round(event * this.zoom - this.left));
        if (paint.states[k] !== OUT || paint.helds[k]) visit(x, right - x, paint.states[k], k);
      }
      return;
    }
    const pixels = new Pixels(visit), { starts, states } = paint, last = starts.length;
    for (let k = first, x = Math.max(0, starts[k] * this.zoom - this.left); k < last && starts[k] < this.to; k++) {
      const right = Math.min(this.width, (k + 1 < last ? starts[k + 1] : paint.count) * this.zoom - this.left);
      pixels.put(x, right, states[k]);
      x = right;
    }
    pixels.end();
  }

  drawBar(row, x, y, width, state, stretch, colour) {
    const top = y + 4, { bar } = this;
    if (state === RUNS) this.box(x, top, width, bar, colour);
    if (state === INTERRUPTED) this.hatch(x, top, width, bar, colour);
    if (state === READY) this.box(x, top + bar / 2, width, bar / 2, colour);
    if (state === WAITS) this.box(x, top + bar - 4, width, 3, colour);
    if (stretch === undefined) return;
    const held = row.paint.helds[stretch];
    if (held) this.box(x, top + bar + 1, width, 4, this.colour.held);
    if (bar > 12) this.drawText(held || row.paint.texts[stretch], x, top, width, state);
  }

  // What stands in a bar where there is room: the held resources, or further activations and events.
  drawText(text, x, top, width, state) {
    const begin = Math.max(x, 0) + 3, room = Math.min(x + width, this.width) - begin - 2;
    this.pen.font = '10px ' + FONT;
    if (!text || this.pen.measureText(text).width > room) return;
    if (state === INTERRUPTED) this.box(begin - 2, top + 1, this.pen.measureText(text).width + 4, this.bar - 2, this.colour.paper);
    this.text(text, begin, top + (state === RUNS || state === INTERRUPTED ? 11 : 6), state === RUNS ? this.colour.paper : this.colour.ink);
  }

  hatch(x, y, width, height, colour) {
    this.box(x, y, width, height, this.hatching(colour));
    this.pen.strokeStyle = colour;
    this.pen.lineWidth = 1;
    if (width > 2) this.pen.strokeRect(x + 0.5, y + 0.5, width - 1, height - 1);
  }

  // A pattern of slanting lines.
  hatching(colour) {
    const scale = window.devicePixelRatio || 1, key = colour + ' ' + scale;
    if (!this.hatchings.has(key)) {
      const tile = document.createElement('canvas'), pen = tile.getContext('2d');
      tile.width = tile.height = Math.round(HATCH * scale);
      pen.scale(tile.width / HATCH, tile.width / HATCH);
      pen.strokeStyle = colour;
      pen.lineWidth = 1.4;
      for (let at = 0; at <= 2 * HATCH; at += HATCH) {
        pen.moveTo(at - HATCH - 1, HATCH + 1);
        pen.lineTo(at + 1, -1);
      }
      pen.stroke();
      const made = this.pen.createPattern(tile, 'repeat');
      made.setTransform(new DOMMatrix().scale(HATCH / tile.width));
      this.hatchings.set(key, made);
    }
    return this.hatchings.get(key);
  }

  // The time from a request to the beginning of the routine.
  drawRequested(row, y, colour) {
    const { requested } = row;
    this.pen.globalAlpha = 0.45;
    for (let k = requested.stretch(this.from), last = -1; k < requested.starts.length && requested.starts[k] < this.to; k++) {
      const x = requested.starts[k] * this.zoom - this.left, right = requested.end(k) * this.zoom - this.left;
      if (requested.texts[requested.ids[k]] && right > last) {
        this.box(x, y + 4 + this.bar / 2, Math.max(1, right - x), 3, colour);
        last = Math.floor(right) + 1;
      }
    }
    this.pen.globalAlpha = 1;
  }

  // Requests: a full triangle, and a hollow one where the request is lost; a stroke where there is no room.
  drawRequests(row, y, colour) {
    const events = row.requests;
    let last = -9;
    for (let k = indexOf(events, this.from); k < events.length && events[k].event < this.to; k++) {
      const x = (events[k].event + 0.5) * this.zoom - this.left;
      if (x - last < 2) continue;
      last = x;
      if (this.zoom < DETAIL) this.box(x, y + 1, 1, 2, colour);
      else this.drawRequest(x, y, colour, events[k].isLost);
    }
  }

  drawRequest(x, y, colour, isLost) {
    const { pen } = this, half = Math.min(4.5, Math.max(1.5, this.zoom / 2));
    pen.beginPath();
    pen.moveTo(x - half, y + 1);
    pen.lineTo(x + half, y + 1);
    pen.lineTo(x, y + 8);
    pen.closePath();
    pen.fillStyle = isLost ? this.colour.paper : colour;
    pen.strokeStyle = colour;
    pen.lineWidth = 1.2;
    pen.fill();
    pen.stroke();
  }

  // Where the processor is idle, as a thin line, and halted, as a thick one.
  drawRest(y) {
    this.stretches(this.run.rest, (x, width, state) => {
      this.box(x, y + 9, width, state === IDLE ? 2 : 7, state === IDLE ? this.colour.faint : this.colour.ink);
    });
  }

  // A line from who lost the processor to who got it.
  drawDispatches() {
    const { who } = this.run;
    for (let k = Math.max(1, who.stretch(this.from)); k < who.starts.length && who.starts[k] < this.to; k++) {
      const ends = [k - 1, k].map(j => this.middle(who.texts[who.ids[j]]));
      this.box(who.starts[k] * this.zoom - this.left - 0.5, Math.min(...ends), 1, Math.abs(ends[0] - ends[1]), this.colour.ink);
    }
  }

  middle(name) {
    const k = this.run.rowOf.get(name);
    return (k === undefined ? this.run.rows.length : k) * this.row + 4 + this.bar / 2;
  }

  // Statuses and hooks; of those that fall on one place the first, and each error.
  drawNotes(y) {
    const { notes } = this.run, { colour } = this, last = { good: -9, bad: -9, hooks: -9 };
    this.pen.font = '10px ' + FONT;
    for (let k = notes.stretch(this.from); k < notes.starts.length && notes.starts[k] < this.to; k++) {
      const said = this.run.noted[notes.ids[k]], until = Math.min(notes.end(k), this.to);
      for (let event = Math.max(this.from, notes.starts[k]); said && event < until; event++) {
        const x = event * this.zoom - this.left;
        if (said.isError && x - last.bad >= 2) this.drawError(last.bad = last.good = x, y);
        else if (said.status && x - last.good >= 2) this.box(last.good = x, y + 11, Math.max(1, Math.min(this.zoom - 1, 5)), 4, colour.good);
        if (said.hooks.length && x - last.hooks >= 2) this.drawHooks(last.hooks = x, y + NOTES, said.hooks);
      }
    }
  }

  drawError(x, y) {
    this.box(x, y + 2, Math.max(2, this.zoom - 1), 13, this.colour.bad);
    if (this.zoom >= 8) this.text('!', x + this.zoom / 2 - 2, y + 13, this.colour.paper);
  }

  drawHooks(x, y, hooks) {
    if (this.zoom >= 9) this.text(hooks.map(hook => HOOK_SIGNS[hook]).join(''), x, y + 12, this.colour.ink);
    else this.box(x, y + 4, 1, 8, this.colour.faint);
  }

  drawCursor() {
    this.pen.strokeStyle = this.colour.cursor;
    this.pen.lineWidth = 2;
    this.pen.strokeRect(this.x(this.event), -2, Math.max(2, this.zoom), this.height + 1);
  }
}

// Joins stretches that are narrower than a pixel: each pixel has the state that has most of it.
class Pixels {
  constructor(visit) {
    this.visit = visit;
    this.pixel = -1;
    this.weights = new Float64Array(5);
    this.begin = -1;
    this.state = OUT;
  }

  put(from, to, state) {
    const first = from | 0, last = to | 0;
    if (to <= from) return;
    if (first !== this.pixel) this.step(first);
    if (first === last) {
      this.weights[state] += to - from;
      return;
    }
    this.weights[state] += first + 1 - from;
    if (last > first + 1) {
      this.flush();
      this.join(first + 1, last, state);
    }
    this.step(last);
    this.weights[state] += to - last;
  }

  step(pixel) {
    this.flush();
    this.pixel = pixel;
  }

  // Ends the pixel at hand.
  flush() {
    const { weights } = this;
    let most = 0, state = OUT;
    for (let k = 0; k < weights.length; k++) {
      if (weights[k] > most) [most, state] = [weights[k], k];
      weights[k] = 0;
    }
    if (most > 0) this.join(this.pixel, this.pixel + 1, state);
  }

  join(from, to, state) {
    if (state === this.state && from === this.until) {
      this.until = to;
      return;
    }
    if (this.state !== OUT) this.visit(this.begin, this.until - this.begin, this.state);
    [this.begin, this.until, this.state] = [from, to, state];
  }

  end() {
    this.flush();
    if (this.state !== OUT) this.visit(this.begin, this.until - this.begin, this.state);
  }
}

const FONT = "system-ui, 'Segoe UI', Helvetica, Arial, sans-serif";
const HOOK_SIGNS = { Startup: 'S', Error: 'E', PreTask: '>', PostTask: '<', Shutdown: 'X' };

// The place of the first request at an event or behind it.
function indexOf(requests, event) {
  let low = 0, high = requests.length;
  while (low < high) {
    const middle = (low + high) >> 1;
    if (requests[middle].event < event) low = middle + 1; else high = middle;
  }
  return low;
}
