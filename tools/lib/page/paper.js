'use strict';
// The timeline on paper: bands below each other, each with the names at its left. Of a run that is longer there is one band, around the chosen event.

const SHEET = 1040, MARGIN = 130, EVENT = 12, BANDS = 6, SHARP = 2;

class Paper {
  constructor(timeline, place) {
    this.timeline = timeline;
    this.place = place;
    this.events = Math.floor((SHEET - MARGIN) / EVENT);
  }

  // Paper is light, whatever the screen is.
  begin(event) {
    const { dataset } = document.documentElement;
    if (this.theme === undefined) this.theme = dataset.theme || '';
    dataset.theme = 'light';
    this.place.replaceChildren(...this.starts(event).map(from => this.band(from)));
  }

  end() {
    const { dataset } = document.documentElement;
    if (this.theme) dataset.theme = this.theme;
    if (this.theme === '') delete dataset.theme;
    this.theme = undefined;
    this.place.replaceChildren();
  }

  // The first event of each band.
  starts(event) {
    const { count } = this.timeline.run, bands = Math.ceil(count / this.events);
    if (bands <= BANDS) return Array.from({ length: bands }, (_, k) => k * this.events);
    return [Math.max(0, Math.min(event - (this.events >> 1), count - this.events))];
  }

  band(from) {
    const { timeline } = this, canvas = element('canvas', 'band'), pen = canvas.getContext('2d');
    canvas.width = SHEET * SHARP;
    canvas.height = (HEAD + timeline.height) * SHARP;
    pen.scale(SHARP, SHARP);
    const drawn = Object.assign(Object.create(timeline), {
      pen, colour: timeline.colours(), zoom: EVENT, width: SHEET - MARGIN, left: from * EVENT, from, to: Math.min(timeline.run.count, from + this.events),
      parts: { scroller: { scrollLeft: from * EVENT } },
    });
    this.names(drawn);
    pen.beginPath();
    pen.rect(MARGIN, 0, drawn.width, HEAD + drawn.height);
    pen.clip();
    pen.translate(MARGIN, 0);
    drawn.drawAxis();
    pen.translate(0, HEAD);
    drawn.drawRows();
    drawn.drawCursor();
    return canvas;
  }

  names(drawn) {
    const { rows } = drawn.run, low = HEAD + rows.length * drawn.row;
    drawn.pen.font = '12px ' + FONT;
    drawn.pen.save();
    drawn.pen.beginPath();
    drawn.pen.rect(0, 0, MARGIN - 4, HEAD + drawn.height);
    drawn.pen.clip();
    rows.forEach((row, k) => drawn.text(row.name, 4, HEAD + k * drawn.row + drawn.bar + 2, drawn.colour.ink));
    ['idle, halted', 'status', 'hooks'].forEach((text, k) => drawn.text(text, 4, low + (k ? drawn.row + (k - 1) * NOTES : 0) + 13, drawn.colour.faint));
    drawn.pen.restore();
  }
}
