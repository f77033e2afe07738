"use strict";
// The run as a picture: the place in the program over time, from left to right, and how deep its calls are.

class Curve {
  constructor(run, names, canvas, goTo) {
    Object.assign(this, { run, names, canvas, marked: [] });
    // (a place of its own for each instruction, in the order of the program)
    this.order = new Map(run.program.map((instruction, index) => [instruction.slot, index]));
    this.deepest = run.depths.reduce((one, other) => Math.max(one, other), 0);
    const move = (event) => event.buttons & 1 && goTo(this.positionAt(event.offsetX));
    canvas.addEventListener("pointerdown", (event) => {
      canvas.setPointerCapture(event.pointerId);
      move(event);
    });
    canvas.addEventListener("pointermove", move);
    new ResizeObserver(() => this.measure()).observe(canvas);
    matchMedia("(prefers-color-scheme: dark)").addEventListener("change", () => this.measure());
  }

  // Takes the size of the picture and its colours, and draws what is the same at each step.
  measure() {
    const { canvas } = this, scale = devicePixelRatio || 1;
    [this.width, this.height] = [canvas.clientWidth, canvas.clientHeight];
    if (!this.width) return;
    [canvas.width, canvas.height] = [this.width * scale, this.height * scale];
    this.scale = scale;
    const colours = getComputedStyle(canvas);
    this.colour = (name) => colours.getPropertyValue(`--${name}`).trim();
    this.ground = new OffscreenCanvas(canvas.width, canvas.height);
    const pen = this.ground.getContext("2d");
    pen.scale(scale, scale);
    this.drawFunctions(pen, this.colour);
    this.drawDepths(pen, this.colour);
    this.drawPlaces(pen, this.colour);
    this.drawNames(pen, this.colour);
    this.draw();
  }

  positionAt(x) {
    return Math.max(0, Math.min(this.run.length, Math.round((x - EDGE) / this.room() * this.run.length)));
  }

  // How wide the picture of the whole run is: as wide as the way of the slider's thumb.
  room() {
    return Math.max(1, this.width - 2 * EDGE);
  }

  x(position) {
    return EDGE + position / Math.max(1, this.run.length) * this.room();
  }

  y(slot) {
    return 5 + (this.order.get(slot) + 0.5) / this.run.program.length * (this.height - 10);
  }

  draw() {
    if (!this.ground) return;
    const pen = this.canvas.getContext("2d");
    pen.setTransform(1, 0, 0, 1, 0, 0);
    pen.clearRect(0, 0, this.canvas.width, this.canvas.height);
    pen.drawImage(this.ground, 0, 0);
    pen.scale(this.scale, this.scale);
    this.drawMarks(pen, this.colour);
  }

  // The functions that have a place of their own in the picture: name, top and bottom.
  bands() {
    const starts = this.names.starts.filter((slot) => this.order.has(slot));
    return starts.map((slot, index) => [this.names.functions.get(slot), this.y(slot) - 2, index + 1 < starts.length ? this.y(starts[index + 1]) - 2 : this.height]);
  }

  // A band for each function.
  drawFunctions(pen, colour) {
    this.bands().forEach(([, top, bottom], index) => {
      pen.fillStyle = colour(index % 2 ? "band" : "ground");
      pen.fillRect(0, top, this.width, bottom - top);
    });
  }

  // Their names, above all else.
  drawNames(pen, colour) {
    const bands = this.bands();
    pen.font = "10px sans-serif";
    for (const [name, top, bottom] of bands.length > 1 ? bands : []) {
      if (bottom - top < 11) continue;
      const text = name.slice(0, 24);
      pen.globalAlpha = 0.75;
      pen.fillStyle = colour("ground");
      pen.fillRect(EDGE, top, pen.measureText(text).width + 5, 12);
      pen.globalAlpha = 1;
      pen.fillStyle = colour("soft");
      pen.fillText(text, EDGE + 2, top + 9.5);
    }
  }

  // How deep the calls are, as steps from the bottom.
  drawDepths(pen, colour) {
    if (!this.deepest) return;
    const { run, height } = this;
    pen.fillStyle = colour("depth");
    for (let at = 0; at < run.length;) {
      let end = at + 1;
      while (end < run.length && run.depths[end] === run.depths[at]) end++;
      const high = run.depths[at] / this.deepest * height * 0.35;
      pen.fillRect(this.x(at), height - high, this.x(end) - this.x(at), high);
      at = end;
    }
  }

  // Where the run is: a line from step to step, or, where many steps share a pixel, all their places.
  drawPlaces(pen, colour) {
    const { run } = this;
    pen.strokeStyle = colour("line");
    pen.lineWidth = run.length > 4 * this.room() ? 1 : 1.5;
    pen.beginPath();
    let column = -1, low = 0, high = 0;
    for (let at = 0; at <= run.length; at++) {
      const x = this.x(at), y = this.y(run.slots[at]);
      if (run.length <= 4 * this.room()) {
        pen.lineTo(x, y);
        if (at < run.length) pen.lineTo(this.x(at + 1), y);
      } else if (Math.floor(x) === column) {
        low = Math.min(low, y);
        high = Math.max(high, y);
      } else {
        if (column >= 0) this.column(pen, column, low, high);
        [column, low, high] = [Math.floor(x), y, y];
      }
    }
    if (column >= 0) this.column(pen, column, low, high);
    pen.stroke();
  }

  column(pen, x, low, high) {
    pen.moveTo(x + 0.5, low - 0.5);
    pen.lineTo(x + 0.5, high + 0.5);
  }

  // The steps that wrote what was asked for, the end if it is a fault, and the present step.
  drawMarks(pen, colour) {
    const { run, height } = this;
    pen.fillStyle = colour("writes");
    for (const at of this.marked) pen.fillRect(this.x(at) - 1, height - 7, 2.5, 7);
    if (run.end.startsWith("fault") && !run.goesOn) this.dot(pen, this.x(run.length), this.y(run.slots[run.length]), colour("bad"), 4);
    const x = this.x(run.position);
    pen.fillStyle = colour("now");
    pen.fillRect(x - 0.75, 0, 1.5, height);
    this.dot(pen, x, this.y(run.slots[run.position]), colour("now"), 3);
  }

  dot(pen, x, y, colour, size) {
    pen.fillStyle = colour;
    pen.beginPath();
    pen.arc(x, y, size, 0, 7);
    pen.fill();
  }
}

// How far the ends of the picture are from its sides: half of the slider's thumb.
const EDGE = 8;
