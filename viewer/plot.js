// A number as a line over time.

const SPAN = 5 * 60 * 1000;    // so long a number is remembered, in ms
const GAP = 7000;              // a line breaks where nothing was read for so long, in ms
const SVG = 'http://www.w3.org/2000/svg';

/** The points with one more, without those that are too old. */
export function withPoint(points, time, value) {
  return [...points.filter(point => point.time >= time - SPAN), { time, value }];
}

/** An empty plot, to be drawn into. */
export function plot(name) {
  const svg = document.createElementNS(SVG, 'svg');
  const attributes = { class: name, viewBox: '0 0 100 100', preserveAspectRatio: 'none', role: 'img' };
  Object.entries(attributes).forEach(([attribute, value]) => svg.setAttribute(attribute, value));
  for (const part of ['area', 'line']) {
    const path = document.createElementNS(SVG, 'path');
    path.setAttribute('class', part);
    svg.append(path);
  }
  return svg;
}

/** Draws two or more points, and says in words what is shown. */
export function draw(svg, points) {
  const { low, high } = bounds(points);
  const strokes = strokesOf(points, low, high);
  const feet = stroke => [[stroke.at(-1)[0], 100], [stroke[0][0], 100]];
  const [area, line] = svg.children;
  line.setAttribute('d', strokes.map(pathOf).join(''));
  area.setAttribute('d', strokes.map(stroke => `${pathOf([...stroke, ...feet(stroke)])}Z`).join(''));
  svg.classList.toggle('flat', low === high);
  svg.setAttribute('aria-label', low === high ? `constant at ${low}` : `between ${low} and ${high}`);
}

function pathOf(stroke) {
  return `M${stroke.map(([x, y]) => `${x.toFixed(2)} ${y.toFixed(2)}`).join('L')}`;
}

export function bounds(points) {
  const values = points.map(point => point.value);
  return { low: Math.min(...values), high: Math.max(...values) };
}

/** The points in a field of 100 by 100, in one list for each part without a gap. */
function strokesOf(points, low, high) {
  const start = points[0].time;
  const span = points.at(-1).time - start || 1;
  const strokes = [];
  points.forEach(({ time, value }, n) => {
    if (n === 0 || time - points[n - 1].time > GAP) strokes.push([]);
    const height = low === high ? 0.5 : (value - low) / (high - low);
    strokes.at(-1).push([(time - start) / span * 100, 95 - height * 90]);
  });
  return strokes;
}
