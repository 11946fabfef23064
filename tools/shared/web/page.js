// What each page's script stands on: its data (DATA), its parts by name, its colours, and how numbers are written.
'use strict';
const PAGE = 8192, PAGES = 256, MIB = 1048576;

const part = name => document.getElementById(name);
const grouped = number => Math.round(number).toLocaleString('en-US');
const mib = bytes => bytes / MIB;
const share = part => part === null || part === undefined ? '–' : (100 * part).toFixed(1) + ' %';

function size(bytes) {
    for (const [unit, name] of [[1073741824, 'GiB'], [MIB, 'MiB'], [1024, 'KiB']])
        if (Math.abs(bytes) >= unit) return (bytes / unit).toFixed(bytes / unit < 100 ? 2 : 1) + ' ' + name;
    return grouped(bytes) + ' B';
}

// An element with its class, text or children.
function element(name, kind, ...content) {
    const made = document.createElement(name);
    if (kind) made.className = kind;
    made.append(...content.map(each => typeof each === 'number' ? String(each) : each));
    return made;
}

// A table of a heading and rows of texts. Of a row {kind, cells} the first is its class.
function table(heads, rows) {
    const made = element('table', '');
    made.append(element('thead', '', element('tr', '', ...heads.map(head => Object.assign(element('th', '', head), {scope: 'col'})))));
    const body = element('tbody', '');
    for (const row of rows) {
        const cells = row.cells || row;
        body.append(element('tr', row.kind || '', ...cells.map(cell => element('td', '', cell))));
    }
    made.append(body);
    return made;
}

// A slider with its buttons, which tells of each place that is taken.
function slider(name, count, first, tell) {
    const input = part(name);
    input.min = 0;
    input.max = Math.max(0, count - 1);
    const go = place => {
        input.value = Math.min(Math.max(0, place), count - 1);
        tell(Number(input.value));
    };
    input.addEventListener('input', () => tell(Number(input.value)));
    for (const [suffix, step] of [['-back', -1], ['-forward', 1]]) {
        const button = part(name + suffix);
        if (button) button.addEventListener('click', () => go(Number(input.value) + step));
    }
    go(first);
    return go;
}

// Colours are those of page.css: ink('blue') is its --blue, in the scheme that holds now.
const ink = name => getComputedStyle(document.documentElement).getPropertyValue('--' + name).trim();

// Where several series stand together, the n-th has this colour, this dash, this sign and this pattern: they are apart in grey.
const SERIES = [['vermillion', 'solid', 'circle', ''], ['blue', 'dash', 'square', '/'], ['green', 'dot', 'triangle-up', 'x'],
    ['purple', 'dashdot', 'cross', '\\'], ['sky', 'longdash', 'star', '-'], ['orange', 'longdashdot', 'hexagon', '|'],
    ['grey', 'solid', 'x', '+'], ['yellow', 'dash', 'triangle-down', '.']];

function series(number) {
    const [color, dash, symbol, shape] = SERIES[number % SERIES.length];
    return {color: ink(color), dash, symbol, pattern: {shape, size: 6, solidity: 0.35, fgcolor: ink('paper'), fillmode: 'overlay'}};
}

// What plots are made with. Their colours follow the scheme.
const PLAIN = {margin: {l: 70, r: 24, t: 16, b: 48}};
const AXIS = {automargin: true};
const TOOLS = {displaylogo: false, responsive: true, modeBarButtonsToRemove: ['lasso2d', 'select2d']};

function colourPlots() {
    const family = 'system-ui, "Segoe UI", Roboto, "DejaVu Sans", sans-serif';
    Object.assign(PLAIN, {font: {family, size: 13, color: ink('ink')}, paper_bgcolor: ink('paper'), plot_bgcolor: ink('paper'),
        hoverlabel: {bgcolor: ink('paper'), bordercolor: ink('edge'), font: {size: 12.5, color: ink('ink')}},
        modebar: {bgcolor: 'rgba(0,0,0,0)', color: ink('edge'), activecolor: ink('ink')}});
    Object.assign(AXIS, {gridcolor: ink('thin'), zerolinecolor: ink('line'), linecolor: ink('line')});
}

// What is drawn with colours is drawn again if the scheme changes, and in light before it is printed.
const drawings = [];

function drawing(draw) {
    drawings.push(draw);
    draw();
}

function drawAgain() {
    colourPlots();
    drawings.forEach(draw => draw());
}

const PAPER_WIDTH = 700;        // points of a plot that is printed

function fitPlots(width) {
    for (const plot of document.querySelectorAll('.js-plotly-plot')) Plotly.relayout(plot, {width, autosize: width === undefined});
}

function forPaper(isPaper) {
    if (isPaper) document.documentElement.dataset.scheme = 'light';
    else delete document.documentElement.dataset.scheme;
    drawAgain();
    if (typeof Plotly !== 'undefined') fitPlots(isPaper ? PAPER_WIDTH : undefined);
}

colourPlots();
matchMedia('(prefers-color-scheme: dark)').addEventListener('change', drawAgain);
addEventListener('beforeprint', () => forPaper(true));
addEventListener('afterprint', () => forPaper(false));
