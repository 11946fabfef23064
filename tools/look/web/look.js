// The page of a run over time. Its data come from tools/look/showing.py.
const held = DATA.held, runs = DATA.runs, points = runs[0].points, count = points.x.length;
const nameOf = (position, line) => DATA.by_moves ? `pick ${grouped(position)}, trace line ${grouped(line)}`
    : `trace line ${grouped(line)}, call ${grouped(position)}`;
const at = place => nameOf(points.position[place], points.line[place]);
const residentAt = place => points.resident[place] * PAGE;

// The last place of sorted numbers that isn't above x, or -1.
function lastUpTo(xs, x) {
    let low = -1, high = xs.length - 1;
    while (low < high) {
        const middle = Math.ceil((low + high) / 2);
        if (xs[middle] <= x) low = middle;
        else high = middle - 1;
    }
    return low;
}

// The head of the page.

function head() {
    part('title').textContent = DATA.title;
    for (const line of DATA.subtitle) part('subtitle').append(element('div', '', line));
    for (const alarm of DATA.alarms) part('alarms').append(element('div', 'alarm', alarm));
    part('first').textContent = DATA.first;
    part('why').textContent = DATA.why;
    for (const [value, name, whose] of DATA.cards)
        part('cards').append(element('div', 'card', element('b', '', value), element('span', '', name), element('span', 'whose', whose)));
    for (const source of DATA.sources) part('sources').append(element('p', '', source));
}

// A second run beside the first.

function beside() {
    const {names, measures, parts, classes, note, other_note} = DATA.beside;
    part('beside').hidden = false;
    part('beside-text').textContent = `The curves of \u201c${names[1]}\u201d lie over those of \u201c${names[0]}\u201d below. Map, holdings and cost below `
        + `are those of \u201c${names[0]}\u201d. The numbers of \u201c${names[0]}\u201d are the ${runs[0].whose}\u2019s, and those of \u201c${names[1]}\u201d the ${runs[1].whose}\u2019s, `
        + 'but for those of which it is said that they are the model\u2019s.';
    part('beside-moments').textContent = `What holds the memory where most is resident: of \u201c${names[0]}\u201d at ${note}; `
        + `of \u201c${names[1]}\u201d at ${other_note}. The greatest difference comes first.`;
    const heads = what => [what, ...names, 'difference'];
    part('beside-measures').append(table(heads('what it comes to'), measures));
    part('beside-parts').append(table(heads('part, MiB'), parts));
    part('beside-classes').append(table(heads('used for, MiB'), classes));
}

// What holds the memory, from the bottom up: its name, its colour and its pattern.

const PARTS = [
    ['asked', 'live: asked for', 'blue', ''], ['rounding', 'live: rounding', 'sky', '/'], ['slabs', 'slabs of CPUs', 'vermillion', ''],
    ['caches', 'caches of threads', 'vermillion', ''], ['domains', 'domains\u2019 caches', 'orange', '\\'],
    ['transfer', 'transfer lists', 'yellow', 'x'], ['spans', 'free in spans', 'green', ''], ['ends', 'ends of spans', 'silver', '+'],
    ['under_way', 'calls under way', 'purple', '-'], ['filler', 'backed, unused in filler', 'grey', ''],
    ['region', 'backed, unused in regions', 'purple', '|'], ['free', 'free hugepages, backed', 'silver', '.']];
const OF_CLASS = PARTS.slice(0, 9).map(([name]) => name);

function totals(sample) {
    const sums = Object.fromEntries(PARTS.map(([name]) => [name, sample.unused[name] || 0]));
    for (const row of sample.classes) OF_CLASS.forEach((name, place) => sums[name] += row.parts[place]);
    return sums;
}

const sums = held.map(totals);

function markerOf([, , color, shape]) {
    return {color: ink(color), line: {width: 0}, pattern: {shape, size: 7, solidity: 0.32, fgcolor: ink('paper'), fillmode: 'overlay'}};
}

// The curves: one list for the plot, for the values at a moment, and for the names.

const CURVES = [
    ['resident', 'vermillion', 'solid', 'MiB', 'y', run => run.points.resident.map(pages => mib(pages * PAGE))],
    ['used', 'green', 'dash', 'MiB', 'y', run => run.points.used.map(pages => mib(pages * PAGE))],
    ['live', 'blue', 'dot', 'MiB', 'y', run => run.live.y.map(mib)],
    ['fragmentation', 'purple', 'solid', '%', 'y2', run => run.points.frag.map(frag => frag / 10)],
    ['hugepage coverage', 'sky', 'dash', '%', 'y2', run => run.points.covered.map(share => share === null ? null : 100 * share)],
    ['requests that got nothing', 'vermillion', 'solid', '', 'y3', run => run.points.nones]];
// Those of a second run have colours and dashes of their own.
const SECOND = {solid: 'longdashdot', dash: '2px,4px', dot: '12px,3px'};
const SECOND_COLOURS = {vermillion: 'orange', green: 'yellow', blue: 'sky', purple: 'grey', sky: 'green'};
const hidden = new Set();

// What a curve is at the start, before any call.
const atStart = unit => unit === '%' ? null : 0;

function curves() {
    const made = [];
    runs.forEach((run, number) => {
        for (const [name, color, dash, unit, axis, values] of CURVES) {
            const xs = name === 'live' ? run.live.x : run.points.x;
            made.push({name: runs.length > 1 ? `${name}, ${DATA.beside.names[number]}` : name, unit, axis, x: [0, ...xs],
                y: [atStart(unit), ...values(run)], whose: run.whose, color: number ? SECOND_COLOURS[color] : color,
                dash: number ? SECOND[dash] : dash, width: number ? 1.8 : 2.2});
        }
    });
    return made;
}

const allCurves = DATA.one_of_many ? [] : curves();
const heldX = held.map(sample => sample.x);
const lastX = Math.max(...allCurves.map(curve => curve.x[curve.x.length - 1]), 1);
const heldParts = PARTS.filter(([name]) => sums.some(sum => sum[name] > 0));

function lineTraces() {
    return allCurves.filter(curve => curve.axis !== 'y3' || hasNones).map(curve => ({type: 'scatter', mode: 'lines', name: curve.name, x: curve.x, y: curve.y, yaxis: curve.axis, hoverinfo: 'none',
        line: {shape: 'hv', color: ink(curve.color), dash: curve.dash, width: curve.width}, showlegend: false,
        visible: !hidden.has(curve.name)}));
}

// Each moment's parts stand from there up to the next moment; the last one's have a little width.
function partTraces() {
    const width = heldX.map((x, place) => (place + 1 < heldX.length ? heldX[place + 1] : Math.max(lastX, x + lastX / 120)) - x);
    return heldParts.map(each => ({type: 'bar', name: each[1], x: heldX, y: sums.map(sum => mib(sum[each[0]])), width, offset: 0,
        yaxis: 'y4', marker: markerOf(each), hoverinfo: 'none', showlegend: false, visible: !hidden.has(each[1])}));
}

const isNarrow = () => document.body.clientWidth < 600;
const smallTitle = text => ({text, font: {size: isNarrow() ? 11 : 13}, standoff: 4});
const hasNones = runs.some(run => run.points.nones.some(count => count > 0));

// How the height is shared out, from below: requests that got nothing if there are any, shares, parts, and memory.
function domains() {
    const rows = [...hasNones ? [['y3', 1]] : [], ['y2', 1.5], ...held.length ? [['y4', 2.4]] : [], ['y', 3]];
    const gap = 0.045, whole = rows.reduce((sum, [, share]) => sum + share, 0), free = 1 - gap * (rows.length - 1);
    let from = 0;
    return Object.fromEntries(rows.map(([name, share]) => {
        const domain = [from, Math.min(1, from + free * share / whole)];
        from = domain[1] + gap;
        return [name, domain];
    }));
}

const xOfMoment = place => points.x[place];
let moment = DATA.peak;

function mark() {
    return [{type: 'line', xref: 'x', yref: 'paper', x0: xOfMoment(moment), x1: xOfMoment(moment), y0: 0, y1: 1, line: {color: ink('mark'), width: 1.4, dash: '6px,3px'}}];
}

function courseLayout() {
    const domain = domains();
    const axis = (name, text, more) => domain[name] && {...AXIS, title: smallTitle(text), domain: domain[name], rangemode: 'tozero', fixedrange: true, ...more};
    const made = {...PLAIN, height: isNarrow() ? 620 : 720, hovermode: 'x', hoverdistance: -1, barmode: 'stack', showlegend: false, dragmode: isNarrow() ? false : 'zoom',
        xaxis: {...AXIS, title: smallTitle(DATA.x_title), range: [0, lastX * 1.01], anchor: hasNones ? 'y3' : 'y2', tickformat: ',d', nticks: isNarrow() ? 5 : 0},
        yaxis: axis('y', 'memory, MiB'), yaxis2: axis('y2', 'share, %', {range: [0, 104], nticks: 4}),
        margin: {...PLAIN.margin, l: isNarrow() ? 48 : 66, r: isNarrow() ? 10 : 24, t: 10}, shapes: mark()};
    if (hasNones) made.yaxis3 = axis('y3', isNarrow() ? 'none' : 'got nothing', {tickformat: ',d', nticks: 3});
    if (held.length) made.yaxis4 = axis('y4', isNarrow() ? 'held, MiB' : 'what holds it, MiB');
    return made;
}

function drawCourse() {
    const plot = part('course');
    const range = plot.layout && plot.layout.xaxis.range;
    const layout = courseLayout();
    if (range) layout.xaxis.range = range;
    Plotly.react(plot, [...partTraces(), ...lineTraces()], layout, {...TOOLS, modeBarButtonsToRemove: [...TOOLS.modeBarButtonsToRemove, 'autoScale2d', 'toggleSpikelines', 'hoverClosestCartesian', 'hoverCompareCartesian']});
}

// The names of all curves, each with its value at a moment: the one that is pointed at, or else the slider's.

function swatchOf(color, dash, shape) {
    const dashes = {solid: '', dash: '6,4', dot: '2,3', longdashdot: '9,3,2,3'}[dash] ?? (dash || '').replace(/px/g, '');
    const drawn = shape === undefined
        ? `<line x1="0" y1="6" x2="30" y2="6" stroke="var(--${color})" stroke-width="2.6" stroke-dasharray="${dashes}"/>`
        : `<rect width="30" height="12" fill="var(--${color})"/>${patternOf(shape, 30, 12)}`;
    const box = document.createElement('span');
    box.innerHTML = `<svg width="30" height="12" aria-hidden="true">${drawn}</svg>`;
    return box.firstChild;
}

// A pattern as lines over a box, as plotly has it.
function patternOf(shape, width, height) {
    const line = (x1, y1, x2, y2) => `<line x1="${x1}" y1="${y1}" x2="${x2}" y2="${y2}" stroke="var(--paper)" stroke-width="2"/>`;
    const steps = Array.from({length: 9}, (_, number) => 6 * number - 12);
    const drawn = {
        '/': () => steps.map(x => line(x, height, x + height, 0)), '\\': () => steps.map(x => line(x, 0, x + height, height)),
        'x': () => steps.flatMap(x => [line(x, height, x + height, 0), line(x, 0, x + height, height)]),
        '-': () => [line(0, 3, width, 3), line(0, 9, width, 9)], '|': () => steps.map(x => line(x + 3, 0, x + 3, height)),
        '+': () => [line(0, 6, width, 6), ...steps.map(x => line(x + 3, 0, x + 3, height))],
        '.': () => steps.map(x => `<circle cx="${x + 3}" cy="6" r="2" fill="var(--paper)"/>`)}[shape];
    return drawn ? drawn().join('') : '';
}

const shown = (value, unit) => value === null || value === undefined ? '–'
    : unit ? `${value.toLocaleString('en-US', {maximumFractionDigits: 2, minimumFractionDigits: 2})} ${unit}` : grouped(value);

function names() {
    const list = part('values-of');
    list.replaceChildren();
    const add = (name, swatch, whose) => {
        const made = element('button', '', swatch, element('span', '', name), element('b', ''));
        Object.assign(made, {title: `by the ${whose}`});
        made.setAttribute('aria-pressed', String(!hidden.has(name)));
        made.addEventListener('click', () => {
            if (!hidden.delete(name)) hidden.add(name);
            made.setAttribute('aria-pressed', String(!hidden.has(name)));
            drawCourse();
        });
        list.append(made);
    };
    for (const curve of allCurves) add(curve.name, swatchOf(curve.color, curve.dash), curve.whose);
    for (const [, name, color, shape] of heldParts.slice().reverse()) add(name, swatchOf(color, '', shape), 'model');
}

function showValues(x) {
    const place = lastUpTo(points.x, x), values = part('values-of').querySelectorAll('b');
    part('values-at').textContent = place < 0 ? 'the start' : `${DATA.x_title} ${grouped(x)}`;
    allCurves.forEach((curve, number) => values[number].textContent = shown(curve.y[lastUpTo(curve.x, x)], curve.unit));
    const moment = lastUpTo(heldX, x);
    heldParts.slice().reverse().forEach(([name], number) =>
        values[allCurves.length + number].textContent = shown(moment < 0 ? 0 : mib(sums[moment][name]), 'MiB'));
}

// The one hover line over all curves.
function hovering() {
    const plot = part('course'), line = element('div', 'hover-line');
    plot.append(line);
    const leave = () => {
        line.style.display = 'none';
        showValues(xOfMoment(moment));
    };
    plot.addEventListener('pointermove', event => {
        const axis = plot._fullLayout.xaxis, left = event.clientX - plot.getBoundingClientRect().left - axis._offset;
        if (left < 0 || left > axis._length) return leave();
        if (line.parentNode !== plot) plot.append(line);
        Object.assign(line.style, {display: 'block', left: `${left + axis._offset}px`});
        showValues(Math.max(0, Math.round(axis.p2l(left))));
    });
    plot.addEventListener('pointerleave', leave);
}

// One moment for the whole page: a slider sets it, and the others follow.

const sliders = [];

function follow(name, length, placeOf, momentOf) {
    follow.isBusy = true;
    const go = slider(name, length, placeOf(moment), place => {
        if (!follow.isBusy && momentOf(place) !== moment) setMoment(momentOf(place));
    });
    follow.isBusy = false;
    sliders.push(() => go(placeOf(moment)));
}

const heldPositions = held.map(sample => sample.position);
const heldPlace = moment => Math.max(0, lastUpTo(heldPositions, points.position[moment]));

function setMoment(place) {
    moment = place;
    follow.isBusy = true;
    sliders.forEach(go => go());
    follow.isBusy = false;
    showMoment();
}

function showMoment() {
    showMap(moment);
    if (held.length) showHeld(heldPlace(moment));
    if (DATA.one_of_many) return;
    Plotly.relayout('course', {shapes: mark()});
    showValues(xOfMoment(moment));
    part('moment-text').textContent = `The dashed line is ${at(moment)}: map and holdings below are of this moment.`;
}

function course() {
    for (const name of ['course-text', 'held-note']) part(name).textContent = DATA[name.replace('-', '_')];
    names();
    drawing(drawCourse);
    hovering();
    addEventListener('resize', drawCourse);
}

// The map of hugepages. The rows of a point are those of the one before, but for what changed.

const KINDS = ['free', 'filler', 'run', 'region'];
const KIND_COLOURS = ['silver', 'green', 'blue', 'orange'], KIND_PATTERNS = ['.', '', '-', '/'];
const hugepages = DATA.nodes.reduce((sum, many) => sum + many, 0);
const mapRows = [];

function readMap() {
    let rows = Array.from({length: hugepages}, () => [0, 0, 0, 0, PAGES, 0]);
    for (const [places = [], ...fields] of DATA.changes) {
        rows = rows.slice();
        places.forEach((number, place) => rows[number] = fields.map(field => field[place]));
        mapRows.push(rows);
    }
}

function describe(row, number) {
    const [kind, used, runs, backed, longest, donated] = row;
    const node = DATA.nodes.length > 1 ? `, of node ${Math.floor(number / DATA.nodes[0])}` : '';
    return `hugepage ${grouped(number + 1)}${node}: ${KINDS[kind]}${donated ? ', donated tail' : ''}; ${used} of 256 pages used, by ${runs} runs; `
        + `${backed} pages backed; longest free range ${longest} pages`;
}

// Where each hugepage's square is: a node begins in a row of its own, and what is free and never backed at its end is left out.
function squares(width) {
    const last = DATA.nodes.map((many, node) => {
        const first = node * many;
        let end = many;
        while (end > 1 && mapRows.every(rows => rows[first + end - 1][0] === 0 && rows[first + end - 1][3] === 0)) end--;
        return end;
    });
    const most = Math.max(...last), side = Math.max(9, Math.min(30, Math.floor(Math.sqrt(width * 420 / (most * last.length)))));
    const columns = Math.min(Math.max(1, Math.floor(width / side)), 128), places = [];
    let top = 0;
    last.forEach((many, node) => {
        if (last.length > 1) top += 18;
        for (let number = 0; number < many; number++)
            places.push([node * DATA.nodes[0] + number, (number % columns) * side, top + Math.floor(number / columns) * side]);
        top += Math.ceil(many / columns) * side;
    });
    return {places, side, height: top, left: hugepages - places.length};
}

let drawn = null;

function drawMap() {
    const canvas = part('map'), width = canvas.parentNode.clientWidth, scale = devicePixelRatio || 1;
    drawn = squares(width);
    Object.assign(canvas, {width: width * scale, height: Math.max(1, drawn.height) * scale});
    canvas.style.height = `${drawn.height}px`;
    const pen = canvas.getContext('2d');
    pen.scale(scale, scale);
    const rows = mapRows[moment], by = part('map-shade').value, fills = KINDS.map((_, kind) => fillOf(pen, kind));
    drawn.places.forEach(([number, x, y]) => drawSquare(pen, rows[number], x, y, drawn.side, by, fills));
    pen.fillStyle = ink('ink');
    pen.font = '12px system-ui, sans-serif';
    if (DATA.nodes.length > 1)
        drawn.places.filter(([number]) => number % DATA.nodes[0] === 0)
            .forEach(([number, , y]) => pen.fillText(`memory node ${number / DATA.nodes[0]}`, 0, y - 5));
}

// A kind's colour with its pattern over it.
function fillOf(pen, kind) {
    const tile = Object.assign(document.createElement('canvas'), {width: 6, height: 6}), brush = tile.getContext('2d');
    brush.fillStyle = ink(KIND_COLOURS[kind]);
    brush.fillRect(0, 0, 6, 6);
    brush.strokeStyle = brush.fillStyle = ink('paper');
    brush.lineWidth = 1.4;
    const line = (x1, y1, x2, y2) => {
        brush.beginPath();
        brush.moveTo(x1, y1);
        brush.lineTo(x2, y2);
        brush.stroke();
    };
    if (KIND_PATTERNS[kind] === '-') line(0, 3, 6, 3);
    if (KIND_PATTERNS[kind] === '/') [-6, 0, 6].forEach(x => line(x, 6, x + 6, 0));
    if (KIND_PATTERNS[kind] === '.') brush.fillRect(2, 2, 2, 2);
    return pen.createPattern(tile, 'repeat');
}

function drawSquare(pen, row, x, y, side, by, fills) {
    const [kind, used, , backed, longest] = row, inner = side - 2;
    pen.fillStyle = ink('empty');
    pen.fillRect(x, y, inner, inner);
    if (kind === 0 && backed === 0) return;
    const full = kind === 0 ? backed : {used, backed, longest}[by], height = Math.max(full ? 2 : 0, Math.round(inner * full / PAGES));
    pen.fillStyle = fills[kind];
    pen.fillRect(x, y + inner - height, inner, height);
    pen.strokeStyle = ink(KIND_COLOURS[kind]);
    pen.lineWidth = 1;
    pen.strokeRect(x + 0.5, y + 0.5, inner - 1, inner - 1);
}

function showMap(place) {
    const rows = mapRows[place];
    const many = KINDS.map((_, kind) => rows.filter(row => row[0] === kind).length);
    const freeBacked = rows.filter(row => row[0] === 0 && row[3] > 0).length;
    const broken = rows.filter(row => row[0] === 1 && row[3] < PAGES).length;
    const whose = runs[0].whose;
    part('map-text').textContent = `${at(place)} (${whose}): resident ${size(residentAt(place))}, used ${size(points.used[place] * PAGE)}, `
        + `fragmentation ${(points.frag[place] / 10).toFixed(1)} %. Hugepages: ${many[1]} filler (${broken} of them not wholly backed), `
        + `${many[2]} run, ${many[3]} region, ${freeBacked} free and backed, ${many[0] - freeBacked} free and not backed.`;
    drawMap();
    part('map').setAttribute('aria-label', part('map-text').textContent);
}

function mapLegend() {
    const legend = part('map-legend');
    const add = (colour, shape, name) => {
        const box = document.createElement('span');
        box.innerHTML = `<svg class="swatch" width="14" height="14" style="background:var(--${colour})">${patternOf(shape, 14, 14)}</svg>`;
        legend.append(' ', element('span', 'legend', box.firstChild, name));
    };
    [1, 2, 3].forEach(kind => add(KIND_COLOURS[kind], KIND_PATTERNS[kind], KINDS[kind]));
    add('silver', '.', 'free, backed');
    add('empty', '', 'free, not backed');
    const left = squares(400).left;
    if (left) legend.append(element('span', '', ` ${grouped(left)} at the end of ${DATA.nodes.length > 1 ? 'the nodes' : 'the arena'} are free and not backed all the time, and aren\u2019t drawn.`));
}

function map() {
    readMap();
    mapLegend();
    if (count > 1) follow('map-slider', count, place => place, place => place);
    else part('map-row').querySelectorAll('button, input').forEach(each => each.hidden = true);
    drawing(drawMap);
    addEventListener('resize', drawMap);
    part('map-shade').addEventListener('change', drawMap);
    part('map').addEventListener('pointermove', event => {
        const box = part('map').getBoundingClientRect(), x = event.clientX - box.left, y = event.clientY - box.top;
        const found = drawn.places.find(([, left, top]) => x >= left && x < left + drawn.side && y >= top && y < top + drawn.side);
        if (found) part('map-at').textContent = describe(mapRows[moment][found[0]], found[0]);
    });
}

// What holds the memory at a moment.

function className(number) {
    return number === null ? 'large blocks' : `class ${number} (${grouped(DATA.classes[number])} B)`;
}

const sumOf = row => row.parts.reduce((one, other) => one + other, 0);
const bySize = sample => sample.classes.slice().sort((one, other) => sumOf(other) - sumOf(one));

function heldClasses(sample) {
    const rows = bySize(sample).slice(0, 14).reverse();
    const traces = PARTS.slice(0, 9).map((each, place) => ({
        type: 'bar', orientation: 'h', name: each[1], marker: markerOf(each), y: rows.map(row => className(row.number)),
        x: rows.map(row => mib(row.parts[place])), hovertemplate: `${each[1]} %{x:,.3f} MiB<extra>%{y}</extra>`}))
        .filter(trace => trace.x.some(value => value > 0));
    const isThin = isNarrow();
    const layout = {...PLAIN, barmode: 'stack', height: 90 + 26 * Math.max(3, rows.length), showlegend: false, dragmode: false,
        xaxis: {...AXIS, title: smallTitle('used, MiB (model)'), rangemode: 'tozero', fixedrange: true, nticks: isThin ? 4 : 0},
        yaxis: {...AXIS, showgrid: false, fixedrange: true, tickfont: {size: isThin ? 10 : 12}},
        margin: {...PLAIN.margin, l: isThin ? 110 : 150, r: 14, t: 6}};
    Plotly.react('held-classes', traces, layout, {...TOOLS, displayModeBar: false});
}

function heldTable(sample) {
    const has = OF_CLASS.map((name, place) => sample.classes.some(row => row.parts[place] > 0) || place < 2);
    const kept = values => values.filter((_, place) => has[place]);
    const heads = ['class, by size', 'in all, B', 'blocks, live', ...kept(PARTS.slice(0, 9).map(([, title]) => `${title}, B`))];
    const rows = bySize(sample).map(row => [className(row.number), grouped(sumOf(row)), grouped(row.blocks), ...kept(row.parts.map(grouped))]);
    const sum = totals(sample), used = OF_CLASS.reduce((whole, name) => whole + sum[name], 0);
    rows.push({kind: 'sum', cells: ['used, all', grouped(used), grouped(sample.classes.reduce((whole, row) => whole + row.blocks, 0)),
        ...kept(OF_CLASS.map(name => grouped(sum[name])))]});
    part('held-table').replaceChildren(table(heads, rows));
}

function frontTable(sample) {
    if (!DATA.fronts) return;
    const chosen = part('front-class').value;
    const cells = sample.fronts.map((front, number) => [number, chosen === 'all' ? front.reduce((sum, [, bytes]) => sum + bytes, 0)
        : (front.find(([place]) => place === Number(chosen)) || [0, 0])[1]]).sort((one, other) => other[1] - one[1]);
    part('front-table').replaceChildren(table([DATA.fronts, 'bytes of free objects, B'], cells.map(([number, bytes]) => [`${DATA.fronts} ${number}`, grouped(bytes)])));
}

function showHeld(place) {
    const sample = held[place], sum = sums[place];
    const used = OF_CLASS.reduce((whole, name) => whole + sum[name], 0), live = sum.asked + sum.rounding, resident = sample.resident * PAGE;
    part('held-text').textContent = `${nameOf(sample.position, sample.line)} (model): resident ${size(resident)} = live ${size(live)} `
        + `+ kept for small objects ${size(used - live)} + backed and unused ${size(resident - used)}.`;
    heldClasses(sample);
    heldTable(sample);
    frontTable(sample);
}

function holdings() {
    part('held').hidden = !held.length;
    if (!held.length) return;
    part('fronts').hidden = !DATA.fronts;
    part('front-name').textContent = DATA.fronts === 'thread' ? 'Caches of each thread,' : 'Slabs of each CPU,';
    const choice = part('front-class');
    choice.append(new Option('all classes', 'all'), ...DATA.classes.map((bytes, number) => new Option(className(number), number)));
    choice.addEventListener('change', () => frontTable(held[heldPlace(moment)]));
    follow('held-slider', held.length, heldPlace, place => Math.max(0, lastUpTo(points.position, heldPositions[place])));
    drawings.push(() => heldClasses(held[heldPlace(moment)]));
    addEventListener('resize', () => heldClasses(held[heldPlace(moment)]));
}

// What it cost.

function drawCost() {
    const acts = DATA.acts.slice().reverse(), isThin = isNarrow();
    const trace = {type: 'bar', orientation: 'h', y: acts.map(([name]) => name), x: acts.map(([, count]) => count),
                   marker: {color: ink('grey')}, hovertemplate: '%{y}: %{x:,} acts<extra></extra>'};
    const layout = {...PLAIN, height: 90 + 22 * acts.length, dragmode: false,
                    xaxis: {...AXIS, title: smallTitle('acts (model)'), tickformat: isThin ? '~s' : ',d', rangemode: 'tozero', fixedrange: true, nticks: isThin ? 4 : 0},
                    yaxis: {...AXIS, showgrid: false, fixedrange: true, tickfont: {size: isThin ? 10 : 12}}, margin: {...PLAIN.margin, l: isThin ? 130 : 190, r: 14, t: 8}};
    Plotly.react('cost', [trace], layout, {...TOOLS, displayModeBar: false});
}

function cost() {
    part('what-it-cost').hidden = !DATA.acts;
    if (!DATA.acts) return;
    part('cost-note').textContent = DATA.cost_note;
    drawing(drawCost);
    addEventListener('resize', drawCost);
    const rows = DATA.counts.filter(([, many]) => many > 0).sort((one, other) => other[1] - one[1]);
    part('cost-table').replaceChildren(table(['what (model)', 'how often, times'], rows.map(([name, many]) => [name, grouped(many)])));
}

head();
if (DATA.beside) beside();
part('over-time').hidden = DATA.one_of_many;
if (!DATA.one_of_many) {
    follow('moment', count, place => place, place => place);
    course();
}
map();
holdings();
cost();
showMoment();
document.body.dataset.ready = 'yes';
