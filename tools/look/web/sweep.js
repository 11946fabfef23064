// The page of a sweep. Its data come from tools/look/sweep.
const rows = DATA.rows.map((row, place) => ({...row, number: place + 1})), heads = DATA.heads;
const done = rows.filter(row => row.status === 0), failed = rows.filter(row => row.status !== 0);
const traces = [...new Set(rows.map(row => row.trace))];
const isAsRecorded = row => heads.every(head => row[head] === undefined || row[head] === '');
const named = row => isAsRecorded(row) ? 'as recorded' : heads.map(head => `${head} ${row[head]}`).join(', ');
const ownCalls = row => row.calls - row.releases;
const perCall = row => row.acts / ownCalls(row);
const memory = row => DATA.hasPeak ? row.peak_resident : row.end_resident;
const MEMORY = DATA.hasPeak ? 'peak resident memory' : 'resident memory at the end';
const many = (count, what) => `${grouped(count)} ${what}${count === 1 ? '' : 's'}`;

// Runs of a trace that have just the same memory and acts are one sign.
function signs(trace) {
    const found = new Map();
    for (const row of done.filter(row => row.trace === trace && ownCalls(row) > 0)) {
        const key = `${memory(row)} ${perCall(row)}`;
        if (!found.has(key)) found.set(key, {x: perCall(row), y: mib(memory(row)), rows: []});
        found.get(key).rows.push(row);
    }
    return [...found.values()].map(sign => ({...sign, isBest: sign.rows.some(row => row.same > 0), label: labelOf(sign.rows)}));
}

const MOST_NUMBERS = 3, MOST_NAMES = 6;

function labelOf(own) {
    const numbers = own.slice(0, MOST_NUMBERS).map(row => row.number).join(', ');
    return own.length === 1 ? numbers : `${numbers}${own.length > MOST_NUMBERS ? ' …' : ''} (×${own.length})`;
}

function hoverOf(sign) {
    const lines = sign.rows.slice(0, MOST_NAMES).map(row =>
        `row ${row.number}: ${named(row)}; at the end ${size(row.end_resident)} resident, ${grouped(row.end_used)} pages used, ${many(row.nones, 'request')} got nothing`);
    const first = sign.rows.length > 1 ? [`${sign.rows.length} runs that come to the same`] : [];
    return [...first, ...lines, ...(sign.rows.length > MOST_NAMES ? [`and ${sign.rows.length - MOST_NAMES} more`] : [])].join('<br>');
}

const MOST_NAME = 28;           // letters of a trace's name in the legend
const brief = name => name.length <= MOST_NAME ? name : `${name.slice(0, MOST_NAME / 2 - 1)}…${name.slice(1 - MOST_NAME / 2)}`;

let layers = [];

function plot() {
    layers = [];
    traces.forEach((trace, number) => {
        const {color, symbol} = series(number), own = signs(trace);
        const layer = (chosen, extra) => {
            if (chosen.length) layers.push({type: 'scatter', mode: 'markers', x: chosen.map(sign => sign.x), y: chosen.map(sign => sign.y), cliponaxis: false,
                labels: chosen.map(sign => sign.label), customdata: chosen.map(hoverOf),
                hovertemplate: `%{customdata}<br>${MEMORY} %{y:,.2f} MiB<br>%{x:,.3f} acts a call<extra></extra>`, legendgroup: trace, ...extra});
        };
        layer(own.filter(sign => !sign.isBest), {name: brief(trace), showlegend: !own.some(sign => sign.isBest),
            marker: {color: ink('paper'), size: 10, symbol, line: {color, width: 2}}});
        layer(own.filter(sign => sign.isBest).sort((one, other) => one.x - other.x), {name: brief(trace), showlegend: true,
            marker: {color, size: 13, symbol, line: {color: ink('ink'), width: 1}}});
    });
    const most = name => 1.12 * Math.max(...layers.flatMap(layer => layer[name]), 0) || 1;
    const axis = (name, title) => ({...AXIS, range: [0, most(name)], rangemode: 'tozero', tickformat: '~r', exponentformat: 'none', title: {text: title, font: {size: 13}}});
    const layout = {...PLAIN, height: 480, legend: {orientation: 'h', y: -0.2, yanchor: 'top', x: 0}, hovermode: 'closest', showlegend: traces.length > 1,
        xaxis: axis('x', 'cost, acts a call'), yaxis: axis('y', `${MEMORY}, MiB`), margin: {...PLAIN.margin, l: 56, r: 20, t: 30}};
    const drawn = Plotly.react('plot', layers, layout, TOOLS);
    drawn.then(() => {
        placeLabels();
        if (plot.isWatched) return;
        plot.isWatched = true;
        part('plot').on('plotly_relayout', placeLabels);
        part('plot').on('plotly_restyle', () => plot.isPlacing || placeLabels());
    });
}

// Each label stands on a side of its sign on which it meets no other label, no sign and no edge. If there is none, it isn't drawn.
const SIDES = [[-0.5, -1], [-0.5, 1], [0, 0], [-1, 0], [0, -1], [-1, -1], [0, 1], [-1, 1]];
const HIGH = 20, GAP = 7, WIDE = 8;

function labelBox(at, label, [across, down]) {
    const width = WIDE * label.length, left = at.x + across * width + (across === -0.5 ? 0 : across === 0 ? GAP : -GAP);
    const middle = at.y + down * (GAP + HIGH / 2);
    return {left: left - 1, right: left + width + 1, top: middle - HIGH / 2, bottom: middle + HIGH / 2};
}

function labelAt(x, y, label, [across, down]) {
    return {x, y, text: label, showarrow: false, borderpad: 0, font: {size: 12, color: ink('ink')},
        xanchor: across === -0.5 ? 'center' : across === 0 ? 'left' : 'right', xshift: across === -0.5 ? 0 : across === 0 ? GAP : -GAP,
        yanchor: down < 0 ? 'bottom' : down > 0 ? 'top' : 'middle', yshift: -down * GAP};
}

const meets = (one, other) => one.left < other.right && one.right > other.left && one.top < other.bottom && one.bottom > other.top;

function placeLabels() {
    const full = part('plot')._fullLayout;
    if (!full || !full.xaxis || plot.isPlacing) return;
    const place = (layer, number) => ({x: full.xaxis.d2p(layer.x[number]), y: full.yaxis.d2p(layer.y[number])});
    const isSeen = at => at.x >= 0 && at.y >= 0 && at.x <= full.xaxis._length && at.y <= full.yaxis._length;
    const shown = layers.map((_, number) => (part('plot').data[number] || {}).visible !== 'legendonly');
    const taken = layers.flatMap((layer, number) => shown[number] ? layer.x.map((_, each) => place(layer, each)).filter(isSeen)
        .map(({x, y}) => ({left: x - 6, right: x + 6, top: y - 6, bottom: y + 6})) : []);
    const frame = {right: full.xaxis._length + 16, bottom: full.yaxis._length, left: 0, top: -20};
    const annotations = [];
    let without = 0;
    for (const number of layers.map((_, number) => number).reverse()) layers[number].labels.forEach((label, each) => {
        const at = place(layers[number], each);
        if (!shown[number] || !isSeen(at)) return;
        const side = SIDES.find(side => {
            const box = labelBox(at, label, side);
            return box.left >= frame.left && box.right <= frame.right && box.top >= frame.top && box.bottom <= frame.bottom && !taken.some(other => meets(box, other));
        });
        if (!side) without += 1;
        else {
            taken.push(labelBox(at, label, side));
            annotations.push(labelAt(layers[number].x[each], layers[number].y[each], label, side));
        }
    });
    part('unlabelled').textContent = without ? `${many(without, 'sign')} here ${without === 1 ? 'has' : 'have'} no room for a number: drag over them to see them larger.` : '';
    plot.isPlacing = true;
    Plotly.relayout('plot', {annotations}).then(() => { plot.isPlacing = false; });
}

const dash = text => text === '' || text === undefined ? '–' : text;
const inMib = bytes => bytes === '' ? '–' : mib(bytes).toFixed(2);
const inTotal = count => count === '' ? '–' : grouped(count);
const lineOf = line => typeof line === 'number' ? grouped(line) : dash(line);

const HEAD_UNITS = {huge: 'hugepages', cache: 'hugepages', region: 'hugepages', slack: 'pages', transfer: 'objects', slab: 'objects', percpu: 'bytes',
    events: 'picks', window: 'heap calls', release: 'lines/pages'};

function markOf(row) {
    return row.same > 1 ? `◆ tie of ${row.same}` : row.same ? '◆' : '';
}

function cellsOf(row) {
    const values = heads.map(head => dash(row[head]) !== '–' ? row[head] : `(${DATA.own[row.trace][head] || 'none'})`);
    const first = [row.number, row.trace + (isAsRecorded(row) ? ', as recorded' : ''), ...values];
    if (row.status !== 0) return [...first, ...Array(11).fill('–'), `status ${row.status}: ${row.note}`];
    return [...first, inMib(row.peak_resident), lineOf(row.peak_line), inMib(row.peak_live), inMib(row.end_resident), inMib(row.end_live),
        grouped(row.end_used), row.end_frag, grouped(row.nones), inTotal(row.releases), grouped(row.acts), ownCalls(row) ? perCall(row).toFixed(3) : '–', markOf(row)];
}

function rowsTable() {
    const shown = ['row', 'trace', ...heads.map(head => head + (HEAD_UNITS[head] ? ', ' + HEAD_UNITS[head] : '')), 'peak resident, MiB', 'at trace line', 'live then, MiB', 'end resident, MiB', 'end live, MiB', 'end used, pages',
        'end frag, 1/1000', 'requests that got nothing', 'releases added', 'acts', 'acts a call', ''];
    part('rows').append(table(shown, rows.map(row => ({kind: row.same ? 'mark' : '', cells: cellsOf(row)}))));
    for (const [place, row] of [...part('rows').querySelectorAll('tbody tr')].entries())
        if (rows[place].status !== 0) row.lastChild.className = 'said';
}

// How far the runs of a trace lie apart, in words.
function spreadOf(trace) {
    const own = done.filter(row => row.trace === trace && ownCalls(row) > 0);
    if (own.length < 2) return [];
    const range = (values, told) => {
        const [least, most] = [Math.min(...values), Math.max(...values)];
        return least === most ? `${told(least)} in all` : `from ${told(least)} to ${told(most)}, ${most ? (100 * (most - least) / most).toFixed(1) : 0} % apart`;
    };
    return [`${trace}: ${many(own.length, 'run')}. By the ${DATA.teller}, ${MEMORY} is ${range(own.map(memory), size)}; cost is ${range(own.map(perCall), each => each.toFixed(3) + ' acts a call')}.`];
}

const note = (name, line) => part(name).append(element('p', name === 'alarms' ? 'alarm' : 'sweep-note', line));

function texts() {
    const whole = DATA.hasPeak ? `Peak resident memory is the greatest of at most ${many(DATA.points, 'prefix').replace('prefixs', 'prefixes')} of each trace. `
        : 'With an order file a prefix of the trace is no moment of the run, so the end alone is told. ';
    part('title').textContent = DATA.title;
    part('subtitle').textContent = `Command ${DATA.command}, class table ${DATA.classes}. All numbers are the ${DATA.teller}'s. ${whole}`
        + 'Acts a call counts all acts of a whole run, which are the steps of its calls between which other threads\u2019 acts may come, and divides them by the calls of the trace as it is. '
        + 'The acts of releases that were added count, and their lines don\u2019t.';
    for (const trace of traces) note('origins', `${trace}: ${DATA.origins[trace]}`);
    for (const line of DATA.leftOut) note('alarms', line);
    const starved = done.filter(row => row.nones > 0).length;
    if (failed.length) note('alarms', `${failed.length} of ${rows.length} runs ${failed.length === 1 ? 'was' : 'were'} refused; the rows say why.`);
    if (starved) note('alarms', `In ${starved} of ${rows.length} runs some requests got nothing: their memory is that of fewer blocks.`);
    for (const line of traces.flatMap(spreadOf)) note('spread', line);
    part('plot-text').textContent = 'Low and to the left is good. Both axes begin at 0, so that small differences look small; drag over a part to see it larger, and click twice to see all. '
        + 'A filled sign is a run that no other one of its trace beats in both. The number at a sign is that of its row; runs that come to just the same are one sign with their count (×).';
    part('rows-text').textContent = `All numbers are the ${DATA.teller}'s. A value in brackets is the trace's own. ◆ marks what no other run of its trace beats in both memory and acts, and says if several tie. `
        + 'A peak is told at a line of the trace as recorded, or at a head that was asked for.';
}

texts();
if (done.length) drawing(plot);
rowsTable();
document.body.dataset.ready = 'yes';
