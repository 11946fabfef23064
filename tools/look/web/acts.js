// The page of a run act by act. Its data come from tools/look/telling.py: what stood at the start, and of each act what changed.
const acts = DATA.acts;
const MOST_SLOTS = 48, MOST_FREE = 12, MOST_SPANS = 24, MOST_HUGEPAGES = 64, MOST_LABELS = 200, MOST_LINES = 200;

// What stands at the place that is shown: place 0 is the start, and place N is after the N-th act of the page.
const state = new Map(Object.entries(DATA.start));
let at = 0;

function apply(stood, changes) {
    for (const name in changes) {
        if (changes[name] === null) stood.delete(name);
        else stood.set(name, changes[name]);
    }
}

// Of each act, what the parts that it changed were before.
function waysBack() {
    const stood = new Map(state);
    return acts.map(act => {
        const was = Object.fromEntries(Object.keys(act.changes).map(name => [name, stood.get(name) ?? null]));
        apply(stood, act.changes);
        return was;
    });
}

const back = waysBack();

function walk(place) {
    while (at < place) apply(state, acts[at++].changes);
    while (at > place) apply(state, back[--at]);
}

const INSTRUCTIONS = {
    'Leave': 'the move of a p line: the thread leaves its CPU, and a sequence begins anew',
    'In': 'the thread is switched in: it runs at its CPU now, whose epoch rises, and its sequence begins anew',
    'Back': 'a fence came: the sequence begins anew', 'Begin': 'the sequence is open', 'Header': 'looks for a stopper, and notes the top',
    'Header, stopped': 'the CPU is stopped: the sequence ends', 'Test': 'looks whether there is something to take, or room',
    'Test, empty': 'the stack is empty: the sequence ends', 'Test, full': 'the stack is at its capacity: the sequence ends',
    'Copy': 'loads or stores an object: it doesn\u2019t count yet', 'Commit': 'moves the top: now it counts', 'Grow': 'the capacity may grow'};
const NAMES = {
    'Fetch': 'asks the shard for a batch', 'NewSpan': 'asks the page heap for a span\u2019s pages', 'SetSpan': 'notes the span in the page map',
    'AddFetch': 'the span joins its shard, and gives its first batch', 'Put': 'the hand goes to the domain\u2019s cache, if all of it fits',
    'Give': 'the hand goes to the shard', 'ClearSpan': 'a free span leaves the page map', 'FreeSpan': 'its pages go back to the page heap',
    'Publish': 'the label gets its address', 'New': 'asks the page heap for the block\u2019s pages', 'Set': 'notes the block in the page map',
    'Lookup': 'finds the span that has the address', 'Clear': 'the block leaves the page map', 'GiveBack': 'its pages go back to the page heap',
    'Unback': 'the page heap gives pages back to the system', 'Stop': 'becomes the CPU\u2019s stopper, unless there is one',
    'Fence': 'sends back the sequences that were begun', 'SetCap': 'sets the capacity, or is refused', 'Start': 'the CPU has no stopper any more',
    'Leave': 'the move of a p line, at the call\u2019s end', 'Pop': 'takes the class\u2019s last object, if there is one',
    'Stock': 'adds the hand\u2019s first objects, as many as the limit has room for', 'Add': 'adds the freed object, if the limit has room for it',
    'AddAgain': 'adds the freed object, if the limit has room for it now', 'Ask': 'the other\u2019s limit falls by what is unused of it, by a batch at most',
    'Raise': 'the own limit rises by what was given up', 'Trim': 'takes the class\u2019s last objects, a batch at most'};
const TAKES = {names: 'takes the label\u2019s address', CPU: 'takes all objects of a class out of the slab'};

function meaning(act) {
    if (act.instruction) return INSTRUCTIONS[act.instruction];
    if (act.name === 'Take') return TAKES[act.part] || 'asks the domain\u2019s cache for a batch';
    return NAMES[act.name] || '';
}

const many = (number, what) => `${grouped(number)} ${what}${number === 1 ? '' : 's'}`;
const objectsIn = ([count, objects]) => objects.join(', ') + (count > objects.length ? ` and ${grouped(count - objects.length)} more` : '');
const soft = text => element('span', 'soft', text);

// What a sequence noted, in words.
function noted(registers) {
    const told = [];
    if (registers.top !== null) told.push(`top ${many(registers.top, 'object')}`);
    if (registers.wanted !== null) told.push(`${many(registers.wanted, 'object')} ${isPop(registers) ? 'to take' : 'to add'}`);
    if (registers.copied[0]) told.push(`${isPop(registers) ? 'loaded' : 'stored'} ${objectsIn(registers.copied)}`);
    return told.join(', ') || 'that it was open';
}

const isPop = registers => registers.name.startsWith('Pop');

function showNow(place) {
    const box = part('now'), act = acts[place - 1];
    box.className = 'now' + (act && act.stood ? ' stood' : '');
    if (!act) {
        const before = DATA.before ? `${many(DATA.before, 'act')} came before this page.` : 'No act has come yet.';
        box.replaceChildren(element('b', '', 'The start'), element('div', 'soft', before));
        return;
    }
    if (act.stood) {
        box.replaceChildren(element('b', '', `Thread ${act.thread}: a pick that moved nothing`), element('div', '', act.stood));
        return;
    }
    const name = act.instruction && act.instruction !== act.name ? `${act.name}: ${act.instruction}` : act.name;
    box.replaceChildren(element('b', '', `Act ${grouped(act.number)} · thread ${act.thread} · ${name}`),
        element('div', '', `at the ${act.part}: ${meaning(act)}`),
        element('div', 'soft', 'of trace line ' + grouped(act.line) + ': ', element('span', 'code', act.call)));
    if (act.dropped) box.append(element('div', 'drops', `↺ ${act.dropped.name} begins again, and drops what it noted: ${noted(act.dropped)}`));
    for (const line of act.decided) box.append(element('div', 'decides', 'decided: ', element('span', 'code', line)));
}

function showSum() {
    const [blocks, bytes, used, resident, ended] = state.get('sum');
    part('sum').textContent = `After it: ${grouped(ended)} of ${many(DATA.calls, 'call')} ended; live ${many(blocks, 'block')} of ${size(bytes)}; `
        + `used ${many(used, 'page')} (${size(used * PAGE)}); resident ${many(resident, 'page')} (${size(resident * PAGE)}).`;
}

function box(name, changed, ...content) {
    const made = element('div', 'part' + (changed.has(name) ? ' changed' : ''), ...content);
    made.dataset.part = name;
    return made;
}

// What is drawn of a part's value is kept, as most parts stay as they are from act to act.
const drawnOf = new WeakMap();

function kept(value, isChanged, draw) {
    if (!drawnOf.has(value)) drawnOf.set(value, draw());
    drawnOf.get(value).classList.toggle('changed', isChanged);
    return drawnOf.get(value);
}

// Threads.

const hasCpus = DATA.command === 'serial' || DATA.command === 'order';
const ANEW = {Leave: () => 'its move is due', Back: () => 'a fence came since it was switched in', In: thread => {
    const {running} = state.get(`cpu ${thread.cpu}`);
    return running === null ? 'it doesn\u2019t run there' : `thread ${running} runs there`;
}};

function whereItIs(thread) {
    if (DATA.nodes > 1 || DATA.command === 'numa') return [`at node ${thread.node}`];
    if (!hasCpus) return [];
    const cpu = state.get(`cpu ${thread.cpu}`);
    return [`at CPU ${thread.cpu}`, `saw epoch ${thread.epoch}, the CPU has ${cpu.epoch}`];
}

function comes(thread) {
    const [where, name] = thread.next, instruction = thread.comes && thread.comes !== name ? `: ${thread.comes}` : '';
    const why = thread.comes in ANEW ? `, as ${ANEW[thread.comes](thread)}` : '';
    return element('div', '', 'comes next: ', element('strong', '', name + instruction), ` at the ${where}${why}`);
}

function registersBox(thread) {
    const kept = thread.registers, isStale = kept.begun && thread.comes in ANEW;
    const rows = [['noted top', kept.top === null ? '–' : many(kept.top, 'object')],
        [isPop(kept) ? 'to take' : 'to add', kept.wanted === null ? '–' : many(kept.wanted, 'object')],
        [isPop(kept) ? 'loaded' : 'stored', kept.copied[0] ? objectsIn(kept.copied) : '–'], ['stands before', kept.before]];
    const made = table([], rows);
    made.tHead.remove();
    const heading = `registers of its ${kept.name}, class ${kept.class} (${grouped(DATA.table[kept.class])} B)`;
    const shown = element('div', 'registers', soft(heading), made);
    if (isStale) shown.append(element('div', 'stale', `↺ stale: ${kept.before} won\u2019t come, and the sequence begins again`));
    return shown;
}

function threadBox(number, changed) {
    const thread = state.get(`thread ${number}`);
    const text = [...whereItIs(thread), `${many(thread.ended, 'call')} ended`];
    if (thread.move && thread.call) text.push(`to move to CPU ${thread.move[1]} before instruction ${grouped(thread.move[0])} of its call, has done ${grouped(thread.executed)}`);
    const made = box(`thread ${number}`, changed, element('div', '', element('strong', '', `Thread ${number} `), soft(text.join('; '))));
    if (!thread.call) made.append(soft('all its calls have ended'));
    else made.append(element('div', '', `line ${grouped(thread.call[0])}: `, element('span', 'code', thread.call[1])), comes(thread));
    if (thread.waits_for !== null) made.append(element('div', 'soft', `asks for label ${thread.waits_for}`));
    if (thread.registers) made.append(registersBox(thread));
    if (thread.hand[0]) made.append(slots(`in hand, ${many(thread.hand[0], 'object')} of class ${thread.hand_class}:`, thread.hand, 'full'));
    for (const [first, pages] of thread.spans) made.append(element('div', '', `span on its way: ${many(pages, 'page')} from page ${first}`));
    return made;
}

// In front: slabs of CPUs, or caches of threads.

// The first objects of a list as small boxes, and how many more there are.
function slots(name, [count, objects], kind, most = MOST_SLOTS) {
    const made = element('div', 'slots', soft(name));
    objects.slice(0, most).forEach(address => made.append(Object.assign(element('span', 'slot ' + kind, String(address)), {title: `object at ${address}`})));
    if (count > most) made.append(`and ${grouped(count - most)} more`);
    return made;
}

// A class's stack: the objects below its top, and the places above.
function slabSlots(number, slab) {
    const name = `class ${number} (${grouped(DATA.table[number])} B), top ${grouped(slab.top)} of capacity ${many(slab.capacity, 'object')}:`;
    const made = slots(name, [slab.top, slab.objects], 'full');
    for (const old of slab.scratch)
        made.append(Object.assign(element('span', 'slot', old ? String(old) : ''), {title: old ? 'above the top: it doesn\u2019t count' : 'empty'}));
    const more = slab.capacity - slab.top - slab.scratch.length;
    if (more > 0) made.append(`and ${grouped(more)} empty places`);
    return made;
}

function cpuBox(number, changed) {
    const cpu = state.get(`cpu ${number}`);
    const text = [cpu.running === null ? 'no thread runs' : `thread ${cpu.running} runs`, `epoch ${cpu.epoch}`];
    if (cpu.stopper !== null) text.push(`stopped by thread ${cpu.stopper}${cpu.fenced ? ', fenced' : ''}`);
    text.push(`${grouped(cpu.bytes)} of ${grouped(DATA.heads.percpu)} bytes of capacity`);
    const made = box(`cpu ${number}`, changed, element('div', '', element('strong', '', `CPU ${number} `), soft(text.join('; '))));
    for (const name of named(`slab ${number}`)) {
        const slab = state.get(name);
        if (changed.has(name)) made.classList.add('changed');
        made.append(kept(slab, changed.has(name), () => slabSlots(Number(name.split(' ')[2]), slab)));
    }
    return made;
}

function ownBox(name, changed) {
    const cache = state.get(name), text = `${grouped(cache.bytes)} of ${grouped(cache.limit)} bytes of its limit`;
    const made = box(name, changed, element('div', '', element('strong', '', `Cache of thread ${name.split(' ')[1]} `), soft(text)));
    for (const [row, count, objects] of cache.lists)
        made.append(slots(`class ${row} (${grouped(DATA.table[row])} B), ${many(count, 'object')}:`, [count, objects], 'full'));
    return made;
}

function frontBoxes(changed) {
    if (hasCpus) return Array.from({length: DATA.cpus}, (_, number) => cpuBox(number, changed));
    return named('own').map(name => ownBox(name, changed));
}

// After that: lists, spans, hugepages.

const atNode = node => DATA.nodes > 1 ? `node ${node}, ` : '';

function spanSlots([first, pages, objects, count, free]) {
    return slots(`span at page ${first}, ${many(pages, 'page')}, ${grouped(objects - count)} of ${many(objects, 'object')} taken; free:`, [count, free], 'free', MOST_FREE);
}

function shardBox(key, spans, changed) {
    const [node, number] = key.split(' '), transfer = state.get(`transfer ${key}`);
    const made = box(`shard ${key}`, changed, element('div', '', element('strong', '', `${atNode(node)}class ${number} `), soft(`objects of ${grouped(DATA.table[number])} B`)));
    if (transfer) made.append(slots(`transfer list, ${grouped(transfer[0])} of ${many(DATA.heads.transfer, 'object')}:`, transfer, 'full'));
    const shown = spans.filter((name, place) => place < MOST_SPANS || changed.has(name));
    shown.forEach(name => made.append(kept(state.get(name), changed.has(name), () => spanSlots(state.get(name)))));
    if (spans.length > shown.length) made.append(soft(`and ${many(spans.length - shown.length, 'span')} more`));
    if ([`transfer ${key}`, ...shown].some(name => changed.has(name))) made.classList.add('changed');
    return made;
}

// The lists and spans of each class, which are told by node and class.
function shardBoxes(changed) {
    const spans = new Map();
    for (const name of [...named('transfer'), ...named('span')]) {
        const key = name.split(' ').slice(1, 3).join(' ');
        if (!spans.has(key)) spans.set(key, []);
        if (name.startsWith('span')) spans.get(key).push(name);
    }
    return inOrder([...spans.keys()]).map(key => shardBox(key, spans.get(key), changed));
}

function listBox(name, changed) {
    const [, domain, number] = name.split(' '), list = state.get(name);
    return box(name, changed, slots(`cache of domain ${domain}, class ${number}, ${grouped(list[0])} of ${many(DATA.heads.transfer, 'object')}:`, list, 'full'));
}

function hugepageBox(name) {
    const [kind, used, runs, backed, longest, donated, ranges] = state.get(name), number = Number(name.split(' ')[1]);
    const strip = element('div', 'strip');
    for (const [first, pages] of ranges) {
        const range = element('i', kind);
        Object.assign(range.style, {left: `${100 * first / PAGES}%`, width: `${100 * pages / PAGES}%`});
        strip.append(range);
    }
    const text = `${atNode(Math.floor((number - 1) / DATA.heads.huge))}${kind}${donated ? ', donated' : ''}; ${many(used, 'page')} used by ${many(runs, 'run')}, `
        + `${many(backed, 'page')} backed, longest free range ${many(longest, 'page')}`;
    return box(name, new Set(), element('div', '', element('strong', '', `${name} `), soft(text)), strip);
}

function hugepageBoxes(changed) {
    const all = named('hugepage'), shown = all.filter((name, place) => place < MOST_HUGEPAGES || changed.has(name));
    const boxes = shown.map(name => kept(state.get(name), changed.has(name), () => hugepageBox(name)));
    if (all.length > shown.length) boxes.push(soft(`and ${many(all.length - shown.length, 'hugepage')} more`));
    return boxes;
}

// Names of a kind are put in order by the numbers in them, of which each is below 2^24.
const orders = new Map();

function orderOf(name) {
    if (!orders.has(name)) orders.set(name, name.split(' ').filter(each => /^[0-9]+$/.test(each)).reduce((sum, each) => sum * 16777216 + Number(each), 0));
    return orders.get(name);
}

const inOrder = names => names.sort((one, other) => orderOf(one) - orderOf(other));
const named = word => inOrder([...state.keys()].filter(name => name.startsWith(word + ' ')));

// Labels, and what is decided.

function labelRow(label, changed) {
    const block = state.get(`block ${label}`), name = state.get(`name ${label}`);
    const address = name === undefined ? 'not published' : name[0] === null ? 'null' : String(name[0]);
    const cells = [String(label), address + (name && name[1] ? ', taken' : ''), block ? grouped(block[0]) : '–', block ? grouped(block[1]) : '–'];
    return {kind: changed.has(`block ${label}`) || changed.has(`name ${label}`) ? 'mark' : '', cells};
}

function namesTable(changed) {
    const labels = [...new Set([...named('name'), ...named('block')].map(name => Number(name.split(' ')[1])))].sort((one, other) => one - other);
    const shown = labels.filter((label, place) => place < MOST_LABELS || changed.has(`name ${label}`) || changed.has(`block ${label}`));
    if (!shown.length) return [soft('no label yet')];
    const made = table(['label', 'published address', 'live block, B', 'asked, B'], shown.map(label => labelRow(label, changed)));
    return labels.length > shown.length ? [made, soft(`and ${many(labels.length - shown.length, 'label')} more`)] : [made];
}

// The lines decided up to each place.
const decidedAt = [0];
const decidedLines = [];
for (const act of acts) {
    decidedLines.push(...act.decided);
    decidedAt.push(decidedLines.length);
}

function showDecided(place) {
    const count = decidedAt[place], fresh = place ? decidedAt[place - 1] : 0, first = Math.max(0, count - MOST_LINES);
    const lines = decidedLines.slice(first, count).map((line, number) => element('div', first + number >= fresh ? 'lit' : '', line));
    part('decided').replaceChildren(...(lines.length ? lines : [soft(DATA.before ? 'no call is decided on this page yet' : 'no call is decided yet')]));
    part('decided').scrollTop = part('decided').scrollHeight;
}

// The lesson's text: headings, lists, code and paragraphs. What it names in code is a link to the act that decided it, or
// to the first act of the call.

function placeOf(code) {
    const decided = acts.findIndex(act => act.decided.includes(code));
    if (decided >= 0) return decided + 1;
    const lines = new Set(acts.filter(act => !act.stood && (act.call === code || act.call.startsWith(code + ' '))).map(act => act.line));
    return /^[afrdz] /.test(code) && lines.size === 1 ? acts.findIndex(act => lines.has(act.line)) + 1 : 0;
}

function spanOfText(text) {
    if (text.startsWith('**') && text.length > 4) return element('strong', '', text.slice(2, -2));
    if (!text.startsWith('`') || text.length < 3) return text;
    const made = element('code', '', text.slice(1, -1)), place = placeOf(text.slice(1, -1));
    if (!place) return made;
    const link = Object.assign(element('a', '', made), {href: '#' + addressOf(place)});
    link.dataset.place = place;
    return link;
}

const inLine = text => text.split(/(`[^`]+`|\*\*[^*]+\*\*)/).filter(each => each).map(spanOfText);

function blockOfText(text) {
    const heading = text.match(/^#+ +(.*)/);
    if (heading) return element('h2', '', ...inLine(heading[1]));
    if (/^( {4}|\||```)/.test(text)) return element('pre', 'code', text.replace(/^```.*$/gm, '').replace(/^ {4}/gm, ''));
    if (!/^- /.test(text)) return element('p', '', ...inLine(text.replace(/\n/g, ' ')));
    return element('ul', '', ...text.slice(2).split(/\n- /).map(item => element('li', '', ...inLine(item.replace(/\n */g, ' ')))));
}

const NARROW = 700;

function showLesson() {
    if (!DATA.lesson) return;
    part('lesson').hidden = false;
    part('lesson').open = innerWidth > NARROW;
    addEventListener('beforeprint', () => part('lesson').open = true);
    part('page').className = 'has-lesson';
    part('lesson-name').textContent = `The lesson (${DATA.lesson.name})`;
    const blocks = DATA.lesson.text.replace(/\r/g, '').split(/\n\s*\n/).map(text => text.replace(/^\n+|\s+$/g, '')).filter(text => text);
    part('lesson-text').append(...blocks.map(blockOfText));
}

// Where to go: by an act's number, a trace line, a label, or the next restart.

const addressOf = place => place === 0 ? 'start' : acts[place - 1].stood ? `pick-${place}` : `act-${acts[place - 1].number}`;
const after = (first, test) => {
    const found = acts.findIndex((act, number) => number >= first && test(act));
    return found < 0 ? acts.findIndex(test) : found;
};

// The place of what is named, or -1. A label's calls come one after another.
function placeNamed(kind, number) {
    if (kind === 'start') return 0;
    if (kind === 'pick') return number <= acts.length ? number : -1;
    if (kind === 'act') return number === 0 ? 0 : acts.findIndex(act => act.number === number) + 1 || -1;
    if (kind === 'line') return acts.findIndex(act => act.line === number) + 1 || -1;
    const line = at && acts[at - 1].label === number ? acts[at - 1].line : 0;
    return after(at, act => act.label === number && act.line !== line) + 1 || after(0, act => act.label === number) + 1 || -1;
}

const KINDS = {line: 'trace line', label: 'label', pick: 'pick'};

function goNamed(kind, number) {
    const place = placeNamed(kind, number);
    if (place >= 0) go(place);
    else part('jump-said').textContent = `no act ${kind === 'act' ? 'with number' : `of ${KINDS[kind]}`} ${number} is on this page`;
}

function goToAddress() {
    const found = location.hash.match(/^#(?:(start)|(act|line|label|pick)-([0-9]{1,9}))$/);
    if (found) goNamed(found[1] || found[2], Number(found[3] || 0));
}

function goToRestart() {
    const place = after(at, act => act.dropped) + 1;
    if (place) go(place);
    else part('jump-said').textContent = 'no sequence begins again on this page';
}

function noteAddress(place) {
    const address = '#' + addressOf(place);
    part('link').href = address;
    for (const link of document.querySelectorAll('#lesson a')) link.classList.toggle('here', Number(link.dataset.place) === place);
    if (shown !== null && location.hash !== address) history.replaceState(null, '', address);
}

function show(place) {
    walk(place);
    const changed = new Set(place ? Object.keys(acts[place - 1].changes) : []);
    showNow(place);
    showSum();
    const fill = (name, boxes, none) => part(name).replaceChildren(...(boxes.length ? boxes : [soft(none)]));
    fill('threads', Array.from({length: DATA.threads}, (_, number) => threadBox(number, changed)));
    fill('cpus', frontBoxes(changed), 'none: each object comes from its shard');
    fill('shards', [...named('list').map(name => listBox(name, changed)), ...shardBoxes(changed)], 'no span yet');
    fill('hugepages', hugepageBoxes(changed), 'all are free, and none is backed');
    part('names').replaceChildren(...namesTable(changed));
    const marked = part('names').querySelector('tr.mark');
    if (marked) part('names').scrollTop = marked.offsetTop - part('names').clientHeight / 2;
    showDecided(place);
    noteAddress(place);
    part('jump-said').textContent = '';
    document.body.dataset.act = place;
}

function windowText() {
    const own = acts.filter(act => !act.stood), lines = own.map(act => act.line), least = lines.reduce((one, other) => Math.min(one, other), Infinity);
    if (!own.length) return 'No act moved anything.';
    const most = lines.reduce((one, other) => Math.max(one, other), 0);
    const all = !DATA.before && !DATA.is_cut ? ': the whole run.' : '.';
    return `Acts ${grouped(own[0].number)} to ${grouped(own[own.length - 1].number)}, of trace lines ${grouped(least)} to ${grouped(most)} of ${grouped(DATA.lines)}${all}`
        + (DATA.before ? ` ${many(DATA.before, 'act')} came before.` : '') + (DATA.is_cut ? ' The run goes on after them: a page made with --from and a later line shows more.' : '');
}

const FRONT_NAMES = {perthread: 'Caches of threads', numa: 'Caches'};
const EPOCHS = 'An epoch is a count of its CPU: it rises when a thread is switched in or leaves, and at a fence. A sequence goes on only if its thread '
    + 'still runs there and saw the CPU\u2019s epoch. Nothing that it noted counts before Commit.';
part('title').textContent = DATA.title;
part('subtitle').textContent = `${DATA.run}; ${DATA.origin}. ${DATA.whose}`;
part('window').textContent = windowText();
part('front-name').textContent = FRONT_NAMES[DATA.command] || 'CPUs and their slabs';
part('threads-note').textContent = hasCpus ? EPOCHS : '';
part('restart').hidden = !hasCpus;
showLesson();
let shown = null;
const go = slider('act', acts.length + 1, 0, show);
shown = 'yes';
goToAddress();
addEventListener('hashchange', goToAddress);
part('jump').addEventListener('submit', event => {
    event.preventDefault();
    const said = part('jump-number').value.trim();
    if (/^[0-9]{1,9}$/.test(said)) goNamed(part('jump-kind').value, Number(said));
    else part('jump-said').textContent = 'a number is wanted';
});
part('restart').addEventListener('click', goToRestart);
const STEPS = {ArrowLeft: -1, ArrowRight: 1, PageUp: -10, PageDown: 10, Home: -1e9, End: 1e9};
document.addEventListener('keydown', event => {
    if (!(event.key in STEPS) || event.altKey || event.ctrlKey || event.metaKey || event.target.closest('select, #jump-number')) return;
    event.preventDefault();
    go(at + STEPS[event.key]);
});
document.body.dataset.ready = 'yes';
