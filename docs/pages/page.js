// Made by `bin/page --script` from bin/page.html, for the pages next to it.
document.head.insertAdjacentHTML('beforeend', "<style>\n/* Letters of the stack and of heads, --s, have 2 % of the height. */\n:root { --u: min(1.1vw, 1.72vh); --s: max(1rem, 2vh); --ink: #111; --faint: #666; --line: #999; --strong: #b33c00; }\nhtml { font-size: max(8px, var(--u)); }\n.two { --u: min(1.05vw, 1.36vh); }\n.big { --u: min(1.1vw, 1.47vh); --s: 1.13rem; }\nbody { margin: .6rem .8rem; color: var(--ink); background: #fff; font: 1.15rem/1.25 sans-serif; }\nheader { display: flex; flex-wrap: wrap; gap: .3rem .8rem; align-items: center; }\nh1 { font-size: 1.3rem; margin: 0; flex: 1; }\nh2 { font-size: max(1.05rem, 2vh); margin: 0; }\nbutton, select { font: inherit; padding: .1rem .5rem; }\n#said { font-size: 1.35rem; line-height: 1.2; margin: .3rem 0; min-height: 3.3rem; }\n#said .mono, #said .c { font-family: \"DejaVu Sans Mono\", \"Liberation Mono\", monospace; font-size: .95em; }\n#said .c { color: #444; white-space: nowrap; }\n#missing { font-size: 1.3rem; font-weight: bold; margin: .3rem 0; padding: .2rem .5rem; border: 3px solid var(--strong); }\n.mono, table, .box, .visible, .code, .frame { font-family: \"DejaVu Sans Mono\", \"Liberation Mono\", monospace; }\n#cores { display: flex; gap: 1.2rem; }\n.short, .big .long { display: none; }\n.big .short { display: inline; }\n@media (max-aspect-ratio: 3/2) {\n    .stack :not(:first-child) > * > .long, .stack th:not(:first-child) > .long { display: none; }\n    .stack :not(:first-child) > * > .short, .stack th:not(:first-child) > .short { display: inline; }\n    .box h3 .long { display: none; }\n    .box h3 .short { display: inline; }\n    .one:not(.big) .ring { grid-template-columns: repeat(5, 7.7rem); }\n    .one:not(.big) .code .windows { font-size: .8rem; }\n}\n.two .stack .long, .two .box h3 .long { display: none; }\n.two .stack .short, .two .box h3 .short { display: inline; }\n\n/* A wide screen has room for the frames next to the stack. */\n@media screen and (min-aspect-ratio: 3/2) {\n    .one:not(.big) { --u: min(1.04vw, 1.66vh); }\n    .one:not(.big) .core { display: grid; grid-template-columns: max-content max-content 1fr; }\n    .one:not(.big) .core > h2, .one:not(.big) .visible { grid-column: 1 / -1; }\n    .one:not(.big) .frames { width: auto; border-top: none; border-left: 2px solid #000; padding: 0 0 0 .6rem; }\n    .one:not(.big) .frames ol { flex-direction: column; max-height: 20rem; }\n    .one:not(.big) .frames li { white-space: normal; }\n    .one:not(.big) .frames li br { display: none; }\n    .one:not(.big) .stack td.frame-of { width: 5em; max-width: 5em; }\n}\n\n/* A core. The arrows lie on the colours of the boxes and cells, and behind all text. */\n.core { position: relative; isolation: isolate; flex: 1; min-width: 0; display: flex; flex-wrap: wrap; gap: .4rem 1rem; align-content: start; }\n.core > h2 { width: 100%; }\n.arrows { position: absolute; inset: 0; width: 100%; height: 100%; z-index: 1; pointer-events: none; }\n.arrows path { fill: none; stroke: #999; stroke-width: 1.5; }\n.arrows path.now { stroke: var(--strong); stroke-width: 3; }\n.box h3, .box div, .code, .stack td > span { position: relative; z-index: 2; }\n.box div:not(.new), .stack td:not(.new) > span { text-shadow: 0 0 2px #fff, 0 0 2px #fff, 0 0 3px #fff; }\n\n/* The ring: 16 boxes round the code, clockwise from the top left. */\n.ring { display: grid; grid-template-columns: repeat(5, 8rem); gap: .25rem; align-self: start; }\n.box { border: 2px solid #ccc; font-size: 1rem; line-height: 1.2; padding: 0 .15rem; background: #f4f4f4; }\n.box h3 { font: var(--s)/1.1 sans-serif; margin: 0; display: flex; justify-content: space-between; white-space: nowrap; color: #333; }\n.box h3 em, .key em { background: #000; color: #fff; font-style: normal; font-weight: bold; padding: 0 .1em; }\n.box.seen { border-color: #000; }\n.box.base { outline: 3px solid #000; }\n.box div, .visible div { white-space: pre; color: #444; display: flex; justify-content: space-between; }\n.box small, .visible small { font-size: 1em; }\n.visible div { gap: .5em; }\n.box.seen div, .visible div { color: #000; font-weight: bold; }\n.box div.marked { text-decoration: underline dotted 2px; }\ndiv.new, td.new { background: var(--strong) !important; color: #fff !important; font-weight: bold; }\n.code { grid-column: 2 / 5; grid-row: 2 / 5; font-size: 1rem; line-height: 1.28; padding: .2rem .4rem; overflow: hidden; white-space: pre; }\n.code .done { background: var(--strong); color: #fff; font-weight: bold; }\n.code .next { outline: 2px solid #000; font-weight: bold; }\n.code .c { color: #245; background: #eef2f6; }\n.code .windows { font: .86rem/1.7 sans-serif; }\n\n/* The sixteen registers that the core sees, in place of a ring that is folded away. */\n.visible { display: none; grid-auto-flow: column; grid-template-rows: repeat(8, auto); grid-auto-columns: max-content; gap: 0 2rem; width: 100%; border-top: 1px solid #999; font-size: 1.25rem; line-height: 1.25; }\n.folded .box, .folded .stack { display: none; }\n.folded .ring { display: block; width: 100%; }\n.folded .visible { display: grid; }\n.folded .core > h2 { white-space: nowrap; overflow: hidden; text-overflow: ellipsis; }\n.folded .code { min-height: 19.6em; font-size: 1.1rem; }\n\n/* The stack: a row of the table is 16 bytes. */\n.stack { align-self: start; }\n.stack table { border-collapse: collapse; font-size: var(--s); }\n.stack th { font: var(--s) sans-serif; color: #333; text-align: left; padding: 0 .15rem; }\n.stack td { padding: 0 .15rem; line-height: 1.2; white-space: pre; }\n.stack td.frame-of { font: var(--s) sans-serif; width: 4.4em; max-width: 4.4em; overflow: hidden; text-overflow: ellipsis; border-left: .3rem solid transparent; }\n.stack td.word { border: 1px solid #ddd; color: #333; }\n.stack td.live { border: 2px solid #000; }\n.stack td.saved { font-weight: bold; color: #000; }\n.stack td.stale { background: repeating-linear-gradient(135deg, #fff 0 3px, #bbb 3px 4px); color: #555; }\n.stack td.what { font: var(--s) sans-serif; min-width: 4.6em; }\n.stack tr.top td { border-top: 2px solid #555; }\n.pointer { font-weight: bold; }\n\n.frames { width: 100%; border-top: 2px solid #000; padding-top: .2rem; }\n.frames ol { display: flex; gap: .3rem; list-style: none; margin: .2rem 0; padding: 0; min-height: 4.3rem; overflow: hidden; }\n.frames li { border: 2px solid #555; padding: .1rem .4rem; font-size: .95rem; white-space: nowrap; }\n.frames li.top { border: 3px solid #000; font-weight: bold; }\n.frames li.more { border: none; align-self: center; }\n.frames.quiet ol { background: repeating-linear-gradient(135deg, #fff 0 8px, #ccc 8px 10px); opacity: .75; }\n.frames.nested ol { background: radial-gradient(#999 1px, #fff 1.5px) 0 0 / 7px 7px; }\n.frames ol:empty { display: none; }\n.frames .why { font-weight: bold; }\n#both { font-size: 1.1rem; margin: -.3rem 0 .5rem; display: flex; flex-wrap: wrap; gap: .2rem .4rem; max-height: 3.2rem; overflow: hidden; }\n#both[hidden] { display: none; }\n#both > span { border: 1px solid #999; padding: 0 .4rem; white-space: nowrap; }\n#both > span.new { background: var(--strong); color: #fff; }\n.two #said { min-height: 1.9rem; }\n\n/* The accesses of both cores, one below the other in the order of the bus. */\n#accesses { display: none; flex: none; }\n.folded #accesses { display: block; }\n#accesses table { border-collapse: collapse; font-size: 1.1rem; line-height: 1.3; }\n#accesses th { font: 1rem sans-serif; text-align: left; padding: 0 .35rem; }\n#accesses td { padding: 0 .35rem; white-space: pre; cursor: pointer; }\n#accesses td.side { border-left: 2px solid #000; }\n#accesses tr.later td { color: #aaa; }\n#accesses tr.now td { background: var(--strong); color: #fff; font-weight: bold; }\n\n#time svg { width: 100%; display: block; cursor: pointer; background: #fafafa; border: 1px solid #ccc; }\n#time text { font: 1rem sans-serif; }\n#time input { width: 100%; margin: .1rem 0; }\n#legend { font-size: .88rem; margin: .2rem 0; }\n#legend summary { font-weight: bold; }\n#legend p { margin: 0; }\n#legend span { margin-right: 1.1em; white-space: nowrap; }\n#signs { font-size: 1rem; margin-top: .5rem; }\n#signs td { padding: 0 .6rem; font-size: .95rem; }\n#signs a { color: inherit; }\n.key { display: inline-block; width: 1.2em; height: .9em; vertical-align: middle; border: 2px solid #000; }\n.key.sign { width: auto; height: auto; padding: 0 .2em; font-style: normal; line-height: 1; }\n\n/* For a projector. */\n.big body { margin: .3rem .7rem; }\n.big h2 { font-size: 1.2rem; }\n.big #said { font-size: 1.7rem; line-height: 1.15; min-height: 3.95rem; margin: .2rem 0; }\n.big .core { gap: .2rem .4rem; }\n.big .ring { grid-template-columns: repeat(5, 10.3rem); }\n.big .box div, .big .visible div { font-size: 1.6rem; line-height: 1.09; }\n.big .box small, .big .visible small { font-size: 1.02rem; word-spacing: -.6em; align-self: center; }\n.big .code { font-size: 1.36rem; }\n.big .code .windows { font-size: 1.1rem; line-height: 1.3; }\n.two .stack td.frame-of { width: 1.2em; max-width: 1.2em; }\n.big .stack td { padding: 0 .1rem; line-height: 1.29; }\n.big .stack td.frame-of { width: 1.1rem; max-width: 1.1rem; font-size: 1.2rem; text-overflow: clip; }\n.big .stack td.what { font-size: 1rem; min-width: 0; }\n.big .frames ol { min-height: 3.2rem; }\n.big .frames li { font-size: 1.15rem; line-height: 1.15; }\n.big #accesses table { font-size: 1.4rem; line-height: 1.2; }\n.big #both { font-size: 1.4rem; max-height: 2.1rem; }\n.big.folded .code { min-height: 20.6em; font-size: 1.16rem; }\n.big.folded .code .windows { font-size: .95rem; line-height: 1.5; }\n@media print {\n    * { print-color-adjust: exact; -webkit-print-color-adjust: exact; }\n    :root, .two, .big { --u: 8pt; }\n    .two #cores { display: block; }\n    .buttons, #time input { display: none; }\n    .core, #time { break-inside: avoid; }\n}\n</style>");
document.body.insertAdjacentHTML('afterbegin', "\n<header>\n    <h1 id=\"title\"></h1>\n    <div class=\"buttons\" role=\"toolbar\" aria-label=\"Walk through the run\">\n        <button id=\"signBack\" aria-label=\"the sign before (key up)\">&#8657; sign</button>\n        <button id=\"back\" aria-label=\"a step back (key left)\">&#8656; step</button>\n        <button id=\"play\" aria-label=\"play or stop (space)\">play</button>\n        <button id=\"next\" aria-label=\"a step on (key right)\">step &#8658;</button>\n        <button id=\"signNext\" aria-label=\"the next sign (key down)\">sign &#8659;</button>\n        <label title=\"steps a second\">speed <select id=\"speed\" aria-label=\"steps a second\"><option>1<option selected>3<option>10<option>30</select></label>\n        <button id=\"fold\" aria-label=\"the rings, or the accesses in their place (key r)\">rings</button>\n        <button id=\"large\" aria-label=\"letters for a projector (key b)\">big</button>\n    </div>\n</header>\n<details id=\"legend\" open><summary>Legend</summary><p></p></details>\n<p id=\"missing\" role=\"alert\" hidden></p>\n<p id=\"said\" aria-live=\"polite\"></p>\n<p id=\"both\" class=\"mono\" hidden></p>\n<main id=\"cores\"></main>\n<section id=\"time\" aria-label=\"Time: how deep the calls are at each position\">\n    <svg id=\"line\" role=\"img\"></svg>\n    <input id=\"slider\" type=\"range\" min=\"0\" value=\"0\" aria-label=\"position in the run\">\n</section>\n<details id=\"signs\"><summary>The signs as a list</summary><table></table></details>\n");
'use strict';

// ---- Small words.

const hex8 = n => (n >>> 0).toString(16).toUpperCase().padStart(8, '0');
const hex4 = n => n.toString(16).toUpperCase().padStart(4, '0');
const hex = n => n.toString(16).toUpperCase();
const escape = text => String(text).replace(/&/g, '&amp;').replace(/</g, '&lt;').replace(/"/g, '&quot;');
const element = id => document.getElementById(id);
const count = (n, what) => `${n.toLocaleString('en')} ${what}${n === 1 ? '' : 's'}`;
// Tints that the colour-blind tell apart; each frame has its number beside its colour as well.
const TINTS = ['#a6d8f7', '#f8ca74', '#8fdcc0', '#f5ef8a', '#e7b7d2', '#c9c9c9', '#b9b8f2', '#dcb894'];
const tint = frame => TINTS[frame % TINTS.length];
const UART = 0x3FF40000;
const printable = byte => byte >= 32 && byte < 127;
const character = byte => byte === 10 ? '\u23CE' : byte === 32 ? '\u2423' : printable(byte) ? String.fromCharCode(byte) : '\\x' + byte.toString(16).padStart(2, '0');
const register = (core, i) => core.ring[4 * core.wb + i & 63];

// ---- The lines that the program printed.

const SETTERS = {
    window: (run, words) => { [run.first, run.last, run.end] = words.map(Number); },
    options: (run, words) => { const [vecbase, ...ends] = words.map(Number); Object.assign(run, { vecbase, stacks: [ends.slice(0, 2), ends.slice(2)] }); },
    titled: (run, words) => { run.titled = words.join(' '); },
    moments: run => { run.moments = true; },
    fires: (run, words) => { run.fires.push({ k: words[0] - run.first, core: +words[1], timer: +words[2] }); },
    shown: (run, words) => { run.shown = words.length ? words.map(Number) : [0]; },
    accesses: run => { run.accesses = true; },
    big: run => { run.big = true; },
    handlers: (run, words) => { run.handlers = words.join(' '); },
    breach: (run, words) => { [run.breach, run.kind] = [+words[0], words[1]]; },
    uses: (run, words) => { run.uses = words.join(' '); },
    secrets: (run, words) => { run.secrets = words.join(' '); },
    code: (run, words) => { run.code.set(parseInt(words[0], 16), words.slice(1).join(' ')); },
    source: (run, words) => { const [n, name, place, text] = words.join(' ').split('\t'); run.sources[n] = { name, text: `${place.replace(/.*\//, '')} ${text}` }; },
    line: (run, words) => { run.lines.set(parseInt(words[0], 16), run.sources[words[1]]); },
    name: (run, words) => { run.names.push({ addr: parseInt(words[0], 16), size: +words[1], name: words.slice(2).join(' ') }); },
    seen: (run, words) => readSeen(run, words[0] - run.first, words.slice(1)),
};

function readLines(text) {
    const run = { code: new Map(), lines: new Map(), sources: [], names: [], turns: [], opening: [{}, {}], ends: [], ps: [[], []], words: new Map(), stale: new Map(), came: new Map(), sent: [], fires: [] };
    for (const line of text.split('\n')) {
        const [word, ...words] = line.split(' ');
        if (word in SETTERS) SETTERS[word](run, words);
        else if (/^[01] \d+ [0-9A-F]{8} /.test(line)) run.turns.push(readTurn(line));
    }
    run.addresses = [...run.code.keys()].sort((a, b) => a - b);
    run.names.sort((a, b) => a.addr - b.addr);
    // Where a core stands after a turn is where its next one begins.
    const next = run.ends.slice();
    for (const turn of run.turns.slice().reverse()) { turn.after = next[turn.core]; next[turn.core] = turn.pc; }
    return run;
}

// An answer of `regs`, `ring`, `frames` or `words` at a position.
function readSeen(run, k, words) {
    if (words[0] === 'core' && words.length === 2) run.speaks = run.opening[words[1]];
    else if (words[0] === 'core') {
        const [core, step, pc, ps, wb, ws] = [+words[1], +words[3], parseInt(words[5], 16), parseInt(words[7], 16), +words[9], parseInt(words[11], 16)];
        if (k === 0) Object.assign(run.opening[core], { step, pc, ps, wb, ws, ring: [] });
        run.ps[core].push([k, ps]);
        run.ends[core] = pc;
    } else if (/^\d+:$/.test(words[0])) words.slice(1, 5).forEach(word => run.speaks.ring.push(parseInt(word, 16)));
    else if (words[0] === 'frames') run.opening[words[1]].depth = words[2] === 'none' ? null : +words[3];
    else if (words[0] === 'words') words.slice(2).forEach((word, i) => { if (word[0] !== '-') run.words.set(parseInt(words[1], 16) + 4 * i, [[0, parseInt(word, 16)]]); });
}

// A line of `trace --frames`: C STEP PC KIND [aR=VALUE] [ACCESS] [| INSTRUCTION] [| wb W ws SSSS] | FRAMES.
function readTurn(line) {
    const [head, ...parts] = line.split(' | ');
    const [core, step, pc, kind, ...rest] = head.split(' ');
    const turn = { core: +core, step: +step, pc: parseInt(pc, 16), event: { kind }, text: '', access: null };
    if (/^(window|exc|int)$/.test(kind)) turn.event.n = +rest.shift();
    const written = /^a(\d+)=(.*)/.exec(rest[0] || '');
    if (written) { turn.written = { register: +written[1], value: parseInt(written[2], 16) }; rest.shift(); }
    if (rest.length) turn.access = readAccess(rest);
    turn.known = readFrames(parts.pop());
    for (const words of parts) {
        const windows = /^wb (\d+) ws (\w+)$/.exec(words);
        if (windows) turn.windows = { wb: +windows[1], ws: parseInt(windows[2], 16) }; else turn.text = words;
    }
    turn.words = turn.text.split(/[ ,]+/);
    return turn;
}

// `depth D [areas LOW+16 HIGH+N] [unset R ..] [marks R:K ..]`, or null for `no frames`.
function readFrames(words) {
    const [, depth, low, high, size, unset, marks] = /^depth (\d+)(?: areas (\w+)\+16 (\w+)\+(\d+))?(?: unset ([\d ]+?))?(?: marks (.+))?$/.exec(words) || [];
    if (!depth) return null;
    const numbers = text => text ? text.split(' ') : [], area = (register, from, size) => ({ register, from, to: from + size });
    const known = { depth: +depth, mask: 0xFFFF, marks: Array(16).fill(undefined), areas: low ? [area(0, parseInt(low, 16), 16)] : [] };
    if (+size) known.areas.push(area(4, parseInt(high, 16), +size));
    for (const register of numbers(unset)) known.mask &= ~(1 << register);
    for (const [register, mark] of numbers(marks).map(pair => pair.split(':'))) known.marks[register] = +mark;
    return known;
}

// ldS ADDR -> REPLY, stS ADDR VALUE, cas ADDR EXPECT NEW -> REPLY.
function readAccess([what, where, ...rest]) {
    const addr = parseInt(where, 16), numbers = rest.filter(word => word !== '->').map(word => parseInt(word, 16));
    const access = { addr, word: (addr & ~3) >>> 0, size: +what[2] || 4, swap: what === 'cas', load: what[0] === 'l', value: numbers[0], puts: what[0] === 's' ? numbers[0] : null };
    if (!access.swap) return access;
    const [expect, fresh, reply] = numbers;
    return { ...access, value: reply, fresh, puts: expect === reply ? fresh : null };
}

// What a list of [moment, value] says at a moment.
function latest(list, k) {
    let low = 0, high = list ? list.length : 0;
    while (low < high) {
        const middle = (low + high) >> 1;
        if (list[middle][0] <= k) low = middle + 1; else high = middle;
    }
    return low ? list[low - 1][1] : undefined;
}

function note(map, addr, k, value) {
    if (!map.has(addr)) map.set(addr, []);
    map.get(addr).push([k, value]);
}

// The name that an address belongs to; null where there is none.
function nameAt(addr) {
    let low = 0, high = run.names.length;
    while (low < high) {
        const middle = (low + high) >> 1;
        if (run.names[middle].addr <= addr) low = middle + 1; else high = middle;
    }
    // Of the names of one address the first; one whose size is known ends with it.
    let found = run.names[low - 1];
    for (let i = low - 2; i >= 0 && run.names[i].addr === found.addr && !(found.size && !run.names[i].size); i--) found = run.names[i];
    return found && (found.size ? addr < found.addr + found.size : addr >>> 16 === found.addr >>> 16) ? found : null;
}

// An address by its name, NAME or NAME+0xN; the address itself where it has none. A return address has the name of the
// call before it.
function named(addr, call = addr) {
    const found = nameAt(call);
    return found ? found.name + (addr > found.addr ? '+0x' + hex(addr - found.addr) : '') : hex8(addr);
}

const placed = addr => nameAt(addr) ? `${hex8(addr)} (${named(addr)})` : hex8(addr);

// ---- Moments: what there is at each position, and what the step before it did.

function momentsOf(run) {
    const moments = [], last = new Map();   // the last access to a word, by either core
    let cores = [0, 1].map(c => opening(run, c));
    moments.push({ k: 0, cores, core: null });
    run.turns.forEach((turn, i) => {
        const moment = { ...turn, k: i + 1 }, c = turn.core;
        moment.cores = cores.slice();
        moment.cores[c] = stepped(run, cores[c], moment);
        moment.broken = run.first + moment.k >= run.breach;
        share(run, moment, last);
        moment.sign = signOf(run, moment);
        cores = moment.cores;
        moments.push(moment);
    });
    return moments;
}

// A core at the first position: its frames are those of the ring, and then of the save areas.
function opening(run, c) {
    const core = { ...run.opening[c], c, mask: 0xFFFF, handler: null, nested: null, quiet: false, inside: false, raised: [], made: 0, low: null };
    core.frames = core.depth === null ? null : framesFrom(run, core, core.depth);
    core.low = follow(run, core);
    return core;
}

function framesFrom(run, { ring, ps, pc, wb, ws }, depth) {
    const frames = [];
    let base = ps & 16 && (pc - run.vecbase) >>> 0 < 0x180 ? ps >> 8 & 15 : wb;
    let [a0, sp, inside] = [ring[4 * base], ring[4 * base + 1], pc];
    for (let index = depth; index >= 0; index--) {
        const above = frames[0];
        frames.unshift({ index, sp, ret: a0, inside, kept: 0xFFFF, n: above && above.ret !== null ? above.ret >>> 30 : 0 });
        inside = a0 === null ? null : back(a0) - 1;
        if (sp === null || a0 === null || index === 0) { [a0, sp] = [null, null]; continue; }
        const under = (base - (a0 >>> 30)) & 15;
        if (base >= 0 && a0 >>> 30 && ws >> under & 1) { base = under; [a0, sp] = [ring[4 * base], ring[4 * base + 1]]; }
        else { base = -1; [a0, sp] = [sp - 16, sp - 12].map(addr => latest(run.words.get(addr), 0)).map(word => word === undefined ? null : word); }
    }
    return frames;
}

// The address to which a function returns, from the word that a0 holds there.
const back = a0 => (a0 & 0x3FFFFFFF | 0x40000000) >>> 0;

// A core after one of its steps.
function stepped(run, before, moment) {
    const { event, written, access, windows } = moment, did = event.kind === 'insn';
    const after = { ...before, ...windows, pc: moment.after, ps: latest(run.ps[moment.core], moment.k), step: moment.step + 1 };
    if (written) {
        moment.place = 4 * after.wb + written.register & 63;
        after.ring = before.ring.slice();
        after.ring[moment.place] = written.value;
    }
    // The exceptions and interrupts whose handlers are at work: RFE and RFI end the newest.
    if (event.kind === 'int' || event.kind === 'exc') after.raised = [...before.raised, event.kind];
    if (did && /^rf[ei]$/.test(moment.words[0])) after.raised = before.raised.slice(0, -1);
    if (event.kind === 'window') begin(before, after, moment);
    after.inside = before.nested !== null || before.handler !== null && event.kind === 'int' && event.n === 5;
    after.quiet = !after.inside && (before.handler !== null || after.handler !== null);
    if (after.quiet) { if (did) handle(before, after, moment); } else {
        after.made++;
        if (after.inside) nest(before, after, moment, did);
        else if (after.frames && moment.known) call(run, before, after, moment);
    }
    if (access && access.puts !== null) stored(run, after, moment);
    after.low = follow(run, after);
    return after;
}

// A window exception: a handler begins, which moves one frame.
function begin(before, after, moment) {
    const over = moment.event.n % 2 === 0;
    const inRing = [...Array(16).keys()].filter(i => before.ws >> i & 1).length;
    const depth = before.frames ? before.frames.length - 1 : null;
    after.handler = { over, n: (moment.event.n >> 1) + 1, frame: depth === null ? null : over ? depth - inRing + 1 : depth - 1, moved: [], from: moment.pc };
}

// A step of a window handler.
function handle(before, after, moment) {
    const handler = before.handler, access = moment.access;
    if (access && access.load !== handler.over) {
        const number = +moment.words[1].slice(1), place = 4 * before.wb + number & 63;
        after.handler = { ...handler, moved: [...handler.moved.filter(one => one.place !== place), { place, addr: access.addr }] };
        moment.moved = { ...access, place, number };
    }
    if (/^rfw[ou]$/.test(moment.words[0])) { moment.ended = handler; after.handler = null; }
}

// A step of an interrupt of level 5 in the middle of a window handler, in which a0 to a3 hold marks. RSR, WSR and XSR move
// them to special registers and back.
function nest(before, after, moment, did) {
    const marks = moment.known ? moment.known.marks : [], saved = before.nested ? { ...before.nested.saved } : {};
    const [word, name, special] = moment.words;
    if (did && word === 'rfi' && name === '5') { after.nested = null; return; }
    after.nested = { marks, saved };
    if (!did || !before.nested) return;
    if (/^[rwx]sr$/.test(word) && /^a[0-3]$/.test(name) && /^(excsave[1-7]|misc[0-3])$/.test(special)) {
        const t = +name.slice(1), [mark, kept] = [before.nested.marks[t], saved[special]];
        if (word !== 'rsr') saved[special] = mark;
        moment.carried = [word !== 'rsr' && mark !== undefined ? `mark ${mark} goes from a${t} to ${special}` : '', word !== 'wsr' && kept !== undefined ? `mark ${kept} goes from ${special} to a${t}` : ''].filter(text => text).join(', ');
    }
}

// The list of frames: one more after an ENTRY, and one less after a RETW.
function call(run, before, after, moment) {
    const known = moment.known, last = before.frames.length - 1;
    after.mask = known.mask;
    if (known.depth > last) {
        const callers = before.frames.slice(), n = before.ps >> 16 & 3;
        callers[last] = { ...callers[last], n, kept: before.mask & ((1 << 4 * n) - 1), areas: known.areas.map(area => ({ frame: last, ...area })) };
        after.frames = [...callers, { index: known.depth, sp: register(after, 1), ret: register(after, 0), inside: moment.pc, kept: 0, n: 0 }];
        moment.began = true;
    } else if (known.depth < last) {
        const [caller, gone] = before.frames.slice(-2);
        for (const area of areasOf(run, after, before.frames, caller.index)) for (let addr = area.from; addr < area.to; addr += 4) note(run.stale, addr, moment.k, 15);
        after.frames = [...before.frames.slice(0, -2), { ...caller, n: 0, areas: null }];
        moment.left = gone;
    }
}

// The save areas of a frame: those of its call's line, or where it called before the page by the same rule.
function areasOf(run, { c }, frames, index) {
    const frame = frames[index], callee = frames[index + 1], caller = frames[index - 1];
    if (!frame || !callee || !frame.n || callee.sp === null) return [];
    if (frame.areas) return frame.areas;
    const areas = [{ frame: index, register: 0, from: callee.sp - 16, to: callee.sp }];
    const top = index === 0 ? run.stacks[c][1] : caller.sp;
    if (frame.n > 1 && top) areas.push({ frame: index, register: 4, from: top - 16 * frame.n, to: top - 16 });
    return areas;
}

// A store: the word after it, what UART0 sends, and stale bytes that it sets.
function stored(run, after, moment) {
    const { addr, word, size, puts } = moment.access, k = moment.k;
    if (addr === UART) { run.sent.push([k, puts & 255]); return; }
    const mask = ((1 << size) - 1) << addr % 4, before = latest(run.words.get(word), k);
    if (before !== undefined) {
        const bits = size === 4 ? -1 : ((1 << 8 * size) - 1) << 8 * (addr % 4);
        note(run.words, word, k, (before & ~bits | puts << 8 * (addr % 4) & bits) >>> 0);
    }
    const stale = latest(run.stale.get(word), k);
    if (stale && !after.quiet) note(run.stale, word, k, stale & ~mask);
}

// Whether the other core was the last to come to this word, and one of the two stored.
function share(run, moment, last) {
    const access = moment.access;
    if (!access || !run.words.has(access.word)) return;
    const other = last.get(access.word), store = !access.load;
    if (other && other.core !== moment.core && (other.store || store)) moment.shared = other;
    note(run.came, access.word, moment.k, { core: moment.core, did: access.swap ? 'exchanged' : access.load ? 'loaded' : 'stored' });
    last.set(access.word, { core: moment.core, step: moment.step, store });
}

// The lowest row of the stack that is shown: the rows follow a1, or the words that a handler moves, and stay where
// neither is in the stack.
function follow(run, core) {
    const [bottom, top] = run.stacks[core.c], within = low => Math.max(bottom, Math.min(low, top - 16 * ROWS));
    const moved = core.handler && core.handler.moved.length ? core.handler.moved[core.handler.moved.length - 1].addr : null;
    const sp = core.frames && core.frames.length ? core.frames[core.frames.length - 1].sp : register(core, 1);
    const focus = ((moved === null ? sp : moved) & ~15) >>> 0;
    if (focus < bottom || focus > top) return core.low === null ? within(top) : core.low;
    if (core.low !== null && focus >= core.low + 32 && focus <= core.low + 16 * (ROWS - 4)) return core.low;
    return within(moved === null ? focus - 64 : focus - 8 * ROWS & ~15);
}

const SIGNS = {
    breach: ['\u2716', 'the breach'], uses: ['\u2717', 'what `uses` names'], secret: ['\u2605', 'the first step that uses a secret'], over: ['\u25BC', 'window overflow'], under: ['\u25B2', 'window underflow'],
    exc: ['\u25C6', 'exception'], int: ['\u26A1\uFE0E', 'interrupt'], shared: ['\u25CF', 'access to a word that the other core came to last'],
};

function signOf(run, moment) {
    if (run.breach === run.first + moment.k) return 'breach';
    if (run.uses && run.uses.endsWith(` core ${moment.core} step ${moment.step}`)) return 'uses';
    if (run.secrets === `leak core ${moment.core} step ${moment.step}`) return 'secret';
    const { kind, n } = moment.event;
    if (kind === 'window') return n % 2 ? 'under' : 'over';
    if (kind in SIGNS) return kind;
    return moment.shared ? 'shared' : null;
}

// ---- What stands on the screen.

const run = readLines(element('lines').textContent);
const html = document.documentElement;
const two = run.shown.length > 1;
html.classList.add(two ? 'two' : 'one');
// Two cores that call nothing have their rings folded away, and so have two cores with large letters, for which the
// screen has no room.
const calls = run.turns.some(({ event, text }) => event.kind === 'window' || /^(callx?(4|8|12)|retw)/.test(text));
html.classList.toggle('big', run.big === true);
html.classList.toggle('folded', run.accesses === true || two && (!calls || run.big === true));
const ROWS = two ? 8 : 18;
const moments = momentsOf(run);
const stops = moments.filter(moment => moment.core === null || run.shown.includes(moment.core));
const accesses = moments.filter(moment => moment.access);
const sides = [0, 1].filter(c => run.shown.includes(c) || accesses.some(one => one.core === c));
let here = 0, player = null;

// The place of each of the 16 boxes of the ring in the grid, clockwise from the top left: [column, row].
const PLACES = [[1, 1], [2, 1], [3, 1], [4, 1], [5, 1], [5, 2], [5, 3], [5, 4], [5, 5], [4, 5], [3, 5], [2, 5], [1, 5], [1, 4], [1, 3], [1, 2]];

function panel(c) {
    const section = document.createElement('section');
    section.className = 'core';
    section.setAttribute('aria-label', `core ${c}`);
    const boxes = PLACES.map(([column, row], g) => `<div class="box" data-group="${g}" style="grid-column:${column};grid-row:${row}"><h3></h3>${
        [0, 1, 2, 3].map(i => `<div data-core="${c}" data-place="${4 * g + i}"></div>`).join('')}</div>`).join('');
    section.innerHTML = `<h2></h2><div class="ring" role="group" aria-label="The ring of 64 registers of core ${c}">${boxes}<div class="code" role="group" aria-label="The code"></div></div>
        <div class="visible" role="group" aria-label="The registers that core ${c} sees">${'<div></div>'.repeat(16)}</div>
        <div class="stack"><table aria-label="The stack of core ${c}"></table></div>
        <div class="frames"><h2></h2><ol></ol></div><svg class="arrows" aria-hidden="true"></svg>`;
    element('cores').append(section);
    return { c, section };
}
const panels = run.shown.map(panel);
const list = document.createElement('section');
list.id = 'accesses';
panels[0].section.after(list);

// Which frame each of the 16 groups of registers belongs to, by the bits of WINDOWSTART.
function owners(core) {
    const top = core.handler ? core.ps >> 8 & 15 : core.wb;
    const own = Array(16).fill(null);
    const depth = core.frames ? core.frames.length - 1 : 0;
    const set = g => core.ws >> (g & 15) & 1;
    for (let d = 0; d < 4 && (d === 0 || !set(top + d)); d++) own[top + d & 15] = { frame: depth, base: top };
    for (let base = top, frame = depth - 1, turns = 0; turns < 16; frame--) {
        const back = [1, 2, 3].find(d => set(base - d));
        if (!back || (turns += back) >= 16) break;
        for (let d = back; d > 0; d--) own[base - d & 15] = { frame, base: base - back & 15 };
        base = base - back & 15;
    }
    // What an underflow is fetching.
    if (core.handler && !core.handler.over && core.handler.frame !== null) {
        for (let d = 0; d < core.handler.n; d++) own[core.wb + d & 15] = { frame: core.handler.frame, base: core.wb, fetched: core.handler.moved };
    }
    return own;
}

const framesInRing = core => new Set(owners(core).filter(owner => owner && !owner.fetched).map(owner => owner.frame));

// Whether a register of the ring has a value in the machine with unbounded frames.
function hasValue(core, owner, place) {
    if (!core.frames) return true;
    if (!owner) return false;
    if (owner.fetched) return owner.fetched.some(one => one.place === place);
    const frame = core.frames[owner.frame];
    const i = (place - 4 * owner.base) & 63;
    return i < 16 && frame !== undefined && ((owner.frame === core.frames.length - 1 ? core.mask : frame.kept) >> i & 1) === 1;
}

function drawRing({ c, section }, moment, gone) {
    const core = moment.cores[c], own = owners(core), changed = moment.core === c ? moment.place : undefined;
    const frames = gone ? null : core.frames, shown = { ...core, frames };
    const visible = section.querySelector('.visible').children;
    section.querySelectorAll('.box').forEach((box, g) => {
        const seen = (g - core.wb & 15) < 4, base = g === core.wb, bit = core.ws >> g & 1;
        box.className = 'box' + (seen ? ' seen' : '') + (base ? ' base' : '');
        box.style.background = own[g] ? (frames ? tint(own[g].frame) : '#ddd') : '#f4f4f4';
        box.firstChild.innerHTML = `<span>${base ? `<em>${g}</em>` : g}${bit ? '\u2691' : ''}</span><span>${own[g] ? (frames ? both('frame ', 'fr ') + own[g].frame : both('a frame', '')) : 'free'}</span>`;
        box.setAttribute('aria-label', `group ${g}${bit ? ', bit of WINDOWSTART set' : ''}${base ? ', WINDOWBASE' : ''}`);
        for (let i = 0; i < 4; i++) {
            const cell = box.children[1 + i], place = 4 * g + i, number = place - 4 * core.wb & 63;
            const nested = !gone && core.nested !== null && base, mark = nested ? core.nested.marks[i] : undefined;
            const has = nested || hasValue(shown, own[g], place) || place === changed;
            cell.innerHTML = `<small>${(seen ? 'a' + number : '').padEnd(4)}</small><span>${(has ? hex8(core.ring[place]) : '-').padEnd(8)}</span>`;
            cell.className = place === changed ? 'new' : mark !== undefined ? 'marked' : '';
            cell.title = mark !== undefined ? `mark ${mark}: what the window handler had in a${mark} when the interrupt came` : has ? '' : `no value: ${hex8(core.ring[place])} is left over here`;
            cell.dataset.value = hex8(core.ring[place]);
            if (seen) for (const name of ['innerHTML', 'className', 'title']) visible[number][name] = cell[name];
        }
    });
}

// The rows of code round an address, so many before it and behind it: labels and lines of C stand above instructions.
function codeRows(addr, before, behind, row) {
    const middle = run.addresses.indexOf(addr), rows = [];
    let line, at = 0;
    for (let i = Math.max(0, middle - before - 2); i < run.addresses.length && i <= middle + behind; i++) {
        const now = run.addresses[i], label = run.names.find(name => name.addr === now), from = run.lines.get(now);
        const head = label ? `<i>${escape(label.name)}:</i> ` : '';
        if (from && from !== line) rows.push(`<span class="c" title="${escape(from.text)}">${head}${escape(from.text)}</span>`);
        else if (label) rows.push(head);
        line = from;
        if (i === middle) at = rows.length;
        rows.push(row(now));
    }
    return rows.slice(Math.max(0, at - before), at + behind + 1);
}

function drawCode({ c, section }, moment) {
    const core = moment.cores[c], done = moment.core === c ? moment.pc : null;
    const row = addr => `<span class="${addr === done ? 'done' : ''}${addr === core.pc ? ' next' : ''}">${addr === core.pc ? '\u25B6' : ' '} ${hex8(addr)} ${escape(run.code.get(addr))}</span>`;
    const known = run.code.has(core.pc), middle = run.code.has(done) ? done : known ? core.pc : null;
    let rows = middle === null ? [] : codeRows(middle, 5, 8, row);
    // Where the next instruction is far from the step's, it stands by itself.
    if (known && !rows.some(text => text.includes(' next"'))) rows = [...codeRows(middle, 4, 3, row), '  \u22EE', ...codeRows(core.pc, 1, 3, row)];
    if (!known) rows.push(`<span class="next">\u25B6 ${hex8(core.pc)}</span> is in no segment of code`);
    section.querySelector('.code').innerHTML = `<div class="windows">WINDOWBASE <b>${core.wb}</b> WINDOWSTART <b>${hex4(core.ws)}</b> ${run.moments ? '' : `PS <b>${hex8(core.ps)}</b>`}</div>` + rows.slice(0, 14).join('\n');
}

function drawStack({ c, section }, moment, gone) {
    const core = moment.cores[c], frames = !gone && core.frames ? core.frames : [];
    const low = core.low, high = run.stacks[c][1], inRing = framesInRing(core), areas = new Map();
    frames.forEach(frame => areasOf(run, core, frames, frame.index).forEach(area => { for (let addr = area.from; addr < area.to; addr += 16) areas.set(addr, { ...area, register: area.register + (addr - area.from) / 4 }); }));
    const rows = [];
    for (let row = Math.min(low + 16 * ROWS, high) - 16; row >= low; row -= 16) {
        const frame = frames.find((one, j) => one.sp !== null && row >= one.sp && row < (j ? frames[j - 1].sp : high));
        const area = areas.get(row);
        rows.push(stackRow(c, moment, core, { row, frames, frame, area, saved: area && !inRing.has(area.frame), high }));
    }
    section.querySelector('.stack table').innerHTML = `<thead><tr><th>${both('frame', '')}<th><th>${both('address', hex(high - 1 >>> 16) + '..')}${[0, 4, 8, 12].map(i => `<th>+${hex(i)}`).join('')}<th>${both('save area', 'area')}</thead>${rows.join('')}`;
}

// A text, and what stands in its place where the letters are large.
const both = (long, short) => `<span class="long">${long}</span><span class="short">${short}</span>`;

// A row of 16 bytes: the frame's box, the address, the words, the save area.
function stackRow(c, moment, core, { row, frames, frame, area, saved, high }) {
    const end = frame ? (frame.index ? frames[frame.index - 1].sp : high) : 0;
    const first = frame && row === end - 16, last = frame && row === frame.sp;
    const about = frame ? aboutFrame(frame, end - frame.sp, (end - 16 - row) / 16) : '';
    const values = [0, 4, 8, 12].map(i => latest(run.words.get(row + i), moment.k));
    const words = values.map((value, i) => {
        const addr = row + 4 * i, stale = latest(run.stale.get(addr), moment.k), link = addr === high - 76 && frames.length;
        const set = moment.access && moment.access.puts !== null && moment.access.word === addr;
        const kind = set ? 'new' : area || link ? saved ? 'live saved' : 'live' : stale ? 'stale' : '';
        const colour = area ? `background:${tint(area.frame)}${saved ? '' : '55'}` : '';
        return `<td class="word ${kind}" style="${colour}" data-core="${c}" data-addr="${hex8(addr)}"><span>${value === undefined ? '........' : hex8(value)}</span></td>`;
    }).join('');
    const stale = [0, 4, 8, 12].some(i => latest(run.stale.get(row + i), moment.k));
    const registers = area ? [`a${area.register}\u2013a${area.register + 3} of ${area.frame}`, `a${area.register}\u2013${area.register + 3} of ${area.frame}`] : null;
    const what = area ? both(saved ? registers[0] + ' saved' : 'for ' + registers[0], saved ? `<b>${registers[1]}</b>` : registers[1])
        : row <= high - 76 && high - 76 < row + 16 && frames.length ? both('link word', 'link') : stale ? 'stale' : escape(textOf(values));
    const pointer = row === (register(core, 1) & ~15) >>> 0 && !core.handler || last && frame === frames[frames.length - 1] ? '\u25B8' : '';
    return `<tr class="${first ? 'top' : ''}"><td class="frame-of" title="${frame ? escape(`frame ${frame.index} ${nameOf(frame)}, ${end - frame.sp} bytes ${backOf(frame)}`) : ''}" style="${frame ? `border-left-color:${tint(frame.index)};background:${tint(frame.index)}66` : ''}"><span>${about}</span></td>
        <td class="pointer"><span>${pointer}</span></td><td><span>${both(hex8(row), hex4(row & 0xFFFF))}</span></td>${words}<td class="what"><span>${what}</span></td></tr>`;
}

// The bytes of four words as a text, where at least two letters follow each other.
function textOf(values) {
    const bytes = values.flatMap(value => [0, 8, 16, 24].map(bit => value === undefined ? 0 : value >>> bit & 255));
    const text = bytes.map(byte => printable(byte) ? String.fromCharCode(byte) : '.').join('');
    return bytes.some((byte, i) => printable(byte) && printable(bytes[i + 1])) ? text.replace(/\.+$/, '') : '';
}

// What a row of a frame's box says, by its place from the top: number and name, size, return address.
function aboutFrame(frame, size, line) {
    const name = nameOf(frame), number = `<b>${frame.index}</b>`, rows = [`${number} ${escape(name)}`, `${size} bytes`, escape(backOf(frame))];
    if (size === 32) rows.splice(0, 2, `${number} ${escape(name || '32 bytes')}`);
    return both(rows[line] || '', line === 0 ? number : '');
}

const nameOf = frame => frame.inside === null || frame.inside === undefined ? '' : nameAt(frame.inside) ? nameAt(frame.inside).name : frame.index ? hex8(frame.inside) : '';
const backOf = frame => frame.ret !== null && frame.index && frame.ret << 2 ? `to ${named(back(frame.ret), back(frame.ret) - 1)}` : '';

// The machine with unbounded frames.
function drawFrames({ c, section }, moment, broken) {
    const core = moment.cores[c], part = section.querySelector('.frames');
    const why = noFrames(core, broken);
    const quiet = moment.core === c && core.quiet;
    part.classList.toggle('quiet', quiet && !why);
    part.classList.toggle('nested', core.nested !== null && !why);
    part.querySelector('h2').innerHTML = why ? `<span class="why">${escape(why)}</span>`
        : `The machine with unbounded frames: ${count(core.frames.length - 1, 'call')} deep${run.first ? '' : `, ${count(core.made, 'step')} made`}. ${quiet ? '<b>Nothing happens here: the window handler is at work.</b>' : core.nested ? nestedText(core) : ''}`;
    if (why) { part.querySelector('ol').innerHTML = ''; return; }
    const [folded, big] = ['folded', 'big'].map(name => html.classList.contains(name));
    const most = two ? folded ? big ? 2 : 3 : 5 : big ? 7 : 9, from = Math.max(0, core.frames.length - most);
    const inRing = framesInRing(core);
    part.querySelector('ol').innerHTML = (from ? `<li class="more">${from} more \u2026</li>` : '') + core.frames.slice(from).map(frame => {
        const top = frame.index === core.frames.length - 1;
        const under = top ? core.nested ? 'is kept' : 'runs' : `keeps a0\u2013a${4 * frame.n - 1}`;
        const caller = core.frames[frame.index - 1];
        const size = frame.sp === null ? '' : (caller ? caller.sp : run.stacks[c][1]) - frame.sp + ' bytes';
        return `<li class="${top ? 'top' : ''}" style="background:${tint(frame.index)}">${frame.index} ${escape(nameOf(frame))}<br> ${size}<br> ${under}${inRing.has(frame.index) ? '' : ' (in memory)'}</li>`;
    }).join('');
}

// A nested interrupt, in which the frames stand as they did before the instruction of the window exception.
function nestedText({ nested: { marks, saved }, handler }) {
    const held = [...marks.map((mark, i) => ['a' + i, mark]), ...Object.entries(saved)].filter(([, mark]) => mark !== undefined);
    return `<b>An interrupt inside the window handler, which this machine takes before ${hex8(handler.from)}.</b> ${held.length ? 'Marks: ' + held.map(([name, mark]) => `${mark} in ${name}`).join(', ') : 'No marks'}.`;
}

// Why there is no list of frames at a moment; empty where there is one.
function noFrames(core, broken) {
    if (broken) return `The machine with unbounded frames ends here: ${breachText()}.`;
    if (core.frames) return '';
    if (run.moments) return 'No frames: xt does not judge orders with moments.';
    if (!/^(\S+ yes ?){6}$/.test(run.handlers.trim())) return `No frames: a window handler does not pass its check (${run.handlers}).`;
    return 'No frames: a breach stands before the first step of this page.';
}

function breachText() {
    const moment = moments[run.breach - run.first];
    return `step ${moment.step} of core ${moment.core} is a breach, ${run.kind || 'of a kind that \u2018uses\u2019 passes: Unset, StaleLoad or Movsp'}`;
}

// ---- What the step did, in words.

function sentence(moment) {
    if (moment.core === null) return (run.end === 0 ? 'This run is empty: no core made a step.' : `Position ${run.first}: before the first step of this page.`) + firesText(moment);
    const head = `Position ${run.first + moment.k}, after step ${moment.step} of core ${moment.core}: <b class="mono">${hex8(moment.pc)} ${escape(moment.text || '?')}</b>`;
    const from = run.lines.get(moment.pc);
    return `${head} \u2014 ${escape(effect(moment))}${moment.sign === 'breach' ? `. <b>S${escape(breachText()).slice(1)}</b>` : moment.sign === 'uses' ? `. <b>\u2018uses\u2019 names this step: ${escape(run.uses)}</b>` : moment.sign === 'secret' ? '. <b>It uses a bit that depends on a secret</b>' : ''}`
        + (from ? ` <span class="c">${escape(from.name)} ${escape(from.text)}</span>` : '') + firesText(moment);
}

// Which timers fire at a moment, before the next turn.
const firesAt = moment => run.fires.filter(fire => fire.k === moment.k && run.shown.includes(fire.core));
const firesText = moment => firesAt(moment).map(fire => ` <b>Timer ${fire.timer} of core ${fire.core} fires here.</b>`).join('');

function effect(moment) {
    const core = moment.cores[moment.core], { kind, n } = moment.event;
    if (kind === 'window') return windowText(core);
    if (kind === 'exc') return `not executed: exception, cause ${n}, to ${placed(core.pc)}`;
    if (kind === 'int') return `not executed yet: interrupt of level ${n}${core.inside ? ' inside the window handler' : ''}, to ${placed(core.pc)}`;
    if (kind === 'wait') return 'not executed: the core waits';
    if (kind === 'stop') return 'the core stops';
    if (core.inside && !core.nested) return `the interrupt is done, and the window handler goes on at ${named(core.pc)}`;
    if (moment.ended) return `the handler is done: frame ${moment.ended.frame} is ${moment.ended.over ? 'in memory' : 'in the ring'}, and the instruction is tried again`;
    if (moment.moved) return `the handler ${moment.moved.load ? 'loads' : 'stores'} a${moment.moved.number} of frame ${core.handler ? core.handler.frame : '?'} ${moment.moved.load ? 'from' : 'at'} ${hex8(moment.moved.addr)}`;
    if (moment.began) return `a call begins: frame ${core.frames.length - 1}, the window moves by ${core.frames[core.frames.length - 2].n}, a1 = ${hex8(register(core, 1))}`;
    if (moment.left) return `back to frame ${core.frames.length - 1}, at ${named(core.pc)}`;
    return [accessText(moment), moment.carried || writtenText(moment, core)].filter(text => text).join('; ');
}

function windowText(core) {
    const { over, n, frame } = core.handler, which = frame === null ? 'a frame' : `frame ${frame}`;
    return over ? `not executed: it names a register that ${which} still has. Overflow${4 * n}: a handler puts a0 to a${4 * n - 1} of ${which} into memory`
        : `not executed: ${which}, to which it returns, is not in the ring. Underflow${4 * n}: a handler fetches a0 to a${4 * n - 1} of ${which}`;
}

// The letter that a byte is, if it is one; a value of so many bytes.
const letter = (value, size) => size === 1 && printable(value) ? ` '${String.fromCharCode(value)}'` : '';
const valueText = (value, size) => hex(value).padStart(2 * size, '0') + letter(value, size);

function accessText(moment) {
    const access = moment.access;
    if (!access) return '';
    const { addr, size, value } = access, at = placed(addr);
    const where = addr === UART && !access.load ? `UART0 sends ${character(value & 255)}`
        : access.swap ? `at ${at} ${access.puts === null ? `finds ${hex8(value)} and stores nothing` : `exchanges ${hex8(value)} for ${hex8(access.fresh)}`}`
            : `${access.load ? 'loads' : 'stores'} ${valueText(value, size)} ${access.load ? 'from' : 'at'} ${at}`;
    return where + (moment.shared ? `, where core ${moment.shared.core} was before (its step ${moment.shared.step})` : '');
}

function writtenText(moment, core) {
    if (moment.written) return `a${moment.written.register} = ${hex8(moment.written.value)}`;
    return moment.access ? '' : `goes on at ${named(core.pc)}`;
}

function sentText(k) {
    const sent = run.sent.filter(([when]) => when <= k).map(([, byte]) => character(byte)).join('');
    return sent.length > 60 ? '\u2026' + sent.slice(-60) : sent;
}

// The words to which both cores come, most often first to last: their value, and who came last.
const met = [...run.came].filter(([, came]) => new Set(came.map(([, who]) => who.core)).size > 1).sort((a, b) => b[1].length - a[1].length).slice(0, 5);

function drawBoth(moment) {
    element('both').hidden = met.length === 0;
    element('both').innerHTML = met.map(([addr, came]) => {
        const value = latest(run.words.get(addr), moment.k), who = latest(came, moment.k);
        const now = moment.access && moment.access.word === addr;
        return `<span class="${now ? 'new' : ''}">${nameAt(addr) ? escape(named(addr)) + both(' ' + hex8(addr), '') : hex8(addr)} <b>${value === undefined ? '?' : hex8(value)}</b>${who ? ` core ${who.core} ${who.did}` : ''}</span>`;
    }).join('');
}

// The accesses round a moment, in the order of the bus, each in the columns of its core.
function drawAccesses(moment) {
    if (!html.classList.contains('folded')) return;
    let at = accesses.findIndex(one => one.k > moment.k);
    if (at < 0) at = accesses.length;
    const most = html.classList.contains('big') ? 21 : 25, from = Math.max(0, Math.min(at - most + 7, accesses.length - most));
    const rows = accesses.slice(from, from + most).map(one => {
        const { addr, size, value, load, swap, puts, fresh } = one.access;
        const what = [load ? 'load' : swap ? 'swap' : 'store', named(addr), swap ? puts === null ? `${hex(value)}, kept` : `${hex(value)}\u2192${hex(fresh)}` : hex(value) + letter(value, size)];
        const cells = sides.map(c => c === one.core ? `<td class="side">${what[0]}<td>${escape(what[1])}${one.shared ? ' \u25CF' : ''}<td>${what[2]}` : '<td class="side"><td><td>').join('');
        return `<tr data-k="${one.k}" class="${one.k > moment.k ? 'later' : one.k === moment.k ? 'now' : ''}"><td>${run.first + one.k}${cells}`;
    });
    list.innerHTML = `<h2>Accesses in their order</h2><table><thead><tr><th>position${sides.map(c => `<th colspan="3">core ${c}`).join('')}</thead>${rows.join('') || '<tr><td>none'}</table>`;
}

// ---- Arrows from the registers of a frame to its words, as far as the handler has come.

function drawArrows({ section, c }, moment) {
    const svg = section.querySelector('.arrows'), core = moment.cores[c];
    const handler = core.handler || (moment.core === c && moment.ended) || null;
    if (!handler || html.classList.contains('folded')) { svg.innerHTML = ''; return; }
    const box = section.getBoundingClientRect();
    const paths = handler.moved.map(({ place, addr }) => {
        const cell = section.querySelector(`[data-place="${place}"]`), word = section.querySelector(`[data-addr="${hex8(addr)}"]`);
        if (!word) return '';
        const [a, b] = [cell, word].map(one => one.getBoundingClientRect());
        const from = [a.right - box.left - 4, a.top - box.top + a.height / 2], to = [b.left - box.left + b.width / 2, b.top - box.top + 1];
        const bends = [[from[0] + 60, from[1]], [to[0], to[1] - 70]];
        const [start, first, second, end] = handler.over ? [from, ...bends, to] : [to, ...bends.reverse(), from];
        const now = moment.core === c && moment.moved && moment.moved.place === place ? 'now' : '';
        return `<path class="${now}" d="M${start} C${first} ${second} ${end}" marker-end="url(#tip${c}${now})"/>`;
    });
    const tip = (id, colour) => `<marker id="${id}" markerUnits="userSpaceOnUse" markerWidth="12" markerHeight="12" refX="10" refY="5" orient="auto"><path d="M0,0 L11,5 L0,10 Z" style="fill:${colour};stroke:none"/></marker>`;
    svg.innerHTML = `<defs>${tip(`tip${c}`, '#555')}${tip(`tip${c}now`, '#b33c00')}</defs>${paths.join('')}`;
}

// ---- Time.

const timeX = k => (1.5 + 97 * k / Math.max(1, moments.length - 1)).toFixed(3) + '%';

function drawTime() {
    const total = Math.max(1, moments.length - 1), big = html.classList.contains('big'), lane = two ? big ? 40 : 46 : 62;
    const parts = [`<defs><pattern id="hatch" width="6" height="6" patternUnits="userSpaceOnUse" patternTransform="rotate(45)"><rect width="6" height="6" fill="#ddd"/><rect width="2" height="6" fill="#777"/></pattern><pattern id="dots" width="6" height="6" patternUnits="userSpaceOnUse"><rect width="6" height="6" fill="#eee"/><circle cx="3" cy="3" r="1.5" fill="#777"/></pattern><pattern id="shade" width="6" height="6" patternUnits="userSpaceOnUse"><rect width="6" height="6" fill="#f6dcc8"/></pattern></defs>`];
    const wide = d => (97 * d / total).toFixed(3) + '%', signs = [];
    run.shown.forEach((c, n) => {
        const at = n * lane, floor = at + lane - 4, height = lane - 26;
        const depths = moments.map(moment => moment.broken || !moment.cores[c].frames ? null : moment.cores[c].frames.length - 1);
        const most = Math.max(1, ...depths.filter(depth => depth !== null));
        // Runs of moments that are alike: how deep, and whether a handler is at work, or an interrupt inside it.
        const work = k => {
            const core = moments[k].cores[c], own = moments[k].core === c;
            if (own ? core.inside : core.nested !== null) return 'dots';
            if (own ? core.quiet : core.handler !== null) return 'hatch';
            return core.raised.includes('int') ? 'shade' : '';
        };
        for (let k = 0, from = 0; k < moments.length; k++) {
            if (k + 1 < moments.length && depths[k + 1] === depths[from] && work(k + 1) === work(from)) continue;
            const depth = depths[from], tall = depth === null ? 0 : 3 + (height - 3) * depth / most;
            if (work(from)) parts.push(`<rect x="${timeX(from - .5)}" width="${wide(k + 1 - from)}" y="${at + 20}" height="${floor - at - 20}" fill="url(#${work(from)})"/>`);
            parts.push(`<rect x="${timeX(from - .5)}" width="${wide(k + 1 - from)}" y="${floor - tall}" height="${tall}" fill="#2f6ea5"${work(from) ? ' opacity=".55"' : ''}/>`);
            from = k + 1;
        }
        moments.forEach(moment => { if (moment.sign && moment.core === c) signs.push(`<text x="${timeX(moment.k)}" y="${at + 16}" text-anchor="middle"${moment.sign === 'breach' ? ' fill="#b33c00" font-weight="bold"' : ''}>${SIGNS[moment.sign][0]}</text>`); });
        run.fires.filter(fire => fire.core === c && fire.k < moments.length).forEach(fire => signs.push(`<line x1="${timeX(Math.min(fire.k + .5, total))}" x2="${timeX(Math.min(fire.k + .5, total))}" y1="${at + 18}" y2="${floor}" stroke="#111" stroke-width="2" stroke-dasharray="4 2"/><text x="${timeX(Math.min(fire.k + .5, total))}" y="${at + 16}" text-anchor="end" font-weight="bold">T${fire.timer}</text>`));
        if (depths.some(depth => depth !== null)) parts.push(`<text x="2" y="${floor - height + 8}" fill="#555">${most}</text>${height > 18 ? `<text x="2" y="${floor}" fill="#555">0</text>` : ''}`);
        if (two) parts.push(`<text x="2" y="${at + 15}" font-weight="bold">${c}</text>`);
    });
    parts.push('<line id="cursor" y1="0" y2="100%" stroke="#b33c00" stroke-width="2"/>', ...signs);
    const svg = element('line');
    svg.style.height = lane * run.shown.length + 'px';
    svg.innerHTML = parts.join('');
    svg.setAttribute('aria-label', `How deep the calls of ${run.shown.map(c => 'core ' + c).join(' and ')} are at positions ${run.first} to ${run.last}`);
    svg.onclick = event => {
        const box = svg.getBoundingClientRect();
        seekMoment(Math.round(((event.clientX - box.left) / box.width - .015) / .97 * total));
    };
}

// What each sign of the page means, as far as the page can have it.
function drawLegend() {
    const folded = html.classList.contains('folded'), framed = moments[0].cores.some(core => core.frames);
    const key = (style, text, inside = '') => `<span><i class="key" style="${style}">${inside}</i> ${text}</span>`;
    const sign = (style, text, inside) => `<span><i class="key sign" style="${style}">${inside}</i> ${text}</span>`;
    const hatch = (a, b, from, to) => `background:repeating-linear-gradient(135deg,${a} 0 ${from}px,${b} ${from}px ${to}px)`;
    const signs = Object.keys(SIGNS).filter(name => moments.some(moment => moment.sign === name)).map(name => `<span>${SIGNS[name][0]} ${SIGNS[name][1]}</span>`);
    signs.push(key('background:var(--strong)', 'what the step changed, and its instruction'), sign('outline:1px solid #000;border:none', 'the next instruction', '\u25B6'));
    if (!folded) {
        signs.push(sign('border:none', 'a group number on black: WINDOWBASE names this group, which has a0 to a3', '<em>14</em>'), key('', 'a box of the ring with a black edge: the core sees its registers'), '<span>\u2691 its bit of WINDOWSTART is set</span>');
        if (framed) {
            signs.push(key(`border-color:#ccc;background:${tint(0)}`, 'of frame 0; each frame has a colour'), '<span>- a register without a value</span>', '<span><b>\u25B8</b> the stack pointer, a1</span>');
            signs.push(key(`background:${tint(1)}55`, 'a word with a black edge: save area of frame 1, whose registers are in the ring'), key(`background:${tint(1)}`, 'they are saved here'));
            signs.push(key('border-color:#bbb;' + hatch('#fff', '#bbb', 3, 4), 'stale: of a save area that is gone'), '<span><b>link word</b> the end of the stack, for the handlers of frame 0</span>');
        } else signs.push('<span><b>\u25B8</b> the stack pointer, a1</span>');
    }
    if (moments.some(moment => moment.cores.some(core => core.quiet))) signs.push(key(hatch('#ddd', '#777', 3, 5), 'a window handler is at work'));
    if (moments.some(moment => moment.cores.some(core => core.raised.includes('int')))) signs.push(key('border-color:#f6dcc8;background:#f6dcc8', 'in the time line: the handler of an interrupt is at work'));
    for (const timer of new Set(run.fires.map(fire => fire.timer))) signs.push(`<span><b>T${timer}</b> timer ${timer} fires</span>`);
    if (moments.some(moment => moment.cores.some(core => core.inside))) signs.push(key('background:radial-gradient(#777 1px,#eee 1.5px) 0 0/5px 5px', 'an interrupt inside it'), '<span><u style="text-decoration:underline dotted 2px">a2</u> a mark</span>');
    if (folded) signs.push('<span>load, store and swap (S32C1I) with the value in hexadecimal digits; 0\u21921 found 0 and stored 1; 1, kept found 1 and stored nothing</span>');
    signs.push('<span>keys: left, right a step; up, down a sign; space plays; r rings; b big</span>');
    element('legend').querySelector('p').innerHTML = signs.join(' ');
}

function listSigns() {
    const rows = moments.filter(moment => moment.sign && run.shown.includes(moment.core)).slice(0, 2000).map(moment =>
        `<tr><td><a href="#${run.first + moment.k}">${run.first + moment.k}</a><td>after step ${moment.step} of core ${moment.core}<td class="mono">${hex8(moment.pc)} ${escape(moment.text)}<td>${SIGNS[moment.sign][0]} ${SIGNS[moment.sign][1]}`);
    element('signs').querySelector('table').innerHTML = rows.join('') || '<tr><td>none';
}

// ---- Going to a moment.

function show() {
    const moment = stops[here];
    // At the breach itself the frames still stand, to show what it does; after it nothing is said of them.
    const broken = moment.broken === true, gone = broken && run.breach !== run.first + moment.k;
    element('said').innerHTML = sentence(moment);
    drawBoth(moment);
    drawAccesses(moment);
    for (const view of panels) {
        const core = moment.cores[view.c];
        view.section.querySelector('h2').textContent = `Core ${view.c}: ${count(core.step, 'step')} made` + (view === panels[0] ? `. UART0 sent${run.first ? ' on this page' : ''}: ${sentText(moment.k) || 'nothing'}` : '');
        drawRing(view, moment, gone);
        drawCode(view, moment);
        drawStack(view, moment, gone);
        drawFrames(view, moment, broken);
        drawArrows(view, moment);
    }
    element('slider').value = here;
    const cursor = element('cursor');
    cursor.setAttribute('x1', timeX(moment.k));
    cursor.setAttribute('x2', timeX(moment.k));
}

function seek(to) {
    here = Math.max(0, Math.min(stops.length - 1, to));
    element('missing').hidden = true;
    show();
    clearTimeout(seek.later);
    seek.later = setTimeout(() => {
        seek.hash = '#' + (run.first + stops[here].k);
        if (location.hash !== seek.hash) location.replace(seek.hash);
    }, 200);
}
const seekMoment = k => { const found = stops.findIndex(moment => moment.k >= k); seek(found < 0 ? stops.length - 1 : found); };

// The part of the page's address behind #: a position, or core/step. One that is not here is told, and stays there.
function fromHash() {
    if (location.hash === seek.hash || location.hash.length < 2) return;   // the page wrote it itself, or there is none
    const place = decodeURIComponent(location.hash.slice(1)), step = /^([01])\/(\d+)$/.exec(place);
    const k = /^\d+$/.test(place) ? +place - run.first : -1;
    const found = step ? stops.findIndex(moment => moment.core === +step[1] && moment.step === +step[2]) : k <= run.last - run.first ? stops.findIndex(moment => moment.k >= k && k >= 0) : -1;
    if (found >= 0) { seek(found); return; }
    clearTimeout(seek.later);
    seek.hash = undefined;
    const cores = run.shown.map(c => stops.filter(moment => moment.core === c)).filter(own => own.length).map(own => `steps ${own[0].step} to ${own[own.length - 1].step} of core ${own[0].core}`);
    element('missing').textContent = `${step ? `Step ${step[2]} of core ${step[1]}` : `Position ${place}`} is not on this page: it has positions ${run.first} to ${run.last}${cores.length ? `, ${cores.join(', and ')}` : ''}. The run has ${run.end} positions; the options --from and --to of bin/page choose others.`;
    element('missing').hidden = false;
}

function toSign(direction) {
    for (let i = here + direction; i >= 0 && i < stops.length; i += direction) if (stops[i].sign) { seek(i); return; }
    seek(direction > 0 ? stops.length - 1 : 0);
}

function play() {
    if (player) clearInterval(player);
    player = player ? null : setInterval(() => { if (here === stops.length - 1) play(); else seek(here + 1); }, 1000 / element('speed').value);
    element('play').textContent = player ? 'stop' : 'play';
}

// The rings and the stacks, or the accesses in their place; large letters, or those of a screen. Large rings of two cores
// do not go together.
function toggle(name, other) {
    const on = html.classList.toggle(name);
    if (two && html.classList.contains('big') && !html.classList.contains('folded')) html.classList.toggle(other, on);
    furnish();
}

function furnish() {
    const big = html.classList.contains('big');
    element('fold').textContent = html.classList.contains('folded') ? 'rings' : 'accesses';
    element('large').textContent = big ? 'small' : 'big';
    element('legend').open = !big;
    drawTime();
    drawLegend();
    show();
}

const KEYS = {
    ArrowLeft: () => seek(here - 1), ArrowRight: () => seek(here + 1), ArrowUp: () => toSign(-1), ArrowDown: () => toSign(1),
    Home: () => seek(0), End: () => seek(stops.length - 1), ' ': play, r: () => toggle('folded', 'big'), b: () => toggle('big', 'folded'),
};
document.addEventListener('keydown', event => {
    if (event.ctrlKey || event.altKey || event.metaKey || !(event.key in KEYS) || event.target.tagName === 'SELECT') return;
    event.preventDefault();
    KEYS[event.key]();
});
for (const [id, act] of [['back', KEYS.ArrowLeft], ['next', KEYS.ArrowRight], ['signBack', KEYS.ArrowUp], ['signNext', KEYS.ArrowDown], ['play', play], ['fold', KEYS.r], ['large', KEYS.b]]) element(id).onclick = act;
element('speed').onchange = () => { if (player) { play(); play(); } };
element('slider').max = stops.length - 1;
element('slider').oninput = event => seek(+event.target.value);
list.onclick = event => { const row = event.target.closest('tr[data-k]'); if (row) seekMoment(+row.dataset.k); };
window.addEventListener('hashchange', fromHash);
window.addEventListener('resize', () => show());
matchMedia('print').addEventListener('change', () => show());
window.addEventListener('beforeprint', () => { element('signs').open = element('legend').open = true; show(); });

// What is known of the verdict: the page has the breach, or the run ends on it without one.
const whole = moments.length > 0 && run.last === run.end && run.opening[run.shown[0]].depth !== null;
const verdict = run.breach ? `, breach ${run.kind ? run.kind + ' ' : ''}core ${moments[run.breach - run.first].core} step ${moments[run.breach - run.first].step}` : whole ? `, frames whole${run.uses && run.uses.startsWith('breach') ? ', uses ' + run.uses : ''}` : '';
element('title').textContent = run.end === 0 ? 'An empty run' : `${run.titled || 'A run'}: positions ${run.first} to ${run.last} of ${run.end}${verdict}`;
listSigns();
furnish();
fromHash();
