// Put behind the script of a page of `tlsf map --html`, whose names it uses. It turns over some moments, and writes what it found as
// lines of a <pre>: 'wrong ..' for what isn't as it should be, 'line K' for a moment, and below that what is told of each block.
const opening = moment, found = [];
const want = (fact, what) => { if (!fact) found.push('wrong ' + what); };
const press = (key, more) => dispatchEvent(new KeyboardEvent('keydown', { key, cancelable: true, ...more }));
const rgb = name => {
    const probe = document.createElement('i');
    probe.style.color = 'var(--' + name + ')';
    document.body.append(probe);
    const numbers = getComputedStyle(probe).color.match(/\d+/g).map(Number);
    probe.remove();
    return numbers;
};
const near = (pixel, color) => color.every((part, at) => Math.abs(part - pixel[at]) < 6);
const dark = matchMedia('(prefers-color-scheme: dark)').matches;
want((rgb('page')[0] < 128) === dark, 'scheme');

// Since when a block is there: the first moment that has it, and so a line after the moment before that. All moments are read, where they are few bytes.
const all = element('moments').textContent.length < 8e6 ? begins.map((begin, at) => heapsIn(at)) : [];
const keyOf = block => block.live + ' ' + block.place + ' ' + block.numbers[block.live ? 2 : 1];
const firsts = all.length ? all[0].map((heap, number) => {
    const first = new Map();
    all.forEach((row, at) => row[number].blocks.forEach(block => { if (!first.has(keyOf(block))) first.set(keyOf(block), at); }));
    return first;
}) : [];
const sinceLine = (number, block) => {
    const at = firsts[number].get(keyOf(block)), from = at ? lineOf(at - 1) + 1 : 1, to = lineOf(at), end = lineOf(last);
    return from === to ? (to === end ? ', the end' : ', line ' + to) : ', line ' + from + ' to ' + (to === end ? 'the end' : to);
};
// The colour of a live block's first word, and what stands under the pointer there.
const judgeBlock = (canvas, heap, block, number) => {
    if (block.place >= heap.shown) return;
    const { row, pitch, high } = grid(heap.shown), wide = span / row, scale = devicePixelRatio || 1;
    const x = edge + block.place % row * wide + wide / 2, y = Math.floor(block.place / row) * pitch + high - 4;
    const box = canvas.getBoundingClientRect();
    canvas.dispatchEvent(new PointerEvent('pointermove', { clientX: box.left + x, clientY: box.top + y }));
    const tells = !tip.hidden && tip.textContent.startsWith(told(block)) && (!all.length || tip.textContent === told(block) + sinceLine(number, block));
    want(tells, 'tip at place ' + block.place + ': ' + tip.textContent);
    if (wide < 6) return;
    const pixel = canvas.getContext('2d').getImageData(x * scale, y * scale, 1, 1).data;
    if (block.live) want(near(pixel, rgb('head')), 'colour at place ' + block.place + ': ' + pixel);
    else want(near(pixel, rgb('free')) && Math.abs(pixel[3] / 2.55 - shade(heap, block.numbers[1])) < 1, 'colour of a free block: ' + pixel);
};

// Where a heap stands worst: without room for its longest request the more words are free, and with room the fuller it is.
const standing = (at, number) => {
    const { free, grant } = curves[at][number], report = heapsIn(at)[number].report;
    const fragmentation = Number(report.match(/fragmentation (\d+)/)[1]), live = curves[at][number].live;
    return free === 0 || grant < named[number][2] ? 1e12 + free : live * 1e4 + fragmentation;
};
// The moments that are named: the first with most live words, and the first that stands worst. A key or a button goes to each, and each is marked.
// If they are one moment, they have one button. The page opens at the first moment with most live words in all heaps together.
const judgeNamed = (lives, tops) => {
    const ranks = begins.map((begin, at) => curves[at].map((row, number) => standing(at, number)));
    const first = (rows, number) => { const column = rows.map(row => row[number]); return column.indexOf(most(column)); };
    const buttons = [...document.querySelectorAll('button')], scale = devicePixelRatio || 1, ink = plot.getContext('2d');
    const sums = lives.map(row => row.reduce((sum, live) => sum + live, 0));
    want(opening === sums.indexOf(most(sums)), 'opens at moment ' + opening);
    want(buttons.length === named.reduce((sum, row, number) => sum + 1 + (first(lives, number) !== first(ranks, number)), 0), buttons.length + ' buttons');
    want(buttons.every(button => button.getBoundingClientRect().left >= 0 && button.getBoundingClientRect().right <= innerWidth), 'a button is cut off');
    named.forEach((row, number) => {
        const peak = first(lives, number), worst = first(ranks, number), without = ranks[worst][number] >= 1e12;
        const own = buttons.splice(0, peak === worst ? 1 : 2);
        want(peaks[number] === peak && lineOf(peak) === row[0], 'peak of heap ' + number + ' at moment ' + peaks[number]);
        want(worsts[number] === worst && lineOf(worst) === row[1], 'worst moment of heap ' + number + ': ' + worsts[number]);
        [peak, worst].forEach((at, kind) => {
            const button = own[kind] || own[0], look = without ? 'worst' : 'fullest', name = peak === worst ? 'peak and ' + look : kind === 0 ? 'peak' : look;
            if (!button) return;
            show(at === 0 ? last : 0); button.click();
            want(moment === at && button.textContent.startsWith(name), button.textContent + ' goes to moment ' + moment);
            press('Home'); for (let times = 0; times <= 2 * named.length && moment !== at; times++) press(kind === 0 ? 'p' : 'w');
            want(moment === at, (kind === 0 ? 'P' : 'W') + ' never goes to moment ' + at);
        });
        show(worst === last ? 0 : last);
        const mark = ink.getImageData(across(worst) * scale, (number * pitch + 2) * scale, 1, 1).data;
        const high = number * pitch + Math.max(4, tall - tall * lives[peak][number] / tops[number]);
        const dots = ink.getImageData((Math.min(full - 4, Math.max(edge + 4, across(peak))) - 2) * scale, (high - 2) * scale, 4 * scale, 4 * scale).data;
        const dot = [...dots.keys()].filter(at => at % 4 === 0).map(at => dots.slice(at, at + 4));
        want(near(mark, rgb('largest')) || near(mark, rgb('ink')), 'mark at the worst moment: ' + mark);
        want(dot.some(pixel => near(pixel, rgb('ink'))), 'mark at the peak: ' + dot[0]);
        const header = document.querySelectorAll('h2')[number].textContent, longest = (row[2] === 1 ? ' byte ' : ' bytes ');
        const lacking = standing(moment, number) >= 1e12 ? (row[2] === 1 ? "doesn't fit" : "don't fit") : (row[2] === 1 ? 'fits' : 'fit');
        want(header.endsWith('longest request: ' + row[2] + longest + lacking), 'header ' + header);
    });
};
// The curves above the slider: they say of each moment what its blocks say. A click goes to a moment, and the moment's line is drawn.
const judgePlot = () => {
    const sums = begins.map((begin, at) => heapsIn(at).map(heap => most(heap.blocks.filter(block => !block.live).map(block => block.size))));
    const lives = begins.map((begin, at) => heapsIn(at).map(heap => heap.blocks.reduce((sum, block) => sum + block.live * block.size, 0)));
    want(lives.every((row, at) => row.every((live, number) => live === curves[at][number].live)), 'live words of a curve');
    want(sums.every((row, at) => row.every((size, number) => size === curves[at][number].largest)), 'largest free block of a curve');
    const tops = drawnOf(lives);
    judgeNamed(lives, tops);
    judgeScale(lives, tops);
    const box = plot.getBoundingClientRect(), half = Math.floor(last / 2);
    plot.dispatchEvent(new PointerEvent('pointerdown', { clientX: box.left + across(half), clientY: box.top + 4, buttons: 1 }));
    want(moment === half && tip.textContent.startsWith('heap 0') && tip.textContent.includes(lives[half][0] + ' of ') && tip.textContent.includes(8 * lives[half][0] + ' bytes'), 'click on the plot: ' + tip.textContent);
    const scale = devicePixelRatio || 1, pixel = plot.getContext('2d').getImageData(across(half) * scale, (deep + 2) * scale - 4, 1, 1).data;
    want(near(pixel, rgb('ink')), 'line of the moment: ' + pixel);
};
// The words that are drawn of each heap: all, or ten times its peak where that is less. Each live block is within them.
const drawnOf = lives => {
    const ends = begins.map((begin, at) => heapsIn(at).map(heap => most(heap.blocks.map(block => block.live * (block.place + block.size)))));
    const of = (rows, number) => most(rows.map(row => row[number]));
    return curves[0].map(({ words }, number) => Math.min(words, Math.max(10 * of(lives, number), of(ends, number)) || words));
};
// At the curve of each heap stand the words that are drawn, at the height that is the most of them. Where these are not all, it says so there and in
// the header, and the picture has as many rows as they fill. The curve is as high as its peak is of them.
const judgeScale = (lives, tops) => {
    const written = [], levels = [], kind = CanvasRenderingContext2D.prototype, { fillText: write, lineTo: line } = kind;
    kind.fillText = function (text, x, y) { written.push({ text: String(text), x, y }); write.call(this, text, x, y); };
    kind.lineTo = function (x, y) { levels.push(y); line.call(this, x, y); };
    drawPlot();
    Object.assign(kind, { fillText: write, lineTo: line });
    curves[0].forEach((row, number) => {
        const y = number * pitch, { words } = row, top = tops[number], note = 'words 0 to ' + top + ' of ' + words;
        const has = (wanted, x, down) => written.some(it => it.text === wanted && it.x > x && it.x < x + edge && it.y > y && it.y <= y + down);
        want(has(String(top), 0, 10), 'no scale of heap ' + number);
        want(has(note, full - edge, 12) === top < words, 'note on the scale of heap ' + number);
        want(parts[number].firstChild.textContent.includes(note) === top < words, 'header ' + parts[number].firstChild.textContent);
        const highest = y + tall - tall * most(lives.map(row => row[number])) / top;
        want(levels.some(level => Math.abs(level - highest) < .01), 'curve of heap ' + number);
        const { rows, pitch: down } = grid(top), high = parts[number].lastChild.getBoundingClientRect().height;
        want(Math.abs(high - rows * down) < 1, 'a picture ' + high + ' high of ' + rows + ' rows');
    });
};
// The plot and the pictures take the window's width.
const judgeWidth = () => [plot, ...document.querySelectorAll('main canvas')].forEach(canvas => {
    const { left, right } = canvas.getBoundingClientRect();
    want(left >= 0 && right <= innerWidth && right - left > innerWidth - 64, 'width from ' + left + ' to ' + right);
});
// The report above a picture: no line of it wraps, and each fits into the window, so that no picture jumps as the moments go by.
const heights = [], tops = [];
const judgeReport = (canvas, number) => {
    const lines = [...canvas.parentNode.querySelectorAll('p')], height = canvas.offsetTop - canvas.parentNode.offsetTop;
    want(lines.length > 0 && lines.every(line => line.offsetHeight < 24), 'report wraps: ' + lines.map(line => line.textContent).join(' / '));
    want(lines.every(line => line.scrollWidth <= innerWidth - 16), 'report wider than the window');
    heights[number] ??= height;
    tops[number] ??= canvas.offsetTop;
    want(tops[number] === canvas.offsetTop, 'picture ' + number + ' moves from ' + tops[number] + ' to ' + canvas.offsetTop);
    want(heights[number] === height, 'picture ' + number + ' jumps from ' + heights[number] + ' to ' + height + ' pixels');
};
// What is told of a block: of a free one its shade too.
const toldOf = (heap, block) => told(block) + (block.live ? '' : ', ' + shade(heap, block.numbers[1]) + ' hundredths');
const judgeMoment = (at, telling) => {
    want(moment === at && Number(slider.value) === at, 'moment ' + moment + ' for ' + at);
    want(element('moment').textContent.startsWith('Moment ' + (at + 1) + ' of ' + begins.length), 'text ' + element('moment').textContent);
    const canvases = document.querySelectorAll('main canvas');
    want(canvases.length === heaps.length && heaps.length > 0, canvases.length + ' pictures of ' + heaps.length + ' heaps');
    found.push('line ' + lineOf(at));
    heaps.forEach((heap, number) => {
        want(heap.words === Number(heap.name.match(/: (\d+) words/)[1]), heap.words + ' words in ' + heap.name);
        want(heap.name.startsWith('heap ' + number + ':'), 'name ' + heap.name);
        const report = heap.report.match(/live (\d+) blocks?.*free (\d+) blocks?/), live = heap.blocks.filter(block => block.live).length;
        want(Number(report[1]) === live && Number(report[2]) === heap.blocks.length - live, 'blocks of ' + heap.report);
        judgeReport(canvases[number], number);
        heap.blocks.slice(0, 200).forEach(block => judgeBlock(canvases[number], heap, block, number));
        if (telling) heap.blocks.forEach(block => found.push(toldOf(heap, block)));
    });
};
const telling = new URLSearchParams(location.search).has('told');
const middle = Math.floor(last / 2);
press('Home'); judgeMoment(0, telling);
press('ArrowRight'); judgeMoment(Math.min(1, last), telling);
press('ArrowRight', { shiftKey: true }); judgeMoment(Math.min(11, last), telling);
press('ArrowLeft'); judgeMoment(Math.min(11, last) - 1, telling);
slider.value = middle; slider.dispatchEvent(new Event('input')); judgeMoment(middle, telling);
press('End'); judgeMoment(last, telling);
judgePlot();
judgeWidth();
const begun = performance.now(); for (let at = 0; at < 20; at++) show(at * last / 19 | 0);
const each = Math.round((performance.now() - begun) / 20);
want(each < 50, 'a step takes ' + each + ' ms');
document.querySelectorAll('script, style').forEach(part => part.remove());
const pre = document.createElement('pre');
pre.textContent = 'judged ' + begins.length + ' moments, ' + each + ' ms each, ' + (dark ? 'dark' : 'light') + '\n' + found.join('\n') + '\n';
document.body.replaceChildren(pre);
