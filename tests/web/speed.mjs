// speed.mjs [--firefox]     measures the page of web/dist in a headless browser
// - from the request of the page to its start, and to the first picture;
// - for the landscape, the fifty modules, and 512 modules: the milliseconds of a build in the library alone, from a typed change to the
//   made text on the page, and of the call alone, the median and the least of 50 (of fifty modules 20, of 512 modules 5) after as many.
// A loaded machine shows more, above all in the medians. Status 0: measured; 2: nothing could be measured.
import { Browser, serve } from './browser.mjs';
import { Firefox } from './firefox.mjs';
import path from 'node:path';
import { fileURLToPath } from 'node:url';
import { SECONDS, TEXT, open } from './steps.mjs';

const root = path.join(path.dirname(fileURLToPath(import.meta.url)), '../..');
const isFirefox = process.argv[2] === '--firefox';

// The median and the least of a list.
const MEDIAN = 'const median = list => (list.sort((a, b) => a - b), [list[list.length >> 1], list[0]]);';

// The library alone, with the times of what the page does around the call.
const library = runs => `(async () => {
    ${MEDIAN}
    const { Composer } = await import('./composer.mjs');
    const { task } = await import('./project.mjs');
    const { project } = await import('./page.mjs');
    const composer = await Composer.load('yettuvam.wasm');
    const times = { first: 0, whole: [], call: [] };
    for (let i = 0; i < 2 * ${runs}; i++) {
        const given = task({ ...project, files: project.files.map((file, k) => k ? file : { ...file, text: file.text + ' '.repeat(i) }) }).task;
        const { yettuvam_build } = composer.calls;
        let call = 0;
        const timed = (...words) => {
            const before = performance.now();
            const status = yettuvam_build(...words);
            call += performance.now() - before;
            return status;
        };
        composer.calls = { ...composer.calls, yettuvam_build: timed };
        const before = performance.now();
        composer.build(given);
        const whole = performance.now() - before;
        composer.calls = { ...composer.calls, yettuvam_build };
        if (i === 0) times.first = whole;
        if (i >= ${runs}) { times.whole.push(whole); times.call.push(call); }
    }
    return { first: times.first, whole: median(times.whole), call: median(times.call) };
})()`;

// From a change in the text to the made text on the page.
const typed = runs => `(async () => {
    ${MEDIAN}
    const built = document.getElementById('built');
    const times = [];
    for (let i = 0; i < 2 * ${runs}; i++) {
        const shown = new Promise(resolve => new MutationObserver((_, observer) => { observer.disconnect(); resolve(); }).observe(built, { childList: true }));
        const before = performance.now();
        ${TEXT}.value += ' ';
        ${TEXT}.dispatchEvent(new Event('input'));
        await shown;
        if (i >= ${runs}) times.push(performance.now() - before);
        await new Promise(resolve => setTimeout(resolve, 20));
    }
    return median(times);
})()`;

// Makes the project one of 512 modules.
const MANY = `(async () => {
    const { project } = await import('./page.mjs');
    const names = Array.from({ length: 512 }, (_, i) => i);
    const module = i => ({ path: 'm' + i + '.wgsl', text: '#define_import_path m' + i + '\\nfn f(x: u32) -> u32 { return x + ' + i + 'u; }\\n' });
    project.files.splice(1, Infinity, ...names.map(module));
    ${TEXT}.value = names.map(i => '#import m' + i + '\\n').join('') + '@compute @workgroup_size(1) fn main() { var sum = 0u;' + names.map(i => 'sum += m' + i + '::f(1u);').join('\\n') + '}';
    ${TEXT}.dispatchEvent(new Event('input'));
})()`;

const FIRST = 'Number(document.body.dataset.pictured ?? 0)';
const shown = milliseconds => `${milliseconds.toFixed(1)} ms`;
const both = ([median, least]) => `${shown(median)} (least ${shown(least)})`;

async function measure(browser, name, runs) {
    const { first, whole, call } = await browser.value(library(runs));
    console.log(`${name}: library first ${shown(first)}, then ${both(whole)}, the call ${both(call)}`);
    console.log(`${name}: from a change to the made text on the page ${both(await browser.value(typed(runs)))}`);
}

const server = await serve(path.join(root, 'web/dist'));
const browser = isFirefox ? new Firefox(1400, 1000) : new Browser(1400, 1000);
let status = 0;
try {
    await browser.attach();
    for (const again of ['first', 'second']) {
        await open(browser, `${server.address}/?scene`);
        await browser.until(`${FIRST} > 0`, SECONDS);
        console.log(`${again} visit: started after ${shown(await browser.value('Number(document.body.dataset.started)'))}, first picture after ${shown(await browser.value(FIRST))}`);
    }
    await measure(browser, 'the landscape', 50);
    await open(browser, `${server.address}/?fifty`);
    await measure(browser, 'fifty modules', 20);
    await browser.value(MANY);
    await browser.until('document.body.dataset.rest === "true"', SECONDS);
    await measure(browser, '512 modules', 5);
} catch (error) {
    console.error(`speed.mjs: ${error.message}`);
    status = 2;
}
browser.end();
server.end();
setTimeout(() => process.exit(status), 1000);
