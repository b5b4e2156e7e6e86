// What has to hold of the page, each a function of the browser, the server's address and `holds`, which takes what is said and whether
// it is so.
import fs from 'node:fs';
import path from 'node:path';
import {
    BUILT, FAULTY_TABS, LINE, MADE, MARKS, PATH, REPORT, REST, SECONDS, TAB_COUNT, TEXT, after, click, compared, cursorAfter, drop, open,
    replaced, set, showTab,
} from './steps.mjs';

const MOST_AVERAGE = 2; // of 255
const MOST_SEEN = 0.02; // of the pixels

// Each project of the gallery is made and drawn as its stored picture shows it.
export async function drawsGallery({ browser, address, holds, projects, pictures, folder, isDrawn }) {
    for (const { name, title } of projects) {
        holds(`${title}: the page starts`, await open(browser, `${address}/?${name}`));
        holds(`${title}: nothing is reported`, await browser.value(REPORT) === '');
        const unplaced = await browser.value('[...document.querySelectorAll("#made .from")].filter(({ textContent }) => !/ · .+:\\d+$/.test(textContent)).length');
        holds(`${title}: each item has its module and its line`, unplaced === 0);
        holds(`${title}: the entry points are listed`, await browser.value('/vertex.*fragment/.test(document.getElementById("tables").textContent)'));
        if (isDrawn) {
            const { colours, average, seen, png } = await browser.value(compared(`pictures/${name}.png`));
            if (png) fs.writeFileSync(path.join(pictures, `${name}.png`), Buffer.from(png, 'base64'));
            const alike = png ? false : average <= MOST_AVERAGE && seen <= MOST_SEEN;
            holds(`${title}: the picture is as stored (${png ? 'stored now' : `off by ${average.toFixed(2)}, ${(100 * seen).toFixed(2)} %`}, ${colours} colours)`, alike && colours > 4);
        }
        if (folder) await browser.picture(path.join(folder, `${name}.png`));
    }
}

export async function reportsErrors({ browser, address, holds }) {
    await open(browser, `${address}/?names`);
    await browser.value(cursorAfter('here.y < sw'));
    await browser.type('q');
    holds('a typed error is reported with its line', await browser.until(`/shader\\.wgsl:13:/.test(${REPORT})`, SECONDS));
    holds('the line and the file with the error are marked', await browser.value(MARKS) === '13' && await browser.value(FAULTY_TABS) === 'shader.wgsl');
    holds('the text that was made before stays', await browser.value(`/fn pixel/.test(${MADE})`));
    await browser.undo();
    holds('what was typed is undone', await browser.until(`${TEXT}.value.includes('here.y < swell') && ${REPORT} === '' && ${MARKS} === '' && ${FAULTY_TABS} === ''`, SECONDS));
    await after(browser, showTab('sea.wgsl'));
    await browser.value(cursorAfter('0.1, 0.35, 0.'));
    await browser.type('7');
    await browser.until(`${TEXT}.value.includes('0.75')`, SECONDS);
    holds('a change names its file and the new items', await browser.until(`/Edited: sea\\.wgsl\\. Changed in the text: const DEEP\\./.test(${BUILT})`, SECONDS));
    await after(browser, showTab('air.wgsl'));
    await after(browser, showTab('sea.wgsl'));
    await browser.value(`${TEXT}.focus()`);
    await browser.undo();
    holds('a file that was left can be undone', await browser.until(`${TEXT}.value.includes('0.1, 0.35, 0.5')`, 10));
    await after(browser, showTab('air.wgsl'));
    await browser.value(cursorAfter('0.4 * time'));
    await browser.type(' ');
    await after(browser, showTab('screen.wgsl'));
    await browser.value(`${TEXT}.focus()`);
    await browser.undo();
    await after(browser, showTab('air.wgsl'));
    holds('what isn\'t shown isn\'t undone', await browser.value(`${TEXT}.value.includes('0.4 * time )')`));
}

export async function showsBrowsersMessages({ browser, address, holds, isDrawn }) {
    if (!isDrawn) return;
    await open(browser, `${address}/?names`);
    const { colours } = await browser.value(compared(''));
    await after(browser, showTab('sea.wgsl'));
    await after(browser, replaced('- 0.3;', '- 3i;'));
    const report = await browser.value(REPORT);
    holds('what the browser refuses is shown at its item', /The browser refuses/.test(report) && /in fn waves::sea::wave \(sea\.wgsl:5\)/.test(report));
    holds('that item is marked', await browser.value(MARKS) === '5' && await browser.value('document.querySelectorAll("#made .item.faulty").length') === 1);
    holds('the last picture stays', (await browser.value(compared(''))).colours === colours);
    await after(browser, replaced('- 3i;', '- 0.3;'));
    holds('the next change is drawn', await browser.value(REPORT) === '');
    await after(browser, set(TEXT, '"#define_import_path sea2\\n"'));
    holds('a module that is missing is reported', /error: no module/.test(await browser.value(REPORT)));
    await after(browser, `(() => { ${showTab('shader.wgsl')}; })()`);
    await after(browser, set(TEXT, '"@compute @workgroup_size(8, 4) fn main() {}\\n"'));
    holds('a text without a picture says so', /it has no @vertex/.test(await browser.value('document.getElementById("undrawn").textContent')));
    holds('the size of a workgroup is listed', /compute\s*main\s*8, 4/.test(await browser.value('document.getElementById("tables").innerText')));
}

export async function keepsLinks({ browser, address, holds }) {
    await open(browser, `${address}/?names`);
    await after(browser, replaced('1.2 + here.y', '1.3 + here.y'));
    const made = await browser.value(MADE);
    holds('the address holds the project', await browser.until('location.hash.length > 100', SECONDS));
    const link = await browser.value('location.href');
    await open(browser, link);
    holds('the address opens the project again', await browser.value(TAB_COUNT) === 5 && await browser.value(MADE) === made);
    await open(browser, `${address}/?chain`);
    await browser.value(`(() => { location.hash = ${JSON.stringify(new URL(link).hash)}; })()`);
    holds('another address in the same page opens its project', await browser.until(`${TAB_COUNT} === 5 && ${REST}`, SECONDS) && await browser.value(MADE) === made);
    for (const hash of ['#x', '#q1YqLlGyiq6OrQUA', `#${'A'.repeat(1000)}`]) {
        await open(browser, `${address}/?names${hash}`);
        holds(`the address ${hash.slice(0, 20)} opens the named project`, await browser.value(TAB_COUNT) === 5 && await browser.value(REPORT) === '');
    }
}

export async function hasKeys({ browser, address, holds }) {
    await open(browser, `${address}/?chain`);
    await browser.value(click('#made .item:last-child .code'));
    const item = 'document.querySelector("#made .item:last-child .from").textContent.replace(/.* · /, "")';
    holds('a click on a made item goes to its declaration', await browser.value(`/fn pixel/.test(${LINE}) && ${item} === ${PATH} + ':' + (${TEXT}.value.slice(0, ${TEXT}.selectionStart).split('\\n').length)`));
    await browser.press('ArrowDown', ['Alt']);
    holds('Alt and an arrow go to the next file', await browser.until(`${PATH} === 'paint.wgsl'`, 10));
    await browser.value(cursorAfter('#define_import_path paint'));
    await browser.press('Tab');
    holds('Tab indents', await browser.until(`${TEXT}.value.startsWith('#define_import_path paint    \\n')`, 10));
    await browser.press('Escape');
    await browser.press('Tab');
    holds('Escape, then Tab, leaves the text', await browser.until(`document.activeElement !== ${TEXT}`, 10));
    await browser.value('document.querySelector("#tabs [aria-selected=true]").focus()');
    await browser.press('End');
    holds('End goes to the last file', await browser.until(`${PATH} === 'screen.wgsl' && document.activeElement.textContent === 'screen.wgsl'`, 10));
}

export async function handlesFiles({ browser, address, holds }) {
    await open(browser, `${address}/?chain`);
    await after(browser, drop('more.wgsl', '#define_import_path more\n#import paint\noverride fn paint::colour(at: vec2f) -> vec3f { return 0.5 * paint::colour(at); }\n'));
    holds('a dropped file is a tab', await browser.until(`${TAB_COUNT} === 7 && ${PATH} === 'more.wgsl'`, SECONDS));
    await after(browser, set('document.getElementById("imports")', '"stripes more"'));
    holds('the dropped module is built in', /more · more\.wgsl:3/.test(await browser.value(MADE)));
    await after(browser, set('document.getElementById("path")', '"paint.wgsl"', 'change'));
    holds('a file is renamed, with a path of its own', await browser.value(PATH) === 'paint2.wgsl' && /paint2\.wgsl:3/.test(await browser.value(MADE)));
    await after(browser, click('#remove'));
    holds('a removed module is missed', await browser.value(TAB_COUNT) === 6 && /error/.test(await browser.value(REPORT)));
    await after(browser, click('#back'));
    holds('a removed file is put back', await browser.value(TAB_COUNT) === 7 && await browser.value(REPORT) === '');
    await browser.value(drop('broken.wgsl', 'fn \\xff').replace('["fn', '[new Uint8Array([255]), "fn'));
    holds('a file that is no text is refused', await browser.until(`/broken\\.wgsl isn't a text/.test(document.getElementById('told').textContent)`, 20));
    await after(browser, set('document.getElementById("definitions")', '"A=99999999999"'));
    holds('a wrong definition is named', /A=99999999999/.test(await browser.value(REPORT)));
}

const LARGE = {
    'a text of 2 MB': '"fn f() -> u32 { return 1u; }\\n".repeat(72316)',
    'a line of 2 MB': '"x".repeat(2 << 20)',
    'a comment of 2 MB': '"/*" + " a".repeat(1 << 20) + "*/"',
    '100,000 braces': '"fn f() " + "{".repeat(100000)',
    '100,000 brackets': '"const A = " + "(".repeat(100000)',
    'a zero and a half of a pair': '"\\0\\ud800"',
};

// Large and broken texts are answered, and the change after each one is made.
export async function bearsBadInput({ browser, address, holds }) {
    await open(browser, `${address}/?names`);
    const good = await browser.value(`${TEXT}.value`);
    const made = await browser.value(MADE);
    for (const [what, text] of Object.entries(LARGE)) {
        const before = Date.now();
        await after(browser, set(TEXT, text));
        const answer = await browser.value(`${REPORT}.slice(0, 60)`);
        const took = Date.now() - before;
        await after(browser, set(TEXT, JSON.stringify(good)));
        holds(`${what}: answered in ${took} ms, and the next change is made (${answer.split('\n')[0]})`, answer !== '' && await browser.value(MADE) === made && await browser.value(REPORT) === '');
    }
    const fronts = await browser.value(`(async () => {
        const good = ${TEXT}.value;
        const seen = new Set();
        for (let i = 0; i <= good.length; i++) {
            ${set(TEXT, 'good.slice(0, i)')};
            await new Promise(resolve => setTimeout(resolve, 1));
            seen.add(document.getElementById('report').textContent.split('\\n')[0]);
        }
        return seen.size;
    })()`);
    await browser.until(REST, SECONDS);
    holds(`each front of a text while it is typed: ${fronts} different answers, and the last is made`, fronts > 3 && await browser.value(MADE) === made);
}

// 2,047 modules, and one more.
export async function bearsManyModules({ browser, address, holds }) {
    await open(browser, `${address}/?names`);
    const step = count => `(async () => {
        const { project } = await import('./page.mjs');
        const module = i => ({ path: 'm' + i + '.wgsl', text: '#define_import_path m' + i + '\\nfn f(x: u32) -> u32 { return x + ' + i + 'u; }\\n' });
        const names = Array.from({ length: ${count} }, (_, i) => i);
        project.files.splice(1, Infinity, ...names.map(module));
        project.top = 0;
        ${set(TEXT, `names.map(i => '#import m' + i + '\\n').join('') + '@compute @workgroup_size(1) fn main() { var sum = 0u;' + names.map(i => 'sum += m' + i + '::f(1u);').join('\\n') + '}'`)};
    })()`;
    for (const count of [2048, 2047]) {
        const before = Date.now();
        await after(browser, step(count));
        const report = await browser.value(`${REPORT}.slice(0, 80)`);
        holds(`${count} modules: ${Date.now() - before} ms, ${await browser.value(BUILT)} ${report}`, count === 2047 ? report === '' : report !== '');
    }
    await after(browser, `${showTab('m7.wgsl')}`);
    await after(browser, set(TEXT, '"#define_import_path m7\\nfn f(x: u32) -> u32 { return x * ; }\\n"'));
    holds('a slip in one of them is reported', /m7\.wgsl:2/.test(await browser.value(REPORT)));
}

// A library that stops, and a worker that ends or takes too long, are replaced.
export async function replacesTheLibrary({ browser, address, holds }) {
    await open(browser, `${address}/?names`);
    const stopped = await browser.value(`(async () => {
        const { Composer } = await import('./composer.mjs');
        const composer = await Composer.load('yettuvam.wasm');
        const task = { shader: { path: 'a.wgsl', text: 'const a = 1;' } };
        composer.calls = { ...composer.calls, yettuvam_build() { throw new WebAssembly.RuntimeError('unreachable'); } };
        const first = composer.build(task);
        composer.calls = { ...composer.calls, page_take: () => 0n };
        const second = composer.build(task);
        return [first, second, composer.build(task)].map(({ text, report }) => text ?? report);
    })()`);
    holds('a library that stops is replaced', stopped.join('|') === 'error: the library stopped: unreachable\n|error: the library stopped: out of memory\n|const a = 1;\n');
    const long = await browser.value(`(async () => {
        const { Builder } = await import('./builder.mjs');
        const builder = new Builder();
        const task = text => ({ shader: { path: 'a.wgsl', text } });
        await builder.build(task('fn f() {}'));
        builder.worker.postMessage = () => {};
        const before = performance.now();
        const never = builder.build(task('fn g() {}'));
        const skipped = builder.build(task('fn h() {}'));
        const last = builder.build(task('fn i() {}'));
        return [await never, await skipped, (await last).text, performance.now() - before];
    })()`);
    holds(`a call that doesn't end is left for a later one, after ${Math.round(long[3])} ms`, long[0] === null && long[1] === null && /fn i/.test(long[2]) && long[3] < 20000);
}

// Nothing is asked of another server.
export async function staysHome({ browser, address, holds }) {
    await open(browser, `${address}/?scene`);
    const others = await browser.value('performance.getEntriesByType("resource").map(({ name }) => name).filter(name => !name.startsWith(location.origin))');
    holds('the page asks for nothing but its own files', others.length === 0);
    const refused = await browser.value('fetch("http://127.0.0.2:9/").then(() => false, () => true)');
    holds('the page may ask for nothing else', refused);
}
