// page.mjs [--firefox] [FOLDER]     opens the page in web/dist in a headless Chromium, or Firefox, and says what holds of it
// The checks are those of checks.mjs. Where the browser has no WebGPU, the page has to say so, and what is drawn is left out.
// Pictures of the page go to FOLDER, if there is one. The gallery's pictures are compared with tests/web/pictures; one that isn't there
// is stored. Needs node of version 18 or later, and the browser; web/build.sh makes web/dist.
// Status 0: all holds; 1: something doesn't; 2: nothing could be tried.
import fs from 'node:fs';
import path from 'node:path';
import { fileURLToPath } from 'node:url';
import { Browser, serve } from './browser.mjs';
import * as checks from './checks.mjs';
import { Firefox } from './firefox.mjs';
import { MADE, open } from './steps.mjs';

const WITHOUT_GPU = ['--headless=new', '--no-sandbox', '--no-first-run', '--remote-debugging-pipe', '--disable-features=WebGPU', '--disable-gpu'];

const here = path.dirname(fileURLToPath(import.meta.url));
const words = process.argv.slice(2);
const isFirefox = words[0] === '--firefox' && words.shift() !== undefined;
const [folder, only] = words;
const dist = path.join(here, '../../web/dist');
const pictures = path.join(here, 'pictures');
let failed = 0;

function holds(what, is) {
    console.log(`${is ? 'holds' : 'FAILS'}: ${what}`);
    if (!is) failed++;
}

// Whether the page draws in this browser. Else it has to say why it doesn't.
async function draws(browser, address) {
    await open(browser, `${address}/?chain`);
    const isDrawn = await browser.value('import("./page.mjs").then(({ view }) => Boolean(view))');
    if (isDrawn) return true;
    holds('without WebGPU the page says why nothing is drawn', /Nothing is drawn: ./.test(await browser.value('document.getElementById("undrawn").textContent')));
    holds('without WebGPU the text is made', (await browser.value(MADE)).length > 1000);
    return false;
}

async function checkAll(browser, address) {
    await browser.attach();
    const isDrawn = await draws(browser, address);
    const projects = JSON.parse(fs.readFileSync(path.join(dist, 'projects/projects.json'), 'utf8'));
    for (const [name, check] of Object.entries(checks)) {
        if (only && only !== name) continue;
        await check({ browser, address, holds, projects, pictures, folder, isDrawn });
    }
}

if (!fs.existsSync(path.join(dist, 'yettuvam.wasm'))) {
    console.error('page.mjs: there is no web/dist: sh web/build.sh');
    process.exit(2);
}
const server = await serve(dist, { '/pictures/': pictures });
const browser = isFirefox ? new Firefox(1400, 1000) : new Browser(1400, 1000);
try {
    await checkAll(browser, server.address);
    browser.end();
    if (!isFirefox && !only) {
        const blind = new Browser(1400, 1000, WITHOUT_GPU);
        await blind.attach();
        if (await draws(blind, server.address)) console.log('left out: the page without WebGPU, as Chromium has it all the same');
        blind.end();
    }
} catch (error) {
    console.error(`page.mjs: ${error.message}`);
    browser.end();
    failed = -1;
}
server.end();
setTimeout(() => process.exit(failed < 0 ? 2 : failed ? 1 : 0), 1000);
