// answers.mjs [--firefox] PROGRAM     compares the library of web/dist in a headless browser with a native program, byte for byte
// The inputs are the projects of tests/wgsl/micro, the texts of tests/wgsl/texts, the landscape, and the project of crates/yettuvam/data,
// each as it is, and with its first file cut at a quarter, half and three quarters of its length. What the program prints has to be the
// library's text, and what it reports the library's report. The page's own reading of definitions is used.
// Status 0: all are the same; 1: some aren't; 2: nothing could be compared.
import { spawnSync } from 'node:child_process';
import fs from 'node:fs';
import os from 'node:os';
import path from 'node:path';
import { fileURLToPath } from 'node:url';
import { Browser, serve } from './browser.mjs';
import { Firefox } from './firefox.mjs';

const CUTS = [1, 0.25, 0.5, 0.75];
const BATCH = 20; // projects in one message

const root = path.join(path.dirname(fileURLToPath(import.meta.url)), '../..');
const words = process.argv.slice(2);
const isFirefox = words[0] === '--firefox' && words.shift() !== undefined;
const [program] = words;

// A project by the words of its command line.
function projectOf(folder, given) {
    const project = { name: path.basename(folder), files: [], top: 0, definitions: [], imports: [], overrideAny: false };
    for (let i = 1; i < given.length; i++) {
        if (given[i] === '-D') project.definitions.push(given[++i]);
        else if (given[i].startsWith('-D')) project.definitions.push(given[i].slice(2));
        else if (given[i] === '--with') project.imports.push(given[++i]);
        else if (given[i] === '--override-any') project.overrideAny = true;
        else project.files.push({ path: given[i], text: fs.readFileSync(path.join(folder, given[i]), 'utf8') });
    }
    return { ...project, words: given, definitions: project.definitions.join(' '), imports: project.imports.join(' ') };
}

const folders = at => fs.readdirSync(path.join(root, at)).map(name => path.join(root, at, name));
const split = text => text.trim().split(/\s+/);

const SCENE = 'build scene.wgsl fog.wgsl frame.wgsl light.wgsl material.wgsl math.wgsl night.wgsl noise.wgsl terrain.wgsl -D LAYERS=10 -D PLACE=11 -D FOG=4';
const DATA = 'build top.wgsl fog.wgsl lighting.wgsl';

// All projects, each as it is and cut.
function projects() {
    const found = [
        ...folders('tests/wgsl/micro').map(folder => projectOf(folder, split(fs.readFileSync(path.join(folder, 'words'), 'utf8')))),
        ...folders('tests/wgsl/texts').filter(file => file.endsWith('.wgsl')).map(file => projectOf(path.dirname(file), ['build', path.basename(file)])),
        ...['', ' --with scene::fog', ' --with scene::night', ' --with scene::fog --with scene::night'].map(more => projectOf(path.join(root, 'examples/scene'), split(SCENE + more))),
        ...[' -D GAIN=2', ' -D GAIN=2 --with fog', '', ' -D GAIN', ' -D GAIN=-1 --override-any'].map(more => projectOf(path.join(root, 'crates/yettuvam/data'), split(DATA + more))),
    ];
    const cut = ({ path: name, text }, part) => ({ path: name, text: text.slice(0, Math.ceil(part * text.length)) });
    return CUTS.flatMap(part => found.map(project => ({ ...project, part, files: project.files.map((file, i) => i ? file : cut(file, part)) })));
}

// What the program prints and reports for a project.
function native({ files, words: given }) {
    const folder = fs.mkdtempSync(path.join(os.tmpdir(), 'answers-'));
    for (const file of files) fs.writeFileSync(path.join(folder, file.path), file.text);
    const { status, stdout, stderr, error } = spawnSync(program, given, { cwd: folder, encoding: 'utf8', maxBuffer: 1 << 26 });
    fs.rmSync(folder, { recursive: true });
    if (error || (status !== 0 && status !== 1)) throw new Error(`${program} ends with ${error?.message ?? `status ${status}: ${stderr}`}`);
    return status === 0 ? { text: stdout } : { report: stderr };
}

// The library's answers to projects, in a page of the address.
const library = (given, address) => `(async () => {
    const { Composer } = await import('${address}/composer.mjs');
    const { task } = await import('${address}/project.mjs');
    const composer = self.kept ??= await Composer.load('${address}/yettuvam.wasm');
    return ${JSON.stringify(given)}.map(project => composer.build(task(project).task));
})()`;

async function compareAll(browser, address) {
    const all = projects();
    const counts = { texts: 0, reports: 0, different: 0 };
    await browser.attach();
    await browser.go(`${address}/style.css`);
    for (let at = 0; at < all.length; at += BATCH) {
        const batch = all.slice(at, at + BATCH);
        const answers = await browser.value(library(batch, address));
        batch.forEach((project, i) => {
            const wanted = native(project);
            const isSame = wanted.text === answers[i].text && wanted.report === answers[i].report;
            counts[isSame ? 'text' in wanted ? 'texts' : 'reports' : 'different']++;
            if (!isSame) console.log(`${project.name}, cut at ${project.part}: the library answers otherwise\n${answers[i].report ?? ''}`);
        });
    }
    return counts;
}

const dist = path.join(root, 'web/dist');
if (!program || !fs.existsSync(path.join(dist, 'yettuvam.wasm'))) {
    console.error('answers.mjs: usage: answers.mjs [--firefox] PROGRAM, with web/dist made by web/build.sh');
    process.exit(2);
}
const server = await serve(dist);
const browser = isFirefox ? new Firefox(800, 600) : new Browser(800, 600);
let status = 2;
try {
    const { texts, reports, different } = await compareAll(browser, server.address);
    console.log(`${isFirefox ? 'Firefox' : 'Chromium'}: ${texts} texts and ${reports} reports are the program's, ${different} aren't`);
    status = different ? 1 : 0;
} catch (error) {
    console.error(`answers.mjs: ${error.message}`);
}
browser.end();
server.end();
setTimeout(() => process.exit(status), 1000);
