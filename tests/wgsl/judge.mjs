// judge.mjs FILE..             says of each text in WGSL whether Chromium takes it, with the compute pipelines of its entry points. Where
//                              a file `writes` stands beside the text, `main` has to write the numbers in it first.
// judge.mjs --pairs FILE..     runs files in pairs, and says whether `main` of both writes the same.
// File names are read from standard input, one a line, where none is given. What `main` writes is the buffer of 64 numbers at group 0
// and binding 0. Status 0: all are taken, or alike; 1: some aren't; 2: there was no judgement.
import fs from 'node:fs';
import path from 'node:path';
import { fileURLToPath } from 'node:url';
import { files, show } from './browser.mjs';

const here = path.dirname(fileURLToPath(import.meta.url));
const words = process.argv.slice(2);
const areRun = words[0] === '--pairs' && words.shift() !== undefined;
const names = words.length ? words : fs.readFileSync(0, 'utf8').split('\n').filter(line => line);
let fine = 0, wrong = 0, fault = null;

const take = report => {
    if (report.fault) {
        fault = report.fault;
        return;
    }
    const { at, messages } = report;
    messages.length ? wrong++ : fine++;
    const said = messages.length ? areRun ? 'differs' : 'bad' : areRun ? 'alike' : 'ok';
    console.log([`${names[at]}: ${said}`, ...messages].join('\n    '));
};

// The numbers that a text has to write.
const wanted = name => {
    const file = path.join(path.dirname(name), 'writes');
    return fs.existsSync(file) ? fs.readFileSync(file, 'utf8').trim().split(' ').map(Number) : [];
};

const own = files(here);
const answer = name => {
    if (name === '/work') return { type: 'application/json', content: JSON.stringify({ wanted: names.map(wanted), areRun }) };
    const at = /^\/text\/([0-9]+)$/.exec(name);
    if (at && names[+at[1]]) return { type: 'text/plain; charset=utf-8', content: fs.readFileSync(names[+at[1]]) };
    return own(name);
};

const ended = await show({ start: '/judge.html', answer, take, seconds: 120 + 5 * names.length });
if (!ended) console.error('judge: the browser gave no answer');
if (fault) console.error(`judge: ${fault}`);
console.error(`judge: ${fine} ${areRun ? 'alike' : 'ok'}, ${wrong} ${areRun ? 'different' : 'bad'}`);
process.exit(!ended || fault ? 2 : wrong ? 1 : 0);
