// draw.mjs FOLDER NAME..     draws NAME.wgsl of this folder, saves FOLDER/NAME.png, and compares it with NAME.png of this folder.
// Status 0: each is as it was; 1: one isn't; 2: nothing could be drawn.
import fs from 'node:fs';
import path from 'node:path';
import { fileURLToPath } from 'node:url';
import { files, show } from '../../tests/wgsl/browser.mjs';

const MOST_AVERAGE = 1;
const MOST_SEEN = 0.01;

const here = path.dirname(fileURLToPath(import.meta.url));
const [folder, ...names] = process.argv.slice(2);
let alike = 0, faults = 0;

const take = ({ fault, name, png, difference }) => {
    if (fault) {
        console.error(`draw: ${fault}`);
        faults++;
        return;
    }
    fs.writeFileSync(path.join(folder, `${name}.png`), Buffer.from(png, 'base64'));
    if (!difference) {
        console.log(`${name}: drawn; there is no ${name}.png to compare it with`);
        return;
    }
    const { average, seen } = difference;
    const fine = average <= MOST_AVERAGE && seen <= MOST_SEEN;
    if (fine) alike++;
    const said = fine ? 'as it was' : 'IT ISN\'T AS IT WAS';
    console.log(`${name}: ${said} (average difference ${average.toFixed(3)} of 255, ${(100 * seen).toFixed(3)} % of pixels are off)`);
};

const from = files(here);
const answer = name => name === '/names' ? { type: 'application/json', content: JSON.stringify(names) } : from(name);
const ended = await show({ start: '/compare.html', answer, take, seconds: 900 });
if (!ended) console.error('draw: the browser gave no answer');
process.exit(!ended || faults ? 2 : alike === names.length ? 0 : 1);
