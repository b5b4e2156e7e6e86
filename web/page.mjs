// The page: files on the left, what is made of them on the right.
import { Builder } from './builder.mjs';
import { Sources } from './declared.mjs';
import { Editor } from './editor.mjs';
import { Tabs, freePath } from './files.mjs';
import { latest } from './latest.mjs';
import { bindingsOf, entriesOf, itemsOf } from './made.mjs';
import { MadeView, hue } from './made_view.mjs';
import { gallery, open, read, task, written } from './project.mjs';
import { browserReport, faultsOf, faultsOfMessages, libraryReport, placed } from './report.mjs';
import { tablesOf } from './tables.mjs';
import { View } from './view.mjs';

const ADDRESS_WAIT = 500; // milliseconds from the last change to the new address
const LONGEST_ADDRESS = 1 << 20;
const MOST_NAMES = 6; // in a list of what has changed
const { dataset } = document.body;

const at = id => document.getElementById(id);
const say = text => { at('told').textContent = text; };

export let project, view;
let shown = 0; // the number of the file that is shown
let faults = []; // places of what is wrong: { path, line, message }
let before = null; // what was built last, as { parts: Map of names to texts }
let address = null; // the timer of the next address
let builds = 0; // that aren't done
let turn = 0; // counts the results that were shown
let wanted = 0, drawn = 0; // the results that were last handed to the browser, and last answered by it
let taken = null; // the text that the browser took last, without a message
const builder = new Builder();
const editor = new Editor(at('editor'), file => change(file));
const tabs = new Tabs(at('tabs'), i => show(i));
const made = new MadeView(at('made'), place => go(place));
const time = { plays: !matchMedia('(prefers-reduced-motion: reduce)').matches, seconds: 1, last: 0, stale: true };

// ---- files

function paintTabs() {
    tabs.paint(project, shown, new Set(faults.map(({ path }) => path)));
    editor.mark(faults.filter(({ path }) => path === project.files[shown].path));
}

function show(i) {
    shown = i;
    editor.show(project.files[i]);
    at('path').value = project.files[i].path;
    at('remove').disabled = project.files.length < 2;
    at('top').disabled = i === project.top;
    paintTabs();
}

// Shows the place of an item or of a report, if its file is there.
function go({ path, lines }) {
    const i = project.files.findIndex(file => file.path === path);
    if (i === -1) return;
    show(i);
    if (lines.length) editor.go(lines[0]);
}

function addFile(path, text) {
    project.files.push({ path: freePath(project.files, path), text });
    show(project.files.length - 1);
    change();
}

// Adds files from outside, if they are texts.
async function addFiles(files) {
    for (const file of files) {
        try {
            addFile(file.name, new TextDecoder('utf-8', { fatal: true }).decode(await file.arrayBuffer()));
        } catch {
            say(`${file.name} isn't a text in UTF-8`);
        }
    }
}

function removeFile() {
    editor.forget(project.files[shown]);
    const [file] = project.files.splice(shown, 1);
    offerBack({ ...file, at: shown });
    if (project.top > shown || project.top === project.files.length) project.top--;
    show(Math.min(shown, project.files.length - 1));
    change();
}

// Offers to put a removed file back, or nothing.
function offerBack(file) {
    at('back').hidden = file === null;
    at('back').textContent = `Put ${file?.path} back`;
    at('back').onclick = () => {
        offerBack(null);
        project.files.splice(file.at, 0, { path: freePath(project.files, file.path), text: file.text });
        if (project.top >= file.at) project.top++;
        show(file.at);
        change();
    };
}

function rename(path) {
    const others = project.files.filter((_, i) => i !== shown);
    if (path) project.files[shown].path = freePath(others, path);
    show(shown);
    change();
}

// ---- what is wrong

function report(parts, found) {
    at('report').hidden = parts.length === 0;
    at('report').replaceChildren(...parts);
    faults = found;
    paintTabs();
}

// ---- a build

// The parts of a project that a build depends on, by name.
const partsOf = ({ files, top, definitions, imports, overrideAny }) => new Map([
    ...files.map(({ path, text }) => [path, text]),
    ['the choice of the shader', files[top].path], ['the definitions', definitions], ['the modules to add', imports], ['what may be overridden', overrideAny],
]);

// The names of the parts that differ from those of the last build.
function changed(parts) {
    if (!before) return [];
    return [...new Set([...parts.keys(), ...before.keys()])].filter(name => parts.get(name) !== before.get(name));
}

const list = names => names.length > MOST_NAMES ? `${names.slice(0, MOST_NAMES).join(', ')} and ${names.length - MOST_NAMES} more` : names.join(', ');

const named = (head, items) => items.length ? [`${head}: ${list(items.map(({ kind, name }) => `${kind} ${name}`))}.`] : [];

// Says what took how long, and what has changed since the last build.
function tellBuilt(took, names, items, { fresh, gone }) {
    const parts = [`Built in ${took.toFixed(1)} ms, ${items.filter(({ kind }) => kind).length} items.`];
    const apart = (some, others) => some.filter(({ written }) => !others.has(written));
    const [now, then] = [fresh, gone].map(some => new Set(some.map(({ written }) => written)));
    const added = apart(fresh, then);
    if (names.length) {
        parts.push(`Edited: ${list(names)}.`, ...named('Changed in the text', fresh.filter(({ written }) => then.has(written))));
        parts.push(...named('New', added), ...named('Gone', apart(gone, now)));
    }
    if (names.length && !fresh.length && !gone.length) parts.push('The text has the same items.');
    at('built').textContent = parts.join(' ');
}

// Shows a made text, and has it drawn.
function showMade(text, took, parts) {
    const items = itemsOf(text);
    const names = changed(parts);
    before = parts;
    const sources = new Sources(project);
    const places = new Map(items.map(item => [item, sources.place(item)]));
    tellBuilt(took, names, items, made.show(items, item => places.get(item), item => hue(sources.number(item))));
    report([], []);
    turn++;
    if (text === taken && wanted === drawn) return;
    at('tables').replaceChildren(...tablesOf(items));
    at('browser').textContent = '';
    wanted = turn;
    draw({ text, items, places, mine: turn });
}

// Hands a made text to the browser, and says what it says.
const draw = latest(async ({ text, items, places, mine }) => {
    const start = performance.now();
    const answer = await view?.take(text, entriesOf(items), bindingsOf(items)).catch(error => ({ messages: [], refused: false, why: error.message }));
    drawn = mine;
    taken = answer?.messages.length || answer?.why ? null : text;
    rest();
    if (!answer || mine !== turn) return;
    at('browser').textContent = `Compiled by the browser in ${(performance.now() - start).toFixed(0)} ms.`;
    const messages = answer.messages.map(message => placed(message, items, item => places.get(item)));
    made.mark(messages.filter(({ type, item }) => type === 'error' && item).map(({ item }) => item));
    if (messages.length) report(browserReport(messages, answer.refused, go), faultsOfMessages(messages));
    undrawn(answer.why ? `Nothing of this text is drawn: ${answer.why}.` : '');
    time.stale = true;
});

function undrawn(text) {
    at('undrawn').hidden = text === '';
    at('undrawn').textContent = text;
}

// Says whether all is done.
function rest() {
    dataset.rest = builds === 0 && wanted === drawn;
}

async function build() {
    const { wrong, task: given } = task(project);
    const parts = partsOf(project);
    builds++;
    rest();
    const result = wrong.length ? { report: `error: no definition: ${wrong.join(' ')}\n` } : await builder.build(given);
    if (result?.text !== undefined) showMade(result.text, result.took, parts);
    else if (result) refused(result);
    builds--;
    rest();
}

function refused({ report: text, fault, took = 0 }) {
    turn++;
    report(libraryReport(text ?? `error: there is no library: ${fault}`, go), text ? faultsOf(text) : []);
    at('built').textContent = `Refused in ${took.toFixed(1)} ms. The text below and the picture are of the last one that was made.`;
    at('browser').textContent = '';
}

function change() {
    build();
    clearTimeout(address);
    address = setTimeout(keep, ADDRESS_WAIT);
}

// Keeps the project in the address.
async function keep() {
    const text = await written(project);
    const fits = text.length < LONGEST_ADDRESS;
    history.replaceState(null, '', fits ? `#${text}` : location.pathname);
    dataset.kept = fits;
    return fits;
}

// ---- the page

function take(found) {
    project = found;
    faults = [];
    before = null;
    taken = null;
    made.clear();
    editor.clear();
    offerBack(null);
    at('definitions').value = project.definitions;
    at('imports').value = project.imports;
    at('override-any').checked = project.overrideAny;
    at('note').textContent = project.note;
    show(project.top);
    return build();
}

async function openProject(name) {
    await take(await open(name));
    history.replaceState(null, '', `?${name}`);
}

// Opens the project in the address, if there is one. Returns whether there was.
async function openLink() {
    const linked = location.hash.length > 1 ? await read(location.hash.slice(1)) : null;
    if (linked) await take(linked);
    return linked !== null;
}

async function copyLink() {
    if (!await keep()) return say('The project is too large for an address.');
    await navigator.clipboard.writeText(location.href);
    say('copied');
}

function listen() {
    at('definitions').oninput = event => { project.definitions = event.target.value; change(); };
    at('imports').oninput = event => { project.imports = event.target.value; change(); };
    at('override-any').onchange = event => { project.overrideAny = event.target.checked; change(); };
    at('project').onchange = event => openProject(event.target.value);
    at('link').onclick = () => copyLink().catch(error => say(error.message));
    at('copy').onclick = () => navigator.clipboard.writeText(made.text()).then(() => say('copied'), error => say(error.message));
    at('path').onchange = event => rename(event.target.value.trim());
    at('add').onclick = () => addFile('module.wgsl', '');
    at('open').onchange = event => addFiles([...event.target.files]).then(() => { at('open').value = ''; });
    at('remove').onclick = removeFile;
    at('top').onclick = () => { project.top = shown; show(shown); change(); };
    at('plays').onclick = () => { time.plays = !time.plays; tellPlays(); };
    addEventListener('keydown', event => {
        const step = { ArrowUp: -1, ArrowDown: 1 }[event.key];
        if (!event.altKey || !step) return;
        event.preventDefault();
        show((shown + step + project.files.length) % project.files.length);
    });
    const hasFiles = event => event.dataTransfer.types.includes('Files');
    addEventListener('dragover', event => { if (hasFiles(event)) event.preventDefault(); });
    addEventListener('drop', event => {
        if (!hasFiles(event)) return;
        event.preventDefault();
        addFiles([...event.dataTransfer.files]);
    });
    addEventListener('hashchange', openLink);
    addEventListener('error', event => say(event.message));
    addEventListener('unhandledrejection', event => say(event.reason?.message ?? String(event.reason)));
}

function tellPlays() {
    at('plays').textContent = time.plays ? 'Pause' : 'Play';
    at('plays').disabled = !view;
}

// Draws a picture where time goes on, or where there is something new.
function frame(now) {
    if (time.plays) time.seconds += (now - time.last) / 1000;
    time.last = now;
    if (view?.drawn && !view.busy && (time.plays || time.stale)) {
        time.stale = false;
        view.frame(time.seconds).then(() => { dataset.pictured ??= Math.round(performance.now()); });
    }
    requestAnimationFrame(frame);
}

// Begins to draw. A device that is lost is asked for once more.
async function beginView(again = true) {
    try {
        view = await View.on(at('view'));
        view.device.lost.then(({ reason, message }) => {
            view = null;
            if (again && reason !== 'destroyed') return beginView(false).then(build);
            undrawn(`Nothing is drawn any more: ${message}`);
        });
    } catch (error) {
        view = null;
        undrawn(`Nothing is drawn: ${error.message}. The text is made all the same.`);
    }
    tellPlays();
}

async function start() {
    listen();
    const [projects] = await Promise.all([gallery(), beginView()]);
    at('project').replaceChildren(...projects.map(({ name, title }) => new Option(title, name)));
    const named = projects.find(({ name }) => name === location.search.slice(1)) ?? projects[0];
    at('project').value = named.name;
    if (!await openLink()) await openProject(named.name);
    requestAnimationFrame(frame);
    dataset.started = Math.round(performance.now());
}

start().catch(error => report([`The page can't start: ${error.message}`], []));
