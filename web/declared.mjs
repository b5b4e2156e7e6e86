// Where a module's text declares an item. There is no map from the made text to its sources: an item is found by its name, and where
// a text declares a name more than once, as in the arms of a condition, all its lines are given.
const WORD = '[\\p{L}_][\\p{L}\\p{N}_]*';
const DECLARATION = new RegExp([
    `\\b(?:(override|virtual)\\s+)?fn\\s+((?:[^\\s(:]+\\s*::\\s*)*)(${WORD})`,
    `\\b(?:struct|alias|const|override)\\s+(${WORD})`,
    `\\bvar\\s*(?:<[^>\\n]*>)?\\s*(${WORD})`,
    '[{}]',
].join('|'), 'gu');
const IMPORT_PATH = /^[ \t]*#define_import_path[ \t]+([^\r\n]*?)[ \t;]*$/m;

// The place where the comment ends that begins at a place. Comments in comments count.
function commentEnd(text, from) {
    const marks = /\/\*|\*\//g;
    marks.lastIndex = from;
    let depth = 0;
    for (let found; (found = marks.exec(text));) {
        depth += found[0] === '/*' ? 1 : -1;
        if (depth === 0) return marks.lastIndex;
    }
    return text.length;
}

// A text with spaces in place of its comments. Each line stays where it is.
export function plain(text) {
    const starts = /\/\/[^\r\n]*|\/\*/g;
    const parts = [];
    let at = 0;
    for (let found; (found = starts.exec(text));) {
        const end = found[0] === '/*' ? commentEnd(text, found.index) : starts.lastIndex;
        parts.push(text.slice(at, found.index), text.slice(found.index, end).replace(/[^\n]/g, ' '));
        at = starts.lastIndex = end;
    }
    return [...parts, text.slice(at)].join('');
}

// The number of the line of each place of a list in order, from 1.
function linesOf(text, places) {
    let line = 1, at = 0;
    return places.map(place => {
        for (let next; (next = text.indexOf('\n', at)) !== -1 && next < place; at = next + 1) line++;
        return line;
    });
}

// The declarations of a text: each with its name, its line, and whether it is a function that overrides another. Variables and
// constants of functions are left out.
export function declarations(text) {
    const shown = plain(text);
    const found = [];
    let depth = 0;
    for (const match of shown.matchAll(DECLARATION)) {
        const [whole, word, path, fn, other, variable] = match;
        if (whole === '{') depth++;
        else if (whole === '}') depth = Math.max(depth - 1, 0);
        else if (fn) found.push({ name: fn, overrides: word === 'override' && path !== '', at: match.index });
        else if (depth === 0) found.push({ name: other ?? variable, overrides: false, at: match.index });
    }
    const lines = linesOf(shown, found.map(({ at }) => at));
    return found.map(({ name, overrides }, i) => ({ name, overrides, line: lines[i] }));
}

// What a text says of itself: its import path, or null, and its declarations. Texts that are asked for again are kept.
const known = new WeakMap();

function facts(file) {
    const kept = known.get(file);
    if (kept?.text === file.text) return kept;
    const made = { text: file.text, path: IMPORT_PATH.exec(plain(file.text))?.[1] ?? null, lines: null };
    known.set(file, made);
    return made;
}

// A name as a key, apart for functions that override another.
const keyOf = (name, overrides) => overrides ? `override ${name}` : name;

// The lines where a file declares a name.
function linesIn(file, key) {
    const made = facts(file);
    if (!made.lines) {
        made.lines = new Map();
        for (const { name, overrides, line } of declarations(file.text)) {
            const found = keyOf(name, overrides);
            made.lines.set(found, [...made.lines.get(found) ?? [], line]);
        }
    }
    return made.lines.get(key) ?? [];
}

// The files of a project by their import paths.
export class Sources {
    constructor({ files, top }) {
        this.shader = files[top];
        this.numbers = new Map(files.map((file, i) => [file, i]));
        this.modules = new Map();
        for (const file of files) {
            const { path } = facts(file);
            if (path !== null) this.modules.set(path, this.modules.has(path) ? null : file);
        }
    }

    // The file of an item's module; null if there is none, or more than one.
    file({ module }) {
        return module === null ? this.shader : this.modules.get(module) ?? null;
    }

    // The number of that file, or -1.
    number(item) {
        return this.numbers.get(this.file(item)) ?? -1;
    }

    // Where an item of a made text is declared: its file, and the lines that may be meant; or null.
    place(item) {
        const file = item.kind ? this.file(item) : null;
        if (!file) return null;
        return { path: file.path, lines: linesIn(file, keyOf(item.name, item.overrides !== null)) };
    }
}

// A place in words: `light.wgsl:12`, or `light.wgsl` where the line isn't known.
export function placeText(place) {
    return place.lines.length ? `${place.path}:${place.lines.join(' or ')}` : place.path;
}
