// A made text, read by its items. Each item is a paragraph of the text, and the name of an item that comes from a module says which
// one: `NAMEX_naga_oil_mod_X..X` with the module's name in base32 (docs/LANGUAGE.md). A name without it is the shader's own.
const LETTERS = 'ABCDEFGHIJKLMNOPQRSTUVWXYZ234567';
const FROM_MODULE = /^(.+)X_naga_oil_mod_X([A-Z2-7]*)X$/su;
const OVERRIDES = /^(.+)X_naga_oil_vrt_X([A-Z2-7]*)X$/su;
const DECLARED = /^(struct|alias|const|override|var|fn)\b\s*(?:<([^>]*)>)?\s*([\p{L}\p{N}_]+)/u;
const ATTRIBUTE = /^@\s*([a-z_]+)\s*/;
const STAGES = ['vertex', 'fragment', 'compute'];

// The text whose base32 is given.
export function decoded(code) {
    const bytes = [];
    let bits = 0, count = 0;
    for (const letter of code) {
        bits = bits % 128 * 32 + LETTERS.indexOf(letter);
        count += 5;
        if (count >= 8) {
            count -= 8;
            bytes.push((bits >> count) & 255);
        }
    }
    return new TextDecoder().decode(new Uint8Array(bytes));
}

// A decorated name: the item's own name, its module or null, and the module whose function it overrides, or null.
export function undecorated(written) {
    const [, rest = written, code = null] = FROM_MODULE.exec(written) ?? [];
    const [, name = rest, overridden = null] = OVERRIDES.exec(rest) ?? [];
    return { name, module: code === null ? null : decoded(code), overrides: overridden === null ? null : decoded(overridden) };
}

// The place after the bracket that closes the one at the start of a text.
function afterBrackets(text) {
    let depth = 0;
    for (let at = 0; at < text.length; at++) {
        if (text[at] === '(') depth++;
        if (text[at] === ')' && --depth === 0) return at + 1;
    }
    return text.length;
}

// The attributes at the start of a text, each with what is in its brackets, and the text after them.
function withoutAttributes(text) {
    const attributes = {};
    let rest = text;
    for (let found; (found = ATTRIBUTE.exec(rest));) {
        rest = rest.slice(found[0].length);
        const end = rest[0] === '(' ? afterBrackets(rest) : 0;
        attributes[found[1]] = rest.slice(1, Math.max(end - 1, 1)).trim();
        rest = rest.slice(end).trimStart();
    }
    return { attributes, rest };
}

// The item that a paragraph declares. A paragraph without one, as of directives, has the kind ''.
function item(text, line) {
    const { attributes, rest } = withoutAttributes(text);
    const [head, kind = '', space = '', written = ''] = DECLARED.exec(rest) ?? [''];
    const type = kind === 'var' ? rest.slice(head.length).replace(/^\s*:\s*/, '').replace(/\s*(=[^]*)?;\s*$/, '') : '';
    return { text, line, count: text.split('\n').length, kind, space, written, type, attributes, ...undecorated(written) };
}

// The items of a made text in order, each with the number of its first line, from 1.
export function itemsOf(made) {
    const items = [];
    let line = 1;
    for (const text of made.replace(/\n+$/, '').split('\n\n')) {
        items.push(item(text, line));
        line += items.at(-1).count + 1;
    }
    return items;
}

// The item at a line of the made text, or undefined.
export const itemAt = (items, line) => items.findLast(found => found.line <= line && line < found.line + found.count);

const stageOf = ({ kind, attributes }) => kind === 'fn' ? STAGES.find(stage => stage in attributes) : undefined;

// The entry points among items: each with its stage, and a compute one with its workgroup's size.
export function entriesOf(items) {
    return items.filter(stageOf).map(found => ({ ...found, stage: stageOf(found), size: found.attributes.workgroup_size ?? '' }));
}

// The variables with a binding among items, in order of their groups and bindings.
export function bindingsOf(items) {
    const bound = items.filter(({ kind, attributes }) => kind === 'var' && 'binding' in attributes);
    const of = found => ({ ...found, group: Number(found.attributes.group), binding: Number(found.attributes.binding) });
    return bound.map(of).sort((a, b) => a.group - b.group || a.binding - b.binding);
}

// A text with its decorated names as a reader knows them: `light::lit`.
export function readable(text) {
    return text.replace(/[\p{L}\p{N}_]+X_naga_oil_(?:mod|vrt)_X[A-Z2-7]*X/gu, written => {
        const { name, module } = undecorated(written);
        return module === null ? name : `${module}::${name}`;
    });
}
