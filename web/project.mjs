// A project: its files, of which one is the shader's, definitions, modules to add, and a setting; as a gallery's folder, as an address.

const BOOL = 5, INT = 6, UINT = 7; // kinds of definitions, as in yettuvam.h

const blank = { title: 'Untitled', note: '', files: [{ path: 'shader.wgsl', text: '' }], top: 0, definitions: '', imports: '', overrideAny: false };

// The projects of the gallery: `[{ name, title }]`.
export const gallery = async () => (await fetch('projects/projects.json')).json();

const words = text => text.split(/\s+/).filter(word => word !== '');

// A project of the gallery.
export async function open(name) {
    const folder = `projects/${name}/`;
    const found = await (await fetch(`${folder}project.json`)).json();
    const files = await Promise.all(found.files.map(async path => ({ path, text: await (await fetch(folder + path)).text() })));
    return { ...blank, ...found, files, top: found.files.indexOf(found.top) };
}

const through = async (bytes, stream) => new Uint8Array(await new Response(new Blob([bytes]).stream().pipeThrough(stream)).arrayBuffer());

// A project as the part of an address after `#`.
export async function written(project) {
    const bytes = await through(new TextEncoder().encode(JSON.stringify(project)), new CompressionStream('deflate-raw'));
    let text = '';
    for (const byte of bytes) text += String.fromCharCode(byte);
    return btoa(text).replaceAll('+', '-').replaceAll('/', '_').replaceAll('=', '');
}

// Whether a value has the form of a project. A link may hold anything.
function isProject({ files, top, definitions, imports, note, overrideAny }) {
    const isFile = file => typeof file?.path === 'string' && typeof file.text === 'string';
    return Array.isArray(files) && files.every(isFile) && Number.isInteger(top) && top >= 0 && top < files.length &&
        [definitions, imports, note].every(text => typeof text === 'string') && typeof overrideAny === 'boolean';
}

// The project in an address, or null if there is none.
export async function read(hash) {
    try {
        const text = atob(hash.replaceAll('-', '+').replaceAll('_', '/'));
        const bytes = Uint8Array.from(text, c => c.charCodeAt(0));
        const found = { ...blank, ...JSON.parse(new TextDecoder().decode(await through(bytes, new DecompressionStream('deflate-raw')))) };
        return isProject(found) ? found : null;
    } catch {
        return null;
    }
}

const LEAST_INT = -(2n ** 31n), INTS = 2n ** 32n;

// A definition by its text, `NAME` or `NAME=VALUE`: its name, its kind and its value; or null.
function definition(text) {
    const found = /^([A-Za-z_0-9]+)(?:=(true|false|-?\d+u?))?$/.exec(text);
    if (!found) return null;
    const [, name, value = 'true'] = found;
    if (value === 'true' || value === 'false') return { name, kind: BOOL, value: value === 'true' ? 1n : 0n };
    const isUnsigned = value.endsWith('u');
    const number = BigInt(isUnsigned ? value.slice(0, -1) : value);
    const least = isUnsigned ? 0n : LEAST_INT;
    return number < least || number >= least + INTS ? null : { name, kind: isUnsigned ? UINT : INT, value: number };
}

// What the library builds of a project, or the words of a definition that it can't have.
export function task(project) {
    const given = words(project.definitions);
    const definitions = given.map(definition);
    const wrong = given.filter((_, i) => definitions[i] === null);
    return {
        wrong,
        task: {
            shader: project.files[project.top],
            modules: project.files.filter((_, i) => i !== project.top),
            definitions: definitions.filter(found => found !== null),
            imports: words(project.imports),
            overrideAny: project.overrideAny,
        },
    };
}
