// The library `yettuvam.wasm`: builds one shader of a file and modules.
const OK = 0, FAULTY = 1, NO_ROOM = 5;
const FIELD = 40; // the bytes of a field of a page
const LEAST_ROOM = 1 << 16; // bytes for a result, at first
const MOST_MEMORY = 1 << 28; // bytes of a library that is kept for the next call
const STATUSES = ['', '', 'out of memory', 'a text isn\'t UTF-8', 'a definition has a wrong value', 'no room'];

const encoder = new TextEncoder();
const decoder = new TextDecoder();

// The library of a response. Compiled while it arrives, the browser can keep it; that needs the right type of content.
async function compiled(response) {
    const typed = response.headers.get('content-type') === 'application/wasm';
    return typed ? WebAssembly.compileStreaming(response) : WebAssembly.compile(await response.arrayBuffer());
}

export class Composer {
    static async load(from) {
        const response = await fetch(from);
        if (!response.ok) throw new Error(`${from} isn't there`);
        return new Composer(await compiled(response));
    }

    static async of(module) {
        return new Composer(module);
    }

    constructor(module) {
        this.module = module;
        this.renew();
    }

    // A new library, with memory of its own.
    renew() {
        this.calls = new WebAssembly.Instance(this.module).exports;
        this.room = LEAST_ROOM;
    }

    // Memory of the library for a number of bytes, until the call ends.
    take(size) {
        const at = this.calls.page_take(BigInt(Math.max(size, 8)));
        if (!at) throw new Error('out of memory');
        this.taken.push(at);
        return at;
    }

    // Words of 64 bits in memory.
    words(words) {
        const at = this.take(8 * words.length);
        const view = new BigUint64Array(this.calls.memory.buffer, Number(at), words.length);
        words.forEach((word, i) => { view[i] = BigInt.asUintN(64, BigInt(word)); });
        return at;
    }

    // A text in memory: its place and its length.
    text(text) {
        const bytes = encoder.encode(text);
        const at = this.take(bytes.length);
        new Uint8Array(this.calls.memory.buffer).set(bytes, Number(at));
        return [at, bytes.length];
    }

    // A list of items in memory: its place and its length.
    list(items) {
        return [this.words(items.flat()), items.length];
    }

    // A page in memory with room for a text.
    page() {
        return this.words([this.take(this.room), this.room, this.take(FIELD), 1, 0, 0]);
    }

    // The text of the one field of a page.
    shown(page) {
        const [out, , fields] = new BigUint64Array(this.calls.memory.buffer, Number(page), 6);
        const field = new DataView(this.calls.memory.buffer, Number(fields), FIELD);
        const at = Number(out + field.getBigUint64(8, true));
        return decoder.decode(new Uint8Array(this.calls.memory.buffer, at, Number(field.getBigUint64(16, true))));
    }

    // Builds the shader of a file over modules, each with `path` and `text`, under definitions, with imports besides those of its text.
    // Returns `{ text }`, or `{ report }` where one of the texts has an error. Where the library stops, the next call has a new one.
    build(task) {
        this.taken = [];
        try {
            const result = this.put(this.task(task));
            for (const at of this.taken) this.calls.page_give(at);
            if (this.calls.memory.buffer.byteLength > MOST_MEMORY) this.renew();
            return result;
        } catch (error) {
            this.renew();
            return { report: `error: the library stopped: ${error.message}\n` };
        }
    }

    // A task in memory.
    task({ shader, modules = [], definitions = [], imports = [], overrideAny = false }) {
        const source = file => [...this.text(file.path), ...this.text(file.text)];
        return this.words([
            ...source(shader),
            ...this.list(modules.map(source)),
            ...this.list(definitions.map(({ name, kind, value }) => [...this.text(name), kind, value])),
            ...this.list(imports.map(name => this.text(name))),
            overrideAny ? 1 : 0,
        ]);
    }

    // The result of a task, on a page that is as large as it has to be.
    put(task) {
        const page = this.page();
        const status = this.calls.yettuvam_build(task, page);
        if (status === OK) return { text: this.shown(page) };
        if (status === FAULTY) return { report: this.shown(page) };
        const needed = Number(new BigUint64Array(this.calls.memory.buffer, Number(page), 6)[4]);
        if (status === NO_ROOM && needed > this.room) {
            this.room = 2 * needed;
            return this.put(task);
        }
        return { report: `error: ${STATUSES[status]}\n` };
    }
}
