// A headless Chromium that is driven by its debugging pipe, and a server on 127.0.0.1 for the files of a folder.
// CHROMIUM of the environment is the browser's command, else `chromium`.
import { spawn } from 'node:child_process';
import fs from 'node:fs';
import http from 'node:http';
import os from 'node:os';
import path from 'node:path';
import { files } from '../wgsl/browser.mjs';

const FLAGS = [
    '--headless=new', '--no-sandbox', '--no-first-run', '--disable-extensions', '--disable-gpu-watchdog', '--remote-debugging-pipe',
    '--enable-unsafe-webgpu', '--use-webgpu-adapter=swiftshader', '--use-angle=swiftshader',
    '--enable-features=Vulkan', '--use-vulkan=swiftshader', '--disable-vulkan-surface',
];

for (const signal of ['SIGINT', 'SIGTERM']) process.once(signal, () => process.exit(2));

// Ends a browser, with all its processes, and removes its profile.
export function endBrowser(browser, profile) {
    const runs = browser.pid !== undefined && browser.exitCode === null && browser.signalCode === null;
    if (runs) process.kill(-browser.pid, 'SIGKILL');
    setTimeout(() => fs.rmSync(profile, { recursive: true, force: true, maxRetries: 5 }), 300);
}

// The numbers of keys.
const CODES = { Tab: 9, Escape: 27, End: 35, Home: 36, ArrowUp: 38, ArrowRight: 39, ArrowDown: 40 };

// Serves the files of a folder, and those of others under the paths that are given, and returns the address and what ends it.
export async function serve(folder, others = {}) {
    const own = files(path.resolve(folder));
    const more = Object.entries(others).map(([start, other]) => [start, files(path.resolve(other))]);
    const answer = name => {
        const found = more.find(([start]) => name.startsWith(start));
        return found ? found[1](name.slice(found[0].length)) : own(name);
    };
    const server = http.createServer((request, response) => {
        const { pathname } = new URL(request.url, 'http://127.0.0.1');
        const found = answer(pathname === '/' ? '/index.html' : decodeURIComponent(pathname));
        response.statusCode = found ? 200 : 404;
        if (found) response.setHeader('content-type', found.type);
        response.end(found?.content);
    });
    await new Promise(resolve => server.listen(0, '127.0.0.1', resolve));
    return { address: `http://127.0.0.1:${server.address().port}`, end: () => { server.close(); server.closeAllConnections(); } };
}

export class Browser {
    constructor(width, height, flags = FLAGS) {
        this.profile = fs.mkdtempSync(path.join(os.tmpdir(), 'browser-'));
        const words = [...flags, `--window-size=${width},${height}`, `--user-data-dir=${this.profile}`, 'about:blank'];
        this.process = spawn(process.env.CHROMIUM || 'chromium', words, { stdio: ['ignore', 'ignore', 'ignore', 'pipe', 'pipe'], detached: true });
        process.once('exit', () => this.end());
        this.asked = new Map();
        this.count = 0;
        let rest = '';
        this.process.stdio[4].on('data', bytes => {
            const parts = (rest + bytes).split('\0');
            rest = parts.pop();
            parts.forEach(part => this.take(JSON.parse(part)));
        });
    }

    take({ id, result, error }) {
        const asked = this.asked.get(id);
        if (!asked) return;
        this.asked.delete(id);
        if (error) asked.reject(new Error(error.message));
        else asked.resolve(result);
    }

    // Sends a command of the debugging protocol, and returns its result.
    send(method, params = {}) {
        const id = ++this.count;
        const message = { id, method, params, ...(this.session ? { sessionId: this.session } : {}) };
        const result = new Promise((resolve, reject) => this.asked.set(id, { resolve, reject }));
        this.process.stdio[3].write(`${JSON.stringify(message)}\0`);
        return result;
    }

    // Opens the first page.
    async attach() {
        const { targetInfos } = await this.send('Target.getTargets');
        const { targetId } = targetInfos.find(({ type }) => type === 'page');
        this.session = (await this.send('Target.attachToTarget', { targetId, flatten: true })).sessionId;
    }

    go(address) {
        return this.send('Page.navigate', { url: address });
    }

    // The value of an expression in the page.
    async value(expression) {
        const { result, exceptionDetails } = await this.send('Runtime.evaluate', { expression, returnByValue: true, awaitPromise: true });
        if (exceptionDetails) throw new Error(exceptionDetails.exception?.description ?? exceptionDetails.text);
        return result.value;
    }

    // Waits until an expression holds in the page, so many seconds.
    async until(expression, seconds) {
        const end = Date.now() + 1000 * seconds;
        while (Date.now() < end) {
            if (await this.value(expression).catch(() => false)) return true;
            await new Promise(resolve => setTimeout(resolve, 50));
        }
        return false;
    }

    // Types a text where the cursor is.
    type(text) {
        return this.send('Input.insertText', { text });
    }

    // Presses a key, with the ones that are held, such as `Alt`. What a key does besides its event has to be named, as `undo`.
    async press(key, held = [], commands = []) {
        const modifiers = held.reduce((sum, name) => sum + { Alt: 1, Control: 2, Shift: 8 }[name], 0);
        const what = { key, code: key.length === 1 ? `Key${key.toUpperCase()}` : key, windowsVirtualKeyCode: CODES[key] ?? key.toUpperCase().charCodeAt(0), modifiers };
        await this.send('Input.dispatchKeyEvent', { type: 'rawKeyDown', commands, ...what });
        await this.send('Input.dispatchKeyEvent', { type: 'keyUp', ...what });
    }

    undo() {
        return this.press('z', ['Control'], ['undo']);
    }

    async picture(file) {
        const { data } = await this.send('Page.captureScreenshot', { format: 'png' });
        fs.writeFileSync(file, Buffer.from(data, 'base64'));
    }

    end() {
        endBrowser(this.process, this.profile);
    }
}
