// A headless Firefox that is driven by WebDriver BiDi, with the calls of `Browser` in browser.mjs.
// FIREFOX of the environment is the browser's command, else `firefox-esr`.
import { spawn } from 'node:child_process';
import fs from 'node:fs';
import os from 'node:os';
import path from 'node:path';
import { endBrowser } from './browser.mjs';
import { Socket } from './socket.mjs';

const SECONDS_TO_START = 120;

// WebGPU isn't on by default in each Firefox for Linux, nor with graphics in software.
const SETTINGS = {
    'dom.webgpu.enabled': true, 'gfx.webgpu.ignore-blocklist': true, 'browser.shell.checkDefaultBrowser': false,
    'datareporting.policy.dataSubmissionEnabled': false, 'app.update.enabled': false, 'toolkit.telemetry.enabled': false,
    'network.captive-portal-service.enabled': false, 'network.connectivity-service.enabled': false,
};

// The protocol's characters for keys.
const KEYS = {
    Tab: '\uE004', Escape: '\uE00C', End: '\uE010', Home: '\uE011', ArrowUp: '\uE013', ArrowRight: '\uE014', ArrowDown: '\uE015',
    Alt: '\uE00A', Control: '\uE009', Shift: '\uE008',
};

export class Firefox {
    constructor(width, height) {
        this.profile = fs.mkdtempSync(path.join(os.tmpdir(), 'browser-'));
        const lines = Object.entries(SETTINGS).map(([name, value]) => `user_pref(${JSON.stringify(name)}, ${value});\n`);
        fs.writeFileSync(path.join(this.profile, 'user.js'), lines.join(''));
        const words = ['--headless', '--no-remote', '--profile', this.profile, '--remote-debugging-port', '0', `--width=${width}`, `--height=${height}`, 'about:blank'];
        const env = { ...process.env, HOME: this.profile, MOZ_HEADLESS: '1' };
        this.process = spawn(process.env.FIREFOX || 'firefox-esr', words, { env, stdio: ['ignore', 'ignore', 'pipe'], detached: true });
        process.once('exit', () => this.end());
        this.asked = new Map();
        this.count = 0;
        this.port = new Promise((resolve, reject) => {
            let said = '';
            this.process.stderr.on('data', bytes => {
                said = (said + bytes).slice(-10000);
                const found = /WebDriver BiDi listening on ws:\/\/127\.0\.0\.1:(\d+)/.exec(said);
                if (found) resolve(Number(found[1]));
            });
            this.process.on('error', reject);
            setTimeout(() => reject(new Error('Firefox doesn\'t start')), 1000 * SECONDS_TO_START).unref();
        });
    }

    // Opens the first page.
    async attach() {
        this.socket = await Socket.connect(await this.port, '/session', text => this.take(JSON.parse(text)));
        await this.send('session.new', { capabilities: {} });
        const { contexts } = await this.send('browsingContext.getTree');
        this.context = contexts[0].context;
    }

    take({ id, type, result, message }) {
        const asked = this.asked.get(id);
        if (!asked) return;
        this.asked.delete(id);
        if (type === 'error') asked.reject(new Error(message));
        else asked.resolve(result);
    }

    // Sends a command of the protocol, and returns its result.
    send(method, params = {}) {
        const id = ++this.count;
        const result = new Promise((resolve, reject) => this.asked.set(id, { resolve, reject }));
        this.socket.send(JSON.stringify({ id, method, params }));
        return result;
    }

    go(address) {
        return this.send('browsingContext.navigate', { context: this.context, url: address, wait: 'interactive' });
    }

    // The value of an expression in the page, which travels as JSON.
    async value(expression) {
        const { type, result, exceptionDetails } = await this.send('script.evaluate', {
            expression: `(async () => JSON.stringify(await (${expression})))()`, target: { context: this.context }, awaitPromise: true,
        });
        if (type === 'exception') throw new Error(exceptionDetails.text);
        return result.type === 'string' ? JSON.parse(result.value) : undefined;
    }

    // Waits until an expression holds in the page, so many seconds.
    async until(expression, seconds) {
        const end = Date.now() + 1000 * seconds;
        while (Date.now() < end) {
            if (await this.value(expression).catch(() => false)) return true;
            await new Promise(resolve => setTimeout(resolve, 50));
        }
        return false;
    }

    async actions(actions) {
        await this.send('input.performActions', { context: this.context, actions: [{ type: 'key', id: 'keys', actions }] });
    }

    // Types a text where the cursor is.
    type(text) {
        return this.actions([...text].flatMap(value => [{ type: 'keyDown', value }, { type: 'keyUp', value }]));
    }

    // Presses a key, with the ones that are held, such as `Alt`.
    press(key, held = []) {
        const down = held.map(name => ({ type: 'keyDown', value: KEYS[name] }));
        const up = held.map(name => ({ type: 'keyUp', value: KEYS[name] }));
        const value = KEYS[key] ?? key;
        return this.actions([...down, { type: 'keyDown', value }, { type: 'keyUp', value }, ...up]);
    }

    undo() {
        return this.press('z', ['Control']);
    }

    async picture(file) {
        const { data } = await this.send('browsingContext.captureScreenshot', { context: this.context });
        fs.writeFileSync(file, Buffer.from(data, 'base64'));
    }

    end() {
        this.socket?.end();
        endBrowser(this.process, this.profile);
    }
}
