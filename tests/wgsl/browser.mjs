// A headless Chromium with WebGPU in software, and a server on 127.0.0.1 for the one page that it shows.
// CHROMIUM of the environment is the browser's command, else `chromium`.
import { spawn } from 'node:child_process';
import fs from 'node:fs';
import http from 'node:http';
import os from 'node:os';
import path from 'node:path';

const SECONDS_TO_START = 60;

const FLAGS = [
    '--headless=new', '--no-sandbox', '--no-first-run', '--disable-extensions', '--disable-gpu-watchdog',
    '--enable-unsafe-webgpu', '--use-webgpu-adapter=swiftshader', '--use-angle=swiftshader',
    '--enable-features=Vulkan', '--use-vulkan=swiftshader', '--disable-vulkan-surface',
];

const body = async request => {
    const parts = [];
    for await (const part of request) parts.push(part);
    return Buffer.concat(parts).toString('utf8');
};

const pause = milliseconds => new Promise(resolve => setTimeout(resolve, milliseconds));

// Serves what `answer` returns for a path, and shows the page at `start` until it posts its last report. `take` is called with each
// report. A browser that asks for nothing within a minute is started again, twice at most. Returns whether there was a last report
// within the seconds.
export async function show({ start, answer, take, seconds }) {
    let finish, heard;
    const server = http.createServer(async (request, response) => {
        const { pathname } = new URL(request.url, 'http://127.0.0.1');
        heard = true;
        if (request.method === 'POST') {
            const report = JSON.parse(await body(request));
            response.end();
            if (report.done) finish(true);
            else take(report);
            return;
        }
        const found = answer(decodeURIComponent(pathname));
        response.statusCode = found ? 200 : 404;
        if (found) response.setHeader('content-type', found.type);
        response.end(found?.content);
    });
    await new Promise(resolve => server.listen(0, '127.0.0.1', resolve));
    const address = `http://127.0.0.1:${server.address().port}${start}`;
    let ended = false;
    for (let tries = 0; tries < 3 && !ended; tries++) {
        heard = false;
        const last = new Promise(resolve => finish = resolve);
        const profile = fs.mkdtempSync(path.join(os.tmpdir(), 'browser-'));
        const flags = [...FLAGS, `--user-data-dir=${profile}`, address];
        const browser = spawn(process.env.CHROMIUM || 'chromium', flags, { stdio: 'ignore', detached: true });
        browser.on('error', error => { console.error(`browser: ${error.message}`); finish(false); });
        const timers = [
            setTimeout(() => heard || finish(false), 1000 * SECONDS_TO_START),
            setTimeout(() => finish(false), 1000 * seconds),
        ];
        ended = await last;
        timers.forEach(clearTimeout);
        try { process.kill(-browser.pid, 'SIGKILL'); } catch { }
        await pause(300);
        fs.rmSync(profile, { recursive: true, force: true, maxRetries: 5 });
        if (heard) break;
    }
    server.close();
    server.closeAllConnections();
    return ended;
}

const TYPES = {
    '.css': 'text/css', '.html': 'text/html; charset=utf-8', '.json': 'application/json', '.mjs': 'text/javascript', '.png': 'image/png', '.wasm': 'application/wasm', '.wgsl': 'text/plain; charset=utf-8',
};

// Answers with the files of a folder.
export const files = folder => name => {
    const file = path.join(folder, name);
    if (!file.startsWith(folder + path.sep) || !fs.existsSync(file) || !fs.statSync(file).isFile()) return null;
    return { type: TYPES[path.extname(file)] || 'application/octet-stream', content: fs.readFileSync(file) };
};
