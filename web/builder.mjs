// Hands tasks to the worker, one at a time. Of the tasks that come while one is built only the last is built, so typing never waits.
const PATIENCE = 3000; // milliseconds that a call may take once a later task waits, besides twice those of the call before

export class Builder {
    constructor() {
        this.took = 0;
        this.begin();
    }

    begin() {
        this.worker = new Worker(new URL('worker.mjs', import.meta.url), { type: 'module' });
        this.worker.onmessage = ({ data }) => this.end(data);
        this.worker.onerror = event => {
            this.worker.terminate();
            this.begin();
            this.end({ fault: event.message || 'the worker with the library ended' });
        };
    }

    // The result of a task, or null where a later task took its place.
    build(task) {
        return new Promise(resolve => {
            this.waiting?.resolve(null);
            this.waiting = { task, resolve };
            if (!this.running) this.next();
            else this.watch ??= setTimeout(() => this.stop(), PATIENCE + 2 * this.took);
        });
    }

    next() {
        this.running = this.waiting;
        this.waiting = null;
        if (this.running) this.worker.postMessage(this.running.task);
    }

    end(result) {
        clearTimeout(this.watch);
        this.watch = null;
        this.took = result?.took ?? 0;
        const ended = this.running;
        this.next();
        ended?.resolve(result);
    }

    // Ends a call that takes too long while a later task waits.
    stop() {
        this.worker.terminate();
        this.begin();
        this.end(null);
    }
}
