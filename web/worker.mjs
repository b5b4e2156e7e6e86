// Builds in the background, one task after the other. The answer to a task is its result with the milliseconds of the call, or `fault`
// where there is no library.
import { Composer } from './composer.mjs';

const loaded = Composer.load('yettuvam.wasm');
loaded.catch(() => {}); // said in the answer to each task

onmessage = async ({ data }) => {
    try {
        const composer = await loaded;
        const before = performance.now();
        const result = composer.build(data);
        postMessage({ ...result, took: performance.now() - before });
    } catch (error) {
        postMessage({ fault: error.message });
    }
};
