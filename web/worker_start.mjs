// Starts what worker.mjs does, in a worker of a page or of Node.
import { takeJob } from './worker.mjs';

if (typeof WorkerGlobalScope === 'undefined') {
    const { parentPort } = await import('node:worker_threads');
    parentPort.on('message', (data) => takeJob(parentPort, data));
} else {
    globalThis.onmessage = ({ data }) => takeJob(globalThis, data);
}
