// Workers that do one job each at a time.
import { Stopped, errorFrom } from './errors.mjs';

/** The most workers of a pool. */
export const MAX_WORKERS = 64;

/** A pool of workers. Each has an instance of the module of its own. */
export class Pool {
    #workers = [];
    #free = [];
    #queue = [];
    #taken = new Map();
    #number = 0;
    #closed = false;

    /** A pool of a number of workers. `start` makes one: an object as `Worker` in a page, or as that of Node. */
    static async of(count, module, start) {
        const pool = new Pool();
        try {
            for (let i = 0; i < count; i++)
                pool.#add(await start());
            await Promise.all(pool.#workers.map((worker) => pool.#send(worker, { module }, [])));
        } catch (fault) {
            await pool.close();
            throw fault;
        }
        pool.#free = [...pool.#workers];
        return pool;
    }

    get size() { return this.#workers.length; }

    #add(worker) {
        this.#workers.push(worker);
        const failed = (what) => this.#fail(new Stopped(`a worker has stopped: ${what}`));
        if (typeof worker.on === 'function') {
            worker.on('message', (data) => this.#take(worker, data));
            worker.on('error', (error) => failed(error.message));
            worker.on('exit', () => failed('it has ended'));
        } else {
            worker.onmessage = ({ data }) => this.#take(worker, data);
            worker.onerror = (event) => failed(event.message ?? 'it does not start');
            worker.onmessageerror = () => failed('a message could not be read');
        }
    }

    // What a worker answers to a job. Whoever asked is told, and the worker takes the next job.
    #take(worker, { id, done, error }) {
        const job = this.#taken.get(id);
        this.#taken.delete(id);
        const next = this.#queue.shift();
        if (next !== undefined)
            this.#send(worker, next.job, next.rooms).then(next.resolve, next.reject);
        else
            this.#free.push(worker);
        if (error !== undefined)
            job?.reject(errorFrom(error));
        else
            job?.resolve(done);
    }

    #send(worker, job, rooms) {
        return new Promise((resolve, reject) => {
            const id = this.#number++;
            this.#taken.set(id, { resolve, reject });
            worker.postMessage({ ...job, id }, rooms);
        });
    }

    /** Has a free worker do a job; it waits for one. What is in `rooms` goes to the worker. */
    run(job, rooms = []) {
        if (this.#closed)
            return Promise.reject(new Stopped('the workers have stopped'));
        const worker = this.#free.pop();
        if (worker !== undefined)
            return this.#send(worker, job, rooms);
        return new Promise((resolve, reject) => this.#queue.push({ job, rooms, resolve, reject }));
    }

    #fail(error) {
        if (this.#closed)
            return;
        this.#closed = true;
        for (const { reject } of [...this.#taken.values(), ...this.#queue])
            reject(error);
        this.#taken.clear();
        this.#queue = [];
        this.close();
    }

    /** Ends the workers. Jobs that are not done fail. */
    async close() {
        this.#fail(new Stopped('the workers have stopped'));
        const workers = this.#workers;
        this.#workers = [];
        await Promise.all(workers.map((worker) => worker.terminate()));
    }
}

/** Calls each of `calls`, at most `window` ahead of what is taken, and gives what their promises give, in order. */
export async function* inOrder(calls, window) {
    const waiting = [];
    try {
        for (const call of calls) {
            if (waiting.length >= window)
                yield await waiting.shift();
            const promise = call();
            promise.catch(() => {}); // it is told when its turn comes
            waiting.push(promise);
        }
        while (waiting.length > 0)
            yield await waiting.shift();
    } finally {
        await Promise.allSettled(waiting);
    }
}
