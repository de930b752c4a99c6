// SHA-256 (FIPS 180-4) of bytes that come part by part; the one of browsers takes whole files alone.

const PRIMES = [];
for (let n = 2; PRIMES.length < 64; n++)
    if (PRIMES.every((prime) => n % prime !== 0))
        PRIMES.push(n);
// the first 32 bits of the fractional part of a root
const fraction = (root) => (root - Math.floor(root)) * 2 ** 32 | 0;
const ROUND = Int32Array.from(PRIMES, (prime) => fraction(Math.cbrt(prime)));
const START = Int32Array.from(PRIMES.slice(0, 8), (prime) => fraction(Math.sqrt(prime)));

export class Sha256 {
    #state = START.slice();
    #words = new Int32Array(64);
    #rest = new Uint8Array(64);
    #kept = 0;
    #length = 0;

    /** Adds bytes. */
    update(bytes) {
        this.#length += bytes.length;
        let at = 0;
        if (this.#kept > 0) {
            at = Math.min(64 - this.#kept, bytes.length);
            this.#rest.set(bytes.subarray(0, at), this.#kept);
            this.#kept += at;
            if (this.#kept < 64)
                return;
            this.#block(this.#rest, 0);
        }
        for (; at + 64 <= bytes.length; at += 64)
            this.#block(bytes, at);
        this.#rest.set(bytes.subarray(at));
        this.#kept = bytes.length - at;
    }

    /** The digest of all bytes in hexadecimal digits. Nothing is added after it. */
    digest() {
        const length = this.#length, end = new Uint8Array((this.#kept < 56 ? 64 : 128) - this.#kept);
        end[0] = 128;
        new DataView(end.buffer).setBigUint64(end.length - 8, BigInt(length) * 8n);
        this.update(end);
        return Array.from(this.#state, (word) => (word >>> 0).toString(16).padStart(8, '0')).join('');
    }

    #block(bytes, at) {
        const w = this.#words, state = this.#state;
        for (let i = 0; i < 16; i++, at += 4)
            w[i] = bytes[at] << 24 | bytes[at + 1] << 16 | bytes[at + 2] << 8 | bytes[at + 3];
        for (let i = 16; i < 64; i++) {
            const x = w[i - 15], y = w[i - 2];
            const low = (x >>> 7 | x << 25) ^ (x >>> 18 | x << 14) ^ x >>> 3;
            const high = (y >>> 17 | y << 15) ^ (y >>> 19 | y << 13) ^ y >>> 10;
            w[i] = w[i - 16] + low + w[i - 7] + high | 0;
        }
        let [a, b, c, d, e, f, g, h] = state;
        for (let i = 0; i < 64; i++) {
            const one = h + ((e >>> 6 | e << 26) ^ (e >>> 11 | e << 21) ^ (e >>> 25 | e << 7)) + (e & f ^ ~e & g)
                + ROUND[i] + w[i] | 0;
            const two = ((a >>> 2 | a << 30) ^ (a >>> 13 | a << 19) ^ (a >>> 22 | a << 10))
                + (a & b ^ a & c ^ b & c) | 0;
            h = g;
            g = f;
            f = e;
            e = d + one | 0;
            d = c;
            c = b;
            b = a;
            a = one + two | 0;
        }
        state[0] += a;
        state[1] += b;
        state[2] += c;
        state[3] += d;
        state[4] += e;
        state[5] += f;
        state[6] += g;
        state[7] += h;
    }
}
