// A client for the protocol WebSocket (RFC 6455) over a socket to 127.0.0.1, for texts.
import crypto from 'node:crypto';
import net from 'node:net';

const TEXT = 1, CLOSE = 8, PING = 9, PONG = 10;

// A frame with its mask, as a client has to send it.
function frame(kind, content) {
    const { length } = content;
    const head = [128 | kind];
    if (length < 126) head.push(128 | length);
    else if (length < 1 << 16) head.push(254, length >> 8, length & 255);
    else head.push(255, 0, 0, 0, 0, ...[24, 16, 8, 0].map(bits => (length >>> bits) & 255));
    const mask = crypto.randomBytes(4);
    return Buffer.concat([Buffer.from(head), mask, content.map((byte, i) => byte ^ mask[i % 4])]);
}

// The first frame of what has arrived, and the place after it; or null where it isn't whole.
function first(bytes) {
    if (bytes.length < 2) return null;
    const size = { 126: 2, 127: 8 }[bytes[1] & 127] ?? 0;
    const start = 2 + size;
    if (bytes.length < start) return null;
    const length = size === 0 ? bytes[1] & 127 : size === 2 ? bytes.readUInt16BE(2) : Number(bytes.readBigUInt64BE(2));
    if (bytes.length < start + length) return null;
    return { isLast: (bytes[0] & 128) !== 0, kind: bytes[0] & 15, content: bytes.subarray(start, start + length), end: start + length };
}

export class Socket {
    // Connects, and calls `take` with each text that arrives.
    static connect(port, path, take) {
        const made = new Socket();
        made.socket = net.connect(port, '127.0.0.1', () => {
            const key = crypto.randomBytes(16).toString('base64');
            made.socket.write(`GET ${path} HTTP/1.1\r\nHost: 127.0.0.1:${port}\r\nUpgrade: websocket\r\nConnection: Upgrade\r\nSec-WebSocket-Key: ${key}\r\nSec-WebSocket-Version: 13\r\n\r\n`);
        });
        return new Promise((resolve, reject) => {
            Object.assign(made, { take, rest: Buffer.alloc(0), parts: [], opened: resolve, refused: reject });
            made.socket.on('error', reject);
            made.socket.on('data', bytes => made.read(bytes));
        });
    }

    read(bytes) {
        this.rest = Buffer.concat([this.rest, bytes]);
        if (this.opened && !this.open()) return;
        for (let found; (found = first(this.rest));) {
            this.rest = this.rest.subarray(found.end);
            this.frame(found);
        }
    }

    // Whether the server has answered the request.
    open() {
        const end = this.rest.indexOf('\r\n\r\n');
        if (end === -1) return false;
        const head = this.rest.subarray(0, end).toString();
        this.rest = this.rest.subarray(end + 4);
        if (/^HTTP\/1\.1 101 /.test(head)) this.opened(this);
        else this.refused(new Error(head.split('\r\n')[0]));
        this.opened = null;
        return true;
    }

    frame({ isLast, kind, content }) {
        if (kind === PING) this.socket.write(frame(PONG, content));
        if (kind === CLOSE) this.end();
        if (kind > TEXT) return;
        this.parts.push(Buffer.from(content));
        if (!isLast) return;
        this.take(Buffer.concat(this.parts).toString());
        this.parts = [];
    }

    send(text) {
        this.socket.write(frame(TEXT, Buffer.from(text)));
    }

    end() {
        this.socket.destroy();
    }
}
