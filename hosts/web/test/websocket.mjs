/** A WebSocket to a server on this machine: Node has one of its own only from 22 on. */
import { randomBytes } from "node:crypto";
import { EventEmitter, once } from "node:events";
import { connect } from "node:net";

const TEXT = 1;

const CLOSE = 8;

const PING = 9;

const PONG = 10;

/** A frame of a client, which is masked. */
function frame(kind, content) {
  const { length } = content;
  const extra = length < 126 ? 0 : length < 2 ** 16 ? 2 : 8;
  const head = Buffer.alloc(2 + extra);
  head[0] = 0x80 | kind;
  head[1] = 0x80 | (extra === 0 ? length : extra === 2 ? 126 : 127);
  if (extra === 2) {
    head.writeUInt16BE(length, 2);
  } else if (extra === 8) {
    head.writeBigUInt64BE(BigInt(length), 2);
  }
  const mask = randomBytes(4);
  const masked = Buffer.from(content);
  for (let at = 0; at < length; at += 1) {
    masked[at] ^= mask[at & 3];
  }
  return Buffer.concat([head, mask, masked]);
}

/** The first frame of what a server sent, and its length; null where it isn't whole yet. */
function firstFrame(bytes) {
  if (bytes.length < 2) {
    return null;
  }
  const short = bytes[1] & 0x7f;
  const start = short < 126 ? 2 : short === 126 ? 4 : 10;
  if (bytes.length < start) {
    return null;
  }
  const long = () => (short === 126 ? bytes.readUInt16BE(2) : Number(bytes.readBigUInt64BE(2)));
  const end = start + (short < 126 ? short : long());
  const [isLast, kind] = [(bytes[0] & 0x80) !== 0, bytes[0] & 0x0f];
  return bytes.length < end ? null : { isLast, kind, content: bytes.subarray(start, end), end };
}

/** Texts go out by `send`, and come in as events `message`. */
export class Socket extends EventEmitter {
  #stream;

  /** What came and isn't read yet: chunks, so that a long message isn't copied with each. */
  #chunks = [];

  /** The frames of a message that goes on. */
  #parts = [];

  /** @param {string} address */
  static async open(address) {
    const { hostname, port, host, pathname } = new URL(address);
    const stream = connect(Number(port), hostname);
    await once(stream, "connect");
    stream.setNoDelay(true);
    const key = randomBytes(16).toString("base64");
    stream.write(
      `GET ${pathname} HTTP/1.1\r\nHost: ${host}\r\nUpgrade: websocket\r\nConnection: Upgrade\r\n` +
        `Sec-WebSocket-Key: ${key}\r\nSec-WebSocket-Version: 13\r\n\r\n`,
    );
    const socket = new Socket(stream);
    await socket.#greeted();
    return socket;
  }

  constructor(stream) {
    super();
    this.#stream = stream;
    stream.on("error", () => {});
  }

  async #greeted() {
    let said = Buffer.alloc(0);
    while (!said.includes("\r\n\r\n")) {
      const [chunk] = await once(this.#stream, "data");
      said = Buffer.concat([said, chunk]);
    }
    if (!said.toString("latin1").startsWith("HTTP/1.1 101")) {
      throw new Error(`no WebSocket: ${said.toString("latin1").split("\r\n")[0]}`);
    }
    this.#stream.on("data", (chunk) => this.#receive(chunk));
    this.#receive(said.subarray(said.indexOf("\r\n\r\n") + 4));
  }

  /** @param {Buffer} chunk */
  #receive(chunk) {
    this.#chunks.push(chunk);
    let bytes = Buffer.concat(this.#chunks);
    for (let next = firstFrame(bytes); next; next = firstFrame(bytes)) {
      bytes = bytes.subarray(next.end);
      this.#take(next);
    }
    this.#chunks = [bytes];
  }

  #take({ isLast, kind, content }) {
    if (kind === PING) {
      this.#stream.write(frame(PONG, content));
    } else if (kind === CLOSE) {
      this.close();
    } else if (kind <= TEXT) {
      this.#parts.push(Buffer.from(content));
      if (isLast) {
        this.emit("message", Buffer.concat(this.#parts.splice(0)).toString());
      }
    }
  }

  /** @param {string} text */
  send(text) {
    this.#stream.write(frame(TEXT, Buffer.from(text)));
  }

  close() {
    this.#stream.destroy();
  }
}
