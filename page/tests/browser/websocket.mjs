// The small part of the websocket protocol (RFC 6455) that a client on this machine needs: text out, text in.
import crypto from 'node:crypto';
import net from 'node:net';

const TEXT = 1;
const CLOSE = 8;
const PING = 9;
const PONG = 10;
const LAST_PIECE = 0x80;
const MASKED = 0x80;
const TWO_BYTES_FOLLOW = 126;
const EIGHT_BYTES_FOLLOW = 127;

/** address: ws://host:port/path; hear: called with each text; gone: called when the other side is gone */
export async function openWebsocket(address, hear, gone) {
  const { hostname, port, pathname, host } = new URL(address);
  const socket = net.connect(Number(port), hostname);
  const key = crypto.randomBytes(16).toString('base64');
  const greeting = [
    `GET ${pathname} HTTP/1.1`, `Host: ${host}`, 'Upgrade: websocket', 'Connection: Upgrade',
    `Sec-WebSocket-Key: ${key}`, 'Sec-WebSocket-Version: 13', '', '',
  ];
  socket.write(greeting.join('\r\n'));
  const rest = await readGreeting(socket);
  const reader = new FrameReader(hear, text => socket.write(frame(PONG, text)));
  reader.take(rest);
  socket.on('data', piece => reader.take(piece));
  socket.on('close', gone);
  socket.on('error', () => {});
  return {
    send: text => socket.write(frame(TEXT, Buffer.from(text))),
    close: () => socket.end(frame(CLOSE, Buffer.alloc(0))),
  };
}

/** Waits for the other side's greeting; gives what came behind it. */
function readGreeting(socket) {
  return new Promise((resolve, reject) => {
    let got = Buffer.alloc(0);
    socket.once('error', reject);
    socket.on('data', function listen(piece) {
      got = Buffer.concat([got, piece]);
      const end = got.indexOf('\r\n\r\n');
      if (end < 0) return;
      socket.off('data', listen);
      const first = got.subarray(0, got.indexOf('\r\n')).toString();
      if (first.includes(' 101 ')) resolve(got.subarray(end + 4));
      else reject(new Error(`the websocket was refused: ${first}`));
    });
  });
}

/** A client's frames are masked, and Firefox refuses a mask of zeros. */
function frame(kind, bytes) {
  const mask = crypto.randomBytes(4);
  return Buffer.concat([frameHead(kind, bytes.length), mask, bytes.map((byte, place) => byte ^ mask[place % 4])]);
}

function frameHead(kind, length) {
  if (length < TWO_BYTES_FOLLOW) return Buffer.from([LAST_PIECE | kind, MASKED | length]);
  if (length < 1 << 16) return Buffer.from([LAST_PIECE | kind, MASKED | TWO_BYTES_FOLLOW, length >> 8, length & 255]);
  const head = Buffer.alloc(10);
  head[0] = LAST_PIECE | kind;
  head[1] = MASKED | EIGHT_BYTES_FOLLOW;
  head.writeBigUInt64BE(BigInt(length), 2);
  return head;
}

class FrameReader {
  constructor(hear, pong) {
    Object.assign(this, { hear, pong, bytes: Buffer.alloc(0), pieces: [] });
  }

  take(piece) {
    this.bytes = Buffer.concat([this.bytes, piece]);
    for (let found = readFrame(this.bytes); found; found = readFrame(this.bytes)) {
      this.bytes = this.bytes.subarray(found.end);
      this.takeFrame(found);
    }
  }

  takeFrame({ kind, last, content }) {
    if (kind === PING) this.pong(content);
    if (kind >= CLOSE) return;
    this.pieces.push(content);
    if (!last) return;
    const text = Buffer.concat(this.pieces).toString('utf8');
    this.pieces = [];
    this.hear(text);
  }
}

/** The first frame of these bytes, or null while it is not whole. */
function readFrame(bytes) {
  if (bytes.length < 2) return null;
  const short = bytes[1] & 127;
  const begin = short === EIGHT_BYTES_FOLLOW ? 10 : short === TWO_BYTES_FOLLOW ? 4 : 2;
  if (bytes.length < begin) return null;
  let length = short;
  if (short === TWO_BYTES_FOLLOW) length = bytes.readUInt16BE(2);
  if (short === EIGHT_BYTES_FOLLOW) length = Number(bytes.readBigUInt64BE(2));
  const end = begin + length;
  if (bytes.length < end) return null;
  return { kind: bytes[0] & 15, last: bytes[0] >= LAST_PIECE, content: bytes.subarray(begin, end), end };
}
