// Numbered questions to a browser and their answers, in which Chromium's and Firefox's protocols agree: a question has
// an id, a method and its parameters; what comes back with that id is the answer, what comes without one has happened.

// A browser that does not answer must not hold up the gate for ever.
const PATIENCE = 60_000;

export class Exchange {
  /** send: called with the text of one question */
  constructor(send) {
    this.send = send;
    this.lastId = 0;
    this.waiting = new Map();
    this.listeners = new Set();
    this.ended = null;
  }

  /** more: what stands beside method and parameters, as Chromium's sessionId */
  ask(method, params = {}, more = {}) {
    if (this.ended) return Promise.reject(this.ended);
    const id = ++this.lastId;
    return new Promise((resolve, reject) => {
      const late = setTimeout(() => this.settle(id, null, new Error(`${method}: no answer`)), PATIENCE);
      this.waiting.set(id, { resolve, reject, late, method });
      this.send(JSON.stringify({ id, method, params, ...more }));
    });
  }

  /** text: one whole message of the browser */
  hear(text) {
    const message = JSON.parse(text);
    if (typeof message.id !== 'number') {
      for (const listener of this.listeners) listener(message);
      return;
    }
    const { method } = this.waiting.get(message.id) ?? {};
    const fault = message.error ? new Error(`${method}: ${faultText(message)}`) : null;
    this.settle(message.id, message.result, fault);
  }

  settle(id, result, fault) {
    const question = this.waiting.get(id);
    if (!question) return;
    this.waiting.delete(id);
    clearTimeout(question.late);
    if (fault) question.reject(fault);
    else question.resolve(result);
  }

  /** listener: called with each message that is no answer; the returned function takes it off again */
  listen(listener) {
    this.listeners.add(listener);
    return () => this.listeners.delete(listener);
  }

  /** The browser is gone: whoever still waits is told so. */
  end(reason) {
    this.ended = new Error(reason);
    for (const id of [...this.waiting.keys()]) this.settle(id, null, this.ended);
  }
}

/** Chromium puts an object in `error`, Firefox a word, with a sentence in `message`. */
function faultText({ error, message }) {
  return typeof error === 'string' ? `${error}: ${message}` : error.message;
}
