// What is asked of the server, and what is done while it does not answer.

const RETRY = 2000;        // between two tries to reach a server that does not answer, in ms
const SILENCE = 5000;      // so long nothing need be heard of the server, in ms
const PATIENCE = 15000;    // until a reply begins, in ms
const SMALL = '/shells/$reference?limit=1';

/** The server refuses a request, in these words. */
export class Refusal extends Error {
  constructor(status, text) {
    super(text);
    this.status = status;
  }
}

/** There is no reply: the connection fails, or the proxy says that nobody is behind it. */
class Absence extends Error {}

/** Tells by the events `away` and `back` whether the server answers. */
export const presence = new EventTarget();

/** The base64url of a text, as identifiers stand in paths. */
export function segment(text) {
  const bytes = Array.from(new TextEncoder().encode(text), byte => String.fromCharCode(byte));
  return btoa(bytes.join('')).replace(/\+/g, '-').replace(/\//g, '_').replace(/=+$/, '');
}

/** The text of a base64url, or undefined where it is none. */
export function unsegment(coded) {
  try {
    const bytes = atob(coded.replace(/-/g, '+').replace(/_/g, '/'));
    return new TextDecoder('utf-8', { fatal: true }).decode(Uint8Array.from(bytes, byte => byte.charCodeAt(0)));
  } catch {
    return undefined;
  }
}

/** The path of a submodel, or of an element in it. */
export function pathOf(submodel, elementPath) {
  const top = `/submodels/${segment(submodel)}`;
  return elementPath ? `${top}/submodel-elements/${encodeURIComponent(elementPath)}` : top;
}

/** The reply to GET, as a value of JSON. While the server is away this waits until it is back. */
export async function read(path, signal, limit) {
  return parsed(await readText(path, signal, limit));
}

/** The same for value forms: numbers become texts, so that none is rounded. */
export async function readValue(path, signal) {
  const text = await readText(path, signal);
  return parsed(text.replace(/"(?:[^"\\]|\\.)*"|-?\d[\d.eE+-]*/g, it => (it.startsWith('"') ? it : `"${it}"`)));
}

/** Sends a value, once: it is never sent again by itself. */
export async function change(path, json) {
  try {
    await exchange(path, { method: 'PATCH', body: json });
  } catch (error) {
    if (error instanceof Absence) throw new Refusal(0, 'the server does not answer: the value may be kept or not');
    throw error;
  }
}

async function readText(path, signal, limit) {
  for (;;) {
    try {
      return await exchange(path, { signal, limit });
    } catch (error) {
      if (!(error instanceof Absence)) throw error;
    }
    await returned();
    signal?.throwIfAborted();
  }
}

let heardAt = 0;

/** One request: the text of its reply, a refusal or an absence. A text above the limit is not read. */
async function exchange(path, { signal, limit = Infinity, ...how }) {
  signal?.throwIfAborted();
  const control = new AbortController();
  const stop = () => control.abort();
  const late = setTimeout(stop, PATIENCE);
  signal?.addEventListener('abort', stop);
  let response;
  let text;
  try {
    response = await fetch(path, { cache: 'no-store', signal: control.signal, ...how });
    clearTimeout(late);
    if (Number(response.headers.get('Content-Length')) > limit) stop();
    else text = await response.text();
  } catch (error) {
    signal?.throwIfAborted();
    throw new Absence(error.message);
  } finally {
    clearTimeout(late);
    signal?.removeEventListener('abort', stop);
  }
  heardAt = Date.now();
  return accepted(response, text);
}

function accepted(response, text) {
  if (text === undefined) throw new Refusal(response.status, 'longer than what is read here');
  if (response.ok) return text;
  const words = messagesOf(text);
  if (!words && [502, 503, 504].includes(response.status)) throw new Absence();
  throw new Refusal(response.status, words ?? `${response.status} ${response.statusText}`.trim());
}

/** The words of a Result, or undefined where the text is none. */
function messagesOf(text) {
  try {
    return JSON.parse(text).messages.map(message => message.text).join('; ');
  } catch {
    return undefined;
  }
}

function parsed(text) {
  try {
    return JSON.parse(text);
  } catch {
    throw new Refusal(200, 'the reply is not JSON');
  }
}

/** Asks now and then whether the server is there, where nothing else is asked. */
export async function keepListening() {
  for (;;) {
    await pause(RETRY);
    if (!document.hidden && Date.now() - heardAt > SILENCE) await readText(SMALL).catch(() => {});
  }
}

let waiting;

/** Ends when the server answers again. All that wait share one try every two seconds. */
function returned() {
  waiting ??= (async () => {
    presence.dispatchEvent(new Event('away'));
    do await pause(RETRY); while (!await answers());
    waiting = undefined;
    presence.dispatchEvent(new Event('back'));
  })();
  return waiting;
}

async function answers() {
  try {
    await exchange(SMALL, {});
    return true;
  } catch (error) {
    return !(error instanceof Absence);
  }
}

/** Ends after so many ms, or sooner where it is stopped. */
export function pause(time, signal) {
  return new Promise(resolve => {
    const end = () => {
      clearTimeout(timer);
      signal?.removeEventListener('abort', end);
      resolve();
    };
    const timer = setTimeout(end, time);
    signal?.addEventListener('abort', end);
  });
}
