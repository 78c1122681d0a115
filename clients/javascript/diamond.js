/**
 * A client of Diamond: transactions and live queries over one connection. Node 20 or later, and nothing else.
 *
 * @typedef {string | Buffer} Text  a string where its bytes are UTF-8, else the bytes
 * @typedef {boolean | number | bigint | Text | Text[]} Value  a number where it is a safe integer, else a bigint
 * @typedef {{ number: number, outcome: "ok" | "fail" | "spent" | "big", items: Value[], text?: Text, name?: string }} Answer
 *     `number`: the commit's, or on how many commits it ran; `text`: what "fail" says; `name`: of a report, its watch
 */
import { isUtf8 } from "node:buffer";
import { once } from "node:events";
import net from "node:net";

const LONGEST_LINE = 4096;
const TEXT = String.raw`"[^"\\]*(?:\\.[^"\\]*)*"`;
const TOKEN = new RegExp(String.raw`\[(?:${TEXT}(?:,${TEXT})*)?\]|${TEXT}|-?[0-9]+|[a-z]+`, "g");
const SEEN = String.raw`([a-z]+)\((${TEXT})\) ([a-z]+(?: -?[0-9]+| ${TEXT})?)`;
const ABORT = new RegExp(`^abort ${SEEN} base ([0-9]+) clash (.+) commit ([0-9]+)$`, "s");

/** What all errors here are. `line` (string) is the line that was sent, or wasn't. */
export class DiamondError extends Error {
  constructor(said, line = "", facts = {}) {
    super(line ? `${said} (line: ${line})` : said);
    Object.assign(this, { name: this.constructor.name, line, ...facts });
  }
}

/** Bad input, or a line while this client waits: it was refused here, and nothing was sent. */
export class NotSent extends DiamondError {}
/** The server did not do the line, and no data changed. `cause` (string): "long", "verb", "syntax", "type", "writes",
 * "name", "busy", "none"; or "late", "ahead", "full", "disk", with their `numbers` (number[]) of docs/SCRIPTS.md.
 * `column` (number or null): where in the body, in bytes from 1, counted from its first that is no blank. */
export class Refused extends DiamondError {}
/** A commit was in the way: docs/ABORTS.md. Nothing was written, and it may be sent again. `observation` (Value[]), as
 * ["has", "A1"], was made at `address` (kind and key) on the first `base` (number) commits; `commit` (number) came later,
 * and did `part` (Value[]), as ["add", "A1"], there. */
export class Aborted extends DiamondError {}
/** The hold that `client` (number) made by commit `commit` (number) bars it: docs/ABORTS.md. It may be sent again later. */
export class Held extends DiamondError {}
/** The connection is gone. The line wasn't sent, or is one that commits nothing: no commit is in doubt. */
export class Lost extends DiamondError {}
/** The connection went between the line and its answer: whether it was committed, only the data says. */
export class Unknown extends DiamondError {}

/** The text in quotes, for a body: it ends where they do. @param {string | Uint8Array} text @returns {string} */
export function quote(text) {
  const octets = text instanceof Uint8Array;
  if (!octets && (typeof text !== "string" || !text.isWellFormed())) throw new NotSent(`not a value of a body: ${text}`);
  const chars = (octets ? Buffer.from(text).toString("latin1") : text).replace(/["\\]/g, "\\$&");
  const hex = (char) => `\\x${Buffer.from(char, "latin1").toString("hex")}`;
  return `"${chars.replace(octets ? /[\x00-\x1f\x7f-\xff]/g : /[\x00-\x1f\x7f]/g, hex)}"`;
}

/** The value as an expression of a body. @param {Value | Uint8Array} value @returns {string} */
export function literal(value) {
  if (typeof value === "boolean" || Number.isSafeInteger(value)) return String(value);
  const fits = typeof value === "bigint" && BigInt.asIntN(64, value) === value;
  if (fits) return value > -(2n ** 63n) ? String(value) : `(${value + 1n} - 1)`;
  return Array.isArray(value) ? `[${value.map(quote).join(", ")}]` : quote(value);
}

/**
 * The tag of bodies: each value stands as its `literal`, outside of texts. Backslashes are Diamond's own.
 * @param {TemplateStringsArray} strings @param {...(Value | Uint8Array)} values @returns {string}
 */
export function body({ raw }, ...values) {
  const isOpen = (piece) => piece.replace(new RegExp(TEXT, "g"), "").includes('"');
  if (values.length && raw.some(isOpen)) throw new NotSent("a value stands in a text", raw.join("?"));
  return String.raw({ raw }, ...values.map(literal));
}

/** A value by its token, in which each byte is a character. */
function valueOf(token) {
  if (token === "true" || token === "false") return token === "true";
  if (token[0] === "[") return [...token.matchAll(new RegExp(TEXT, "g"))].map(([text]) => valueOf(text));
  if (/[a-z]/.test(token[0])) return token;
  if (token[0] !== '"') return Number.isSafeInteger(Number(token)) ? Number(token) : BigInt(token);
  const byte = (_, hex, char) => (hex ? String.fromCharCode(parseInt(hex, 16)) : char.replace("n", "\n"));
  const octets = Buffer.from(token.slice(1, -1).replace(/\\(?:x([0-9a-f]{2})|(.))/g, byte), "latin1");
  return isUtf8(octets) ? octets.toString() : octets;
}

function valuesOf(said) {
  const tokens = said.match(TOKEN) ?? [];
  if (tokens.join(" ") !== said) throw new SyntaxError(`not a reply of Diamond: ${said}`);
  return tokens.map(valueOf);
}

/** What a reply to the line says: an Answer, a DiamondError, or where it is neither, the reply. */
function read(reply, line) {
  const [, name, said] = /^(?:commit|at|run ([a-z0-9_]+)) (.*)$/.exec(reply) ?? [];
  if (said) {
    const [number, outcome, ...items] = valuesOf(said);
    const end = outcome === "fail" ? { items: [], text: items[0] } : { items };
    return { ...(name && { name }), number, outcome, ...end };
  }
  const [, kind, key, observation, base, part, commit] = ABORT.exec(reply) ?? [];
  if (kind) {
    const seen = { address: [kind, valueOf(key)], observation: valuesOf(observation), base: Number(base) };
    return new Aborted(reply, line, { ...seen, part: valuesOf(part), commit: Number(commit) });
  }
  const [, client, hold] = /^held ([0-9]+) commit ([0-9]+)$/.exec(reply) ?? [];
  if (client) return new Held(reply, line, { client: Number(client), commit: Number(hold) });
  if (/^(refused|late|ahead|full|disk)\b/.test(reply)) {
    const [cause, ...numbers] = valuesOf(reply.replace("refused ", ""));
    const column = reply.startsWith("refused") ? (numbers.pop() ?? null) : null;
    return new Refused(reply, line, { cause, column, numbers });
  }
  if (/^(current|seen|dropped|read|prepare)\b/.test(reply)) return reply;
  throw new SyntaxError(`not a reply of Diamond: ${reply}`);
}

/**
 * A new client. Its connection is given up where an answer, but that to a `wait`, takes more than `timeout` milliseconds.
 * @param {{ host?: string, port: number, timeout?: number }} options @returns {Promise<Client>}
 */
export async function connect({ host = "127.0.0.1", port, timeout = 0 }) {
  const socket = net.connect({ host, port, noDelay: true });
  await once(socket, "connect");
  return new Client(socket, timeout);
}

/** A session. Its lines are done one after another; while it waits, others have a client of their own. */
export class Client {
  #socket;
  #input = "";
  #gone = null; // why
  #asked = []; // lines that were sent and not answered, in their order
  #calls = new Map();

  constructor(socket, timeout) {
    this.#socket = socket;
    socket.setEncoding("latin1").setTimeout(timeout);
    socket.on("data", (said) => this.#take(said));
    socket.on("timeout", () => this.#asked.length && !this.#waits() && this.#end("no answer in time"));
    socket.on("error", (error) => this.#end(error.message));
    socket.on("end", () => this.#end("the connection has ended"));
  }

  /** Commits the body, once. @param {string} body @returns {Promise<Answer>} */
  async do(body) {
    return this.#ask("do ", body);
  }

  /** The same, anew after each abort, 1 to 16 times. @param {number} times @param {string} body @returns {Promise<Answer>} */
  async tryTimes(times, body) {
    if (!(Number.isInteger(times) && times >= 1 && times <= 16)) throw new NotSent(`not from 1 to 16: ${times}`, body);
    return this.#ask(`try ${times} `, body);
  }

  /**
   * Runs a body that only reads, on all commits or on the first `at`.
   * @param {string} body @param {{ at?: number }} [options] @returns {Promise<Answer>}
   */
  async look(body, { at } = {}) {
    if (at !== undefined && !(Number.isSafeInteger(at) && at >= 0)) throw new NotSent(`no number of commits: ${at}`, body);
    return this.#ask(at === undefined ? "look " : `at ${at} `, body);
  }

  /**
   * Keeps a body that only reads as a watch, and calls with each report; the first is answered, too.
   * @param {string} name @param {string} body @param {(report: Answer) => void} call @returns {Promise<Answer>}
   */
  async watch(name, body, call) {
    if (typeof call !== "function") throw new NotSent("no function to call", body);
    return this.#ask(`watch ${name} `, body, name ?? "", call);
  }

  /** Forgets the watch. @param {string} name */
  async unwatch(name) {
    await this.#ask("unwatch ", name, name ?? "");
  }

  /** Calls with a report of each touched watch. All hold on as many commits as it says. @returns {Promise<number>} */
  async sync() {
    return Number((await this.#ask("sync", "")).replace("current ", ""));
  }

  /** The same, once there is a commit past those that this client has seen. @returns {Promise<number>} */
  async wait() {
    return Number((await this.#ask("wait", "")).replace("current ", ""));
  }

  /** A line with one reply, as `begin` and `go`. @param {string} line @returns {Promise<Answer | string>} */
  async raw(line) {
    if (/^\s*(#|$|(watch|sync|wait)(\s|$))/.test(line)) throw new NotSent("this line has no reply, or several", line);
    return this.#ask("", line);
  }

  /** Ends the session, behind the answers to what was sent; a `wait` is given up. @returns {Promise<void>} */
  async close() {
    this.#gone ??= "closed";
    if (this.#waits()) this.#end("closed");
    else if (!this.#socket.destroyed) await new Promise((resolve) => this.#socket.once("close", resolve).end());
  }

  #waits() {
    return this.#asked.at(-1)?.line === "wait";
  }

  async #ask(verb, body, name, call) {
    const line = `${verb}${body}`;
    const named = name === undefined || /^[a-z][a-z0-9_]{0,31}$/.test(name);
    const fits = typeof body === "string" && /^[^\n\p{Cs}]*$/u.test(line) && Buffer.byteLength(line) <= LONGEST_LINE;
    if (!named || !fits) throw new NotSent("not a line of at most 4,096 bytes, or with a name that is none", line);
    if (this.#gone) throw new Lost(`not sent: ${this.#gone}`, line);
    if (this.#waits()) throw new NotSent("this client waits", line);
    const replies = await new Promise((resolve, reject) => {
      this.#asked.push({ line, name, call, replies: [], resolve, reject });
      this.#socket.write(`${line}\n`);
    });
    const last = replies.at(-1);
    if (last.outcome && last.name) this.#calls.set(name, call);
    const faults = last instanceof DiamondError ? [last] : [];
    for (const report of replies.filter(({ outcome, name }) => outcome && name)) {
      try {
        this.#calls.get(report.name)(report);
      } catch (fault) {
        faults.push(fault);
      }
    }
    if (faults.length) throw faults[0];
    return last;
  }

  #take(said) {
    const lines = (this.#input + said).split("\n");
    this.#input = lines.pop();
    try {
      for (const reply of lines) {
        const asked = this.#asked[0];
        const said = read(reply, asked.line);
        asked.replies.push(said);
        if (!said.outcome || said.name === asked.name) this.#asked.shift().resolve(asked.replies);
      }
    } catch (error) {
      this.#end(error.message);
    }
  }

  /** Gives the connection up. It is reset, since the server would take half of a line as a whole one. */
  #end(why) {
    this.#gone ??= why;
    if (!this.#socket.destroyed) this.#socket.resetAndDestroy();
    for (const { line, reject } of this.#asked.splice(0)) {
      reject(new (/^\s*(do|try|go|step)(\s|$)/.test(line) ? Unknown : Lost)(`not answered: ${why}`, line));
    }
  }
}
