/**
 * Tries the client against the program: that of the variable DIAMOND, else crates/diamond/out/diamond.
 * Each test serves sessions of its own, as many as it connects, and the server has to end by itself once they have ended.
 */
import assert from "node:assert/strict";
import { spawn } from "node:child_process";
import { once } from "node:events";
import net from "node:net";
import { createInterface } from "node:readline";
import { test } from "node:test";
import { setTimeout as sleep } from "node:timers/promises";
import { fileURLToPath } from "node:url";
import { Aborted, Held, Lost, NotSent, Refused, Unknown, body, connect, literal, quote } from "./diamond.js";

const PROGRAM = process.env.DIAMOND || fileURLToPath(new URL("../../crates/diamond/out/diamond", import.meta.url));
const EVERY_BYTE = Buffer.from(Array.from({ length: 256 }, (_, byte) => byte));
const NEXT = 'counter("x").put(counter("x").get() + 1);';
const nothing = () => {};

/** A server, its port, and what becomes of it. */
async function start(sessions, ...words) {
  const server = spawn(PROGRAM, ["serve", "--address", "127.0.0.1:0", "--sessions", String(sessions), ...words]);
  let output = "";
  server.stdout.on("data", (said) => (output += said));
  const ended = once(server, "close").then(([status]) => ({ status, output }));
  const [said] = await once(createInterface(server.stderr), "line");
  const found = /^diamond: listening at 127\.0\.0\.1:(\d+)$/.exec(said);
  if (!found) server.kill("SIGKILL");
  assert.ok(found, `${PROGRAM} said: ${said}`);
  return { server, port: Number(found[1]), ended };
}

/** Serves the clients of a test, closes them, and looks at how the server ends. */
async function served(sessions, play, { words = [], faulted = 0 } = {}) {
  const { server, port, ended } = await start(sessions, ...words);
  const clients = [];
  try {
    for (let made = 0; made < sessions; made++) clients.push(await connect({ port, timeout: 30_000 }));
    await play(...clients);
    for (const client of clients) await client.close();
    const { status, output } = await Promise.race([ended, sleep(30_000, {}, { ref: false })]);
    assert.equal(status, 0);
    assert.match(output, new RegExp(`^served ${sessions} sessions ${faulted} faulted commits \\d+\n$`));
  } finally {
    server.kill("SIGKILL");
  }
}

/** A server that is none: it answers the first line with these bytes, and ends the connection; or with nothing at all. */
async function answering(reply, play) {
  const listener = net.createServer((link) => {
    link.on("error", nothing);
    if (reply !== null) link.once("data", () => link.end(reply, "latin1"));
  });
  await once(listener.listen(0, "127.0.0.1"), "listening");
  const client = await connect({ port: listener.address().port, timeout: reply === null ? 200 : 30_000 });
  try {
    await play(client);
  } finally {
    await client.close();
    listener.close();
  }
}

const sale = (seat) => body`if set("seats").has(${seat}) { set("seats").remove(${seat}); emit "yours"; } else { fail "taken"; }`;

test("texts are quoted", () => {
  const rows = [
    ["", '""'],
    ["A1", '"A1"'],
    ['a "b" \\', String.raw`"a \"b\" \\"`],
    ["a\nb\tc\x7f\x00", String.raw`"a\x0ab\x09c\x7f\x00"`],
    ["é", '"é"'],
    [Buffer.from([0xff, 0x41]), String.raw`"\xffA"`],
  ];
  for (const [text, quoted] of rows) assert.equal(quote(text), quoted);
});

test("values are expressions", () => {
  const rows = [
    [true, "true"],
    [-5, "-5"],
    [2n ** 63n - 1n, "9223372036854775807"],
    [-(2n ** 63n), "(-9223372036854775807 - 1)"],
    [["a", '"'], String.raw`["a", "\""]`],
    [[], "[]"],
  ];
  for (const [value, expression] of rows) assert.equal(literal(value), expression);
  for (const value of [2n ** 63n, 2 ** 53, 1.5, NaN, null, undefined, {}, ["a", 1], "\ud800"]) {
    assert.throws(() => literal(value), NotSent);
  }
});

test("bodies are filled outside of texts", () => {
  assert.equal(body`emit "a\n\"" + ${'"; fail "'}; emit ${7};`, String.raw`emit "a\n\"" + "\"; fail \""; emit 7;`);
  assert.throws(() => body`emit "a ${"b"}";`, NotSent);
  assert.equal(body`emit "a`, 'emit "a');
});

test("aborts are read", async () => {
  const rows = [
    ['bool("b") whole base 0 clash put true commit 1', ["bool", "b"], ["whole"], 0, ["put", true], 1],
    ['counter("x") whole base 3 clash add -1 commit 4', ["counter", "x"], ["whole"], 3, ["add", -1], 4],
    ['text("\\"") whole base 3 clash put "a" commit 4', ["text", '"'], ["whole"], 3, ["put", "a"], 4],
    ['set("s") has "base 1" base 3 clash clear commit 4', ["set", "s"], ["has", "base 1"], 3, ["clear"], 4],
    ['hash("h") at "7" base 3 clash put "7" " commit 9" commit 4', ["hash", "h"], ["at", "7"], 3, ["put", "7", " commit 9"], 4],
    ['list("l") at 7 base 3 clash remove "\xff" commit 4', ["list", "l"], ["at", 7], 3, ["remove", Buffer.from([255])], 4],
    ['list("l") all base 3 clash push "x" commit 12', ["list", "l"], ["all"], 3, ["push", "x"], 12],
    ['peak("p") is 61 base 5 clash raise 9223372036854775807 commit 6', ["peak", "p"], ["is", 61], 5, ["raise", 2n ** 63n - 1n], 6],
    ['peak("p") over -60 base 4 clash raise -59 commit 5', ["peak", "p"], ["over", -60], 4, ["raise", -59], 5],
  ];
  for (const [reply, address, observation, base, part, commit] of rows) {
    await answering(`abort ${reply}\n`, async (client) => {
      await assert.rejects(client.raw("go"), { name: "Aborted", address, observation, base, part, commit, line: "go" });
    });
  }
});

test("what is held is read", async () => {
  for (const line of ["go", "step", "do emit 1;"]) {
    await answering("held 63 commit 4294967296\n", async (client) => {
      await assert.rejects(client.raw(line), { name: "Held", client: 63, commit: 4294967296, line });
    });
  }
});

test("what was not answered is unknown", async () => {
  for (const reply of ["", "commit 1", "commit 1 ok", "HTTP/1.1 400 Bad Request\n", "held 1 commit\n", null]) {
    await answering(reply, async (client) => {
      await assert.rejects(client.do("emit 1;"), { name: "Unknown", line: "do emit 1;" });
      await assert.rejects(client.do("emit 1;"), Lost);
    });
  }
  for (const line of ["go", "step", "try 3 emit 1;", " do\temit 1;"]) {
    await answering("", (client) => assert.rejects(client.raw(line), Unknown));
  }
  await answering("commit 1 ok\n", async (client) => {
    const ends = await Promise.allSettled([client.do("emit 1;"), client.do("emit 2;"), client.look("emit 3;")]);
    assert.deepEqual(ends[0].value, { number: 1, outcome: "ok", items: [] });
    assert.ok(ends[1].reason instanceof Unknown && ends[2].reason instanceof Lost);
  });
});

test("what commits nothing is lost", async () => {
  for (const line of ["look emit 1;", "begin emit 1;", "seen", "unwatch w"]) {
    await answering("", (client) => assert.rejects(client.raw(line), Lost));
  }
  await answering("run w 1 ok\ncurr", (client) => assert.rejects(client.sync(), Lost));
});

test("the seat sale", () =>
  served(3, async (ann, bob, screen) => {
    const reports = [];
    assert.deepEqual(await ann.do('set("seats").add("A1"); set("seats").add("A2");'), { number: 1, outcome: "ok", items: [] });
    const first = await screen.watch("free", 'emit set("seats").all();', (report) => reports.push(report));
    assert.deepEqual(first, { name: "free", number: 1, outcome: "ok", items: [["A1", "A2"]] });
    assert.deepEqual(await ann.do(sale("A1")), { number: 2, outcome: "ok", items: ["yours"] });
    assert.deepEqual(await bob.tryTimes(3, sale("A1")), { number: 3, outcome: "fail", items: [], text: "taken" });
    assert.equal(await screen.sync(), 3);
    assert.deepEqual(reports, [first, { name: "free", number: 3, outcome: "ok", items: [["A2"]] }]);
  }));

test("an abort says all", () =>
  served(3, async (zero, one, two) => {
    const less = 'counter("tickets").put(counter("tickets").get() - 1);';
    await zero.do('counter("tickets").put(10);');
    for (const client of [one, two]) assert.equal(await client.raw(`begin ${less}`), "seen 1");
    for (const client of [one, two]) assert.equal(await client.raw("step"), 'read counter("tickets") base 1');
    assert.deepEqual(await one.raw("go"), { number: 2, outcome: "ok", items: [] });
    const facts = { address: ["counter", "tickets"], observation: ["whole"], base: 1, part: ["put", 9], commit: 2, line: "go" };
    await assert.rejects(two.raw("go"), (fault) => fault instanceof Aborted && (assert.deepEqual({ ...fault }, { name: "Aborted", ...facts }), true));
    assert.deepEqual(await two.tryTimes(3, `${less} emit counter("tickets").get();`), { number: 3, outcome: "ok", items: [8] });
  }));

test("a hold bars others until the next commit of its client", () =>
  served(2, async (one, two) => {
    await one.raw(`begin ${NEXT}`);
    await one.raw("step");
    await two.do('counter("x").add(5);');
    await assert.rejects(one.raw("go"), Aborted);
    const held = await one.tryTimes(16, 'emit "hold"; emit counter("x").get();');
    assert.deepEqual(held, { number: 2, outcome: "ok", items: ["hold", 5] });
    await one.raw(`begin ${NEXT}`);
    assert.equal(await one.raw("step"), 'read counter("x") base 2');
    await assert.rejects(two.tryTimes(16, NEXT), (fault) => fault instanceof Held && (assert.equal(fault.commit, 2), true));
    assert.equal((await two.do('counter("y").add(1);')).number, 3);
    assert.deepEqual(await one.raw("go"), { number: 4, outcome: "ok", items: [] });
    assert.equal((await two.do(NEXT)).number, 5);
    assert.deepEqual((await one.look('emit counter("x").get();')).items, [7]);
  }));

test("a peak disturbs whom it must", () =>
  served(3, async (one, two, screen) => {
    const told = [];
    const most = 2n ** 63n - 1n;
    await screen.watch("high", body`emit peak("p").over(${9});`, ({ items }) => told.push(...items));
    for (const [client, read] of [[one, 'emit peak("p").over(9);'], [two, 'emit peak("p").get();']]) {
      await client.raw(`begin ${read}`);
      assert.equal(await client.raw("step"), 'read peak("p") base 0');
    }
    await screen.do(body`peak("p").raise(${9});`);
    assert.deepEqual(await one.raw("go"), { number: 2, outcome: "ok", items: [false] });
    const address = ["peak", "p"];
    await assert.rejects(two.raw("go"), { name: "Aborted", address, observation: ["is", 0], base: 0, part: ["raise", 9], commit: 1 });
    await one.raw('begin emit peak("p").over(9);');
    await one.raw("step");
    assert.deepEqual([await screen.sync(), told], [2, [false]]);
    await screen.do(body`peak("p").raise(${most});`);
    await assert.rejects(one.raw("go"), { name: "Aborted", address, observation: ["over", 9], base: 2, part: ["raise", most], commit: 3 });
    await screen.do(body`peak("p").raise(${10});`);
    assert.deepEqual([await screen.sync(), told], [4, [false, true]]);
    assert.deepEqual((await screen.look('emit peak("p").get();')).items, [most]);
  }));

test("refusals name their cause and column", () =>
  served(1, async (client) => {
    await client.watch("twice", "emit 0;", nothing);
    const rows = [
      [() => client.do("emit 1"), "syntax", 7],
      [() => client.do("emit 1 + true;"), "type", 10],
      [() => client.tryTimes(2, 'emit "é" + 1;'), "type", 13],
      [() => client.look('emit 1; counter("visits").add(1);'), "writes", 9],
      [() => client.watch("twice", "emit 1;", nothing), "name", null],
      [() => client.unwatch("w"), "none", null],
      [() => client.raw("go"), "none", null],
      [() => client.raw("fly"), "verb", null],
    ];
    for (const [ask, cause, column] of rows) {
      await assert.rejects(ask(), (fault) => fault instanceof Refused && (assert.deepEqual([fault.cause, fault.column], [cause, column]), true));
    }
    await client.raw("begin emit 1;");
    await assert.rejects(client.do("emit 1;"), { name: "Refused", cause: "busy" });
    assert.equal(await client.raw("drop"), "dropped");
    assert.deepEqual(await client.do("emit 1;"), { number: 1, outcome: "ok", items: [1] });
  }));

test("late, ahead and full", () =>
  served(
    1,
    async (client) => {
      for (const number of [1, 2, 3]) assert.equal((await client.do(NEXT)).number, number);
      assert.deepEqual(await client.look('emit counter("x").get();'), { number: 3, outcome: "ok", items: [3] });
      assert.deepEqual(await client.look('emit counter("x").get();', { at: 2 }), { number: 2, outcome: "ok", items: [2] });
      await assert.rejects(client.look('emit counter("x").get();', { at: 1 }), { cause: "late", column: null, numbers: [1, 2] });
      await assert.rejects(client.look("emit 1;", { at: 4 }), { cause: "ahead", column: null, numbers: [4, 3] });
      await assert.rejects(client.do("emit 1;"), { cause: "full", column: null, numbers: [3] });
    },
    { words: ["--window", "1", "--limit", "3"] },
  ));

test("bodies end in four ways", () =>
  served(1, async (client) => {
    const items = [1, true, "a", ["b"]];
    assert.deepEqual(await client.do('emit 1; emit true; emit "a"; emit ["b"];'), { number: 1, outcome: "ok", items });
    assert.deepEqual(await client.do('fail "no";'), { number: 2, outcome: "fail", items: [], text: "no" });
    const turns = body`let l = ${Array(30).fill("")}; for a in l { for b in l { for c in l { } } }`;
    assert.deepEqual(await client.do(turns), { number: 3, outcome: "spent", items: [] });
    assert.deepEqual(await client.do(body`let a = ${"a".repeat(600)}; emit a + a;`), { number: 4, outcome: "big", items: [] });
  }));

test("texts of any bytes come back", () =>
  served(2, async (client, other) => {
    const latin = (text) => Buffer.from(text, "latin1");
    for (const text of [EVERY_BYTE, latin("\xc3"), "é", "", '"; fail "', "\\", "\\x41\\n", " => ", "\ufeffa", "\u2028", "😀"]) {
      const { items } = await client.do(body`let t = ${text}; text("t").put(t); list(t).push(t); emit t; emit list(t).all(); emit len(t);`);
      assert.deepEqual(items, [text, [text], Buffer.byteLength(text)]);
      assert.deepEqual((await client.look('emit text("t").get();')).items, [text]);
      assert.deepEqual((await client.do(body`fail ${text};`)).text, text);
    }
    assert.deepEqual((await client.look(body`emit ${latin("\xc3\xa9")};`)).items, ["é"]);
    const every = quote(EVERY_BYTE);
    await client.raw(`begin if set(${every}).has(${every}) { counter("x").add(1); }`);
    await client.raw("step");
    const { number } = await other.do(body`set(${EVERY_BYTE}).add(${EVERY_BYTE});`);
    const facts = { address: ["set", EVERY_BYTE], observation: ["has", EVERY_BYTE], part: ["add", EVERY_BYTE], commit: number };
    await assert.rejects(client.raw("go"), facts);
  }));

test("numbers of 64 bits come back", () =>
  served(1, async (client) => {
    for (const number of [0, 1, -1, 2 ** 53 - 1, 2n ** 53n, 2n ** 63n - 1n, -(2n ** 63n)]) {
      assert.deepEqual((await client.do(body`counter("x").put(${number}); emit counter("x").get() * 1;`)).items, [number]);
    }
  }));

test("two screens", () =>
  served(2, async (writer, screen) => {
    const seen = [];
    const call = ({ name, number, items: [value] }) => seen.push([name, number, value]);
    await screen.watch("left", 'emit counter("left").get();', call);
    await screen.watch("both", 'emit counter("left").get() + counter("right").get();', call);
    await writer.watch("other", body`emit set("s").has(${"a"});`, call);
    await writer.do('counter("left").add(5);');
    await writer.do('counter("left").add(-1);');
    assert.deepEqual([await screen.sync(), await writer.sync()], [2, 2]);
    await writer.do('counter("right").add(1); set("s").add("b");');
    await screen.unwatch("left");
    assert.deepEqual([await screen.sync(), await writer.sync()], [3, 3]);
    const first = [["left", 0, 0], ["both", 0, 0], ["other", 0, false]];
    assert.deepEqual(seen, [...first, ["left", 2, 4], ["both", 2, 4], ["both", 3, 5]]);
  }));

test("lines that are sent together are answered in their order", () =>
  served(1, async (client) => {
    const seen = [];
    const call = ({ name, number }) => seen.push([name, number]);
    const made = [client.watch("a", 'emit counter("x").get();', call), client.do(NEXT), client.watch("b", "emit 7;", call), client.sync()];
    assert.deepEqual((await Promise.all(made)).at(-1), 1);
    assert.deepEqual(seen, [["a", 0], ["a", 1], ["b", 1]]);
  }));

test("a call that fails takes no report from others", () =>
  served(1, async (client) => {
    const seen = [];
    for (const name of ["w0", "w1", "w2"]) {
      await client.watch(name, 'emit counter("x").get();', ({ number }) => {
        seen.push(name);
        if (number && name === "w0") throw new RangeError(name);
      });
    }
    await client.do(NEXT);
    await assert.rejects(client.sync(), RangeError);
    assert.deepEqual(seen.slice(3), ["w0", "w1", "w2"]);
    assert.equal(await client.sync(), 1);
  }));

test("a wait ends with a commit", () =>
  served(2, async (writer, screen) => {
    const seen = [];
    await screen.watch("x", 'emit counter("x").get();', ({ items }) => seen.push(...items));
    const waiting = screen.wait();
    assert.equal(await Promise.race([waiting, sleep(300, "waits")]), "waits");
    await assert.rejects(screen.look("emit 1;"), NotSent);
    await writer.do(NEXT);
    assert.equal(await waiting, 1);
    assert.deepEqual(seen, [0, 1]);
    assert.deepEqual((await screen.look("emit 1;")).items, [1]);
  }));

test("closing ends a wait", async () => {
  const { server, port, ended } = await start(2);
  try {
    const [writer, screen] = [await connect({ port }), await connect({ port })];
    const lost = assert.rejects(screen.wait(), Lost);
    await screen.close();
    await lost;
    await writer.do("emit 1;");
    await writer.close();
    assert.equal((await ended).status, 0);
  } finally {
    server.kill("SIGKILL");
  }
});

test("many clients count right", () =>
  served(4, async (...clients) => {
    const count = async (client) => {
      for (let left = 25; left > 0; ) {
        await client.tryTimes(4, NEXT).then(() => left--, (fault) => assert.ok(fault instanceof Aborted));
      }
    };
    await Promise.all(clients.map(count));
    assert.deepEqual(await clients[0].look('emit counter("x").get();'), { number: 100, outcome: "ok", items: [100] });
  }));

test("a commit that was sent and not answered is unknown", async () => {
  const rows = [
    [(client) => client.do(NEXT), Unknown],
    [(client) => client.tryTimes(3, NEXT), Unknown],
    [(client) => client.look("emit 1;"), Lost],
  ];
  for (const [ask, Fault] of rows) {
    const { server, port, ended } = await start(1);
    try {
      const client = await connect({ port });
      assert.equal((await client.do("emit 1;")).number, 1);
      server.kill("SIGSTOP");
      await sleep(500); // until it has stopped
      const lost = assert.rejects(ask(client), Fault);
      await sleep(200);
      server.kill("SIGKILL");
      await lost;
      await ended;
      await assert.rejects(client.do("emit 1;"), Lost);
    } finally {
      server.kill("SIGKILL");
    }
  }
});

test("bad input is not sent", () =>
  served(1, async (client) => {
    const fitting = "emit 1;".padEnd(4096 - "do ".length);
    const rows = [
      () => client.do(),
      () => client.do(7),
      () => client.do(Buffer.from("emit 1;")),
      () => client.do("emit 1;\nemit 2;"),
      () => client.do(`${fitting} `),
      () => client.do(`emit "${"é".repeat(2048)}";`),
      () => client.do('emit "\ud800";'),
      () => client.look("emit 1;", { at: -1 }),
      () => client.look("emit 1;", { at: 1.5 }),
      () => client.look("emit 1;", { at: "1" }),
      () => client.tryTimes(0, "emit 1;"),
      () => client.tryTimes(17, "emit 1;"),
      () => client.tryTimes("3", "emit 1;"),
      () => client.watch("Seats", "emit 1;", nothing),
      () => client.watch("a b", "emit 1;", nothing),
      () => client.watch("", "emit 1;", nothing),
      () => client.watch("a\n", "emit 1;", nothing),
      () => client.watch("a".repeat(33), "emit 1;", nothing),
      () => client.watch(undefined, "emit 1;", nothing),
      () => client.watch("a", "emit 1;"),
      () => client.unwatch(undefined),
      () => client.raw(),
      () => client.raw(""),
      () => client.raw(" \t"),
      () => client.raw("# do emit 1;"),
      () => client.raw("sync"),
      () => client.raw("watch w emit 1;"),
      () => client.raw("seen\nseen"),
    ];
    for (const ask of rows) await assert.rejects(ask(), NotSent);
    assert.equal(await client.raw("seen"), "seen 0");
    assert.deepEqual(await client.do(fitting), { number: 1, outcome: "ok", items: [1] });
    assert.equal((await client.watch("a".repeat(32), "emit 1;", nothing)).name, "a".repeat(32));
    await client.close();
    await assert.rejects(client.do("emit 1;"), Lost);
  }));
