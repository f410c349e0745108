"use strict";
// The cases of live/node, with node's ws: node live/node_client.js PORT. It prints a line for each, and ends with status 1 where one failed.

const assert = require("assert");
const { once } = require("events");
const WebSocket = require("ws");

const LIMIT = 65_536;
const CASE_MILLISECONDS = 20_000;
const base = `ws://127.0.0.1:${process.argv[2]}`;

async function open(path, protocols = [], options = {}) {
  const client = new WebSocket(base + path, protocols, options);
  await once(client, "open");
  return client;
}

async function comesBack(message, isBinary) {
  const client = await open("/echo");
  const answered = once(client, "message");
  client.send(message, { binary: isBinary });
  const [body, kind] = await answered;
  assert.deepStrictEqual([body, kind], [Buffer.from(message), isBinary]);
  client.terminate();
}

async function fragments() {
  const client = await open("/echo");
  const answered = once(client, "message");
  client.send("one ", { fin: false });
  client.send("two ", { fin: false });
  client.send("three");
  assert.strictEqual(String((await answered)[0]), "one two three");
  client.terminate();
}

async function ping() {
  const client = await open("/echo");
  const answered = once(client, "pong");
  client.ping("are you there?");
  assert.strictEqual(String((await answered)[0]), "are you there?");
  client.terminate();
}

async function closeOfClient() {
  const client = await open("/echo");
  const closed = once(client, "close");
  client.close(3000, "so far");
  assert.strictEqual((await closed)[0], 3000);
}

async function closeOfServer() {
  const client = await open("/bus", ["bus.v1"]);
  assert.strictEqual(client.protocol, "bus.v1");
  const closed = once(client, "close");
  client.send("x4001");
  const [code, reason] = await closed;
  assert.deepStrictEqual([code, String(reason)], [4001, ""]);
}

async function tooLong() {
  const client = await open("/echo");
  const closed = once(client, "close");
  client.send(Buffer.alloc(LIMIT + 1));
  assert.strictEqual((await closed)[0], 1009);
}

async function refused(path, options, status) {
  const client = new WebSocket(base + path, options);
  client.on("error", () => {});
  const [, answer] = await once(client, "unexpected-response");
  assert.strictEqual(answer.statusCode, status);
  client.terminate();
}

async function room() {
  const [one, two] = [await open("/room/node", ["room.v1"]), await open("/room/node", ["room.v1"])];
  const heard = once(two, "message");
  one.send("Hello");
  assert.strictEqual(String((await heard)[0]), "Hello");
  one.terminate();
  two.terminate();
}

function lengthCases(size) {
  return [
    [`text of ${size} octets`, () => comesBack("a".repeat(size), false)],
    [`binary of ${size} octets`, () => comesBack(Buffer.alloc(size, 7), true)],
  ];
}

const CASES = [
  ...[0, 1, 125, 126, 65_535, LIMIT].flatMap(lengthCases),
  ["fragments", fragments],
  ["a ping", ping],
  ["the client closes with 3000", closeOfClient],
  ["the server closes with 4001", closeOfServer],
  [`binary of ${LIMIT + 1} octets: 1009`, tooLong],
  ["another path: 404", () => refused("/nowhere", {}, 404)],
  ["version 8: 426", () => refused("/echo", { protocolVersion: 8 }, 426)],
  ["a room", room],
];

function inTime(run) {
  const late = new Promise((_, reject) => setTimeout(() => reject(new Error("not in time")), CASE_MILLISECONDS).unref());
  return Promise.race([run(), late]);
}

async function main() {
  for (const [name, run] of CASES) {
    try {
      await inTime(run);
      console.log(`passed node: ${name}`);
    } catch (error) {
      process.exitCode = 1;
      console.log(`FAILED node: ${name}: ${error.message.split("\n")[0]}`);
    }
  }
}

main();
