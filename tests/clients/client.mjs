// Posts by Node's built-in http, with an agent that keeps connections, and by fetch: in JSON, and in protobuf from files.
//
//     node client.mjs PORT FOLDER SECONDS_BETWEEN_POSTS
//
// Each way has a series and a sender of its own, node.http.json and so on, and posts one point after another until there is
// a file FOLDER/stop. A post is repeated until it is taken, after as many seconds as Retry-After says. FOLDER/SERIES has how
// many posts were taken, what they add up to, how many were repeated, and on how many connections they went, 0 where this
// is not known; FOLDER/SERIES.surprise, where it is there, an answer that must not be. The bodies in protobuf
// are FOLDER/bodies/SERIES.N, of the values 1, 2, .. 9, 1, ..
import fs from "node:fs";
import http from "node:http";

const [port, folder, pause] = process.argv.slice(2);
const url = `http://127.0.0.1:${port}/v1/metrics`;
const AGAIN = [429, 502, 503, 504];
const KINDS = { json: "application/json", protobuf: "application/x-protobuf" };

const sleep = (seconds) => new Promise((done) => setTimeout(done, seconds * 1000));

function json(series, place, value) {
  const start = 1000 + place * 10;
  const point = { startTimeUnixNano: `${start}`, timeUnixNano: `${start + 10}`, asInt: value };
  const sum = { aggregationTemporality: 1, isMonotonic: true, dataPoints: [point] };
  return Buffer.from(JSON.stringify({ resourceMetrics: [{ scopeMetrics: [{ metrics: [{ name: series, sum }] }] }] }));
}

const agent = new http.Agent({ keepAlive: true, maxSockets: 1 });

/// By http: the status, Retry-After, the body, and the connection's own port.
function byHttp(headers, body) {
  return new Promise((done, failed) => {
    const request = http.request(url, { method: "POST", agent, headers }, (answer) => {
      const place = request.socket.localPort;
      const parts = [];
      answer.on("data", (part) => parts.push(part));
      answer.on("error", failed);
      answer.on("end", () => done([answer.statusCode, answer.headers["retry-after"], Buffer.concat(parts), place]));
    });
    request.on("error", failed);
    request.end(body);
  });
}

async function byFetch(headers, body) {
  const answer = await fetch(url, { method: "POST", headers, body });
  return [answer.status, answer.headers.get("retry-after"), Buffer.from(await answer.arrayBuffer()), 0];
}

async function run(series, post, kind) {
  const headers = { "Content-Type": KINDS[kind], "x-sender": series };
  const whole = kind === "json" ? "{}" : "";
  const places = new Set();
  let [taken, sum, repeats] = [0, 0, 0];
  while (!fs.existsSync(`${folder}/stop`)) {
    const value = 1 + (taken % 9);
    const ready = `${folder}/bodies/${series}.${taken}`;
    if (kind === "protobuf" && !fs.existsSync(ready)) return;
    const body = kind === "json" ? json(series, taken, value) : fs.readFileSync(ready);
    let answer;
    try {
      answer = await post(headers, body);
    } catch (error) {
      answer = [503, null, `${error}`, 0]; // no answer came: it is repeated too
    }
    const [status, after, text, place] = answer;
    if (AGAIN.includes(status)) {
      repeats += 1;
      await sleep(Number(after ?? 0.2));
      continue;
    }
    if (status !== 200 || text.toString() !== whole) {
      fs.writeFileSync(`${folder}/${series}.surprise`, `${status} ${text}`);
      return;
    }
    if (place) places.add(place);
    taken += 1;
    sum += value;
    fs.writeFileSync(`${folder}/${series}`, `${taken} ${sum} ${repeats} ${places.size}`);
    await sleep(Number(pause));
  }
}

await Promise.all(
  Object.keys(KINDS).flatMap((kind) => [
    run(`node.http.${kind}`, byHttp, kind),
    run(`node.fetch.${kind}`, byFetch, kind),
  ]),
);
agent.destroy();
process.exit(0); // fetch keeps its connections for some seconds
