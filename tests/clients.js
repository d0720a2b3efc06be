// Asks a relay for what it has, and is told of what comes, by Node's `ws` (Debian's node-ws): `node clients.js PORT`.
//
// It prints each text that the relay sends, a line each, and what else comes. `clients.py` runs it, and puts an event in meanwhile.
"use strict";
const WebSocket = require("ws");

const socket = new WebSocket(`ws://127.0.0.1:${process.argv[2]}/`);
let texts = 0;
const steps = [
    () => socket.send(JSON.stringify(["REQ", "all", {}])),
    // Behind the two events that are there and the end of them comes what another client puts in, by itself.
    null, null, null,
    () => socket.ping("here"),
    () => socket.send(Buffer.from("bytes")),
    () => socket.close(1000),
];

function next() {
    const step = steps[texts++];
    if (step) {
        step();
    }
}

socket.on("open", next);
socket.on("message", (data) => {
    console.log(data.toString());
    next();
});
socket.on("pong", (data) => {
    console.log(`pong ${data}`);
    next();
});
socket.on("close", (code) => console.log(`closed ${code}`));
socket.on("error", (error) => {
    console.log(`error ${error.message}`);
    process.exit(1);
});
