// linear.js: the page's readers take time that grows as their input does, of texts on which a
// search that begins again at each character, or at each call, takes a hundred times as long for
// ten times the characters. The status is 1 where one doesn't.
"use strict";
const { decoder } = require("./scripts.js");

const { foundIn } = decoder("foundIn");
// What is asked for: at most 11 times the work of a text of a tenth, where a run that has other
// work beside it, or cleans memory up, is let have three times as long; and seconds.
const MOST_TIMES = 3 * 11, LEAST = 0.02, MOST = 2, TRIES = 3;
const calls = (count) => Array.from({ length: count }, (_, it) => `${it} recv(<unfinished ...>\n`);
// A text of about so many characters.
const TEXTS = {
  "blanks in the text beside a row": (size) => `0000: 00  a${" ".repeat(size)}b`,
  "blanks in the text of a trace": (size) => (
    `recv(3<NETLINK:[ROUTE]>, "", 1, 0) = 1\n | 0  00${" ".repeat(48)}a${" ".repeat(size)}b |`),
  "carriage returns without a newline": (size) => `${"\r".repeat(size)}0`,
  "carriage returns in a file": (size) => new Uint8Array(size).fill(13),
  "carriage returns within lines": (size) => `${"\r".repeat(size / 4)}0\n`.repeat(4),
  "calls that are begun, and others resumed": (size) => (
    calls(size / 50).join("") + "0 <... read resumed>\n".repeat(size / 50)),
  "calls that are begun, and resumed by no process": (size) => (
    calls(size / 50).join("") + "<... recv resumed>\n".repeat(size / 50)),
};
const SIZES = { calls: 100000, blanks: 20000, carriage: 20000 };

// The seconds of the processor that a text takes: the least of a few tries, of which the first
// that is in time is the last.
function secondsOf(text, limit) {
  let least = Infinity;
  for (let tries = 0; tries < TRIES && least > limit; tries++) {
    const begun = process.cpuUsage();
    foundIn(text, false);
    least = Math.min(least, process.cpuUsage(begun).user / 1e6);
  }
  return least;
}

for (const [name, textOf] of Object.entries(TEXTS)) {
  const size = SIZES[name.split(" ", 1)], [short, long] = [size, 10 * size].map(textOf);
  const one = secondsOf(short, LEAST), most = Math.min(MOST, MOST_TIMES * Math.max(one, LEAST));
  const ten = secondsOf(long, most);
  if (ten > most) {
    console.log(`${name}: ${one} s for ${short.length}, ${ten} s for ${long.length}`);
    process.exitCode = 1;
  }
}
