// The scripts of the decoder for node, as the page has them around its module.
"use strict";
const { webcrypto } = require("crypto"), fs = require("fs"), zlib = require("zlib");
const ROOT = `${__dirname}/../..`;
const NAMES = ["web/shared", "record/js/inputs", "record/js/captures", "record/js/rows",
  "record/js/strace", "web/library", "web/nodes", "web/recording", "web/dumps"];

globalThis.crypto ??= webcrypto;

// What the scripts have under these names.
function decoder(...names) {
  const text = NAMES.map((it) => fs.readFileSync(`${ROOT}/${it}.js`, "utf8")).join("\n");
  return new Function(`"use strict";\n${text}\nreturn { ${names} };`)();
}

// The module that stands packed in a page.
function moduleOf(page) {
  const [, packed] = /const PACKED = "([A-Za-z0-9+/=]+)"/.exec(fs.readFileSync(page, "utf8"));
  return zlib.inflateRawSync(Buffer.from(packed, "base64"));
}

module.exports = { ROOT, decoder, moduleOf };
