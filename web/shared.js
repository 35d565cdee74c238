// What the page and its decoder share.

const LONGEST_FILE = 1 << 26; // bytes
const TEXT = new TextDecoder(), hex = (byte) => byte.toString(16).padStart(2, "0");

// The bytes of what stands packed in the page.
function unpacked(packed) {
  const bytes = Uint8Array.from(atob(packed), (digit) => digit.charCodeAt(0));
  const unpacking = new Blob([bytes]).stream().pipeThrough(new DecompressionStream("deflate-raw"));
  return new Response(unpacking).arrayBuffer();
}
