// A link that carries the source and what is chosen, in its fragment.

/** A link with a longer source is not read: a few bytes can be the packed form of very many. */
const LONGEST = 8_000_000;

const PACKED = 'deflate-raw';

/** The fragment of a link to a page with `text`, and with the choices `chosen` by their names. */
export async function fragmentOf(text, chosen) {
  const stream = new Blob([text]).stream().pipeThrough(new CompressionStream(PACKED));
  const bytes = new Uint8Array(await new Response(stream).arrayBuffer());
  const parts = new URLSearchParams(chosen);
  parts.set('text', letters(bytes));
  return `#${parts}`;
}

/** What a fragment has: `{ text, chosen }`; without a text that can be read `text` is null. */
export async function readFragment(fragment) {
  const parts = new URLSearchParams(fragment.replace(/^#/, ''));
  const packed = parts.get('text');
  parts.delete('text');
  let text = null;
  if (packed !== null) text = await unpacked(packed).catch(() => null);
  return { text, chosen: Object.fromEntries(parts) };
}

async function unpacked(packed) {
  const stream = new Blob([bytesOf(packed)]).stream().pipeThrough(new DecompressionStream(PACKED));
  const chunks = [];
  let size = 0;
  for (const reader = stream.getReader(); ;) {
    const { done, value } = await reader.read();
    if (done) break;
    size += value.length;
    if (size > LONGEST) throw new RangeError('the text of the link is too long');
    chunks.push(value);
  }
  return new Blob(chunks).text();
}

/** Bytes in the letters of base64 for URLs. */
function letters(bytes) {
  let binary = '';
  for (let at = 0; at < bytes.length; at += 0x8000) {
    binary += String.fromCharCode(...bytes.subarray(at, at + 0x8000));
  }
  return btoa(binary).replaceAll('+', '-').replaceAll('/', '_').replace(/=+$/, '');
}

function bytesOf(text) {
  const binary = atob(text.replaceAll('-', '+').replaceAll('_', '/'));
  return Uint8Array.from(binary, (letter) => letter.charCodeAt(0));
}
