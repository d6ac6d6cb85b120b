// The script in the address's fragment, so that a link carries it: `#script=`, compressed and in base64 for addresses.

const MARK = "#script=";
const MOST_BYTES = 65536;

type Zip = CompressionStream | DecompressionStream;

/** What a stream makes of bytes, up to a number of them: a short link may stand for very many. */
async function through(bytes: Uint8Array, stream: Zip, most = Infinity): Promise<Uint8Array> {
  const parts: Uint8Array[] = [];
  let length = 0;
  const reader = new Blob([bytes]).stream().pipeThrough(stream).getReader();
  for (;;) {
    const { done, value } = await reader.read();
    if (done) break;
    parts.push(value);
    length += value.length;
    if (length > most) {
      await reader.cancel();
      break;
    }
  }
  return new Uint8Array(await new Blob(parts).arrayBuffer());
}

function toBase64(bytes: Uint8Array): string {
  const text = Array.from(bytes, (byte) => String.fromCharCode(byte)).join("");
  return btoa(text).replace(/\+/g, "-").replace(/\//g, "_").replace(/=/g, "");
}

export function fromBase64(text: string): Uint8Array {
  const plain = atob(text.replace(/-/g, "+").replace(/_/g, "/"));
  return Uint8Array.from(plain, (sign) => sign.charCodeAt(0));
}

export function unzipped(bytes: Uint8Array): Promise<Uint8Array> {
  return through(bytes, new DecompressionStream("gzip"));
}

/** The fragment for a script. */
export async function fragmentOf(script: string): Promise<string> {
  const bytes = new TextEncoder().encode(script);
  return MARK + toBase64(await through(bytes, new CompressionStream("deflate-raw")));
}

/** The script of a fragment, or undefined if it has none. It throws where the fragment is broken. */
export async function scriptIn(fragment: string): Promise<string | undefined> {
  if (fragment === "" || fragment === "#") return undefined;
  if (!fragment.startsWith(MARK)) throw new Error("the link has no script");
  const packed = fromBase64(fragment.slice(MARK.length));
  const bytes = await through(packed, new DecompressionStream("deflate-raw"), MOST_BYTES);
  if (bytes.length > MOST_BYTES) throw new Error("the script of the link is longer than a script may be");
  return new TextDecoder("utf-8", { fatal: true }).decode(bytes);
}
