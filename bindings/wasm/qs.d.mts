/** The words that have a call. */
export const WORDS: readonly string[];

/** Whether this engine has memories of 64-bit addresses. */
export function isSupported(): boolean;

/** The executor from the bytes of `qs.wasm`, or from a module that was compiled before. */
export function load(source: BufferSource | WebAssembly.Module): Promise<Executor>;

export interface Executor {
  /** What `qs WORD WORDS..` writes for a script, as text, and its status. */
  ask(word: string, script: string | Uint8Array, ...words: string[]): { text: string; status: number };
  /** The same, with the bytes of the text. */
  askBytes(word: string, script: string | Uint8Array, ...words: string[]): { bytes: Uint8Array; status: number };
  /** How many bytes of memory there are, and how many of them are taken. */
  memory(): { all: number; taken: number };
}
