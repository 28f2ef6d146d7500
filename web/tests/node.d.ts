// What the tests use of node. Its own types are in Debian's package of node and in no other.
declare module 'node:fs' {
  export function existsSync(path: URL | string): boolean;
  export function readFileSync(path: URL | string): Uint8Array;
  export function readFileSync(path: URL | string, encoding: 'utf8'): string;
  export function readdirSync(path: URL | string): string[];
  export function realpathSync(path: string): string;
  export function writeFileSync(path: URL | string, data: string | Uint8Array): void;
}
declare module 'node:zlib' {
  export function gunzipSync(data: Uint8Array): Uint8Array;
}
declare module 'node:path' {
  export function dirname(path: string): string;
  export function join(...parts: string[]): string;
}
declare module 'node:child_process' {
  export function execFileSync(file: string, words: string[], options: { encoding: 'utf8' }): string;
}
declare module 'node:module' {
  export function createRequire(from: string): (name: string) => any;
}
declare const Buffer: { from(text: string, encoding: 'base64'): Uint8Array };
declare const process: {
  argv: string[];
  env: Record<string, string | undefined>;
  exit(status: number): never;
  stdout: { write(text: string): void };
};
