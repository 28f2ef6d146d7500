// What browsers have since 2020 and 2023, and TypeScript 4.8 doesn't know.
declare class CompressionStream {
  constructor(format: string);
  readonly readable: ReadableStream<Uint8Array>;
  readonly writable: WritableStream<Uint8Array>;
}
declare class DecompressionStream extends CompressionStream {}
