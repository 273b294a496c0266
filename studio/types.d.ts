/* What browsers have and an older TypeScript doesn't know. */
interface ByteStream extends GenericTransformStream {
  readonly readable: ReadableStream<Uint8Array>;
  readonly writable: WritableStream<Uint8Array>;
}
declare var DecompressionStream: { new (form: "gzip" | "deflate-raw"): ByteStream };
declare var CompressionStream: { new (form: "gzip" | "deflate-raw"): ByteStream };
