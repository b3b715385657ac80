const isShared = (buffer) => Object.prototype.toString.call(buffer) === "[object SharedArrayBuffer]";

/**
 * The bytes of an ArrayBuffer or of any view of one, copied only where other threads share them. Other values, as
 * texts, are no bytes.
 */
export function bytesOf(source) {
  const isView = ArrayBuffer.isView(source);
  const buffer = isView ? source.buffer : source;
  if (!isShared(buffer) && Object.prototype.toString.call(buffer) !== "[object ArrayBuffer]") {
    throw new TypeError("the bytes have to be a Uint8Array, another view of an ArrayBuffer, or an ArrayBuffer");
  }
  const bytes = isView ? new Uint8Array(buffer, source.byteOffset, source.byteLength) : new Uint8Array(buffer);
  return isShared(buffer) ? bytes.slice() : bytes;
}
