// @ts-check
// Calls that the recorder kept, made again by the program for browsers.

/**
 * A call that was kept, and what the native program did.
 * @param {Uint8Array} bytes
 */
export function callOf(bytes) {
  const [view, coder] = [new DataView(bytes.buffer, bytes.byteOffset), new TextDecoder('utf-8', { ignoreBOM: true })];
  let at = 0;
  const number = () => view.getUint32((at += 4) - 4, true);
  const text = () => {
    const count = number();
    return bytes.subarray(at, (at += count));
  };
  const words = Array.from({ length: number() }, () => coder.decode(text()));
  const files = new Map(Array.from({ length: number() }, () => [coder.decode(text()), text()]));
  return { words, files, status: number(), out: text(), err: text() };
}

/**
 * @param {Uint8Array} one
 * @param {Uint8Array} other
 */
const isSame = (one, other) => one.length === other.length && one.every((byte, at) => byte === other[at]);

/**
 * How a call differs from the native one; nothing where it doesn't.
 * @param {any} basin
 * @param {Uint8Array} bytes
 */
export function difference(basin, bytes) {
  const { words, files, status, out, err } = callOf(bytes);
  try {
    const answer = basin.run(words, files);
    const same = answer.status === status && isSame(answer.out, out) && isSame(answer.err, err);
    return same ? '' : `${words.join(' ')}: ${answer.status} ${new TextDecoder().decode(answer.err)}, natively ${status} ${new TextDecoder().decode(err)}`;
  } catch (error) {
    return `${words.join(' ')}: ${error}`;
  }
}
