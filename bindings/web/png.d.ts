/** A page as the bytes of a PNG file of one bit for each pixel. */
export function pngOf(page: { width: number; height: number; rows: Uint8Array }): Promise<Uint8Array>;
