// What `tsc -p page` is not told otherwise: of a worker, and of browsers that are newer than its library.

declare class FileReaderSync {
  readAsArrayBuffer(part: Blob): ArrayBuffer;
}

interface Array<T> {
  findLast(isWanted: (value: T) => unknown): T | undefined;
}

declare class DecompressionStream {
  constructor(format: string);
  readable: ReadableStream;
  writable: WritableStream;
}
