// What browsers have and the library of Debian's tsc (4.8) does not name; of workers, what the page's workers use.

interface FileSystemReadWriteOptions {
  at?: number;
}

interface FileSystemSyncAccessHandle {
  close(): void;
  flush(): void;
  getSize(): number;
  read(buffer: ArrayBuffer | ArrayBufferView, options?: FileSystemReadWriteOptions): number;
  truncate(newSize: number): void;
  write(buffer: ArrayBuffer | ArrayBufferView, options?: FileSystemReadWriteOptions): number;
}

interface FileSystemFileHandle {
  createSyncAccessHandle(): Promise<FileSystemSyncAccessHandle>;
}

interface FileSystemDirectoryHandle {
  keys(): AsyncIterableIterator<string>;
  entries(): AsyncIterableIterator<[string, FileSystemHandle]>;
}

interface CompressionStream {
  readonly readable: ReadableStream<Uint8Array>;
  readonly writable: WritableStream<BufferSource>;
}
declare var CompressionStream: { prototype: CompressionStream; new(format: string): CompressionStream };

interface DecompressionStream {
  readonly readable: ReadableStream<Uint8Array>;
  readonly writable: WritableStream<BufferSource>;
}
declare var DecompressionStream: { prototype: DecompressionStream; new(format: string): DecompressionStream };

interface ExtendableEvent extends Event {
  waitUntil(done: Promise<unknown>): void;
}

interface FetchEvent extends ExtendableEvent {
  readonly request: Request;
  respondWith(answer: Promise<Response> | Response): void;
}

interface WindowEventMap {
  install: ExtendableEvent;
  activate: ExtendableEvent;
  fetch: FetchEvent;
}
declare var registration: ServiceWorkerRegistration;
declare var clients: { claim(): Promise<void> };
declare function importScripts(...names: string[]): void;

declare class OffscreenCanvas extends EventTarget {
  constructor(width: number, height: number);
  readonly width: number;
  readonly height: number;
  getContext(kind: '2d'): CanvasRenderingContext2D | null;
  convertToBlob(options: { type: string }): Promise<Blob>;
}
