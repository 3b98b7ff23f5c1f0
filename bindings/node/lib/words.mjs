// The names of index.js that bullmyrtle/lsp has too: all but Connection, which is a server's there.
import all from './index.js'

export const {
  Disposable, Event, Emitter, CancellationToken, CancellationTokenSource, CancellationReceiverStrategy,
  CancellationSenderStrategy, CancellationStrategy, IdCancellationReceiverStrategy,
  RequestCancellationReceiverStrategy, ErrorCodes, ResponseError, ConnectionErrors, ConnectionError, RequestType,
  RequestType1, RequestType0, RequestType2, RequestType3, RequestType4, RequestType5, RequestType6, RequestType7,
  RequestType8, RequestType9, NotificationType, NotificationType1, NotificationType0, NotificationType2,
  NotificationType3, NotificationType4, NotificationType5, NotificationType6, NotificationType7, NotificationType8,
  NotificationType9, ParameterStructures, AbstractMessageSignature, ProgressType, ProgressToken, Message, NullLogger,
  ConnectionOptions, ConnectionStrategy, MessageStrategy, Trace, TraceFormat, TraceValues, SetTraceNotification,
  LogTraceNotification, MessageReader, AbstractMessageReader, ReadableStreamMessageReader, StreamMessageReader,
  SocketMessageReader, IPCMessageReader, PortMessageReader, WebSocketMessageReader, MessageWriter,
  AbstractMessageWriter, WriteableStreamMessageWriter, StreamMessageWriter, SocketMessageWriter, IPCMessageWriter,
  PortMessageWriter, WebSocketMessageWriter, generateRandomPipeName, createClientPipeTransport,
  createServerPipeTransport, createClientSocketTransport, createServerSocketTransport, createMessageConnection, run,
  Refused
} = all
