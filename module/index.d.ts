/** The result of a call. Both texts are copies, so you may keep and change them. */
export interface Answer {
  /** The exit status: 0 is success, and `mencius help TASK` lists the others. */
  status: number;
  /** Whether the call read its input. It is false in a verdict of a `Judge`. */
  asked: boolean;
  /** The bytes that the program writes to standard output, in UTF-8. */
  printed: Uint8Array;
  /** The bytes that the program writes to standard error, in UTF-8. */
  said: Uint8Array;
}

/**
 * Calls the program `mencius`.
 *
 * @example
 * const scenario = '{"version":1,"servers":1,"events":[]}';
 * const { status, printed } = mencius(['replay'], new TextEncoder().encode(scenario));
 * console.log(status, new TextDecoder().decode(printed));
 *
 * @param args the words of the command line, such as `['replay', '--strict']`
 * @param input the bytes of standard input; the default is no bytes
 * @throws TypeError if `args` is not an array of strings and bytes, or if `input` is not bytes
 */
export function mencius(args: readonly (string | Uint8Array)[], input?: Uint8Array): Answer;

/**
 * Returns what each server knows after a scenario of `replay`, in the format of docs/EMBEDDING.md, "What servers know".
 *
 * @param input the bytes of the scenario
 * @throws TypeError if `input` is not bytes
 */
export function state(input: Uint8Array): Answer;

/** The options of a judge. */
export interface JudgeOptions {
  /** Whether the text of a verdict has only the line of the verdict. */
  brief?: boolean;
  /** Whether the text of a verdict is one JSON object. */
  json?: boolean;
}

/**
 * A judge that takes a log in pieces. A piece may end within a line. The judge keeps no line after its end.
 *
 * @example
 * const judge = new Judge({ json: true });
 * const broken = judge.take(new TextEncoder().encode('execute 0 1.0\n'));
 * console.log(broken, judge.verdict().status);
 */
export class Judge {
  /** @throws TypeError if an option is neither true nor false */
  constructor(options?: JudgeOptions);

  /**
   * Takes the next bytes of the log. Returns the verdict if a line breaks a promise or is bad, and `null` otherwise.
   * After a verdict, the judge takes nothing more, and returns the same verdict again.
   *
   * @throws TypeError if `bytes` is not bytes
   */
  take(bytes: Uint8Array): Answer | null;

  /** Returns the verdict on the log if it ends here. The judge may take more bytes after that. */
  verdict(): Answer;
}
