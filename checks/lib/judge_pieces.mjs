// Judges logs in pieces by the module. checks/lib/pieces.py starts it, and says what it reads and prints.
import { createInterface } from 'node:readline';
import { Judge, mencius } from '../../module/mencius.mjs';

const coded = data => Buffer.from(data).toString('base64');
const text = ({ status, printed, said }) => [status, coded(printed), coded(said)];
const same = (a, b) => JSON.stringify(text(a)) === JSON.stringify(text(b));

function judgePieces(log, [brief, json], sizes) {
  const words = ['judge', ...(brief ? ['--brief'] : []), ...(json ? ['--json'] : [])];
  const judge = new Judge({ brief, json });
  let [at, middle, final] = [0, null, null];
  for (const size of sizes) {
    if (!same(judge.verdict(), mencius(words, log.subarray(0, at)))) middle = at;
    final = judge.take(log.subarray(at, at + size));
    at += size;
    if (final) break;
  }
  const stays = !final || (same(judge.take(Buffer.from('x\n')), final) && same(judge.verdict(), final));
  return [final ? at : null, ...text(final ?? judge.verdict()), middle, stays];
}

for await (const line of createInterface({ input: process.stdin })) {
  const [log, options, partitions] = JSON.parse(line);
  const found = partitions.map(sizes => judgePieces(Buffer.from(log, 'base64'), options, sizes));
  process.stdout.write(JSON.stringify(found) + '\n');
}
