// Calls the program from JavaScript, by the module: node caller.mjs
import { mencius } from '../module/mencius.mjs';

const scenario = '{"version":1,"servers":1,"events":["submit 0 1.0 set a x","deliver 0 0","deliver 1 0","execute 0"]}';
const { status, printed } = mencius(['replay', '--strict'], Buffer.from(scenario));
console.log(status, Buffer.from(printed).toString().split('\n').at(-2));
