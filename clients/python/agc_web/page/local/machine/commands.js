// What the page can have done and seen: the commands and checks that agc-web's server has.
import { KEYS } from './keyboard.js';
import { Fault } from './faults.js';

// Returns an item of a body, which has to be of this type.
function item(body, name, type) {
  const value = body[name];
  if (typeof value !== type) throw new Fault(`${name} is missing, or of another type`);
  return value;
}

// A key's name; PRO has a command of its own, since it is held.
function namedKey(name) {
  if (!KEYS.includes(name)) throw new Fault(`no key: '${name.slice(0, 20)}'`);
  return name;
}

const COMMANDS = {
  key: (machine, body) => machine.press(namedKey(item(body, 'name', 'string'))),
  pro: (machine, body) => machine.press(item(body, 'down', 'boolean') ? 'PRO' : 'PRO up'),
  play: (machine) => machine.play(),
  pause: (machine) => machine.pause(),
  speed: (machine, body) => machine.setSpeed(item(body, 'times', 'number')),
  step: (machine) => machine.step(),
  over: (machine, body) => machine.stepByCall(withJob('over', body)),
  finish: (machine, body) => machine.stepByCall(withJob('finish', body)),
  go: (machine, body) => machine.goThere(whole(item(body, 'cycle', 'number')), body.sure === true),
  back: (machine, body) => machine.goBackToChange(body.sure === true),
  undo: (machine, body) => machine.undo(body.sure === true),
  break: (machine, body) => machine.addBreakpoint(item(body, 'place', 'string')),
  unbreak: (machine, body) => machine.removeBreakpoint(item(body, 'place', 'string')),
  ignore: (machine, body) => machine.ignoreHits(item(body, 'place', 'string'), item(body, 'hits', 'number')),
  control: (machine, body) => machine.control(
    item(body, 'instrument', 'number'), item(body, 'name', 'string'), item(body, 'down', 'boolean'),
  ),
};

// A step by calls, in the present job alone if the body names the cell that tells jobs apart.
const withJob = (way, { job }) => (job ? `${way} job ${job}` : way);

function whole(number) {
  if (!Number.isSafeInteger(number)) throw new Fault('cycle is a whole number');
  return number;
}

// Has a command done.
export function doCommand(machine, body) {
  if (!Object.hasOwn(COMMANDS, body.do)) throw new Fault('there is no such command');
  return COMMANDS[body.do](machine, body);
}
