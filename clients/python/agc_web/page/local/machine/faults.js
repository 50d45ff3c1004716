// What can go wrong with a command of the page, and the status of its answer, as of agc-web's server.

export class Fault extends Error {
  constructor(text, status = 400) {
    super(text);
    this.status = status;
  }
}

// The console has answered a command by an error: "NotHit: no boundary before now hits it", or "memory". The fault's name stands
// apart.
export class Refused extends Fault {
  constructor(reason) {
    const [, fault, sentence] = reason.match(/^(\w+): (.*)$/) ?? [];
    super(!fault ? `out of ${reason}` : fault === 'Usage' ? `usage: ${sentence}` : sentence);
    this.fault = fault ?? reason;
  }
}

// The machine cannot do that now.
export class Unable extends Fault {
  constructor(text) {
    super(text, 409);
  }
}

// The console has ended, or never began.
export class Ended extends Fault {
  constructor(text) {
    super(text, 409);
  }
}

// Going back would drop events: the user has to consent.
export class Sure extends Fault {
  constructor(count) {
    super(`this drops ${count} ${count === 1 ? 'event' : 'events'} given since`, 409);
    this.sure = count;
  }
}
