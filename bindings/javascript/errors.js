/** A call was refused: `number` and `name` are libslh's, as 2 and "ContextTooLong". Lengths are in the message. */
export class Refusal extends Error {
    constructor(number, name, detail) {
        super(detail === undefined ? `${number} ${name}` : `${number} ${name}: ${detail}`);
        this.number = number;
        this.name = name;
    }
}

/** A secret key was used after `erase`. */
export class Erased extends Error {
    constructor() {
        super("the secret key was erased");
        this.name = "Erased";
    }
}

/** A wrong signature or a wrong new key was found, which is not given. */
export class Fault extends Error {
    constructor(message) {
        super(message);
        this.name = "Fault";
    }
}

/** An answer of the self-test is not the known one: the module may not be used. */
export class SelfTestFailed extends Error {
    constructor() {
        super("40 SelfTestFailed: an answer of the self-test is not the known one");
        this.name = "SelfTestFailed";
    }
}

/** The module ended a call early. `cause` is the engine's error. The next call takes a new instance. */
export class Trap extends Error {
    constructor(cause) {
        super(`the module trapped (${cause.message}): the next call takes a new instance`, { cause });
        this.name = "Trap";
    }
}
