package pipitscreen.slh;

/** A call was refused. It is the cause of the exceptions that this provider throws. */
public final class Refusal extends RuntimeException {
    private static final long serialVersionUID = 1L;

    static final int CONTEXT_TOO_LONG = 2;
    static final int BAD_LENGTH = 3;
    static final int NOT_A_KEY_FILE = 11;

    /** The number of the refusal, as 2. */
    private final int number;
    /** Its name, as "ContextTooLong". */
    private final String name;

    Refusal(int number) {
        this(number, Library.refusalText(number));
    }

    Refusal(int number, String why) {
        super(number + " " + nameOf(number) + ": " + why);
        this.number = number;
        this.name = nameOf(number);
    }

    private static String nameOf(int number) {
        String found = Library.refusalName(number);
        return found == null ? "NoSuchRefusal" : found;
    }

    /**
     * The number, as docs/FORMATS.md of the repository lists it.
     *
     * @return the number
     */
    public int number() {
        return number;
    }

    /**
     * The name, as docs/FORMATS.md of the repository lists it.
     *
     * @return the name
     */
    public String name() {
        return name;
    }
}
