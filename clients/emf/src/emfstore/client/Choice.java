package emfstore.client;

/** Which side of a conflict is kept. */
public enum Choice {
    MINE('m'), THEIRS('t');

    private final char letter;

    Choice(char letter) {
        this.letter = letter;
    }

    /** The letter that the program reads. */
    char letter() {
        return letter;
    }
}
