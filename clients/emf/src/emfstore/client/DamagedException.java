package emfstore.client;

/** The file holds no store from a byte on. It reads as it was: take a copy that holds one. */
public final class DamagedException extends EndedException {
    private static final long serialVersionUID = 1;

    private final long at;

    DamagedException(int status, String words, long at) {
        super(status, words, "the store is damaged at byte " + at + "; its file reads as it was", null);
        this.at = at;
    }

    /** The byte, from 0, at which the file stops being a store. */
    public long at() {
        return at;
    }
}
